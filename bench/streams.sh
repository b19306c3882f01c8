#!/bin/sh
# Runs the program over streams that end early or fail, and with a word that is no text, and looks at the status and the
# line of each. No part of the gate. It needs /dev/full, as Linux has it.

here=$(CDPATH='' cd -- "$(dirname -- "$0")/.." && pwd) || exit 1
program=${HOVGYELIT_PROGRAM:-$here/crates/script_server/out/script_server}
work=$(mktemp -d "${TMPDIR:-/tmp}/hovgyelit-streams.XXXXXX") || exit 1
trap 'rm -rf "$work"' EXIT
trap 'exit 1' HUP INT TERM

fail() {
    echo "$1" >&2
    exit 1
}

# What a run came to: its name, the status, the output's last line or a part of it, and the two that are wanted.
look() {
    [ "$2" = "$4" ] || fail "$1: status $2 in place of $4"
    case $3 in
    *"$5"*) echo "$1: status $2, '$3'" ;;
    *) fail "$1: '$3' in place of '$5'" ;;
    esac
}

[ -n "$HOVGYELIT_PROGRAM" ] || "$here/hovgyelit" check -- "$here/examples/shop.scm" >/dev/null || exit 1
{
    printf 'script shop %d\n' "$(wc -c <"$here/examples/shop.scm")"
    cat "$here/examples/shop.scm"
    echo
} >"$work/setup"
{
    cat "$work/setup"
    echo steps
    yes 'get 0 /servlets/shop' | head -n 20000
} >"$work/play"

# A reader that takes one line and goes: the program ends, and says that its output failed.
{
    "$program" play <"$work/play" 2>/dev/null
    echo $? >"$work/status"
} | head -n 1 >"$work/first"
look "play | head -n 1" "$(cat "$work/status")" "$(cat "$work/first")" 6 200

"$program" play <"$work/play" >/dev/full 2>/dev/null
look "play >/dev/full" $? "" 6 ""

"$program" check <"$work/setup" >/dev/full 2>/dev/null
look "check >/dev/full" $? "" 6 ""

"$program" play <"$work" >"$work/out" 2>/dev/null
look "play of a folder" $? "$(cat "$work/out")" 5 "error 5 read"

"$program" play </dev/null >"$work/out" 2>/dev/null
look "play of nothing" $? "$(cat "$work/out")" 3 "error 3"

# A feed that nobody reads on, and acknowledgments that nobody takes: what was held stays, and the next time all of it is.
{
    cat "$work/setup"
    echo steps
    yes 'get 0 /servlets/shop' | head -n 2000
} >"$work/small"
"$program" play --instances 4096 --journal "$work/leader" <"$work/small" >/dev/null 2>&1
{
    "$program" export --journal "$work/leader" 2>/dev/null
    echo $? >"$work/status"
} | head -c 1000 >"$work/first"
look "export | head -c 1000" "$(cat "$work/status")" "$(head -c 6 "$work/first")" 6 KSFEED

"$program" follow --journal "$work/follower" <"$work/first" >"$work/out" 2>/dev/null
look "follow of 1,000 bytes" $? "$(tail -n 1 "$work/out")" 13 " cut"

"$program" export --journal "$work/leader" >"$work/feed" 2>/dev/null
"$program" follow --journal "$work/follower" <"$work/feed" >/dev/full 2>/dev/null
look "follow >/dev/full" $? "" 6 ""

"$program" follow --journal "$work/follower" <"$work/feed" >"$work/out" 2>/dev/null
look "follow once more" $? "$(tail -n 1 "$work/out")" 0 "ack 2001"

"$program" follow --journal "$work/follower" <"$work" >"$work/out" 2>/dev/null
look "follow of a folder" $? "$(cat "$work/out")" 5 "error 5 read"

# A word of bytes that are no text stands for no words at all.
"$program" "$(printf 'check\377')" <"$work/setup" >"$work/out" 2>/dev/null
look "a word that is no text" $? "$(cat "$work/out")" 2 "error 2 usage"
"$program" check --journal "$(printf '\377')" <"$work/setup" >"$work/out" 2>/dev/null
look "an option's value that is none" $? "$(cat "$work/out")" 2 "error 2 usage"
