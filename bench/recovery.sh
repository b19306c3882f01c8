#!/bin/sh
# Times how long `serve` takes from its start until it listens, over journals of 10,000 and of 20,000 pages whose visits cost
# about 10,000 each, and beside it how long the same visits take in `play` with the journal in memory. A start runs no script:
# where its time grows with the journal alone, the second start takes twice the first, and each a small part of the visits.
#
# A word names another build of the program, as one of format 1, whose starts run each visit's script again: the same is then
# timed of that, over journals of its own. The journals are in this folder, or in the one that a second word names. The best
# of three each. No part of the gate. Needs a date that knows %N.

here=$(CDPATH='' cd -- "$(dirname -- "$0")/.." && pwd) || exit 1
work=$(mktemp -d "${2:-$here}/hovgyelit-recovery.XXXXXX") || exit 1
server=
trap '[ -z "$server" ] || kill "$server" 2>/dev/null; rm -rf "$work"' EXIT
trap 'exit 1' HUP INT TERM

fail() {
    echo "$1" >&2
    exit 1
}

milliseconds() {
    echo $(($(date +%s%N) / 1000000))
}

less() {
    [ "$1" -lt "$2" ] && echo "$1" || echo "$2"
}

# A script whose answers run a loop before they show a page. What is kept of a page is one frame.
script='(begin
  (send/suspend (lambda (u) `(a ((href ,u)) "begin")))
  (for/list ((i 1000)) (string-append "row " (number->string i)))
  (send/suspend (lambda (u) `(a ((href ,u)) "rows")))
  (quote (p "end")))'

setup() {
    printf 'script rows %d\n%s\n' "$(printf '%s' "$script" | wc -c)" "$script"
}

# Steps that each show a page: one of each thousand starts an instance, and all others answer its first page.
steps() {
    setup
    echo steps
    awk -v steps="$1" '
        BEGIN {
            for (j = 0; j < steps; j++) {
                first = j - j % 1000
                if (j == first) printf "get %d /servlets/rows\n", j % 16
                else printf "get %d /servlets/rows;0*%d*%d*%016x\n", j % 16, first, first, first
            }
        }'
}

# The milliseconds that a program takes for the steps, with the journal in this folder, or in memory where it is `-`.
played() {
    rm -rf "$work/journal"
    before=$(milliseconds)
    "$1" play --pages 1024 --journal "$2" <"$work/steps" >"$work/replies" 2>"$work/told" || fail "play ended badly"
    took=$(($(milliseconds) - before))
    grep -q -v '^[0-9]* 200\|^<\|^$' "$work/replies" && fail "a visit was refused: $(grep -m 1 -v '^[0-9]* 200\|^<\|^$' "$work/replies")"
    echo "$took"
}

# Those that its start takes until it listens, over the journal that was played.
opened() {
    before=$(milliseconds)
    "$1" serve --port 0 --pages 1024 --journal "$work/journal" <"$work/setup" >/dev/null 2>"$work/told" &
    server=$!
    until grep -q listening "$work/told" 2>/dev/null; do
        kill -0 "$server" 2>/dev/null || fail "it does not listen: $(cat "$work/told")"
        sleep 0.005
    done
    took=$(($(milliseconds) - before))
    kill "$server"
    wait "$server" 2>/dev/null
    server=
}

timed() {
    for count in 10000 20000; do
        steps "$count" >"$work/steps"
        visits=1000000000 start=1000000000
        for turn in 1 2 3; do
            visits=$(less "$(played "$2" -)" "$visits")
        done
        played "$2" "$work/journal" >/dev/null
        for turn in 1 2 3; do
            opened "$2"
            start=$(less "$took" "$start")
        done
        echo "$1: opened $count pages in $start ms ($(wc -c <"$work/journal/shelf-0") bytes); the visits took $visits ms in memory"
    done
}

"$here/hovgyelit" check -- "$here/examples/sum.scm" >/dev/null || exit 1
setup >"$work/setup"
timed "this program" "$here/crates/script_server/out/script_server"
[ -z "$1" ] || timed "the other one" "$1"
