#!/bin/sh
# Times how long `audit` takes over journals of 10,000 pages, or of as many as the first word says, whose visits cost about
# 10,000 each: once where each page answers the first of its instance, and once where each of ten answers the one before. Beside
# it how long `serve` takes from its start until it listens over the same journal, and how long the visits take in `play` with
# the journal in memory. An audit runs the script from its start for each page, over all answers that led to it. It looks too
# whether each audit says that all records are those of visits, tells this on the standard error, and leaves the files as they
# are. The journals are in this folder, or in the one that a second word names. The best of three each. No part of the gate.
# Needs a date that knows %N.

here=$(CDPATH='' cd -- "$(dirname -- "$0")/.." && pwd) || exit 1
program=$here/crates/script_server/out/script_server
count=${1:-10000}
work=$(mktemp -d "${2:-$here}/hovgyelit-audit.XXXXXX") || exit 1
server=
trap '[ -z "$server" ] || kill "$server" 2>/dev/null; rm -rf "$work"' EXIT
trap 'exit 1' HUP INT TERM

fail() {
    echo "$1" >&2
    exit 1
}

milliseconds() {
    echo $(($(date +%s%N) / 1000000))
}

less() {
    [ "$1" -lt "$2" ] && echo "$1" || echo "$2"
}

# A script whose answers run a loop before they show a page.
script='(begin
  (send/suspend (lambda (u) `(a ((href ,u)) "begin")))
  (for/list ((j 1000))
    (begin
      (for/list ((i 1000)) (string-append "row " (number->string i)))
      (send/suspend (lambda (u) `(a ((href ,u)) "rows"))))))'

setup() {
    printf 'script rows %d\n%s\n' "$(printf '%s' "$script" | wc -c)" "$script"
}

# Steps that each show a page: one of so many starts an instance, and the others answer its first page, or the one before.
steps() {
    setup
    echo steps
    awk -v steps="$count" -v each="$1" -v by="$2" '
        BEGIN {
            for (j = 0; j < steps; j++) {
                first = j - j % each
                page = by == "first" ? first : j - 1
                if (j == first) printf "get %d /servlets/rows\n", j % 16
                else printf "get %d /servlets/rows;0*%d*%d*%016x\n", j % 16, first, page, page
            }
        }'
}

# Plays the steps, with the journal in this folder, or in memory where it is `-`; and the milliseconds that it took.
played() {
    rm -rf "$work/journal"
    before=$(milliseconds)
    "$program" play --instances 4096 --pages 1024 --journal "$1" <"$work/steps" >"$work/replies" 2>"$work/told" || fail "play ended badly"
    took=$(($(milliseconds) - before))
    grep -q -v '^[0-9]* 200\|^<\|^$' "$work/replies" && fail "a visit was refused: $(grep -m 1 -v '^[0-9]* 200\|^<\|^$' "$work/replies")"
}

# The milliseconds that a start takes until it listens, over the journal that was played.
opened() {
    before=$(milliseconds)
    "$program" serve --port 0 --instances 4096 --pages 1024 --journal "$work/journal" <"$work/setup" >/dev/null 2>"$work/told" &
    server=$!
    until grep -q listening "$work/told" 2>/dev/null; do
        kill -0 "$server" 2>/dev/null || fail "it does not listen: $(cat "$work/told")"
        sleep 0.005
    done
    took=$(($(milliseconds) - before))
    kill "$server"
    wait "$server" 2>/dev/null
    server=
}

# Those that an audit of it takes. The first record is that of the scripts.
audited() {
    cat "$work"/journal/* | cksum >"$work/was"
    before=$(milliseconds)
    "$program" audit --journal "$work/journal" --shelves 1 </dev/null >"$work/said" 2>"$work/told" ||
        fail "an audit ended with $?: $(cat "$work/said")"
    took=$(($(milliseconds) - before))
    [ "$(cat "$work/said")" = "shelf 0 ok $((count + 1))" ] || fail "an audit says $(cat "$work/said")"
    grep -q "shelf-0: $((count + 1)) records, of $count pages and .* instances, audited in " "$work/told" || fail "an audit tells $(cat "$work/told")"
    cat "$work"/journal/* | cksum | cmp -s - "$work/was" || fail "an audit changed the files"
}

# One journal: how many pages an instance has, which page each answers, and in words.
timed() {
    steps "$1" "$2" >"$work/steps"
    visits=1000000000 start=1000000000 audit=1000000000
    for turn in 1 2 3; do
        played -
        visits=$(less "$took" "$visits")
    done
    played "$work/journal"
    for turn in 1 2 3; do
        audited
        audit=$(less "$took" "$audit")
        opened
        start=$(less "$took" "$start")
    done
    echo "$count pages, $3: audited in $audit ms, opened in $start ms ($(wc -c <"$work/journal/shelf-0") bytes); the visits took $visits ms in memory"
}

"$here/hovgyelit" check -- "$here/examples/sum.scm" >/dev/null || exit 1
setup >"$work/setup"
timed 1000 first "each after the first of its instance"
timed 10 before "ten in a row"
