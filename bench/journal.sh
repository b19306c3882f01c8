#!/bin/sh
# Times the journal on this folder's disk, or in the folder that the first word names. First how many visits a second there
# are in `play --journal` over 5,000 steps that each leave a record, and how many publishes: these are timed without what the
# same steps take in memory. Beside both, a bare loop of write, sync, write, sync of as many bytes a round (sync_loop.c, by
# `cc -O2`); the best of five runs of each, in turn. Then how long `serve` takes from its start until it listens, over journals
# of 10,000 and of 20,000 records, and how many bytes a record has; and last what a compaction takes (compacted.py). No part
# of the gate. Needs cc, python3, and a date that knows %N.

here=$(CDPATH='' cd -- "$(dirname -- "$0")/.." && pwd) || exit 1
program=$here/crates/script_server/out/script_server
work=$(mktemp -d "${1:-$here}/hovgyelit-journal.XXXXXX") || exit 1
server=
trap '[ -z "$server" ] || kill "$server" 2>/dev/null; rm -rf "$work"' EXIT
trap 'exit 1' HUP INT TERM

fail() {
    echo "$1" >&2
    exit 1
}

milliseconds() {
    echo $(($(date +%s%N) / 1000000))
}

# A setup of the example `sum`, and steps that each leave a record: of every three one starts an instance, one answers its
# page, and one answers the page after that, which ends. Instances expire every thousand steps, so that none is refused.
steps() {
    printf 'script sum %d\n' "$(wc -c <"$here/examples/sum.scm")"
    cat "$here/examples/sum.scm"
    printf '\nsteps\n'
    awk -v steps="$1" '
        function page(i, k, query) { return sprintf("/servlets/sum;0*%d*%d*%016x%s", i, k, k, query) }
        BEGIN {
            for (j = 0; j < steps; j++) {
                first = j - j % 3
                target = "/servlets/sum"
                if (j % 3 == 1) target = page(first, first, "?n=3")
                if (j % 3 == 2) target = page(first, first + 1, "?n=4")
                printf "get %d %s\n", j % 16, target
                if (j % 9000 == 8999) printf "tick %d\n", j
            }
        }'
}

# The microseconds that the steps take, with the journal in this folder, or in memory where it is `-`.
played() {
    rm -rf "$work/journal"
    before=$(($(date +%s%N) / 1000))
    "$program" play --instances 4096 --life 1 --journal "$1" <"$work/steps" >"$work/replies" 2>"$work/told" || fail "play ended badly"
    took=$(($(date +%s%N) / 1000 - before))
    grep -q -v '^[0-9]* 200\|^<\|^$\|^shelf' "$work/replies" && fail "a visit was refused: $(grep -m 1 -v '^[0-9]* 200\|^<\|^$\|^shelf' "$work/replies")"
    echo "$took"
}

greater() {
    [ "$1" -gt "$2" ] && echo "$1" || echo "$2"
}

less() {
    [ "$1" -lt "$2" ] && echo "$1" || echo "$2"
}

# How many rounds a second there were, where 5,000 took so many microseconds.
rounds() {
    echo $((5000 * 1000000 / $1))
}

"$here/hovgyelit" check -- "$here/examples/sum.scm" >/dev/null || exit 1
cc -O2 -o "$work/loop" "$here/bench/sync_loop.c" || exit 1
steps 5000 >"$work/steps"
kept=1000000000 memory=1000000000 bare=0
for turn in 1 2 3 4 5; do
    kept=$(less "$(played "$work/journal")" "$kept")
    bytes=$((($(wc -c <"$work/journal/shelf-0") + 2500) / 5000))
    memory=$(less "$(played -)" "$memory")
    bare=$(greater "$("$work/loop" "$work/file" 5000 "$bytes")" "$bare")
done
visits=$(rounds "$kept")
publishes=$(rounds $((kept - memory)))
echo "visits a second: $visits, $(rounds "$memory") in memory; publishes alone: $publishes"
echo "rounds of a bare loop: $bare (visits $((visits * 100 / bare)) percent, publishes $((publishes * 100 / bare))); bytes a record: $bytes"

for count in 10000 20000; do
    steps "$count" >"$work/steps"
    played "$work/journal" >/dev/null
    sed '/^steps$/,$d' "$work/steps" >"$work/setup"
    before=$(milliseconds)
    "$program" serve --port 0 --instances 4096 --life 1 --journal "$work/journal" <"$work/setup" >/dev/null 2>"$work/told" &
    server=$!
    until grep -q listening "$work/told" 2>/dev/null; do
        kill -0 "$server" 2>/dev/null || fail "it does not listen: $(cat "$work/told")"
        sleep 0.01
    done
    echo "opened $count records in $(($(milliseconds) - before)) ms ($(wc -c <"$work/journal/shelf-0") bytes)"
    kill "$server"
    wait "$server" 2>/dev/null
    server=
done

python3 "$here/bench/compacted.py" "$work" "$program"
