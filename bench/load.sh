#!/bin/sh
# Times measured runs (`load 1`): how many steps a second, the better of three runs, and the peak of the program's memory, with
# journals in memory, and with one on a disk, in this folder or in the one that the first word names. No part of the gate.
# Needs a date that knows %N, and GNU time.

here=$(CDPATH='' cd -- "$(dirname -- "$0")/.." && pwd) || exit 1
program=$here/crates/script_server/out/script_server
work=$(mktemp -d "${1:-$here}/hovgyelit-load.XXXXXX") || exit 1
trap 'rm -rf "$work"' EXIT
trap 'exit 1' HUP INT TERM

milliseconds() {
    echo $(($(date +%s%N) / 1000000))
}

# A run with these options: its time in milliseconds and its peak in kilobytes.
run() {
    rm -rf "$work/journal"
    before=$(milliseconds)
    /usr/bin/time -f %M -o "$work/peak" "$program" load 1 "$@" >"$work/line" || { echo "load ended badly: $(cat "$work/line")" >&2; exit 1; }
    took=$(($(milliseconds) - before))
    peak=$(tail -n 1 "$work/peak")
}

# The better of three.
timed() {
    name=$1
    shift
    best=
    for _ in 1 2 3; do
        run "$@"
        [ -n "$best" ] && [ "$best" -le "$took" ] || best=$took
    done
    echo "$name: $((20000 * 1000 / (best + 1))) steps a second, peak $peak KB; $(cat "$work/line")"
}

"$here/hovgyelit" check -- "$here/examples/sum.scm" >/dev/null || exit 1
timed "journals in memory      "
timed "16 shelves in memory    " --shelves 16
timed "a journal on a disk     " --journal "$work/journal"
