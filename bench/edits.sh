#!/bin/sh
# Tries the edits that stand outside the gate, edits/CRATE/NAME.edit, each a mistake that the prover has to refuse: on a
# copy of the repository they take the place of the crate's folder must-fail/. Prints of each whether it was refused, and
# ends with 1 where one was not. Words name the crates; without any it tries all, which takes hours. An edit costs 20 to
# 120 seconds, and what is proved already is not proved again. No part of the gate. Needs rt.

here=$(CDPATH='' cd -- "$(dirname -- "$0")/.." && pwd) || exit 1
cd "$here" || exit 1
work=$(mktemp -d "${TMPDIR:-/tmp}/hovgyelit-edits.XXXXXX") || exit 1
trap 'rm -rf "$work"' EXIT
trap 'exit 1' HUP INT TERM

[ $# -gt 0 ] || { cd edits && set -- * && cd ..; } || exit 1
for crate in "$@"; do
    [ -d "edits/$crate" ] || { echo "edits/$crate: there is no such folder" >&2; exit 1; }
done
tar -cf - --exclude=./.git --exclude='*/out/incremental' . | tar -xf - -C "$work" || exit 1
for crate in "$@"; do
    rm -rf "$work/crates/$crate/must-fail"
    cp -R "edits/$crate" "$work/crates/$crate/must-fail" || exit 1
done
(cd "$work" && rt must-fail "$@") 2>&1 | awk '
    match($0, /must-fail [^ ]*\.edit: /) {
        edit = substr($0, RSTART + 10, RLENGTH - 12)
        why = substr($0, RSTART + RLENGTH)
        if (why ~ /^refused/) { refused++; print "refused      " edit }
        else { others++; sub(/^NOT REFUSED: /, "", why); print "NOT REFUSED  " edit ": " why }
        next
    }
    { print }
    END {
        printf "%d refused, %d not\n", refused, others
        exit (others > 0 || refused == 0)
    }'
