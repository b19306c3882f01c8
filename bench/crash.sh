#!/bin/sh
# Kills `serve --journal` by KILL at 200 random moments, or as many as the first word says, under a client that notes each
# reply (crash.py), and looks after each start that nothing that was told is lost. As often it kills `play --journal` over
# steps that compact the journal, and looks by `serve` that the pages that were told are there (compacting.py). Then it does
# the visits of the first on a file system of 1 MB until that is full: `503 disk` comes, then `503 down`, and after a start
# all that was told is there; for this it has to be root, and says so where it is not. It takes some minutes. No part of the
# gate. Needs python3.

here=$(CDPATH='' cd -- "$(dirname -- "$0")/.." && pwd) || exit 1
program=$here/crates/script_server/out/script_server
work=$(mktemp -d "${TMPDIR:-/tmp}/hovgyelit-crash.XXXXXX") || exit 1
mounted=
trap '[ -z "$mounted" ] || umount "$mounted"; rm -rf "$work"' EXIT
trap 'exit 1' HUP INT TERM

scripts="sum quiz pay"
for name in $scripts; do
    printf 'script %s %d\n' "$name" "$(wc -c <"$here/examples/$name.scm")"
    cat "$here/examples/$name.scm"
    echo
done >"$work/setup"
"$here/hovgyelit" check <"$work/setup" >/dev/null || exit 1

options="--port 0 --connections 1000000 --life 1000000 --instances 4096 --pages 1024"
# shellcheck disable=SC2086
python3 "$here/bench/crash.py" "$work" "${1:-200}" "$program" serve $options --shelves 2 --journal "$work/journal" || exit 1

mkdir "$work/compacting" || exit 1
cp "$work/setup" "$work/compacting" || exit 1
python3 "$here/bench/compacting.py" "$work/compacting" "${1:-200}" "$program" || exit 1

mkdir "$work/small" || exit 1
if ! mount -t tmpfs -o size=1m hovgyelit-crash "$work/small" 2>/dev/null; then
    echo "a small file system was not tried: only root can mount one"
    exit 0
fi
mounted=$work/small
# One shelf: where there are more, those that met no fault go on.
# shellcheck disable=SC2086
python3 "$here/bench/full.py" "$work" "$program" serve $options --journal "$work/small/journal"
