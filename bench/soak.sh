#!/bin/sh
# Lets two hundred clients visit `serve --journal` for ten minutes, or for as many seconds as the first word says (soak.py),
# with four workers on four shelves and the limits that are given by default; then kills it, starts it again and looks that
# every page that was told answers. No part of the gate. Needs python3.

here=$(CDPATH='' cd -- "$(dirname -- "$0")/.." && pwd) || exit 1
program=$here/crates/script_server/out/script_server
work=$(mktemp -d "${TMPDIR:-/tmp}/hovgyelit-soak.XXXXXX") || exit 1
trap 'rm -rf "$work"' EXIT
trap 'exit 1' HUP INT TERM

for name in sum quiz pay; do
    printf 'script %s %d\n' "$name" "$(wc -c <"$here/examples/$name.scm")"
    cat "$here/examples/$name.scm"
    echo
done >"$work/setup"
"$here/hovgyelit" check <"$work/setup" >/dev/null || exit 1
python3 "$here/bench/soak.py" "$work" "${1:-600}" "$program" serve --port 0 --connections 1000000 --workers 4 --shelves 4 \
    --journal "$work/journal"
