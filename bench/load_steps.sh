#!/bin/sh
# Writes down the steps of measured runs, plays them by `play`, and compares the FNV-1a of what it prints, and its counts, with
# the line of `load` (load_steps.py says how). No part of the gate. Needs python3. Each word is a run: its number, and options.

here=$(CDPATH='' cd -- "$(dirname -- "$0")/.." && pwd) || exit 1
"$here/hovgyelit" check -- "$here/examples/sum.scm" >/dev/null || exit 1
[ $# -gt 0 ] || set -- 1 '1 --shelves 2' '1 --shelves 16' '7 --pages 5' '2026 --life 60 --instances 20' 9223372036854775807
exec python3 "$here/bench/load_steps.py" "$here/crates/script_server/out/script_server" "$@"
