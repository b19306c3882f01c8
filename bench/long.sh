#!/bin/sh
# Visits `serve --journal` until a journal has 2^29 bytes and instances expire, so that a tick compacts it (long.py). It looks
# that the file is compacted then and not before, that the pages which can be answered go on, and that they do so after a
# KILL and a start, with an audit and without. The journal is in this folder, or in the one that a first word names: it takes
# up to 1.1 GB there. It takes some minutes. No part of the gate. Needs python3.

here=$(CDPATH='' cd -- "$(dirname -- "$0")/.." && pwd) || exit 1
program=$here/crates/script_server/out/script_server
work=$(mktemp -d "${1:-$here}/hovgyelit-long.XXXXXX") || exit 1
trap 'rm -rf "$work"' EXIT
trap 'exit 1' HUP INT TERM

"$here/hovgyelit" check -- "$here/examples/sum.scm" >/dev/null || exit 1
python3 "$here/bench/long.py" "$work" "$program"
