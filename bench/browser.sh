#!/bin/sh
# Starts `serve` through the launcher on a free port of this machine, and lets a headless Chromium walk through the shop
# and, in two windows, through the hotel: on, back, and on again. It prints how many replies came over each of the browser's
# connections. No part of the gate. Needs python3 and chromium, as Debian packs them.

here=$(CDPATH='' cd -- "$(dirname -- "$0")/.." && pwd) || exit 1
work=$(mktemp -d "${TMPDIR:-/tmp}/hovgyelit-browser.XXXXXX") || exit 1
server=
trap '[ -z "$server" ] || kill "$server" 2>/dev/null; rm -rf "$work"' EXIT
trap 'exit 1' HUP INT TERM

fail() {
    echo "$1" >&2
    exit 1
}

cd "$here" || exit 1
./hovgyelit check -- examples/shop.scm examples/hotel.scm || exit 1
./hovgyelit serve --port 0 -- examples/shop.scm examples/hotel.scm >"$work/counts" 2>"$work/where" &
server=$!
tries=0
until grep -q listening "$work/where" 2>/dev/null; do
    tries=$((tries + 1))
    [ "$tries" -le 100 ] || fail "it does not listen: $(cat "$work/where")"
    sleep 0.1
done
python3 bench/browser.py "$(sed -n 's/.*listening on .*://p' "$work/where")" "$work/profile" || fail "the walk went wrong"
kill "$server" || fail "the server is gone"
wait "$server" 2>/dev/null
status=$?
server=
[ "$status" -eq 143 ] || fail "TERM ended the server with status $status"
echo "the shop and the hotel were walked through, and the server ended by TERM"
