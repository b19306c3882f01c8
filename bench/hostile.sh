#!/bin/sh
# Starts `serve` through the launcher on a free port of this machine, and lets each client of docs/OPERATING.md at it,
# one after the other: that each meets what the table says, and that a visitor who comes after it is served in time. It
# takes about eight minutes. Words pick clients by their names in hostile.py. No part of the gate. Needs python3.

here=$(CDPATH='' cd -- "$(dirname -- "$0")/.." && pwd) || exit 1
work=$(mktemp -d "${TMPDIR:-/tmp}/hovgyelit-hostile.XXXXXX") || exit 1
server=
trap '[ -z "$server" ] || kill "$server" 2>/dev/null; rm -rf "$work"' EXIT
trap 'exit 1' HUP INT TERM

fail() {
    echo "$1" >&2
    exit 1
}

# A page of six million bytes, more than the sockets between two sides hold.
awk 'BEGIN {
    printf "(cons (quote p) (let ((t \""
    for (i = 0; i < 60000; i++) printf "x"
    print "\")) (for/list ((i 100)) t)))"
}' >"$work/long.scm"

"$here/hovgyelit" check -- "$here/examples/shop.scm" "$work/long.scm" || exit 1
"$here/hovgyelit" serve --port 0 --workers 4 --connections 1000000 --fuel 10000000 --instances 4096 \
    -- "$here/examples/shop.scm" "$work/long.scm" >"$work/counts" 2>"$work/where" &
server=$!
tries=0
until grep -q listening "$work/where" 2>/dev/null; do
    tries=$((tries + 1))
    [ "$tries" -le 100 ] || fail "it does not listen: $(cat "$work/where")"
    sleep 0.1
done
python3 "$here/bench/hostile.py" "$(sed -n 's/.*listening on .*://p' "$work/where")" "$@" || fail "a client met something else"
kill "$server" || fail "the server is gone"
wait "$server" 2>/dev/null
status=$?
server=
[ "$status" -eq 143 ] || fail "TERM ended the server with status $status"
echo "each client met what it should, and the server ended by TERM"
