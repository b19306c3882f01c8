#!/bin/sh
# Changes a shop while a visitor is in it: a headless Chromium holds a page of the shop, the server is ended, its script is changed, and
# it is started again over the same journal. The page goes on with the old script, and a new start shows the new one. No part of the
# gate. Needs python3 and chromium, as Debian packs them.

here=$(CDPATH='' cd -- "$(dirname -- "$0")/.." && pwd) || exit 1
work=$(mktemp -d "${TMPDIR:-/tmp}/hovgyelit-edit.XXXXXX") || exit 1
server= walk=
trap 'for one in $server $walk; do kill "$one" 2>/dev/null; done; rm -rf "$work"' EXIT
trap 'exit 1' HUP INT TERM

fail() {
    echo "$1" >&2
    exit 1
}

# starts the server over the script and the journal in $work, on this port, and waits until it listens
start() {
    : >"$work/where"
    ./hovgyelit serve --port "$1" --journal "$work/journal" -- "$work/shop.scm" >"$work/counts" 2>"$work/where" &
    server=$!
    tries=0
    until grep -q listening "$work/where" 2>/dev/null; do
        tries=$((tries + 1))
        [ "$tries" -le 100 ] || fail "it does not listen: $(cat "$work/where")"
        sleep 0.1
    done
    port=$(sed -n 's/.*listening on .*://p' "$work/where")
}

stop() {
    kill "$server" || fail "the server is gone"
    wait "$server" 2>/dev/null
    server=
}

cd "$here" || exit 1
cp examples/shop.scm "$work/shop.scm" || exit 1
./hovgyelit check -- "$work/shop.scm" || exit 1
start 0
python3 bench/edit.py "$port" "$work/profile" "$work/ready" "$work/changed" &
walk=$!
tries=0
until [ -e "$work/ready" ]; do
    tries=$((tries + 1))
    [ "$tries" -le 900 ] || fail "the page did not come"
    kill -0 "$walk" 2>/dev/null || fail "the walk went wrong"
    sleep 0.1
done
stop
sed -i 's/(h1 "Shop")/(h1 "Shop") (p "Only today")/' "$work/shop.scm"
grep -q "Only today" "$work/shop.scm" || fail "the script was not changed"
start "$port"
echo "$port" >"$work/changed"
wait "$walk" || fail "the walk went wrong"
walk=
stop
echo "the old page went on, and a new start showed the new shop"
