#!/bin/sh
# Measures `serve` with 1, 2, 4 and 16 workers, on as many shelves and on one, with the journal in memory and in a folder:
# how many requests a second 32 clients get answered (clients.c), each a take and a publish that leaves a record; beside
# them a bare loop of as many processes that accept, read, reply and close (bare_loop.c). Then it lets sixteen workers wait
# at one shelf, whose disk takes a second for each sync (slow_sync.c), and prints how much of a processor they use. The
# first word says how many requests each run has, 20,000 if it is not given; the second in which folder the journals are
# made, this one's if it is not given. Where those workers use a tenth of a processor or more, it fails. No part of the gate.
# Needs cc and curl.

here=$(CDPATH='' cd -- "$(dirname -- "$0")/.." && pwd) || exit 1
program=$here/crates/script_server/out/script_server
requests=${1:-20000}
work=$(mktemp -d "${2:-$here}/hovgyelit-threads.XXXXXX") || exit 1
server=
trap '[ -z "$server" ] || kill "$server" 2>/dev/null; rm -rf "$work"' EXIT
trap 'exit 1' HUP INT TERM

fail() {
    echo "$1" >&2
    exit 1
}

# Where a server listens, once it says so in this file.
address_in() {
    tries=0
    until grep -q listening "$1" 2>/dev/null; do
        tries=$((tries + 1))
        [ "$tries" -le 200 ] || fail "it does not listen: $(cat "$1")"
        sleep 0.05
    done
    sed -n 's/.*listening on //p' "$1" | tail -n 1
}

# Starts the server with so many workers and shelves, and further options; where it listens is left in `host`.
start_server() {
    workers=$1 shelves=$2
    shift 2
    : >"$work/told"
    "$@" "$program" serve --port 0 --workers "$workers" --shelves "$shelves" --connections 1000000 --instances 4096 \
        --journal "$journal" <"$work/setup" >/dev/null 2>"$work/told" &
    server=$!
    host=$(address_in "$work/told") || exit 1
}

end_server() {
    kill "$server" 2>/dev/null
    wait "$server" 2>/dev/null
    server=
    rm -rf "$work/journal"
}

# The URL of the second page of `sum` after a start: who answers it gets a last page, which leaves a record and no page.
second_page() {
    first=$(curl -s --max-time 30 "http://$host/servlets/sum" | sed -n 's/.*<form action="\([^"]*\)".*/\1/p')
    curl -s --max-time 30 "http://$host$first?n=3" | sed -n 's/.*<form action="\([^"]*\)".*/\1/p'
}

# Such pages of each shelf. Workers take links in turn, and a start is on the shelf of its worker: a third link a page lets
# each number of workers come round.
targets() {
    : >"$work/targets"
    tries=0
    while [ "$(sed 's/.*;\([0-9]*\)\*.*/\1/' "$work/targets" | sort -u | wc -l)" -lt "$shelves" ]; do
        tries=$((tries + 1))
        [ "$tries" -le 2000 ] || fail "some shelves got no start"
        url=$(second_page)
        [ -n "$url" ] || fail "there is no second page"
        curl -s --max-time 30 "http://$host/servlets/other" >/dev/null
        grep -q "/sum;$(echo "$url" | sed 's/.*;\([0-9]*\)\*.*/\1/')\*" "$work/targets" || echo "$url?n=4" >>"$work/targets"
    done
}

# One run: requests a second, left in `rate`.
run() {
    start_server "$1" "$2" env
    targets
    "$work/clients" "${host##*:}" 32 "$requests" <"$work/targets" >"$work/said" || fail "the clients ended badly"
    read -r rate good bad <"$work/said"
    [ "$good" -eq "$requests" ] || fail "$bad of $requests requests were not answered with a page"
    end_server
}

# The time on a processor of a process so far, in hundredths of a second.
used() {
    awk '{ print $14 + $15 }' "/proc/$1/stat"
}

"$here/hovgyelit" check -- "$here/examples/sum.scm" >/dev/null || exit 1
cc -O2 -pthread -o "$work/clients" "$here/bench/clients.c" || exit 1
cc -O2 -o "$work/bare_loop" "$here/bench/bare_loop.c" || exit 1
cc -O2 -shared -fPIC -o "$work/slow_sync.so" "$here/bench/slow_sync.c" || exit 1
printf 'script sum %d\n' "$(wc -c <"$here/examples/sum.scm")" >"$work/setup"
cat "$here/examples/sum.scm" >>"$work/setup"
echo >>"$work/setup"

echo "requests a second, $requests of 32 clients"
echo "workers  in memory, as many shelves  one shelf  with a journal, as many shelves  one shelf  bare loops"
for count in 1 2 4 16; do
    row=
    for journal in - "$work/journal"; do
        for shelves in "$count" 1; do
            run "$count" "$shelves"
            row="$row $rate"
        done
    done
    : >"$work/told"
    "$work/bare_loop" 1000000 "$count" 2>"$work/told" &
    server=$!
    host=$(address_in "$work/told") || exit 1
    echo /servlets/other | "$work/clients" "${host##*:}" 32 "$requests" >"$work/said" || fail "the clients ended badly"
    pkill -P "$server" 2>/dev/null
    end_server
    read -r rate good bad <"$work/said"
    # shellcheck disable=SC2086
    printf '%7s %27s %10s %32s %10s %11s\n' "$count" $row "$rate"
done

# A turn at the one shelf takes two seconds: sixteen visits wait for it, one after the other.
journal=$work/journal
start_server 16 1 env
second=$(second_page)
kill "$server"
wait "$server" 2>/dev/null
start_server 16 1 env LD_PRELOAD="$work/slow_sync.so"
echo "$second?n=4" | "$work/clients" "${host##*:}" 16 32 >/dev/null 2>&1 &
waiting=$!
sleep 2
before=$(used "$server")
sleep 10
after=$(used "$server")
kill "$waiting" 2>/dev/null
end_server
echo "sixteen workers at one shelf whose turns take two seconds each: $(((after - before) / 10)) percent of a processor"
[ "$((after - before))" -lt 100 ] || fail "that is a tenth of a processor, or more"
