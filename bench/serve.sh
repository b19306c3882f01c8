#!/bin/sh
# Starts `serve` on a free port, tries a start, an answer, the way back and a second window with curl, and prints how many
# requests a second it serves, beside a bare loop that accepts, reads, replies and closes (bare_loop.c, by `cc -O2`). Then
# 1, 8 and 64 clients that keep their links (clients.c) ask four workers over four shelves, for what is unknown and for
# visits, four of each shelf, in memory and with a journal, beside four bare loops that keep their links, up to 100 requests
# a link as `serve` does. Beside the visits with a journal stand bare loops of write, sync, write, sync of as many bytes
# (sync_loop.c), one for each client and four at most. That is done in rounds, each of all columns one after the other, since
# figures of one client differ by half from one second to the next: where its thread and a worker's run decides. Printed are
# the median of each column, what part of its loops' median it is, and over how many connections the visits came in the last
# round. At last 64 links are held open and idle, and visitors come (idle_links.c): where one waits for 50 milliseconds or
# more, it fails. The first word says how many requests one client sends, 1,000 if it is not given, the second how many those
# that keep their links, 20,000, the third how many rounds, five. No part of the gate. Needs curl, cc, and a date that knows
# %N.

here=$(CDPATH='' cd -- "$(dirname -- "$0")/.." && pwd) || exit 1
work=$(mktemp -d "${TMPDIR:-/tmp}/hovgyelit-serve.XXXXXX") || exit 1
server=
kept=${2:-20000}
rounds=${3:-5}
trap '[ -z "$server" ] || kill "$server" 2>/dev/null; rm -rf "$work"' EXIT
trap 'exit 1' HUP INT TERM

fail() {
    echo "$1" >&2
    exit 1
}

# Where a server listens, once it says so in this file.
address_in() {
    tries=0
    until grep -q listening "$1" 2>/dev/null; do
        tries=$((tries + 1))
        [ "$tries" -le 100 ] || fail "it does not listen: $(cat "$1")"
        sleep 0.1
    done
    sed -n 's/.*listening on //p' "$1"
}

# Sends as many requests as there are, one after the other by one curl, and prints how many a second were answered.
rate_of() {
    yes "url = \"http://$1/servlets/other\"" | head -n "$requests" >"$work/urls"
    before=$(date +%s%N)
    curl -s --max-time 300 -K "$work/urls" >/dev/null
    took=$((($(date +%s%N) - before) / 1000000))
    echo $((requests * 1000 / (took + 1)))
}

# The program is built, if need be, before anything is waited for.
"$here/hovgyelit" check -- "$here/examples/sum.scm" >/dev/null || exit 1

requests=${1:-1000}
visits=7
"$here/hovgyelit" serve --port 0 --workers 1 --requests 1 --connections "$((requests + visits))" -- "$here/examples/sum.scm" \
    >"$work/counts" 2>"$work/where" &
server=$!
host=$(address_in "$work/where") || exit 1

# The page of a target, or with a second word that of a form sent to it.
page() {
    if [ $# -eq 2 ]; then curl -s --max-time 10 -d "$2" "http://$host$1"; else curl -s --max-time 10 "http://$host$1"; fi
}

# Where the form of a page sends its answer.
action_in() {
    sed -n 's/.*<form action="\([^"]*\)".*/\1/p' "$1"
}

page /servlets/sum >"$work/first"
first=$(action_in "$work/first")
[ -n "$first" ] || fail "the start shows no form: $(cat "$work/first")"
page "$first" n=3 >"$work/second"
second=$(action_in "$work/second")
page "$second" n=4 | grep -q '3 and 4 are 7' || fail "3 and 4 are not 7"
# Back to the first page, and on with another number, as a second window would.
page "$first" n=10 >"$work/other"
other=$(action_in "$work/other")
page "$other" n=4 | grep -q '10 and 4 are 14' || fail "10 and 4 are not 14"
page "$second" n=1 | grep -q '3 and 1 are 4' || fail "3 and 1 are not 4"
[ "$(curl -s --max-time 10 -o /dev/null -w '%{http_code}' "http://$host/servlets/other")" = 404 ] || fail "an unknown script is not 404"
echo "a start, answers, back and a second window: as they should be"

rate=$(rate_of "$host")
wait "$server" || fail "serve ended with status $?"
server=
cat "$work/counts"

cc -O2 -o "$work/bare_loop" "$here/bench/bare_loop.c" || exit 1
"$work/bare_loop" "$requests" 2>"$work/there" &
server=$!
there=$(address_in "$work/there") || exit 1
bare=$(rate_of "$there")
wait "$server" || fail "the bare loop ended with status $?"
server=
echo "$requests requests one after the other by one curl: serve $rate a second, a bare loop $bare a second"

# --- Kept links ---

cc -O2 -pthread -o "$work/clients" "$here/bench/clients.c" || exit 1
cc -O2 -o "$work/idle_links" "$here/bench/idle_links.c" || exit 1
cc -O2 -o "$work/sync_loop" "$here/bench/sync_loop.c" || exit 1

# Starts a server of four workers with this journal; where it listens is left in `host`.
start_server() {
    : >"$work/where"
    "$here/hovgyelit" serve --port 0 --workers 4 --shelves 4 --connections 1000000 --journal "$1" -- "$here/examples/sum.scm" \
        >"$work/counts" 2>"$work/where" &
    server=$!
    host=$(address_in "$work/where") || exit 1
}

end_server() {
    kill "$server" 2>/dev/null
    wait "$server" 2>/dev/null
    server=
}

# How many requests a second so many clients get answered at an address, for the targets that stand in a file.
kept_rate() {
    "$work/clients" "${1##*:}" "$2" "$kept" keep <"$3" >"$work/said" || fail "the clients ended badly"
    read -r rate good bad links <"$work/said"
    [ $((good + bad)) -eq "$kept" ] || fail "$good and $bad replies of $kept"
    echo "$rate"
}

# Targets of visits: each is the last answer of an instance of its own, which leaves a record. A start goes to the shelf of
# the worker that takes its connection, and idle workers take turns at that. So an odd number of connections stands between
# two starts, and an instance beyond the fourth of its shelf is left alone: each of the four shelves gives four targets.
visits() {
    : >"$work/visits"
    tries=0
    while [ "$(wc -l <"$work/visits")" -lt 16 ]; do
        tries=$((tries + 1))
        [ "$tries" -le 400 ] || fail "starts do not come to all four shelves: $(cut -d'*' -f1 "$work/visits" | sort | uniq -c)"
        page /servlets/sum >"$work/first"
        page "$(action_in "$work/first")" n=3 >"$work/second"
        last=$(action_in "$work/second")
        shelf=$(echo "$last" | sed -n 's/^[^;]*;\([0-9]*\)[*].*/\1/p')
        [ -n "$shelf" ] || fail "the second page shows no form: $(cat "$work/second")"
        [ "$(grep -c ";$shelf[*]" "$work/visits")" -ge 4 ] || echo "$last?n=4" >>"$work/visits"
        page /servlets/other >/dev/null
    done
    sort -t'*' -k2,2n -k1,1 "$work/visits" >"$work/in_turn"
    mv "$work/in_turn" "$work/visits"
}

# How many bytes the journal has.
journal_bytes() {
    cat "$work"/journal/shelf-* | wc -c
}

echo /servlets/other >"$work/unknown"
"$work/bare_loop" 1000000 4 100 2>"$work/there" &
bare_loops=$!
there=$(address_in "$work/there") || exit 1
# The medians of the five columns of a file.
medians() {
    for column in 1 2 3 4 5; do
        cut -d' ' -f"$column" "$1" | sort -n | sed -n "$(((rounds + 1) / 2))p"
    done | paste -s -d' '
}

# One round of so many clients.
round() {
    unknown=$(kept_rate "$in_memory" "$1" "$work/unknown") || exit 1
    memory=$(kept_rate "$in_memory" "$1" "$work/visits_in_memory") || exit 1
    read -r _ _ _ memory_links <"$work/said"
    before=$(journal_bytes)
    journal=$(kept_rate "$host" "$1" "$work/visits") || exit 1
    record=$((($(journal_bytes) - before + kept / 2) / kept))
    bare=$(kept_rate "$there" "$1" "$work/unknown") || exit 1
    read -r _ _ _ bare_links <"$work/said"
    files=$(($1 < 4 ? $1 : 4))
    syncs=$("$work/sync_loop" "$work/synced" "$((kept / files))" "$record" "$files") || fail "the sync loops ended badly"
    echo "$unknown $memory $journal $bare $syncs" >>"$work/rounds"
}

echo "requests a second over kept links, $kept requests, four workers, four shelves, medians of $rounds rounds"
echo "clients  unknown  visits in memory  visits with a journal  bare loops  sync loops"
start_server -
in_memory=$host
first_server=$server
visits
mv "$work/visits" "$work/visits_in_memory"
start_server "$work/journal"
visits
: >"$work/parts"
for clients in 1 8 64; do
    : >"$work/rounds"
    for _ in $(seq "$rounds"); do round "$clients"; done
    figures=$(medians "$work/rounds")
    # shellcheck disable=SC2086 # five words
    printf '%7s %8s %17s %22s %11s %11s\n' "$clients" $figures
    echo "$clients $figures $memory_links $bare_links" >>"$work/parts"
done
awk '{
    printf "%s clients: unknown %.2f and visits in memory %.2f of the bare loops, visits with a journal %.2f of the sync loops\n",
        $1, $2 / $5, $3 / $5, $4 / $6
    printf "  visits in memory came over %s connections, those of the bare loops over %s\n", $7, $8
}' "$work/parts"
pkill -P "$bare_loops" 2>/dev/null
kill "$bare_loops"
end_server
server=$first_server
"$work/idle_links" "${in_memory##*:}" 64 20 /servlets/sum >"$work/said" || fail "the idle clients ended badly"
read -r median most good <"$work/said"
[ "$good" -eq 84 ] || fail "$good of 84 visitors were answered with a page"
echo "beside 64 idle links visitors waited $median milliseconds, $most at most"
[ "${most%.*}" -lt 50 ] || fail "a visitor waited for 50 milliseconds or more"
end_server
