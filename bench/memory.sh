#!/bin/sh
# Runs each test of crates/test_sites/src/memory.rt once for each growth that it makes, and lets that growth fail
# (fail_alloc.c). A run has to end well, or to be given up since what the test itself needs was not to be had. Prints of each
# test how many runs did which, and each that ended otherwise. The tests are proved and built first. No part of the gate.
# Needs rt and cc.

here=$(CDPATH='' cd -- "$(dirname -- "$0")/.." && pwd) || exit 1
work=$(mktemp -d "${TMPDIR:-/tmp}/hovgyelit-memory.XXXXXX") || exit 1
trap 'rm -rf "$work"' EXIT
trap 'exit 1' HUP INT TERM

cc -O2 -shared -fPIC -o "$work/fail_alloc.so" "$here/bench/fail_alloc.c" || exit 1
cd "$here/crates/test_sites" || exit 1
rt test >"$work/built" 2>&1 || { cat "$work/built" >&2; exit 1; }

# Runs the test whose growth of this number fails; what it says is left in a file.
run() {
    FAIL_ALLOC=$1 LD_PRELOAD=$work/fail_alloc.so out/test_sites_tests "memory::$2" >/dev/null 2>"$work/said"
}

worst=0
for test in $(sed -n '/^#\[test]$/{n;s/^fn \([a-z_]*\).*/\1/p}' src/memory.rt); do
    run 0 "$test" || { cat "$work/said" >&2; exit 1; }
    growths=$(sed -n 's/^growths //p' "$work/said")
    [ "${growths:-0}" -gt 0 ] || { echo "no growth was seen" >&2; exit 1; }
    well=0 given_up=0
    for number in $(seq "$growths"); do
        run "$number" "$test"
        status=$?
        if [ "$status" -eq 0 ]; then
            well=$((well + 1))
        elif [ "$status" -eq 101 ] && grep -q -x 'error: \(AllocError\|AllocFailed { .. }\|Memory\)' "$work/said"; then
            given_up=$((given_up + 1))
        else
            worst=1
            echo "$test, growth $number: status $status, $(cat "$work/said")"
        fi
    done
    echo "$test: $growths growths, of which each failed once: $well runs ended well, $given_up were given up"
done
exit "$worst"
