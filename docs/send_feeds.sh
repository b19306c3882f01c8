#!/bin/bash
# Sends the feed of each shelf of a journal to a follower, while the journal is served. What is served is in use, so each shelf's
# files are copied first, and the copy is exported. docs/OPERATING.md says how a timer starts this, and what to do where it fails.
#
#     send_feeds.sh JOURNAL SHELVES COMMAND ..
#
# JOURNAL is the folder of the journals, SHELVES how many shelves there are. COMMAND is run for each shelf, with the words
# `--shelf S` behind it and the feed as its input. It is the follower's own `follow`, here or over ssh. The copy is made in the
# folder that TMPDIR names, and removed. HOVGYELIT_PROGRAM is what is run, if it is not the launcher of this repository's.
# It says of each shelf how many records the follower holds. Its status is 0 where each feed was held whole, and else 1.

here=$(CDPATH='' cd -- "$(dirname -- "$0")/.." && pwd) || exit 1
hovgyelit=${HOVGYELIT_PROGRAM:-$here/hovgyelit}

fail() {
    echo "send_feeds.sh: $1" >&2
    exit 1
}

# Copies the three files of a shelf as they were at one moment: the root says the same before and after.
copy_shelf() {
    local shelf=$1 file
    for _ in 1 2 3; do
        for file in $((shelf + 32)) "$shelf" $((shelf + 16)); do
            cp -- "$journal/shelf-$file" "$work/copy/shelf-$file" || return 1
        done
        ! cmp -s -- "$journal/shelf-$((shelf + 32))" "$work/copy/shelf-$((shelf + 32))" || return 0
    done
    return 1
}

# Sends the feed of one shelf. Where the follower ends, the export's writes fail, with 6.
send_shelf() {
    local shelf=$1 status
    mkdir -p "$work/copy" && copy_shelf "$shelf" || { echo "shelf $shelf: could not be copied" >&2; return 1; }
    "$hovgyelit" export --journal "$work/copy" --shelf "$shelf" 2>"$work/exported" |
        "${follow[@]}" --shelf "$shelf" >"$work/acks" 2>"$work/followed"
    status=("${PIPESTATUS[@]}")
    rm -rf "$work/copy"
    case ${status[*]} in
        "0 0") echo "shelf $shelf: $(grep -c '^ack ' "$work/acks") records" ;;
        [06]\ *) tell "$shelf" "the follower ended with ${status[1]}" "$work/followed" "$(tail -n 1 "$work/acks")" ;;
        *) tell "$shelf" "the export ended with ${status[0]}" "$work/exported" ;;
    esac
}

# Tells why a feed was not held whole: what the command said on its standard error, and its last line.
tell() {
    echo "shelf $1: $2${4:+: $4}" >&2
    cat "$3" >&2
    return 1
}

[ $# -ge 3 ] && [[ $2 =~ ^[1-9][0-9]?$ ]] || fail "the words are JOURNAL SHELVES COMMAND .."
journal=$1 shelves=$2
follow=("${@:3}")
work=$(mktemp -d "${TMPDIR:-/tmp}/hovgyelit-feed.XXXXXX") || fail "there is no place for a copy"
trap 'rm -rf "$work"' EXIT
trap 'exit 1' HUP INT TERM

faults=0
for ((shelf = 0; shelf < shelves; shelf++)); do
    send_shelf "$shelf" || faults=1
done
exit "$faults"
