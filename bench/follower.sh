#!/bin/sh
# Lets two hundred visitors use a leader for a minute, or for as many seconds as the first word says, while its feeds are sent to a follower
# again and again by docs/send_feeds.sh, over a pipe and over ssh in turn. Then the leader and the feed under way are killed, the follower is
# promoted and served: each page that the last completed feed held answers, and nothing that was closed opens again (follower.py). Then
# a follower is killed at a hundred random moments, or at as many as a second word says, and holds what it acknowledged. For ssh it starts
# an sshd of its own on 127.0.0.1; where there is none it says so. HOVGYELIT_PROGRAM may name the command to run in the program's place.
# Then a follower without space meets a feed of 2^30 bytes, and another one a feed that is longer (long_feed.py), for which it takes 1.1 GB.
# The journals are in this folder, or in the one that a third word names. No part of the gate. Needs python3, and ssh as Debian packs it.

here=$(CDPATH='' cd -- "$(dirname -- "$0")/.." && pwd) || exit 1
program=${HOVGYELIT_PROGRAM:-$here/crates/script_server/out/script_server}
work=$(mktemp -d "${3:-$here}/hovgyelit-follower.XXXXXX") || exit 1
sshd=
trap '[ -z "$sshd" ] || kill "$sshd" 2>/dev/null; rm -rf "$work"' EXIT
trap 'exit 1' HUP INT TERM

# An sshd with keys of its own, for this user, and a configuration by which ssh reaches it as `standby`. Fails where there is none.
start_sshd() {
    program_of_sshd=$(PATH=$PATH:/usr/sbin command -v sshd) && command -v ssh >/dev/null || return 1
    port=$(python3 -c 'import socket; s = socket.socket(); s.bind(("127.0.0.1", 0)); print(s.getsockname()[1])')
    [ "$(id -u)" -ne 0 ] || mkdir -p /run/sshd
    ssh-keygen -q -t ed25519 -N '' -f "$work/host" && ssh-keygen -q -t ed25519 -N '' -f "$work/key" || return 1
    # shellcheck disable=SC2016
    echo "restrict,command=\"$program follow --journal $work/follower --shelf "'${SSH_ORIGINAL_COMMAND##* }"' "$(cat "$work/key.pub")" >"$work/authorized"
    echo "standby $(cat "$work/host.pub")" >"$work/known"
    cat >"$work/sshd_config" <<END
ListenAddress 127.0.0.1:$port
HostKey $work/host
AuthorizedKeysFile $work/authorized
PidFile none
StrictModes no
PasswordAuthentication no
KbdInteractiveAuthentication no
END
    cat >"$work/ssh_config" <<END
Host standby
    HostName 127.0.0.1
    Port $port
    HostKeyAlias standby
    IdentityFile $work/key
    IdentitiesOnly yes
    UserKnownHostsFile $work/known
    BatchMode yes
END
    "$program_of_sshd" -D -e -f "$work/sshd_config" 2>"$work/sshd_told" &
    sshd=$!
    tries=0
    # A shelf of the name `none` is none, which the program says: then ssh reaches it.
    until [ "$(ssh -F "$work/ssh_config" standby follow --shelf none 2>/dev/null)" = "error 2 usage" ]; do
        tries=$((tries + 1))
        if [ "$tries" -gt 50 ] || ! kill -0 "$sshd" 2>/dev/null; then
            cat "$work/sshd_told" >&2
            return 1
        fi
        sleep 0.1
    done
}

for name in sum quiz pay booking; do
    printf 'script %s %d\n' "$name" "$(wc -c <"$here/examples/$name.scm")"
    cat "$here/examples/$name.scm"
    echo
done >"$work/setup"
if [ -z "$HOVGYELIT_PROGRAM" ]; then "$here/hovgyelit" check <"$work/setup" >/dev/null || exit 1; fi
if start_sshd; then ways=ssh; else ways= && echo "no sshd could be started: feeds go over pipes alone"; fi
# shellcheck disable=SC2086
python3 "$here/bench/follower.py" "$work" "${1:-60}" "$program" "${2:-100}" "$here/docs/send_feeds.sh" $ways || exit 1
python3 "$here/bench/long_feed.py" "$work/long" "$program"
