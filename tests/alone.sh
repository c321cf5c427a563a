#!/bin/bash
# Runs a command in a network of its own, which has nothing but the loopback interface, and in a space of processes of its own: so ports
# never clash with those of another run, and whatever is left behind ends with it. Where no such network can be had, it runs in this one.
#
#     tests/alone.sh COMMAND ..
set -u
if [ $# = 0 ] || [ "$1" = --help ]; then
    sed -n '2,/^[^#]/s/^# \{0,1\}//p' "$0"
    [ $# != 0 ] || exit 2
    exit 0
fi
# the shell stays, as the first process there, and takes in those that nobody waits for
inside='ip link set lo up && ip link set lo multicast on && ip route add 224.0.0.0/4 dev lo && "$@"; exit $?'
for way in '' --map-root-user; do
    # shellcheck disable=SC2086 # an empty variable gives no word
    if unshare $way --net --pid --fork --kill-child --mount-proc sh -c "$inside" sh true 2>/dev/null; then
        exec unshare $way --net --pid --fork --kill-child --mount-proc sh -c "$inside" sh "$@"
    fi
done
exec "$@"
