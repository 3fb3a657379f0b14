#!/bin/sh
# Runs a command while no other make or gate is at work in this repository, since they share target/ and crates/*/out.
#
#   locked.sh COMMAND..
#
# The lock is on the repository's folder and not on a file in target/, which may be removed meanwhile. The command keeps it
# open, so it is held until the command and all that it started have ended.
set -eu
root=$(cd "$(dirname "$0")/.." && pwd)
if [ -z "${MMU_LOCKED:-}" ]; then
    exec 9<"$root"
    status=0
    flock -n 9 || status=$?
    if [ "$status" -eq 1 ]; then
        echo "another make or .ci/run is at work in this repository: waiting until it has ended" >&2
        flock 9
    elif [ "$status" -ne 0 ]; then
        echo "no lock can be had on $root: going on without one" >&2
    fi
    MMU_LOCKED=1
    export MMU_LOCKED
fi
exec "$@"
