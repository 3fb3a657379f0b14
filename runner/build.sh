#!/bin/sh
# Builds the runner. build.sh OUTPUT ARCHIVE [FLAGS AND SOURCES..]
set -eu
root=$(cd "$(dirname "$0")/.." && pwd)
output=$1 archive=$2
shift 2
mkdir -p "$(dirname "$output")"
${CC:-gcc} -std=c99 -Wall -Wextra -pedantic -Werror -O2 -I"$root/include" "$@" "${RUNNER_SOURCE:-$root/runner}"/*.c \
    "$archive" -lunicorn -o "$output"
