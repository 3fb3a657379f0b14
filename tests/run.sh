#!/bin/sh
# Builds the comparison against an archive and runs it.
#   run.sh [ARCHIVE]        default: ../target/staticlib/libmmu.a, seen from this folder
#   MMU_TEST_FACTOR=10 run.sh    ten times as many random calls
set -eu

here=$(cd "$(dirname "$0")" && pwd)
archive=${1:-"$here/../target/staticlib/libmmu.a"}
if [ ! -f "$archive" ]; then
    echo "no archive at $archive" >&2
    exit 1
fi
folder=$(cd "$(dirname "$archive")" && pwd)
MMU_ARCHIVE="$folder/$(basename "$archive")"
export MMU_ARCHIVE

cd "$here"
cargo build --release --offline --locked --quiet --jobs 1
exec target/release/compare
