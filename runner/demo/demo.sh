#!/usr/bin/env bash
# Programs nobody here wrote over the library: alone, many at once, and over an unmap that forgets the secondary group.
#
#   demo.sh [--write] [--full] [ARCHIVE]
#
# Prints a table. With --full bzip2 and Lua run too; with --write table and picture go to docs/.
set -euo pipefail
cd "$(dirname "${BASH_SOURCE[0]}")/../.."

write="" full=""
while [[ ${1:-} == --* ]]; do
    case $1 in
    --write) write=--write ;;
    --full) full=1 ;;
    *) echo "demo.sh: no option $1" >&2; exit 1 ;;
    esac
    shift
done
archive=${1:-target/staticlib/libmmu.a}
programs=target/c/runner/programs
out=target/c/runner/demo
limit=${LIMIT:-120} # seconds; over a wrong unmap a program may not end

if [ ! -f "$archive" ]; then
    echo "runner/demo/demo.sh: no archive $archive; run make first" >&2
    exit 1
fi
runner/install.sh gcc libc6-dev libunicorn-dev python3
rm -rf "$out"
mkdir -p "$out"
echo "== minigzip, from zlib's source package, natively and for PowerPC" >&2
runner/demo/program.sh minigzip "$programs"
runner/build.sh "$out/right" "$archive"
runner/build.sh "$out/stops" "$archive" -Wl,--wrap=mmu_unmap runner/demo/wrong_unmap.c
runner/build.sh "$out/goes_on" "$archive" -DTAKE_MAPPED -Wl,--wrap=mmu_unmap,--wrap=mmu_map runner/demo/wrong_unmap.c
head -c 30000 "$programs/zlib/deflate.c" > "$out/text"
cat "$programs"/zlib/*.c > "$out/long"
truncate -s 300000 "$out/long"
for text in text long; do "$programs/minigzip.native" < "$out/$text" > "$out/$text.minigzip"; done

runs=0
# run RUNNER LABEL COPIES EXPECTED OPTIONS.. PROGRAM..: one line of what came of it, in results.
run() {
    local runner=$1 label=$2 copies=$3 expected=$4 right=0 wrong="" status=0 i
    shift 4
    runs=$((runs + 1))
    rm -f "$out"/copy.*
    timeout "$limit" "$out/$runner" -p "$copies" -o "$out/copy" -c "$out/counts.$runs" "$@" 2> "$out/said.$runs" \
        || status=$?
    for ((i = 0; i < copies; i++)); do
        if cmp -s "$out/copy.$i" "$expected"; then right=$((right + 1)); else wrong="$wrong $i"; fi
    done
    printf '%s\t%s\t%s\t%s\t%s\t%s\t%s\n' "$runs" "$runner" "$label" "$copies" "$right" "$status" "$wrong" \
        >> "$out/results"
    echo "-- $label: $right of $copies outputs right" >&2
    if [ "$runner" = right ] && [ "$right" != "$copies" ]; then
        cat "$out/said.$runs" >&2
        exit 1
    fi
}

# many RUNNER LABEL COPIES OPTIONS..: copies of minigzip over one table, in 200 frames.
many() {
    run "$1" "$2" "$3" "$out/text.minigzip" -f 200 -q 60 -i "$out/text" "${@:4}" "$programs/minigzip.ppc"
}

run right "one minigzip of 300 KB, 64 frames" 1 "$out/long.minigzip" -f 64 -i "$out/long" "$programs/minigzip.ppc"
run right "the same, every access asked" 1 "$out/long.minigzip" -e -f 64 -i "$out/long" "$programs/minigzip.ppc"
for copies in 1 2 4 6 7 8 9 10 11 12; do
    many right "$copies minigzip" "$copies" -n
done
many right "12 minigzip, spread VSIDs" 12
for copies in 8 9 12; do
    many stops "$copies, wrong unmap, 7 stops" "$copies" -n
done
for copies in 1 2 4 6 7 8 9 10 11 12; do
    many goes_on "$copies, wrong unmap, 7 taken for good" "$copies" -n
done
many goes_on "12, wrong unmap, 7 taken for good, spread VSIDs" 12

if [ -n "$full" ]; then
    for program in bzip2 lua; do runner/demo/program.sh "$program" "$programs"; done
    "$programs/bzip2.native" -9 < "$out/long" > "$out/long.bzip2"
    run right "one bzip2 -9 of 300 KB, 512 frames" 1 "$out/long.bzip2" -f 512 -i "$out/long" "$programs/bzip2.ppc" -9
    "$programs/lua.native" - < runner/demo/words.lua > "$out/words"
    run right "one Lua, 128 frames" 1 "$out/words" -f 128 -i runner/demo/words.lua "$programs/lua.ppc" -
fi
python3 runner/demo/report.py "$out" $write
