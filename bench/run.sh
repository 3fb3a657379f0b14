#!/usr/bin/env bash
# The benchmark: the library beside plain C, in instructions (callgrind) and in nanoseconds.
#
#   bench/run.sh [--write] [ARCHIVE]
#
# Prints the table. With --write it also writes docs/BENCHMARKS.md and docs/benchmarks.svg.
set -euo pipefail
cd "$(dirname "${BASH_SOURCE[0]}")/.."

write=
if [ "${1:-}" = --write ]; then
    write=--write
    shift
fi
archive=${1:-target/staticlib/libmmu.a}
out=target/c/bench
cc=${CC:-gcc}
flags=${PLAIN_FLAGS:--O3}
calls="check set_register clear map unmap protect look access access_cached rights invalidate pack unpack"

if [ ! -f "$archive" ]; then
    echo "bench/run.sh: no archive $archive; run make first" >&2
    exit 1
fi

echo "== build: $cc $flags" >&2
rm -rf "$out"
mkdir -p "$out/profiles"
warnings="-std=c99 -Wall -Wextra -pedantic -Iinclude -Ibench"
# shellcheck disable=SC2086
$cc $warnings $flags -c bench/plain.c -o "$out/plain.o"
# All symbols are bound at the start, so that no call is counted with the binding of memcpy or memset.
for program in agree rows; do
    # shellcheck disable=SC2086
    $cc $warnings -O2 "bench/$program.c" "$out/plain.o" "$archive" -Wl,-z,now -o "$out/$program"
done

echo "== the two agree on random calls" >&2
nice "$out/agree" 400000 1 > "$out/agree.txt"
head -n 1 "$out/agree.txt" >&2

echo "== nanoseconds, in turns, the least of each" >&2
nice "$out/rows" time bench/pages.txt 200 > "$out/times.txt"

echo "== instructions by callgrind" >&2
toggles=()
for call in $calls; do
    toggles+=("--toggle-collect=mmu_$call" "--toggle-collect=plain_$call")
done
# Of `rep stosb` callgrind counts every byte as an instruction, so memset is told to use plain stores.
GLIBC_TUNABLES=glibc.cpu.x86_rep_stosb_threshold=1000000000 \
    nice valgrind --tool=callgrind "${toggles[@]}" --dump-before=row_done \
    --callgrind-out-file="$out/profiles/profile" "$out/rows" count bench/pages.txt > "$out/callgrind.txt" 2>&1 \
    || { cat "$out/callgrind.txt" >&2; exit 1; }
"$out/rows" list > "$out/rows.txt"

{
    echo "compiler	$($cc --version | head -n 1), $flags"
    echo "valgrind	$(valgrind --version)"
    echo "processor	$(sed -n 's/^model name[^:]*: //p' /proc/cpuinfo | head -n 1)"
} > "$out/machine.txt"

python3 bench/report.py "$out" $write
