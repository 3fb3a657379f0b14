#!/usr/bin/env bash
# mmu-dump on dumps of the Rust model, on bad input under AddressSanitizer, and its page in headless Chromium.
#
#   tests/dump/run.sh [--write] [ARCHIVE]
#
# With --write it also writes docs/mmu-dump.png and the outputs that docs/DUMPS.md quotes.
set -euo pipefail
cd "$(dirname "${BASH_SOURCE[0]}")/../.."

write=
if [ "${1:-}" = --write ]; then
    write=--write
    shift
fi
archive=${1:-target/staticlib/libmmu.a}
out=target/c/tests/dump
cc=${CC:-gcc}
strict="-std=c99 -Wall -Wextra -pedantic -Werror -Iinclude"
sanitize="-g -O1 -fsanitize=address,undefined -fno-sanitize-recover=all"

if [ ! -f "$archive" ]; then
    echo "tests/dump/run.sh: no archive $archive; run make first" >&2
    exit 1
fi
rm -rf "$out"
mkdir -p "$out/random" "$out/bad" "$out/flaws" "$out/example"

# build NAME FLAGS: mmu-dump, linked with the archive.
build() {
    # shellcheck disable=SC2086
    $cc $strict -Wconversion $2 -Idump "-I$out" dump/*.c "$archive" -o "$out/$1"
}

# says LABEL COMMAND..: the command's last line where it is done, all that it writes where it fails.
says() {
    local label=$1
    shift
    if nice "$@" > "$out/log" 2>&1; then
        echo "ok   $label: $(tail -n 1 "$out/log")"
    else
        cat "$out/log"
        echo "FAIL $label"
        exit 1
    fi
}

sed -f dump/page.sed dump/page.html > "$out/page.h"
build mmu-dump -O2
build mmu-dump-asan "$sanitize"
# shellcheck disable=SC2086
$cc $strict $sanitize examples/write_dumps.c "$archive" -o "$out/write_dumps"
"$out/write_dumps" "$out/example/before" "$out/example/after"

(cd tests && cargo build --release --offline --locked --quiet --jobs 1 -p dumps)
tests/target/release/dumps "$out/random" 1000

export PYTHONDONTWRITEBYTECODE=1
says "the model" python3 tests/dump/compare.py "$out/mmu-dump" "$out/random" 150
says "AddressSanitizer" python3 tests/dump/compare.py "$out/mmu-dump-asan" "$out/random" --turns
says "bad input, AddressSanitizer" python3 tests/dump/errors.py "$out/mmu-dump-asan" "$out/bad"
# shellcheck disable=SC2086
says "docs/DUMPS.md" python3 tests/dump/document.py $write "$out/mmu-dump" "$out/example"
if [ -n "$write" ]; then
    says "page, AddressSanitizer" python3 tests/dump/page.py "$out/mmu-dump-asan" "$out/random" --picture docs/mmu-dump.png \
        "$out/example/after"
else
    says "page, AddressSanitizer" python3 tests/dump/page.py "$out/mmu-dump-asan" "$out/random"
fi
says "wrong programs" python3 tests/dump/flaws.py "$archive" "$out/random" "$out/flaws"
rm -rf "$out/random"
echo "mmu-dump tests passed"
