#!/usr/bin/env bash
# The C side under AddressSanitizer and valgrind: header, bad input, examples, agreement with plain C on random calls.
#
#   tests/c/run.sh [ARCHIVE]
set -euo pipefail
cd "$(dirname "${BASH_SOURCE[0]}")/../.."

archive=${1:-target/staticlib/libmmu.a}
out=target/c/tests
cc=${CC:-gcc}
cxx=${CXX:-g++}
strict="-Wall -Wextra -pedantic -Werror -Iinclude"
sanitize="-g -O1 -fsanitize=address,undefined -fno-sanitize-recover=all"

if [ ! -f "$archive" ]; then
    echo "tests/c/run.sh: no archive $archive; run make first" >&2
    exit 1
fi
mkdir -p "$out"

# build NAME FLAGS SOURCE..: a C99 program linked with the archive.
build() {
    local name=$1 flags=$2
    shift 2
    # shellcheck disable=SC2086
    $cc -std=c99 $strict -Ibench $flags "$@" "$archive" -o "$out/$name"
}

# quiet LABEL COMMAND..: shows what the command writes only where it fails.
quiet() {
    local label=$1
    shift
    if nice "$@" > "$out/log" 2>&1; then
        echo "ok   $label"
    else
        cat "$out/log"
        echo "FAIL $label"
        exit 1
    fi
}

memcheck=(valgrind --quiet --error-exitcode=9 --leak-check=full)

# One text as each language version; -x names the language, and none again for the archive.
for version in c99 c11 c++11 c++20; do
    case $version in
    c++*) compiler="$cxx -x c++" ;;
    *) compiler="$cc -x c" ;;
    esac
    # shellcheck disable=SC2086
    $compiler -std=$version $strict -Wconversion $sanitize tests/c/header.c -x none "$archive" -o "$out/header_$version"
    quiet "header as $version" "$out/header_$version"
done

build bad_input_asan "$sanitize" tests/c/bad_input.c
build bad_input "-g -O1" tests/c/bad_input.c
quiet "bad input, AddressSanitizer" "$out/bad_input_asan" 5000
quiet "bad input, valgrind" "${memcheck[@]}" "$out/bad_input" 500

for example in frame_reuse core cached tlb; do
    build "${example}_asan" "$sanitize" "examples/$example.c"
    build "$example" "-g -O1" "examples/$example.c"
    quiet "examples/$example.c, AddressSanitizer" "$out/${example}_asan"
    quiet "examples/$example.c, valgrind" "${memcheck[@]}" "$out/$example"
done

build agree_asan "$sanitize" bench/agree.c bench/plain.c
build agree "-g -O1" bench/agree.c bench/plain.c
quiet "random calls beside plain C, AddressSanitizer" "$out/agree_asan" -s 20000 7
quiet "random calls beside plain C, valgrind" "${memcheck[@]}" "$out/agree" -s 1000 8
echo "C tests passed"
