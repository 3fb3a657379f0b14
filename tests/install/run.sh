#!/usr/bin/env bash
# make install and uninstall in temporary folders; the installed library used by pkg-config and by a CMake project,
# mmu-dump and its manual page.
#
#   tests/install/run.sh [ARCHIVE]
set -euo pipefail
cd "$(dirname "${BASH_SOURCE[0]}")/../.."

archive=${1:-target/staticlib/libmmu.a}
if [ ! -f "$archive" ]; then
    echo "tests/install/run.sh: no archive $archive; run make first" >&2
    exit 1
fi
# What a make above this, or the environment, says of folders is not meant for the makes below.
unset MAKEFLAGS PREFIX LIBDIR INCLUDEDIR BINDIR MANDIR DESTDIR

work=$(mktemp -d)
trap 'rm -rf "$work"' EXIT
version=$(sed -n 's/^VERSION := //p' Makefile)
minor=${version%.*}

fail() {
    echo "FAIL $*"
    exit 1
}

# run LABEL COMMAND..: shows what the command writes only where it fails.
run() {
    local label=$1
    shift
    if ! "$@" > "$work/log" 2>&1; then
        cat "$work/log"
        fail "$label"
    fi
}

# refused LABEL COMMAND..: the command must fail.
refused() {
    local label=$1
    shift
    if "$@" > "$work/log" 2>&1; then
        cat "$work/log"
        fail "not refused: $label"
    fi
}

files_of() {
    (cd "$1" && find . -type f | sort)
}

# cmake_project FOLDER PREFIX VERSION: configures the project against what is installed under PREFIX.
cmake_project() {
    cmake -S tests/install -B "$1" -DCMAKE_PREFIX_PATH="$2" -DWANTED="$3"
}

# have TOOL: whether a tool is here; what goes without it is said.
have() {
    command -v "$1" >/dev/null && return 0
    echo "--   left out, since $1 is not here: $2"
    return 1
}

lib=./usr/lib/x86_64-linux-gnu
folders=(PREFIX=/usr LIBDIR=/usr/lib/x86_64-linux-gnu "DESTDIR=$work/stage" "ARCHIVE=$archive")

# Installed below DESTDIR, with another LIBDIR: which files, and what they name.
staged_install() {
    run "make install" make install "${folders[@]}"
    wanted=$(printf '%s\n' ./usr/bin/mmu-dump ./usr/include/mmu.h "$lib/cmake/mmu/mmuConfig.cmake" "$lib/cmake/mmu/mmuConfigVersion.cmake" \
        "$lib/libmmu.a" "$lib/pkgconfig/mmu.pc" ./usr/share/man/man1/mmu-dump.1)
    [ "$(files_of "$work/stage")" = "$wanted" ] || fail "other files than these: $wanted"
    run "same archive" cmp "$archive" "$work/stage/$lib/libmmu.a"
    run "same header" cmp include/mmu.h "$work/stage/usr/include/mmu.h"
    refused "a file names DESTDIR" grep -r --include='*.pc' --include='*.cmake' "$work" "$work/stage"
    refused "a file with a word that was not filled in" grep -rE --include='*.pc' --include='*.cmake' '@[A-Z_]+@' "$work/stage"
    run "pkg-config file names LIBDIR" grep -x 'libdir=/usr/lib/x86_64-linux-gnu' "$work/stage/$lib/pkgconfig/mmu.pc"
    [ "$("$work/stage/usr/bin/mmu-dump" --version)" = "mmu-dump $minor" ] || fail "version of mmu-dump"
    run "same manual page" cmp dump/mmu-dump.1 "$work/stage/usr/share/man/man1/mmu-dump.1"
    echo "ok   make install with DESTDIR and LIBDIR"
}

# The tree below DESTDIR serves a CMake project where it stands, and no project that asks for another version.
staged_cmake() {
    have cmake "the CMake project" || return 0
    run "CMake below DESTDIR" cmake_project "$work/staged" "$work/stage/usr" "$minor"
    run "CMake build" cmake --build "$work/staged"
    run "the program" "$work/staged/program"
    refused "the next minor version" cmake_project "$work/next" "$work/stage/usr" "${minor%.*}.$((${minor#*.} + 1))"
    refused "an older minor version" cmake_project "$work/older" "$work/stage/usr" "${minor%.*}.$((${minor#*.} - 1))"
    refused "a later patch" cmake_project "$work/patch" "$work/stage/usr" "$minor.99"
    run "this version" cmake_project "$work/exact" "$work/stage/usr" "$version"
    echo "ok   CMake: find_package(mmu $minor), and not of another version"
}

staged_uninstall() {
    run "make uninstall" make uninstall "${folders[@]}"
    [ -z "$(files_of "$work/stage")" ] || fail "make uninstall leaves $(files_of "$work/stage")"
    [ ! -e "$work/stage/$lib/cmake/mmu" ] || fail "make uninstall leaves its folder"
    run "make uninstall where nothing is" make uninstall "${folders[@]}"
    echo "ok   make uninstall"
}

# Installed for use, with the folders that PREFIX alone gives.
used() {
    run "make install" make install "PREFIX=$work/opt" "ARCHIVE=$archive"
    export PKG_CONFIG_PATH="$work/opt/lib/pkgconfig"
    if have pkg-config "its file"; then
        [ "$(pkg-config --modversion mmu)" = "$version" ] || fail "version of pkg-config"
        # shellcheck disable=SC2046
        run "pkg-config" "${CC:-gcc}" -std=c99 -Wall -Wextra -pedantic -Werror tests/install/program.c \
            $(pkg-config --cflags --libs mmu) -o "$work/program"
        run "the program" "$work/program"
        echo "ok   pkg-config with PREFIX alone"
    fi
    have cmake "the CMake project" || return 0
    run "CMake" cmake_project "$work/used" "$work/opt" "$minor"
    run "CMake build" cmake --build "$work/used"
    run "the program" "$work/used/program"
    echo "ok   CMake with PREFIX alone"
}

staged_install
staged_cmake
staged_uninstall
used
