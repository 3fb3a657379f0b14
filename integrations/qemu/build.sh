#!/usr/bin/env bash
# make qemu: fetches Debian's QEMU source, builds it as it is and with the library, all under target/qemu.
# usage: integrations/qemu/build.sh [ARCHIVE]
set -euo pipefail
# shellcheck source=integrations/qemu/apt.sh
. "$(dirname "${BASH_SOURCE[0]}")/apt.sh"
archive=$(realpath "${1:-$top/target/staticlib/libmmu.a}")
source=$out/source
build=$out/build
trap 'echo "make qemu: failed" >&2' ERR
# What a make above this says is not meant for the makes below.
unset MAKEFLAGS

echo "== QEMU with the library: fetches 60 MB, takes 0.7 GB of disk and as a rule 5 minutes on two idle cores"
began=$SECONDS
room 1000
need dpkg-dev meson ninja-build pkg-config gcc make python3 libglib2.0-dev libpixman-1-dev libfdt-dev zlib1g-dev \
    flex bison

fetch() {
    [ ! -e "$source" ] || return 0
    open_lists
    rm -rf "$out/fetched" && mkdir -p "$out/fetched"
    (cd "$out/fetched" && private_apt source qemu >fetch.log)
    mv "$out/fetched"/qemu-*/ "$source"
    rm -rf "$out/fetched"
}

# The header, the archive and its pkg-config file, as any user of the library has them.
install_library() {
    "$top/tools/locked.sh" make -s -C "$top" install PREFIX="$out/mmu" LIBDIR="$out/mmu/lib" \
        INCLUDEDIR="$out/mmu/include" DESTDIR='' ARCHIVE="$archive"
}

# Only the emulated machine, its processor and a serial line: whatever else QEMU can do is left out of the build.
configure_build() {
    [ ! -e "$build/build.ninja" ] || return 0
    rm -rf "$build" && mkdir -p "$build"
    (cd "$build" && "$source/configure" --target-list=ppc-softmmu --without-default-features --enable-system \
        --enable-tcg --enable-fdt=system --disable-werror --disable-docs --disable-install-blobs >configure.log 2>&1) \
        || { tail -n 20 "$build/configure.log" >&2; return 1; }
}

# compile NAME: the emulator as the source stands, kept under a name.
compile() {
    ninja -C "$build" -j"$(nproc)" qemu-system-ppc >"$out/compile.log" 2>&1 \
        || { tail -n 30 "$out/compile.log" >&2; return 1; }
    cp "$build/qemu-system-ppc" "$out/$1"
}

fetch
install_library
export PKG_CONFIG_PATH="$out/mmu/lib/pkgconfig"
configure_build
[ -e "$out/qemu-stock" ] || compile qemu-stock
python3 "$top/integrations/qemu/hook.py" "$source"
# The archive is no source file of QEMU's, so a new one alone would not link again.
[ ! "$archive" -nt "$out/qemu-library" ] || rm -f "$build/qemu-system-ppc"
compile qemu-library
unpack_package qemu-system-data "$out/firmware"
echo "== built from Debian's QEMU $(dpkg-parsechangelog -l "$source/debian/changelog" -S Version):" \
    "target/qemu/qemu-stock, target/qemu/qemu-library, in $((SECONDS - began)) s"
