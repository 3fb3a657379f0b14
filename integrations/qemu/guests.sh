#!/usr/bin/env bash
# The guests, under target/qemu/guests: two programs without an operating system, and Debian's Linux source built for a
# PowerMac with two more as its first file system.
# usage: integrations/qemu/guests.sh [faults|refusals]    with a word: without Linux
set -euo pipefail
# shellcheck source=integrations/qemu/apt.sh
. "$(dirname "${BASH_SOURCE[0]}")/apt.sh"
here=$top/integrations/qemu
kernel=$out/linux
cross=powerpc-linux-gnu-
trap 'echo "the guests were not built" >&2' ERR
# What a make above this says is not meant for Linux's.
unset MAKEFLAGS

# They stand where the firmware does, with the first instruction at the reset vector.
build_bare() {
    local name
    mkdir -p "$out/guests"
    for name in faults refusals; do
        ${cross}gcc -nostdlib -static -Wl,-Ttext=0xfff00000,-e,0xfff00100,--build-id=none "$here/guests/$name.S" \
            -o "$out/guests/$name"
    done
}

fetch() {
    [ ! -e "$kernel" ] || return 0
    unpack_package linux-source-6.1 "$out/linux-package"
    rm -rf "$kernel.part" && mkdir -p "$kernel.part"
    tar -xf "$out/linux-package/usr/src/linux-source-6.1.tar.xz" -C "$kernel.part" --strip-components=1
    mv "$kernel.part" "$kernel"
}

kernel_make() {
    make -s -C "$kernel" -j"$(nproc)" ARCH=powerpc CROSS_COMPILE=$cross "$@" >"$out/linux.log" 2>&1 \
        || { tail -n 30 "$out/linux.log" >&2; return 1; }
}

build_kernel() {
    if [ ! -e "$kernel/.config" ] || [ "$here/linux.config" -nt "$kernel/.config" ]; then
        kernel_make KCONFIG_ALLCONFIG="$here/linux.config" allnoconfig
    fi
    kernel_make vmlinux
}

# The same source for the host: its run says what the sums of the guest's passes must be.
build_programs() {
    local name
    mkdir -p "$out/guests"
    for name in guest lkdtm; do
        ${cross}gcc -std=gnu99 -Wall -Wextra -O2 -static "$here/guests/$name.c" -o "$out/guests/$name"
    done
    gcc -std=gnu99 -Wall -Wextra -O2 "$here/guests/guest.c" -o "$out/guests/passes"
    {
        echo "dir /dev 755 0 0"
        echo "nod /dev/console 600 0 0 c 5 1"
        echo "file /guest $out/guests/guest 755 0 0"
        echo "file /lkdtm $out/guests/lkdtm 755 0 0"
    } > "$out/guests/list"
    "$kernel/usr/gen_init_cpio" "$out/guests/list" > "$out/guests/files.cpio"
}

need gcc gcc-powerpc-linux-gnu
build_bare
case ${1:-} in
faults | refusals) exit 0 ;;
esac

[ -e "$kernel/vmlinux" ] || {
    echo "== Linux for the guest: fetches 140 MB, takes 1.7 GB of disk and as a rule 5 minutes on two idle cores"
    room 2500
}
need make libc6-dev-powerpc-cross flex bison bc cpio xz-utils libelf-dev
fetch
build_kernel
build_programs
echo "== the guests: Linux $(make -s -C "$kernel" kernelversion) of Debian's linux-source-6.1" \
    "$(cat "$out/linux-package.version")"
