#!/bin/sh
# Fetches and builds a program nobody here wrote, for this machine and for PowerPC: FOLDER/NAME.native, FOLDER/NAME.ppc
#
#   program.sh minigzip|bzip2|lua FOLDER
set -eu
here=$(cd "$(dirname "$0")" && pwd)
name=$1
mkdir -p "$2"
folder=$(cd "$2" && pwd)
libraries=
case $name in
minigzip)
    package=zlib flags="-DHAVE_UNISTD_H -I."
    files="test/minigzip.c adler32.c compress.c crc32.c deflate.c gzclose.c gzlib.c gzread.c gzwrite.c infback.c
        inffast.c inflate.c inftrees.c trees.c uncompr.c zutil.c" ;;
bzip2)
    package=bzip2 flags=
    files="bzip2.c blocksort.c huffman.c crctable.c randtable.c compress.c decompress.c bzlib.c" ;;
lua)
    package=lua5.4 flags="-Isrc" libraries=-lm
    files="src/l*.c" ;;
*)
    echo "program.sh: no program $name" >&2
    exit 1 ;;
esac
"$here/../install.sh" gcc libc6-dev bzip2 xz-utils gcc-powerpc-linux-gnu libc6-dev-powerpc-cross
"$here/fetch.sh" "$package" "$folder"
[ ! -f "$folder/$name.ppc" ] || exit 0
cd "$folder/$package"
[ "$name" != lua ] || rm -f src/luac.c
# shellcheck disable=SC2086
gcc -O2 -w $flags -o "$folder/$name.native" $files $libraries
# shellcheck disable=SC2086
powerpc-linux-gnu-gcc -O2 -w -static $flags -o "$folder/$name.new" $files $libraries
mv "$folder/$name.new" "$folder/$name.ppc"
