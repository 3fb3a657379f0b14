#!/bin/sh
# Proves the crates and compiles them to target/staticlib/libmmu.a; what rt says goes to a log. The archive is that of the
# static library mmu_c, under the name by which C programs link it.
#
#   archive.sh [RT]
#
# In the gate PROVED_SINCE names a file, and what is newer was proved and built by the `rt ci` of that gate: then the
# archive is compiled over those libraries (tools/proved_archive.py), which `rt lib` would prove once more.
set -eu
cd "$(dirname "$0")/.."
rt=${1:-rt}
log=target/staticlib.log
# The code runs on every x86-64; the kit's own default asks for more.
cpu=x86-64

tools/need_rt.sh "$rt"
rt=$(command -v "$rt")
case $rt in
*/*) rt=$(cd "$(dirname "$rt")" && pwd)/$(basename "$rt") ;;
esac
mkdir -p target/staticlib
if [ -n "${PROVED_SINCE:-}" ] && python3 tools/proved_archive.py "$rt" "$cpu" "$PROVED_SINCE" > "$log" 2>&1; then
    echo "compiled the archive over the libraries that rt ci has proved; what was said is in $log"
else
    echo "rt lib in crates/mmu_c: proves what is not proved yet and compiles the archive; its lines go to $log"
    if ! (cd crates/mmu_c && "$rt" lib --cpu "$cpu") > "$log" 2>&1; then
        tail -n 20 "$log" >&2
        echo "rt lib failed in crates/mmu_c; $log has all that it said" >&2
        exit 1
    fi
fi
# A new file, so that make sees its time.
cp crates/mmu_c/out/libmmu_c.a target/staticlib/libmmu.a.new
mv target/staticlib/libmmu.a.new target/staticlib/libmmu.a
