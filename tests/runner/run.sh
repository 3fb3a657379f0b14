#!/usr/bin/env bash
# The runner: its supervisor alone, programs of our own and minigzip over the library, forbidden acts, bad input, and
# wrong runners, each of which must be told.
#
#   tests/runner/run.sh [ARCHIVE]
set -euo pipefail
cd "$(dirname "${BASH_SOURCE[0]}")/../.."

archive=${1:-target/staticlib/libmmu.a}
if [ ! -f "$archive" ]; then
    echo "tests/runner/run.sh: no archive $archive; run make first" >&2
    exit 1
fi
runner/install.sh gcc libc6-dev libunicorn-dev gcc-powerpc-linux-gnu libc6-dev-powerpc-cross python3
out=target/c/runner/tests
mkdir -p "$out"
sanitize="-g -O1 -fsanitize=address,undefined -fno-sanitize-recover=all"
# Unicorn keeps what it has allocated until the end.
export ASAN_OPTIONS=detect_leaks=0

fail() {
    echo "FAIL $*"
    exit 1
}

build_all() {
    runner/build.sh "$out/runner" "$archive"
    # shellcheck disable=SC2086
    runner/build.sh "$out/runner_asan" "$archive" $sanitize
    # shellcheck disable=SC2086
    gcc -std=c99 -Wall -Wextra -pedantic -Werror $sanitize -Iinclude -Irunner tests/runner/supervisor.c \
        runner/supervisor.c "$archive" -o "$out/supervisor"
    gcc -O2 -Wall -Wextra -Werror tests/runner/operands.c -o "$out/operands.native"
    for program in operands forbidden edges; do
        powerpc-linux-gnu-gcc -O2 -static -Wall -Wextra -Werror "tests/runner/$program.c" -o "$out/$program.ppc"
    done
    echo "ok   built without a warning"
}

supervisor_alone() {
    ASAN_OPTIONS=detect_leaks=1 "$out/supervisor" > "$out/log" 2>&1 || { cat "$out/log"; fail "the supervisor alone"; }
    echo "ok   the supervisor without an emulator, AddressSanitizer"
}

# count FILE NAME: one of the counts that a run wrote.
count() {
    sed -n "s/^$2 //p" "$1"
}

# same_pages A B: the runs of two ways of asking brought, took and wrote the same pages.
same_pages() {
    cmp -s <(grep -v _asked "$1") <(grep -v _asked "$2") || fail "other pages: $(diff "$1" "$2")"
}

# Unaligned operands over page edges, copy on write, mprotect, dcbz: each in three sizes of memory, both ways of asking.
operands() {
    local runner rounds
    for frames in 12 40 200; do
        for runner in runner_asan runner; do
            rounds=$([ $runner = runner ] && echo 20000 || echo 3000)
            "$out/operands.native" "$rounds" > "$out/expected"
            "$out/$runner" -f "$frames" -c "$out/counts" "$out/operands.ppc" "$rounds" > "$out/got" \
                || fail "operands, $frames frames"
            cmp "$out/got" "$out/expected" || fail "operands, $frames frames: another output than the native build"
            "$out/$runner" -e -f "$frames" -c "$out/counts_e" "$out/operands.ppc" "$rounds" > "$out/got" \
                || fail "operands -e, $frames frames"
            cmp "$out/got" "$out/expected" || fail "operands -e, $frames frames: another output than the native build"
            same_pages "$out/counts" "$out/counts_e"
        done
        [ "$(count "$out/counts" copies_on_write)" -ge 8 ] || fail "operands: no copies on write"
        [ "$(count "$out/counts_e" fetches_asked)" -gt 1000000 ] || fail "operands -e: not every fetch was asked"
    done
    echo "ok   operands over page edges and copy on write in 12, 40 and 200 frames, asked both ways, AddressSanitizer"
}

# Copies at once, in turns, over one table: VSIDs that fill groups, and spread ones.
copies() {
    for vsids in "-n" ""; do
        rm -f "$out"/copy.*
        # shellcheck disable=SC2086
        "$out/runner" $vsids -p 10 -f 250 -o "$out/copy" -c "$out/counts" "$out/operands.ppc" 3000 || fail "copies"
        "$out/operands.native" 3000 > "$out/expected"
        for i in 0 1 2 3 4 5 6 7 8 9; do
            cmp "$out/copy.$i" "$out/expected" || fail "copy $i ($vsids): another output than the native build"
        done
        if [ "$vsids" = -n ]; then
            [ "$(count "$out/counts" maps_into_secondary)" -gt 100 ] || fail "copies: no secondary groups"
        fi
    done
    echo "ok   ten copies at once, with plain and with spread VSIDs"
}

# Each instruction asks once for its whole operand, within a page and over an edge: loads and stores of 1,000 of them.
edges() {
    local offset row number name loads stores
    for offset in 0016 4094; do
        "$out/runner" -e -f 200 -c "$out/counts" "$out/edges.ppc" 00 "$offset"
        for row in 01:lhz:1000:0 02:sth:0:1000 03:lwz:1000:0 04:stw:0:1000 05:lfd:1000:0 06:stfd:0:1000 07:lmw:1000:0 \
            08:stmw:0:1000 09:lswi:1000:0 10:stswi:0:1000 11:lswx:1000:0 12:stswx:0:1000 13:dcbz:0:1000 \
            14:stwcx.:2000:1000 15:dcbst:1000:0 16:dcbt:0:0; do
            IFS=: read -r number name loads stores <<< "$row"
            if [ "$offset$name" = 4094stwcx. ]; then continue; fi # it must be aligned
            "$out/runner" -e -f 200 -c "$out/counts_e" "$out/edges.ppc" "$number" "$offset"
            loads=$(($(count "$out/counts_e" loads_asked) - $(count "$out/counts" loads_asked) - loads))
            stores=$(($(count "$out/counts_e" stores_asked) - $(count "$out/counts" stores_asked) - stores))
            [ "$loads$stores" = 00 ] || fail "$name at $offset: $loads loads and $stores stores too many"
        done
    done
    echo "ok   sixteen instructions ask once for their whole operand, within a page and over an edge"
}

address_of() {
    printf '%08X' "0x$(powerpc-linux-gnu-nm "$out/forbidden.ppc" | sed -n "s/^\([0-9a-f]*\) . $1\$/\1/p")"
}

# group_of ADDRESS: the primary group of program 0's page with plain VSIDs: the segment's number xor the page index.
group_of() {
    printf '%03X' $(((0x$1 >> 28 ^ (0x$1 >> 12 & 0xFFFF)) & 0x3FF))
}

# forbidden ACT SENTENCE: the act ends the program with status 139 and this sentence, both ways of asking.
forbidden() {
    local runner
    for runner in runner "runner -e" runner_asan; do
        status=0
        # shellcheck disable=SC2086
        $out/$runner -n "$out/forbidden.ppc" "$1" > "$out/got" 2> "$out/said" || status=$?
        [ "$status" = 139 ] || fail "forbidden $1: status $status"
        [ "$(cat "$out/said")" = "runner: program 0 ended: $2" ] || fail "forbidden $1: $(cat "$out/said"), and not: $2"
    done
}

forbidden_acts() {
    local text data constants
    text=$(address_of main) data=$(address_of some_data) constants=$(address_of some_constants)
    "$out/runner" -n "$out/forbidden.ppc" || fail "forbidden without an act"
    forbidden text "store to $text: DSI, DSISR 0A000000 by rule 5, page protection: key 1 and PP 3, entry 0 of group \
$(group_of "$text"), instruction at $(address_of store_text)"
    forbidden constants "store to ${constants%0}5: DSI, DSISR 0A000000 by rule 5, page protection: key 1 and PP 3, \
entry 0 of group $(group_of "$constants"), instruction at $(address_of store_constants)"
    forbidden dcbz "store to ${constants%00}20: DSI, DSISR 0A000000 by rule 5, page protection: key 1 and PP 3, \
entry 0 of group $(group_of "$constants"), instruction at $(address_of store_dcbz)"
    forbidden zero "store to 00000000: DSI, DSISR 42000000 by rule 3, no match, instruction at $(address_of store_zero)"
    forbidden edge "store to 30001000: DSI, DSISR 42000000 by rule 3, no match, instruction at $(address_of store_edge)"
    forbidden data "fetch from $data: ISI, SRR1 10000000 by rule 4, guarded: G, entry 0 of group $(group_of "$data"), \
instruction at $data"
    forbidden stack "fetch from 7FFFF100: ISI, SRR1 10000000 by rule 2, no-execute: N of segment register 7, \
instruction at 7FFFF100"
    forbidden none "load from 30000000: DSI, DSISR 08000000 by rule 5, page protection: key 1 and PP 0, entry 0 of \
group $(group_of 30000000), instruction at $(address_of load_none)"
    echo "ok   eight forbidden acts end with the expected sentence and record"
}

# -v: a line for each fault, with its rule.
verbose() {
    "$out/runner" -v -f 12 -c "$out/counts" "$out/operands.ppc" 2000 > "$out/got" 2> "$out/said"
    for pair in no_match:3 protection:5 no_execute:2; do
        faults=$(count "$out/counts" "faults_${pair%:*}")
        lines=$(grep -c "^fault of program 0: .* by rule ${pair#*:}, " "$out/said" || true)
        [ "$faults" = "$lines" ] || fail "-v: $faults faults ${pair%:*}, $lines lines"
    done
    echo "ok   -v: a line for each fault"
}

# bad SENTENCE ARGUMENTS..: one sentence and a status other than 0.
bad() {
    local wanted=$1 runner
    shift
    for runner in runner runner_asan; do
        if "$out/$runner" "$@" > "$out/got" 2> "$out/said"; then fail "bad input taken: $*"; fi
        [ "$(cat "$out/said")" = "runner: $wanted" ] || fail "bad input $*: $(cat "$out/said"), and not: $wanted"
    done
}

bad_input() {
    head -c 300 "$out/edges.ppc" > "$out/cut"
    head -c 60 "$out/edges.ppc" > "$out/headless"
    powerpc-linux-gnu-gcc -O2 tests/runner/edges.c -o "$out/dynamic.ppc" -no-pie
    : > "$out/empty"
    bad "$out/nowhere: No such file or directory" "$out/nowhere"
    bad "$out: Is a directory" "$out"
    bad "$out/empty is no 32-bit big-endian PowerPC program" "$out/empty"
    bad "$out/operands.native is no 32-bit big-endian PowerPC program" "$out/operands.native"
    bad "tests/runner/edges.c is no 32-bit big-endian PowerPC program" tests/runner/edges.c
    bad "$out/headless: its program headers are not whole" "$out/headless"
    bad "$out/cut: segment 0 does not fit" "$out/cut"
    bad "$out/dynamic.ppc is not linked statically" "$out/dynamic.ppc"
    bad "-f 3: a number from 4 to 16384 is wanted" -f 3 "$out/edges.ppc"
    bad "-f many: a number from 4 to 16384 is wanted" -f many "$out/edges.ppc"
    bad "-p 65: a number from 1 to 64 is wanted" -p 65 "$out/edges.ppc"
    bad "-m 5: a mask has ones only at its low end" -m 5 "$out/edges.ppc"
    bad "several programs need -o" -p 2 "$out/edges.ppc"
    bad "$out/nowhere: No such file or directory" -i "$out/nowhere" "$out/edges.ppc"
    bad "program 0 ended: system call 999 is not made" "$out/forbidden.ppc" call
    truncate -s 17M "$out/large"
    bad "$out/large has 16 MB or more" "$out/large"
    if "$out/runner" "$out/operands.ppc" 10 > /dev/full 2> "$out/said"; then fail "a lost output is not told"; fi
    [ "$(cat "$out/said")" = "runner: the output of program 0 cannot be written" ] || fail "full: $(cat "$out/said")"
    if "$out/runner" 2> "$out/said"; then fail "no program is taken"; fi
    grep -q '^runner \[OPTIONS\] PROGRAM' "$out/said" || fail "no usage: $(cat "$out/said")"
    echo "ok   bad input: one sentence and a status other than 0"
}

minigzip() {
    local runner
    runner/demo/program.sh minigzip target/c/runner/programs > "$out/log" 2>&1 \
        || { cat "$out/log"; fail "minigzip cannot be fetched and built"; }
    head -c 60000 target/c/runner/programs/zlib/deflate.c > "$out/text"
    target/c/runner/programs/minigzip.native < "$out/text" > "$out/expected"
    for runner in runner runner_asan; do
        "$out/$runner" -f 64 -i "$out/text" target/c/runner/programs/minigzip.ppc > "$out/got" || fail "minigzip"
        cmp "$out/got" "$out/expected" || fail "minigzip: another output than the native build"
    done
    echo "ok   minigzip in 64 frames, AddressSanitizer"
}

# The blocks of C in docs/RUNNER.md stand in the supervisor.
documented() {
    python3 - <<'PYTHON' || fail "docs/RUNNER.md shows other code than runner/supervisor.c"
import re, sys
blocks = re.findall(r"```c\n(.*?)```", open("docs/RUNNER.md").read(), re.S)
source = open("runner/supervisor.c").read()
sys.exit(0 if len(blocks) >= 3 and all(block in source for block in blocks) else 1)
PYTHON
    echo "ok   the code in docs/RUNNER.md"
}

build_all
documented
supervisor_alone
operands
copies
edges
forbidden_acts
verbose
bad_input
minigzip
python3 tests/runner/wrong_runners.py "$(realpath "$archive")" "$out"
echo "runner tests passed"
