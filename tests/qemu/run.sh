#!/usr/bin/env bash
# The glue of integrations/qemu without QEMU: against names of our own, with a test program in QEMU's place, under
# AddressSanitizer; and wrong variants of the glue, each of which the test has to notice.
#
#   tests/qemu/run.sh [ARCHIVE]
set -euo pipefail
cd "$(dirname "${BASH_SOURCE[0]}")/../.."

archive=${1:-target/staticlib/libmmu.a}
glue=integrations/qemu
out=target/c/tests/qemu
vectors=(tests/vectors/qemu-750.txt tests/vectors/qemu-970-fetch.txt)
if [ ! -f "$archive" ]; then
    echo "tests/qemu/run.sh: no archive $archive; run make first" >&2
    exit 1
fi
rm -rf "$out" && mkdir -p "$out"

# build FOLDER PROGRAM FLAG..: the test with the glue of a folder.
build() {
    local folder=$1 program=$2
    shift 2
    "${CC:-gcc}" -std=c99 -D_POSIX_C_SOURCE=200809L -Wall -Wextra -pedantic -Werror "$@" -Iinclude -Itests/qemu/names \
        -I"$folder" tests/qemu/*.c "$folder"/mmu-*.c "$archive" -o "$program"
}

fail() {
    echo "FAIL $*"
    exit 1
}

# says FILE TEXT: a line of the report, as it must be.
says() {
    grep -qE "$2" "$1" || { cat "$1"; fail "the report does not say: $2"; }
}

# test_with PROGRAM: all that the program checks, and what the reports say of it.
test_with() {
    PPC_MMU_LOG=$out/own "$1" own || return 1
    PPC_MMU_LOG=$out/library "$1" library "${vectors[@]}" || return 1
    says "$out/library" '^unexplained differences +0$'
    PPC_MMU_LOG=$out/vectors "$1" both "${vectors[@]}" || return 1
    says "$out/vectors" '^compared with QEMU.s code 517 accesses, equal 517;'
    says "$out/vectors" '^unexplained differences +0$'
    PPC_MMU_LOG=$out/both "$1" both || return 1
    says "$out/both" '^known fault of QEMU: fetch from a guarded page: 1$'
    says "$out/both" '^UNEXPLAINED: TLB after a load by page done: QEMU lets store; library 64 0a000000: 1$'
    says "$out/both" '^UNEXPLAINED: TLB after a load by page done: QEMU withholds store; library 0 00000000: 1$'
    says "$out/both" '^UNEXPLAINED: the kept register page is not the processor.s: 1$'
    says "$out/both" '^UNEXPLAINED: store: QEMU 64 0a000000, library 0 00000000 by page done: 1$'
    says "$out/both" '^UNEXPLAINED: the table changed elsewhere: 1$'
    says "$out/both" '^unexplained differences +11$'
}

build "$glue" "$out/glue" -g -O1 -fsanitize=address,undefined -fno-sanitize-recover=all
(test_with "$out/glue") || exit 1
echo "ok   the glue: answers, marks, dirty log, rights, refusals, register stores, comparison"

# noticed NAME FILE OLD NEW: the test with a text of the glue replaced must fail.
noticed() {
    rm -rf "$out/wrong" && mkdir -p "$out/wrong"
    cp "$glue"/mmu-*.[ch] "$out/wrong/"
    python3 - "$out/wrong/$2" "$3" "$4" <<'END'
import sys
name, old, new = sys.argv[1:]
text = open(name, encoding="utf-8").read()
if text.count(old) != 1:
    sys.exit(f"{name}: found {text.count(old)} times: {old}")
open(name, "w", encoding="utf-8").write(text.replace(old, new))
END
    build "$out/wrong" "$out/wrong/glue" -O1
    if (test_with "$out/wrong/glue") > "$out/wrong/log" 2>&1; then
        fail "not noticed: $1"
    fi
}

noticed "dirty log not told of R" mmu-glue.c "if (q->marks != 0)" "if (q->marks > MMU_SECOND_R)"
noticed "dirty log told of the group's first entry" mmu-glue.c "q->answer.group, q->answer.entry)" "q->answer.group, 0)"
noticed "a right that would still mark" mmu-glue.c "&& !(marks_of(q, kind) & ~q->marks)" ""
noticed "marks for an unseen access" mmu-glue.c "guest_visible && q->result == MMU_DONE ?" "q->result == MMU_DONE ?"
noticed "no falling back" mmu-glue.c "return !mmu_question_refused(q);" "return true;"
noticed "a table lent in part" mmu-glue.c "length < q->table_size" "length == 0"
noticed "four pairs of eight" mmu-glue.c "pairs = wide ? 8 : 4" "pairs = 4"
noticed "a page that does not follow other stores" mmu-glue.c "|| which != MMU_GLUE_SEGMENT" ""
noticed "DSISR without the cause" mmu-glue.c "env->spr[SPR_DSISR] = q->answer.fault" "env->spr[SPR_DSISR] = 0"
noticed "stores taken for loads" mmu-glue.c "MMU_DATA_STORE ? MMU_STORE" "MMU_DATA_STORE ? MMU_LOAD"
noticed "QEMU's marks left" mmu-compare.c "memcpy(q->table + own->groups[i], own->before[i], MMU_GROUP_SIZE);" ""
noticed "every difference known" mmu-compare.c "return CLASS_UNEXPLAINED;" "return CLASS_KNOWN;"
noticed "every right known" mmu-compare.c "!known ? CLASS_UNEXPLAINED" "!known && !lets ? CLASS_UNEXPLAINED"
noticed "every right that is withheld known" mmu-compare.c "!known ? CLASS_UNEXPLAINED" \
    "!known && lets ? CLASS_UNEXPLAINED"
noticed "fault words not compared" mmu-compare.c "&& own->fault == q->answer.fault" ""
noticed "whole table not compared" mmu-compare.c "memcmp(own->whole, q->table, q->table_size) != 0" "q->table == NULL"
echo "ok   16 wrong variants of the glue are noticed"

# Debian's entries of either style, each once, for binary and source packages; others' and comments are left out.
mkdir -p "$out/apt/sources.list.d"
cat > "$out/apt/sources.list" <<'END'
# deb http://mirror.example/debian old main
deb [arch=amd64 signed-by=/a/key.gpg] http://mirror.example/debian bookworm main contrib # a remark
deb-src [signed-by=/a/key.gpg] http://mirror.example/debian bookworm main contrib
deb http://other.example/apt stable main
END
printf 'Types: deb\n# a remark\nURIs: http://mirror.example/debian-security/\nSuites: s\nComponents: main\n\n%s\n' \
    'Types: deb
URIs: http://other.example/tool
Suites: x' > "$out/apt/sources.list.d/more.sources"
python3 "$glue/source_list.py" "$out/apt" > "$out/apt/made"
cat > "$out/apt/must" <<'END'
Types: deb deb-src
URIs: http://mirror.example/debian
Suites: bookworm
Components: main contrib
Signed-By: /a/key.gpg

Types: deb deb-src
URIs: http://mirror.example/debian-security/
Suites: s
Components: main

END
diff "$out/apt/must" "$out/apt/made" || fail "the private source list"
rm "$out/apt/sources.list" "$out/apt/sources.list.d/more.sources"
! python3 "$glue/source_list.py" "$out/apt" 2>/dev/null || fail "a source list from nothing"
echo "ok   the private source list"

python3 "$glue/hook.py" --self-test
python3 tests/qemu/runs.py
echo "tests of the QEMU integration passed"
