#!/usr/bin/env bash
# The tools around rt, tried with a stand-in for it: a missing rt, the lock, the log, the numbers of must-fail edits;
# and gate and check as a whole, with stand-ins for rt and for what their parts do.
#
#   tests/tools/run.sh
set -euo pipefail
cd "$(dirname "${BASH_SOURCE[0]}")/../.."

work=$(mktemp -d)
trap 'rm -rf "$work"' EXIT

fail() {
    echo "FAIL $*"
    exit 1
}

# The lock is on the folder of a repository, and a gate that runs this holds its own: so all of it runs in a copy.
mkdir -p "$work/tree/crates/mmu_c"
cp -R .ci .gitignore Makefile crates.txt examples include tools "$work/tree"
cd "$work/tree"
rm -f .ci/times .ci/times.last
unset MMU_LOCKED MAKEFLAGS MAKELEVEL MFLAGS ARCHIVE RT GATE_JOURNAL PROVED_SINCE

# A stand-in for rt: it says when it begins and ends, and fails where a file says so. `rt all test` ends well only where a
# test runs meanwhile, and `rt lib` makes the archive in the folder where it is called.
cat > "$work/rt" <<'END'
#!/bin/sh
echo "begin $*" >> "$WORK/order"
echo "a line of the prover"
case $* in
ci) cat "$WORK/ci" ;;
'all test') timeout 20 sh -c 'until [ -e "$WORK/tested" ]; do sleep 0.1; done' || exit 1 ;;
*) sleep "${TAKES:-1}" ;;
esac
echo "end $*" >> "$WORK/order"
[ ! -e "$WORK/fail" ] || exit 1
[ ! -e "$WORK/fail_rt_$(echo "$*" | tr ' ' _)" ] || exit 1
[ "$1" != lib ] || { mkdir -p out && date +%N > out/libmmu_c.a; }
END
chmod +x "$work/rt"
export WORK=$work

# told LABEL FILE: the file has the one sentence about a missing rt, and no other line but make's.
told() {
    [ "$(grep -vc '^make: ' "$2")" = 1 ] || fail "$1 says more than one sentence: $(cat "$2")"
    grep -q 'need the Rattle kit' "$2" || fail "$1 does not say what is missing: $(cat "$2")"
}

missing_rt() {
    mkdir "$work/bin"
    for command in bash sh dirname env; do ln -s "$(command -v "$command")" "$work/bin/$command"; done
    if PATH=$work/bin .ci/run > "$work/said" 2>&1; then fail ".ci/run goes on without rt"; fi
    told .ci/run "$work/said"
    for target in demo check; do
        if make $target RT=no_such_command > "$work/said" 2>&1; then fail "make $target goes on without rt"; fi
        told "make $target" "$work/said"
    done
    echo "ok   a missing rt is told in one sentence"
}

prover_lines() {
    make archive RT="$work/rt" > "$work/said" 2>&1 || fail "make: $(cat "$work/said")"
    ! grep -q 'a line of the prover' "$work/said" || fail "make shows the prover's lines"
    grep -q 'a line of the prover' target/staticlib.log || fail "the log lacks the prover's lines"
    rm -r target
    touch "$work/fail"
    if make archive RT="$work/rt" > "$work/said" 2>&1; then fail "make hides a failing rt"; fi
    grep -q 'a line of the prover' "$work/said" || fail "make does not show why rt failed"
    rm -r "$work/fail" target
    [ ! -e crates/mmu_c/out/libmmu_c.a ] || rm crates/mmu_c/out/libmmu_c.a
    echo "ok   the prover's lines go to a log, and are shown where it fails"
}

two_at_once() {
    : > "$work/order"
    make archive RT="$work/rt" > "$work/first" 2>&1 &
    make archive RT="$work/rt" > "$work/second" 2>&1
    wait
    [ "$(cut -d ' ' -f 1 "$work/order" | tr '\n' ' ')" = "begin end begin end " ] || fail "two at once: $(cat "$work/order")"
    grep -q 'waiting until it has ended' "$work/first" "$work/second" || fail "who waits does not say so"
    : > "$work/order"
    tools/locked.sh make archive RT="$work/rt" -B > "$work/said" 2>&1 || fail "make under the lock: $(cat "$work/said")"
    ! grep -q 'waiting' "$work/said" || fail "who has the lock waits for itself"
    echo "ok   two makes wait for each other and say so"
}

numbers() {
    python3 tools/number_edits.py --self-test
    # Whatever rt's status, and whatever comes after it in the pipe, the status is rt's.
    status=0
    (set -o pipefail; (echo "0 passed, 1 failed"; exit 3) | tee "$work/log" | python3 tools/number_edits.py) > /dev/null || status=$?
    [ "$status" = 3 ] || fail "the status of rt is lost: $status"
    echo "ok   must-fail edits are numbered"
}

# The heads of .ci/parts stay, and stand-ins take the place of the commands: each part says that it ran, fails where a
# file says so, and a test notes that it ran beside what rt notes. The parts that prove and build keep their commands.
stand_ins() {
    cp .ci/parts "$work/parts"
    awk '
        /^#/ { next }
        /^\[/ {
            print
            name = substr($1, 2, length($1) - 2)
            kept = name == "library" || name == "archive" || name == "programs"
            print "echo \"ran " name "\"; [ ! -e \"$WORK/fail_" name "\" ]"
            if ($2 == "tests:") print "touch \"$WORK/tested\"; echo \"test " name "\" >> \"$WORK/order\""
            next
        }
        kept { print }' "$work/parts" > .ci/parts
    printf '#!/bin/sh\n' > tools/install_needs.sh
    export TAKES=0
    mkdir -p crates/words/must-fail
    touch crates/words/must-fail/one.edit crates/words/must-fail/two.edit
    cat > "$work/ci" <<'END'
rt: words proved
rt: must-fail words/one.edit: refused, as it must be: ./proofs/A.antt:1:1: error: `a`: the two types differ
rt: must-fail words/two.edit: refused, as it must be
rt: ok; handles allowed: none; must-fail edits: 2 refused; every proof and must-fail edit was done in this run
3 passed, 0 failed
END
}

# names GROUP..: the parts of these groups.
names() {
    for group in "$@"; do sed -n "s/^\[\(.*\)\] $group: .*/\1/p" .ci/parts; done | sort
}

# ran: the parts that ran.
ran() {
    sed -n 's/^ran //p' "$work/said" | sort
}

# says REGEX..: some line of what was said is of this form. silent REGEX: none is.
says() {
    for regex in "$@"; do
        grep -qxE -- "$regex" "$work/said" || { cat "$work/said"; fail "not said: $regex"; }
    done
}

silent() {
    ! grep -qE -- "$1" "$work/said" || { cat "$work/said"; fail "said: $1"; }
}

# gate: .ci/run, and what it says in $work/said.
gate() {
    PATH=$work:$PATH .ci/run > "$work/said" 2>&1
}

passing_gate() {
    gate || { cat "$work/said"; fail "a gate $1"; }
    [ "$(tail -n 1 "$work/said")" = "3 passed, 0 failed" ] || { cat "$work/said"; fail "the last line of a gate $1"; }
    [ "$(ran)" = "$(names source edits archive tests)" ] || fail "a gate $1 runs other parts: $(ran)"
}

first_gate() {
    passing_gate "without a record"
    says 'there is no record of a run: what is left is not told' 'rt: edit 2 of 2: must-fail words/two.edit: .*' \
        'rt: crate 1 of [0-9]+: words proved' '== the whole gate took [0-9]+ s'
    silent 'last time|minutes? left'
    grep -qx 'a line of the prover' target/log/ci.log || fail "the gate does not keep what rt said"
    [ "$(cut -f 1,2 .ci/times.last | sed -n 's/^part\t//p' | sort)" = \
        "$( (names source edits archive tests; echo rt) | sort)" ] || fail "the record: $(cat .ci/times.last)"
    grep -qxF .ci/times.last .gitignore || fail "git would see the record"
    echo "ok   a gate with stand-ins: every part and its time, its last line"
}

# The record is changed to one of an hour after rt, so that what is told is seen to come from it.
next_gates() {
    sed 's/^part\trt\t.*/part\trt\t240\t3600/' .ci/times.last > .ci/times
    cp .ci/times "$work/committed"
    rm .ci/times.last
    passing_gate "with a committed record"
    says '== proofs, must-fail edits .* \(4 min 0 s last time\)' '-- took [0-9]+ s, about 60 minutes left'
    cmp .ci/times "$work/committed" || fail "the gate writes what is committed"
    passing_gate "with a record of its own"
    says '-- took [0-9]+ s, less than a minute left'
    silent 'about 60 minutes left'
    echo "ok   the next gate tells what is left: by its own record, else by a committed one"
}

# failing_gate LABEL: it fails, does not end as one that passed, and leaves no record.
failing_gate() {
    rm -f .ci/times.last
    if gate; then fail "the gate passes with $1"; fi
    [ "$(tail -n 1 "$work/said")" != "3 passed, 0 failed" ] || fail "the gate ends as if it passed with $1"
    [ ! -e .ci/times.last ] || fail "the gate leaves a record with $1"
}

failing_gates() {
    local part
    for part in tools refusals c; do
        touch "$work/fail_$part"
        failing_gate "a failing part $part"
        says "FAILED: $part"
        rm "$work/fail_$part"
    done
    grep -qx 'a line of the prover' target/log/ci.log || fail "a gate that fails does not keep what rt said"
    touch "$work/fail_rt_ci"
    failing_gate "a failing rt ci"
    [ "$(ran)" = "$(names source)" ] || fail "the gate goes on after a failing rt ci"
    rm "$work/fail_rt_ci"
    touch crates/words/must-fail/three.edit
    failing_gate "an edit that was not tried"
    rm crates/words/must-fail/three.edit
    cp "$work/ci" "$work/ci_right"
    sed -i 's/2 refused; /2 refused, 1 bad; /' "$work/ci"
    failing_gate "a bad edit"
    sed 's/2 refused; /1 refused; /' "$work/ci_right" > "$work/ci"
    failing_gate "an edit that does not count"
    cp "$work/ci_right" "$work/ci"
    echo "ok   whatever fails in a gate fails the whole"
}

# check: make check, and what it says in $work/said.
check() {
    : > "$work/order"
    rm -f "$work/tested"
    make check RT="$work/rt" > "$work/said" 2>&1
}

checks() {
    check || { cat "$work/said"; fail "make check"; }
    [ "$(ran)" = "$(names source library archive programs tests)" ] || fail "make check runs other parts: $(ran)"
    says 'all is proved and all tests passed, in .*'
    silent 'last time|minutes? left'
    [ "$(grep -v '^test ' "$work/order" | tr '\n' ' ')" = \
        "begin check end check begin lib --cpu x86-64 end lib --cpu x86-64 begin all test end all test " ] \
        || fail "make check calls rt otherwise: $(cat "$work/order")"
    ! sed '/^end lib/q' "$work/order" | grep -q '^test ' || fail "a test runs before the archive is made"
    for what in format rt_check rt_lib_--cpu_x86-64 header rt_all_test; do
        touch "$work/fail_$what"
        if check; then fail "make check passes with a failing $what"; fi
        rm "$work/fail_$what"
    done
    echo "ok   make check with stand-ins: every part but the edits, one rt at a time, tests beside it; what fails"
}

missing_rt
prover_lines
two_at_once
numbers
python3 tools/proved_archive.py --self-test
python3 tools/gate_times.py --self-test
python3 tools/run_parts.py --self-test
stand_ins
first_gate
next_gates
failing_gates
checks
python3 tools/moved.py --self-test
