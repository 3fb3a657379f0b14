#!/usr/bin/env bash
# For daily work: everything is proved and every test runs. The must-fail edits are left to the gate, .ci/run.
#
#   check.sh [RT]        also: make check
#
# What did not change is not proved again. As soon as the library is proved, the tests of its archive run beside the
# proofs of the programs. No two rt work at once, since they share the crates' folders out/: no test calls it.
set -euo pipefail
cd "$(dirname "${BASH_SOURCE[0]}")/.."
RT=${1:-rt}

tools/need_rt.sh "$RT"
# Its parts call rt in the folders of crates.
RT=$(command -v "$RT")
[ "${RT#*/}" = "$RT" ] || RT=$(realpath "$RT")
export RT
[ -n "${MMU_LOCKED:-}" ] || exec tools/locked.sh tools/check.sh "$@"
tools/install_needs.sh

python3 tools/run_parts.py source library archive
# One of them is rt, which takes as many cores as there are, and so do the tests: whichever ends first leaves its cores
# to the other.
python3 tools/run_parts.py --at-once "$(($(nproc) + 1))" programs tests
echo "all is proved and all tests passed, in $((SECONDS / 60)) min $((SECONDS % 60)) s; the must-fail edits: make test"
