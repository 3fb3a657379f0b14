#!/bin/sh
# Says in one sentence where rt, the command of the Rattle kit, is missing.
#
#   need_rt.sh [RT]
rt=${1:-rt}
if ! command -v "$rt" >/dev/null; then
    echo "There is no command '$rt' here: the proofs and the archive need the Rattle kit, whose folder bin/ must be on the PATH (or name its rt: make RT=FOLDER/bin/rt)." >&2
    exit 1
fi
