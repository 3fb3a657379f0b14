#!/usr/bin/env python3
"""Passes on what `rt ci` writes, numbers crates and must-fail edits as they come, and holds its last lines to the files.

    rt ci 2>&1 | number_edits.py
    number_edits.py --self-test

"rt: crate k of n: .." and "rt: edit k of n: .." n is the number of crates that crates.txt lists, and of their edit files.
rt tells the results of all edits at once, when the last proof has ended, and no times: what is left of a run is not told.

Every line is passed on; only the lines that tell of a proof or an edit are changed. Where rt says that nothing failed, the
tool fails if some edit was not told of, if the line `rt: ok` counts fewer refused edits than there are files, or if it
counts a bad one: rt itself lets a bad edit pass. Else it leaves the verdict to rt.
"""
import io
import re
import sys
import time
from pathlib import Path

import gate_times

ROOT = Path(__file__).resolve().parent.parent
PROOF = re.compile(r"^rt: (\w+) (?:proved$|is kept: )")
EDIT = re.compile(r"^rt: must-fail (\w+/\S+): ")
OK = re.compile(r"^rt: ok; ")
REFUSED = re.compile(r"; must-fail edits: (\d+) refused(?:, \d+ of them only by a limit)?(?:, (\d+) bad)?;")
ALL_PASSED = re.compile(r"^\d+ passed, 0 failed$")
PART = "rt"
TITLE = "proofs, must-fail edits and programs, kept in target/log/ci.log"


def edit_files():
    """The edits of each crate that crates.txt lists, as rt names them."""
    lines = [line.split("#")[0] for line in (ROOT / "crates.txt").read_text().splitlines()]
    crates = [line.split(":")[0].split()[0] for line in lines if ":" in line]
    return {crate: [f"{crate}/{path.name}" for path in sorted((ROOT / "crates" / crate / "must-fail").glob("*.edit"))] for crate in crates}


class Numbers:
    """The numbers of crates and edits, and what rt told of the edits as a whole."""

    def __init__(self, edits):
        self.crates, self.edits = len(edits), {name for names in edits.values() for name in names}
        self.proved, self.tried, self.ok = 0, [], ""

    def line(self, line):
        """The line, numbered if it tells of a proof or an edit."""
        edit = EDIT.match(line)
        if PROOF.match(line):
            self.proved += 1
            number = f"crate {self.proved} of {self.crates}"
        elif edit:
            self.tried.append(edit.group(1))
            number = f"edit {len(self.tried)} of {len(self.edits)}"
        else:
            self.ok = line if OK.match(line) else self.ok
            return line
        return line.replace("rt: ", f"rt: {number}: ", 1)

    def wrong(self):
        """What is wrong with a run of which rt says that nothing failed."""
        counted = REFUSED.search(self.ok)
        refused, bad = map(int, counted.groups("0")) if counted else (0, 0)
        told = []
        if not self.ok:
            told.append("rt wrote no line 'rt: ok'")
        if sorted(self.tried) != sorted(self.edits):
            lost = sorted(self.edits - set(self.tried))
            told.append(f"rt told of {len(self.tried)} edits and there are {len(self.edits)}; not of {', '.join(lost) or 'another'}")
        if refused != len(self.edits) or bad:
            told.append(f"the line 'rt: ok' counts {refused} refused edits and {bad} bad ones, and there are {len(self.edits)}")
        return told


def number(source, target, edits, record, clock=time.time, note=gate_times.note):
    """Copies source to target with its crates and edits numbered; the exit status."""
    began, last, numbers = clock(), "", Numbers(edits)
    target.write(f"== {TITLE}{gate_times.last_time(record, PART)}\n")
    for line in source:
        last = line.rstrip("\n")
        target.write(numbers.line(line))
        target.flush()
    ended = clock()
    target.write(f"-- took {gate_times.exact(ended - began)}{gate_times.left_after(record, PART)}\n")
    note("part", PART, began, ended)
    wrong = numbers.wrong() if ALL_PASSED.match(last) else []
    for line in wrong:
        sys.stderr.write(f"number_edits.py: {line}\n")
    return 1 if wrong else 0


SAMPLE = """== words
logic=proved functions=8 target=x86_64-unknown-linux-gnu
rt: words proved
rt: words: its tests proved
rt: words: trying its must-fail edits (2)
rt: entry is kept: an earlier run on this machine proved the same files over the same libraries
rt: must-fail words/one.edit: refused, as it must be: ./proofs/A.antt:1:1: error: `a`: the two types differ
rt: must-fail words/two.edit: BAD EDIT: it did not reach the prover; the first lines of what it said:
must-fail
rt: must-fail entry/three.edit: NOT REFUSED: the crate is still proved with this edit (one that means the same as before cannot be refused: remove it)
rt: entry ran, and wrote what its file stdout has
"""

NUMBERED = """== proofs, must-fail edits and programs, kept in target/log/ci.log{}
== words
logic=proved functions=8 target=x86_64-unknown-linux-gnu
rt: crate 1 of 2: words proved
rt: words: its tests proved
rt: words: trying its must-fail edits (2)
rt: crate 2 of 2: entry is kept: an earlier run on this machine proved the same files over the same libraries
rt: edit 1 of 3: must-fail words/one.edit: refused, as it must be: ./proofs/A.antt:1:1: error: `a`: the two types differ
rt: edit 2 of 3: must-fail words/two.edit: BAD EDIT: it did not reach the prover; the first lines of what it said:
must-fail
rt: edit 3 of 3: must-fail entry/three.edit: NOT REFUSED: the crate is still proved with this edit (one that means the \
same as before cannot be refused: remove it)
rt: entry ran, and wrote what its file stdout has
"""

EDITS = {"words": ["words/one.edit", "words/two.edit"], "entry": ["entry/three.edit"]}
OK_LINE = "rt: ok; handles allowed: none; must-fail edits: {}; every proof and must-fail edit was done in this run\n"
PASSED = "5 passed, 0 failed\n"
RECORD = gate_times.read("part\trt\t3120\t180\n")

# What rt says at the end, and whether the tool lets it pass.
ENDS = {
    "all refused": (OK_LINE.format("3 refused") + PASSED, 0),
    "one by a limit": (OK_LINE.format("3 refused, 1 of them only by a limit") + PASSED, 0),
    "a bad one": (OK_LINE.format("2 refused, 1 bad") + PASSED, 1),
    "too few": (OK_LINE.format("2 refused") + PASSED, 1),
    "no edits": ("rt: ok; handles allowed: none; every proof and must-fail edit was done in this run\n" + PASSED, 1),
    "no line": (PASSED, 1),
    "rt fails": ("rt: FAILED: words/two.edit\n4 passed, 1 failed\n", 0),
}


def tried(edits, record, end):
    """The status, what was written and what was noted of the sample, in a run of ninety seconds."""
    target, noted, ticks = io.StringIO(), {}, iter((0, 90))

    def note(kind, name, *seconds):
        noted[kind, name] = seconds
    sys.stderr, kept = io.StringIO(), sys.stderr
    try:
        status = number(io.StringIO(SAMPLE + end), target, edits, record, lambda: next(ticks), note)
    finally:
        sys.stderr = kept
    return status, target.getvalue(), noted


def self_test():
    end = ENDS["all refused"][0]
    _, written, noted = tried(EDITS, {}, end)
    told = tried(EDITS, RECORD, end)[1]
    one_more = {**EDITS, "other": ["other/four.edit"]}
    checks = {
        "numbers": written == NUMBERED.format("") + end + "-- took 90 s\n",
        "what is left": told == NUMBERED.format(" (52 min 0 s last time)") + end + "-- took 90 s, about 3 minutes left\n",
        "times": noted == {("part", "rt"): (0, 90)},
        "a lost edit": tried(one_more, {}, OK_LINE.format("4 refused") + PASSED)[0] == 1,
        "an edit told twice": tried({"words": EDITS["words"]}, {}, OK_LINE.format("2 refused") + PASSED)[0] == 1,
    }
    checks.update({label: tried(EDITS, {}, text)[0] == status for label, (text, status) in ENDS.items()})
    wrong = [label for label, right in checks.items() if not right]
    if wrong:
        sys.exit(f"number_edits.py: wrong: {', '.join(wrong)}\n{written}{told}{noted}")
    print(f"self test: crates and edits are numbered, other lines passed on; {len(ENDS)} ends, a lost edit is told")


if __name__ == "__main__":
    if sys.argv[1:] == ["--self-test"]:
        self_test()
    else:
        for stream in (sys.stdin, sys.stdout):
            stream.reconfigure(encoding="utf-8", errors="surrogateescape")
        sys.exit(number(sys.stdin, sys.stdout, edit_files(), gate_times.last_record()))
