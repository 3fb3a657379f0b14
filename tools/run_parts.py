#!/usr/bin/env python3
"""Runs parts of the gate and of `make check`, as .ci/parts has them, and says what each took.

    run_parts.py [--at-once N] GROUP..    the parts of these groups, in this order
    run_parts.py --self-test

One at a time, what a part writes is shown as it comes; several at once, whole when the part has ended, so that the
lines of two never mix. Where one fails, those that run are waited for, no other begins, and the exit status is 1.
In a gate it also notes the times and tells what is left (gate_times.py).
"""
import io
import re
import subprocess
import sys
import tempfile
import threading
import time
from concurrent.futures import ThreadPoolExecutor
from pathlib import Path

import gate_times

ROOT = Path(__file__).resolve().parent.parent
TABLE = ROOT / ".ci" / "parts"
GROUPS = ["source", "library", "archive", "edits", "programs", "tests"]
HEAD = re.compile(rf"\[([\w-]+)\] ({'|'.join(GROUPS)}): (\S.*)")


class Part:
    """A part: its name, its group, what it is about, its commands."""

    def __init__(self, name, group, title):
        self.name, self.group, self.title, self.commands = name, group, title, []


def parts_of(text):
    """The parts of a table; a ValueError says what is wrong with it."""
    parts = []
    for line in text.splitlines():
        head = HEAD.fullmatch(line)
        if not line or line.startswith("#"):
            continue
        if head:
            parts.append(Part(*head.groups()))
        elif not parts or line.startswith("["):
            raise ValueError(f"no part begins so: {line}")
        else:
            parts[-1].commands.append(line)
    names = [part.name for part in parts]
    wrong = [part.name for part in parts if not part.commands or names.count(part.name) > 1]
    if wrong:
        raise ValueError(f"without a command, or there twice: {', '.join(wrong)}")
    return parts


def chosen(parts, groups):
    """The parts of the groups, in the order of these; a ValueError names a group that has none."""
    for group in groups:
        if group not in [part.group for part in parts]:
            raise ValueError(f"there is no part of a group {group}")
    return [part for group in groups for part in parts if part.group == group]


class Run:
    """A run of parts."""

    def __init__(self, at_once, out, record, note=gate_times.note, clock=time.time):
        self.at_once, self.out, self.record, self.note, self.clock = at_once, out, record, note, clock
        self.failed, self.left_out, self.lock = [], [], threading.Lock()

    def say(self, *pieces):
        """Writes all pieces without another's between."""
        with self.lock:
            for piece in pieces:
                self.out.write(piece if isinstance(piece, bytes) else f"{piece}\n".encode())
            self.out.flush()

    def execute(self, part, show):
        """Runs the commands, hands each line to show; the exit status."""
        script = "\n".join(["set -euo pipefail", *part.commands])
        # Open files are handed on, since who has the lock of tools/locked.sh open holds it.
        with subprocess.Popen(["bash", "-c", script], cwd=ROOT, stdin=subprocess.DEVNULL, stdout=subprocess.PIPE,
                              stderr=subprocess.STDOUT, close_fds=False) as process:
            for line in process.stdout:
                show(line if line.endswith(b"\n") else line + b"\n")
        return process.returncode

    def one(self, part):
        """Runs a part, unless one has failed."""
        if self.failed:
            self.left_out.append(part.name)
            return
        title, lines = f"{part.title}{gate_times.last_time(self.record, part.name)}", []
        self.say(f"== {title}" if self.at_once == 1 else f">> begins: {title}")
        began = self.clock()
        status = self.execute(part, self.say if self.at_once == 1 else lines.append)
        ended = self.clock()
        self.note("part", part.name, began, ended)
        if status:
            self.failed.append(part.name)
        heading = [] if self.at_once == 1 else [f"== {part.title}", *lines]
        left = gate_times.left_after(self.record, part.name)
        self.say(*heading, f"-- {'FAILED after' if status else 'took'} {gate_times.exact(ended - began)}{left}")

    def all(self, parts):
        """Runs the parts; the exit status."""
        with ThreadPoolExecutor(self.at_once) as threads:
            list(threads.map(self.one, parts))
        if self.failed:
            self.say(f"FAILED: {', '.join(self.failed)}")
        if self.left_out:
            self.say(f"not begun: {', '.join(self.left_out)}")
        return 1 if self.failed else 0


SAMPLE = """# A remark.
[first] tests: the first of all

echo one
printf two >&2
[second] tests: the second
echo three; cat
[other] source: of another group
echo four | tail -n 1
[bad] edits: a part that fails
echo five; false | cat
echo six
[last] edits: one that must not begin
echo seven
"""
IN_TURN = """== of another group
four
-- took 5 s
== the first of all (2 min 1 s last time)
one
two
-- took 5 s, about 3 minutes left
== the second
three
-- took 5 s
"""
FAILING = """== a part that fails
five
-- FAILED after 5 s
FAILED: bad
not begun: last
"""
# Each of the two waits for the other's file, in the folder FOLDER.
AT_ONCE = """[first] tests: the first of all
echo one; touch FOLDER/first
until [ -e FOLDER/second ]; do sleep 0.1; done; echo two
[second] tests: the second
echo three; touch FOLDER/second
until [ -e FOLDER/first ]; do sleep 0.1; done; echo four
"""
BLOCKS = [">> begins: the first of all (2 min 1 s last time)\n", ">> begins: the second\n",
          "== the first of all\none\ntwo\n-- took 5 s, about 3 minutes left\n",
          "== the second\nthree\nfour\n-- took 5 s\n"]
WRONG_TABLES = {
    "a group that is not known": "[a] test: b\nc\n",
    "no title": "[a] tests:\nc\n",
    "no group": "[a]\nc\n",
    "a command before the first part": "c\n[a] tests: b\nc\n",
    "no command": "[a] tests: b\n[d] tests: b\nc\n",
    "the same name twice": "[a] tests: b\nc\n[a] source: b\nc\n",
}


def tried(text, groups, at_once=1):
    """The status of a run by a clock of its own, what it wrote and what it noted."""
    out, noted, ticks = io.BytesIO(), [], threading.local()

    def clock():
        ticks.now = getattr(ticks, "now", 0) + 5
        return ticks.now

    def note(*line):
        noted.append(line)
    run = Run(at_once, out, {("part", "first"): [121, 180]}, note, clock)
    return run.all(chosen(parts_of(text), groups)), out.getvalue().decode(), noted


def two_at_once():
    """Whether two parts that wait for each other end, and the lines of each stand together."""
    with tempfile.TemporaryDirectory() as folder:
        status, shown, _ = tried(AT_ONCE.replace("FOLDER", folder), ["tests"], 2)
    return status == 0 and all(block in shown for block in BLOCKS) and len(shown) == len("".join(BLOCKS))


def refused(function, *arguments):
    """Whether the function says that something is wrong."""
    try:
        function(*arguments)
    except ValueError:
        return True
    return False


def self_test():
    status, shown, noted = tried(SAMPLE, ["source", "tests"])
    checks = {
        "one at a time": (status, shown) == (0, IN_TURN),
        "what is noted": noted == [("part", "other", 5, 10), ("part", "first", 15, 20), ("part", "second", 25, 30)],
        "two at once": two_at_once(),
        "a failing part": tried(SAMPLE, ["edits"])[:2] == (1, FAILING),
        "a failing part among two": tried(SAMPLE, ["edits", "tests"], 2)[0] == 1,
        "a group without parts": refused(chosen, parts_of(SAMPLE), ["library"]),
    }
    checks.update({label: refused(parts_of, text) for label, text in WRONG_TABLES.items()})
    wrong = [label for label, right in checks.items() if not right]
    if wrong:
        sys.exit(f"run_parts.py: wrong: {', '.join(wrong)}\n{shown}{noted}")
    print(f"self test: parts one at a time and two at once, a failing part, {len(WRONG_TABLES)} wrong tables")


def main(arguments):
    at_once = 1
    if arguments[:1] == ["--at-once"] and arguments[1:2] and arguments[1].isdigit():
        at_once, arguments = max(int(arguments[1]), 1), arguments[2:]
    if not arguments or arguments[0].startswith("-"):
        sys.exit(__doc__)
    try:
        parts = chosen(parts_of(TABLE.read_text()), arguments)
    except ValueError as complaint:
        sys.exit(f"run_parts.py: {TABLE}: {complaint}")
    return Run(at_once, sys.stdout.buffer, gate_times.last_record()).all(parts)


if __name__ == "__main__":
    if sys.argv[1:] == ["--self-test"]:
        self_test()
    else:
        sys.exit(main(sys.argv[1:]))
