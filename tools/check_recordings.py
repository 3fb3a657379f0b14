#!/usr/bin/env python3
"""Checks that the program `recordings` has the lines of the 750's recording as they stand in tests/vectors.

These are the lines whose SDR1 has the mask 0, so that their table has 65,536 bytes: each once, in the file's order, numbered from 595 on.
"""
import re
import sys
from pathlib import Path

ROOT = Path(__file__).resolve().parent.parent
FIRST = 595


def recorded():
    """The lines with the mask 0. The second word of a line begins with the eight digits of SDR1."""
    for line in (ROOT / "tests/vectors/qemu-750.txt").read_text().splitlines():
        fields = line.split()
        if fields and fields[0].isdigit() and int(fields[1][:8], 16) & 0x1FF == 0:
            yield line


def main():
    source = (ROOT / "crates/test_recordings/src/emulated_750.rt").read_text()
    found = list(enumerate(re.findall(r'b"([^"]*)"', source), FIRST))
    wanted = list(enumerate(recorded(), FIRST))
    if found != wanted:
        wrong = [number for number, text in wanted if (number, text) not in found]
        sys.exit(f"recordings: {len(found)} lines in the program, {len(wanted)} in the file; not alike: {wrong}")
    print(f"recordings: {len(found)} lines of the 750 stand in the program as in the file")


if __name__ == "__main__":
    main()
