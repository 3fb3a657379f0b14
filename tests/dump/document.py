#!/usr/bin/env python3
"""The commands of docs/DUMPS.md: what the document quotes is what the program writes today.

document.py [--write] PROGRAM FOLDER    FOLDER has the dumps of examples/write_dumps.c; --write puts the output in place

A block of text begins with a line `$ mmu-dump ..`; a line `[..]` in it stands for lines that are left out.
"""
import re
import subprocess
import sys
from pathlib import Path

DOCUMENT = Path(__file__).resolve().parent.parent.parent / "docs" / "DUMPS.md"
BLOCK = re.compile(r"```text\n(\$ mmu-dump [^\n]*)\n(.*?)```", re.S)
GAP = "[..]"


def output(program, folder, command):
    words = command.removeprefix("$ mmu-dump ").split()
    ran = subprocess.run([Path(program).resolve(), *words], cwd=folder, capture_output=True, text=True, check=False)
    return (ran.stdout + ran.stderr).splitlines()


def fits(quoted, got):
    """Whether the quoted lines are the program's, with any number of lines where a gap stands."""
    if not quoted:
        return not got
    if quoted[0] == GAP:
        return any(fits(quoted[1:], got[at:]) for at in range(1, len(got) + 1))
    return bool(got) and quoted[0] == got[0] and fits(quoted[1:], got[1:])


def main():
    write = "--write" in sys.argv
    program, folder = [word for word in sys.argv[1:] if word != "--write"]
    text = DOCUMENT.read_text()
    blocks = BLOCK.findall(text)
    for command, body in blocks:
        got = output(program, folder, command)
        if fits(body.splitlines(), got):
            continue
        if not write or GAP in body:
            sys.exit(f"FAIL docs/DUMPS.md quotes of {command}\n{body}but it writes\n" + "\n".join(got))
        text = text.replace(f"{command}\n{body}", "\n".join([command, *got, ""]))
    if write:
        DOCUMENT.write_text(text)
    if len(blocks) < 5:
        sys.exit(f"FAIL docs/DUMPS.md: {len(blocks)} blocks; expected at least 5")
    print(f"{len(blocks)} quoted outputs are what the program writes")


main()
