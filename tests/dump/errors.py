#!/usr/bin/env python3
"""Damaged, short and missing files, and words that are no number: status 2, and a message with file, byte and what was
expected.

errors.py PROGRAM FOLDER    FOLDER is written to
"""
import os
import subprocess
import sys
from pathlib import Path

# A program that ends with a message leaves its memory to the system.
os.environ["ASAN_OPTIONS"] = "detect_leaks=0"
PROGRAM, FOLDER = sys.argv[1], Path(sys.argv[2])
REGISTERS, TABLE = FOLDER / "right.registers", FOLDER / "right.table"
FILES = ["--registers", REGISTERS, "--table", TABLE]
tried = 0


def run(*words):
    return subprocess.run([PROGRAM, *map(str, words)], capture_output=True, text=True, check=False)


def bad(parts, *words):
    """The command must end with status 2, write nothing but one line with these parts."""
    global tried
    tried += 1
    ran = run(*words)
    lines = ran.stderr.splitlines()
    if ran.returncode != 2 or len(lines) != 1 or not lines[0].startswith("mmu-dump: ") or ran.stdout:
        sys.exit(f"FAIL {words}: status {ran.returncode}, {ran.stdout!r}, {ran.stderr!r}")
    for part in parts:
        if str(part) not in lines[0]:
            sys.exit(f"FAIL {words}: {part!r} does not stand in {lines[0]!r}")


def good(status, parts, *words):
    global tried
    tried += 1
    ran = run(*words)
    if ran.returncode != status or ran.stderr or not all(part in ran.stdout for part in parts):
        sys.exit(f"FAIL {words}: status {ran.returncode}, {ran.stdout!r}, {ran.stderr!r}")


def numbers():
    for text, byte in [("xyz", 0), ("00FFG000", 4), ("1 2", 1), ("0x12z", 4), ("1.5", 1)]:
        bad([f'"{text}"', f"byte {byte} is no digit", "expected a hexadecimal number up to FFFFFFFF"], "why", text,
            *FILES)
        bad([f'"{text}"', f"byte {byte} is no digit"], "html", *FILES, "-o", FOLDER / "page", "--explain", text)
    bad(["-1 is no option"], "why", "-1", *FILES)
    for text, byte in [("", 0), ("0x", 2)]:
        bad([f'"{text}"', f"ends at byte {byte}", "expected a hexadecimal number"], "why", text, *FILES)
    for text, byte in [("100000000", 8), ("0xFFFFFFFFF", 10), ("FFFFFFFF0000000000000000000000001", 8)]:
        bad([f'"{text}"', f"too large at byte {byte}", "up to FFFFFFFF"], "why", text, *FILES)
    bad(["group 00400", "expected a group from 0 to 003FF", "SDR1 0F980000"], "group", "400", *FILES)
    bad(['"80000"', "too large at byte 4", "up to 7FFFF"], "group", "80000", *FILES)
    for text, part in [("x", "byte 0 is no digit"), ("", "ends at byte 0"), ("129", "too large at byte 2"),
                       ("0x4", "byte 1 is no digit"), ("4F", "byte 1 is no digit")]:
        bad([f'"{text}"', part, "expected a decimal number up to 128"], "why", "0", "--length", text, *FILES)
    bad(['"0"', "expected a decimal number from 1 to 128"], "why", "0", "--length", "0", *FILES)


def words():
    bad(["expected a command"])
    bad(['"chek"', "expected check, pages"], "chek")
    bad(["--colour is no option"], "check", *FILES, "--colour")
    bad(["check takes no --user"], "check", *FILES, "--user")
    bad(["html takes no --json"], "html", *FILES, "--json")
    bad(["diff takes no --table"], "diff", "--table", "x")
    bad(["--fetch", "expected one of --fetch, --load and --store"], "why", "0", "--load", "--fetch", *FILES)
    bad(["--table is the last word", "expected a value"], "check", "--registers", REGISTERS, "--table")
    bad(["--table is given twice", "expected it once"], "check", *FILES, "--table", TABLE)
    bad(["--length is given twice"], "why", "0", "--length", "1", "--length", "2", *FILES)
    bad(['"x" is one word too many', "check takes no operand"], "check", "x", *FILES)
    bad(["why: expected an address"], "why", *FILES)
    bad(["group: expected a group's number"], "group", *FILES)
    bad(["diff: expected two dumps"], "diff", TABLE)
    bad(["check: expected --registers FILE"], "check", "--table", TABLE)
    bad(["pages: expected --table FILE"], "pages", "--registers", REGISTERS)
    bad(["html: expected -o FILE"], "html", *FILES)
    bad(["at most 64 addresses"], "html", *FILES, "-o", FOLDER / "page", *["--explain", "0"] * 65)
    good(0, ["usage: mmu-dump check", "Exit status"], "--help")
    good(0, ["usage: mmu-dump check"], "why", "--help")


def register_files():
    wrong = FOLDER / "wrong.registers"
    right = REGISTERS.read_bytes()
    for length in [*range(0, 264, 4), 1, 131, 133, 195, 197, 65536]:
        if length in (132, 196):
            continue
        wrong.write_bytes((right * 700)[:length])
        place = "goes on at byte 196" if length > 196 else f"ends at byte {length};"
        bad([wrong, place, "expected a register page of 132 bytes", "or 196"], "check", "--registers", wrong)
    for name, reason in [(FOLDER / "none", "No such file"), (FOLDER, "Is a directory")]:
        bad([name, "byte 0 cannot be read", reason, "expected a register page"], "check", "--registers", name)


def table_files():
    wrong = FOLDER / "wrong.table"
    for command in (["check"], ["pages"], ["group", "0"], ["why", "0"], ["html", "-o", FOLDER / "page"]):
        for length in (0, 1, 64, 65535, 65537, 131072):
            wrong.write_bytes(bytes(length))
            place = "goes on at byte 65536" if length > 65536 else f"ends at byte {length};"
            bad([wrong, place, "expected a table of 65536 bytes, as SDR1 0F980000 says"], *command, "--registers",
                REGISTERS, "--table", wrong)
        for name, reason in [(FOLDER / "none", "No such file"), (FOLDER, "Is a directory")]:
            bad([name, "byte 0 cannot be read", reason, "expected a table of 65536 bytes"], *command, "--registers",
                REGISTERS, "--table", name)


def diffs():
    wrong = FOLDER / "wrong.dump"
    bad([TABLE, REGISTERS, "of another kind", "expected two register pages, two tables"], "diff", REGISTERS, TABLE)
    bad(["expected a register page before the comma and a table behind it"], "diff", f"{TABLE},{REGISTERS}", TABLE)
    bad([FOLDER / "none", "No such file", "expected a register page of 132"], "diff", TABLE, FOLDER / "none")
    for length in (0, 100, 65535, 3 * 65536, 1024 * 65536):
        with wrong.open("wb") as file:
            file.truncate(length)
        place = "goes on at byte 33554432" if length > 33554432 else f"ends at byte {length};"
        bad([wrong, place, "expected a register page of 132 or 196 bytes, or a table"], "diff", TABLE, wrong)
    both = f"{REGISTERS},{TABLE}"
    good(0, ["  0 words changed", "0 gone, 0 added, 0 changed"], "diff", both, both)


def outputs():
    page = FOLDER / "no" / "page.html"
    bad([page, "byte 0 cannot be written", "No such file"], "html", *FILES, "-o", page)
    bad(["/dev/full", "cannot be written whole"], "html", *FILES, "-o", "/dev/full")
    with open("/dev/full", "wb") as full:
        ran = subprocess.run([PROGRAM, "check", "--registers", REGISTERS], stdout=full, stderr=subprocess.PIPE,
                             check=False)
    if ran.returncode != 2 or b"standard output cannot be written" not in ran.stderr:
        sys.exit(f"FAIL a full disk: {ran}")


def main():
    REGISTERS.write_bytes(bytes.fromhex("0F980000") + bytes(128))
    TABLE.write_bytes(bytes(65536))
    for part in (numbers, words, register_files, table_files, diffs, outputs):
        part()
    print(f"{tried} bad and damaged inputs: status 2, one line with file, byte and what was expected")


main()
