#!/usr/bin/env python3
"""Runs mmu-dump on dumps that the Rust model wrote and compares JSON, text and status with the model's answers.

compare.py PROGRAM FOLDER [MOST]             JSON and text of each command, on the first MOST dumps or all
compare.py PROGRAM FOLDER [MOST] --turns     JSON and text in turns, which takes half the time

Ends at the first difference with status 1. On 1,000 dumps everything in NEEDED has to occur.
"""
import json
import re
import subprocess
import sys
from concurrent.futures import ThreadPoolExecutor
from pathlib import Path

import texts

ROOT = Path(__file__).resolve().parent.parent.parent
WIDTH = 100
# The lines of a command that may come once for each line that is wanted, and no more often.
COUNTED = {"pages": r"^[-0-9A-F]{8} [0-9A-F]{6} ", "diff": r"^[-+~] ", "check": r"^  refusal ",
           "why": r"^ +Match: |^  [1-7] |^  marks|^Part "}


def result_names():
    """Result numbers in words, from the header."""
    header = (ROOT / "include" / "mmu.h").read_text()
    numbers = dict(re.findall(r"#define (MMU_\w+) (\d+)u\s", header))
    body = header[header.index("mmu_result_name(uint32_t result)"):]
    cases = re.findall(r'case (MMU_\w+): return "([^"]*)"', body[:body.index("\n}")])
    return {int(numbers[name]): words for name, words in cases}


NAMES = result_names()


def differs(wanted, got, at=""):
    """The first difference in JSON, or None; names of files are left out, names of results held to the header."""
    if isinstance(wanted, dict) and "contains" in wanted:
        return None if wanted["contains"] in got else f"{at}: {wanted['contains']!r} does not stand in {got!r}"
    if isinstance(wanted, dict) and isinstance(got, dict):
        got = {key: value for key, value in got.items() if key != "file"}
        name = got.pop("result_name", None)
        if name is not None and name != NAMES[got["result"]]:
            return f"{at}: {name!r} for result {got['result']}"
        if wanted.keys() != got.keys():
            return f"{at}: members {sorted(wanted.keys() ^ got.keys())}"
        return next(filter(None, (differs(wanted[key], got[key], f"{at}.{key}") for key in wanted)), None)
    if isinstance(wanted, list) and isinstance(got, list):
        if len(wanted) != len(got):
            return f"{at}: {len(wanted)} members wanted, got {len(got)}"
        return next(filter(None, (differs(*two, f"{at}[{n}]") for n, two in enumerate(zip(wanted, got)))), None)
    same = type(wanted) is type(got) and wanted == got
    return None if same else f"{at}: wanted {wanted!r}, got {got!r}"


def stands(line, wanted):
    return all(part in line for part in wanted) if isinstance(wanted, tuple) else wanted in line


def text_differs(command, wanted, lines):
    """What is wrong with a text, or None."""
    rest = iter(lines)
    for line in wanted:
        if not any(stands(got, line) for got in rest):
            return f"no line in its place with {line!r}"
    counted = COUNTED.get(command)
    if counted:
        got = sum(bool(re.match(counted, line)) for line in lines)
        right = sum(isinstance(line, str) and bool(re.match(counted, line)) for line in wanted)
        right += sum(re.match(r"^  2 ", line) is not None for line in lines) if command == "why" else 0
        if got != right:
            return f"{right} lines like {counted} wanted, got {got}"
    wide = [line for line in lines if len(line) > WIDTH or line != line.rstrip()]
    return f"a line over {WIDTH} characters or with blanks at its end: {wide[0]!r}" if wide else None


def wanted_text(command, wanted):
    if wanted.get("result") == 2 and "parts" not in wanted and "pages" not in wanted:
        return [NAMES[2]] + texts.broken(wanted["registers"])
    return getattr(texts, command)(wanted, NAMES)


def run(program, folder, n, words):
    files = ["--registers", f"{folder}/{n}.registers", "--table", f"{folder}/{n}.table"]
    if words[0] == "diff":
        files = [f"{folder}/{at}.registers,{folder}/{at}.table" for at in (n - 1, n)]
    return subprocess.run([program, *words, *files], capture_output=True, text=True, check=False)


def wrong(program, folder, n, one, form):
    """What is wrong with one command on dump n, or None."""
    words, wanted = one["words"], one["json"]
    ran = run(program, folder, n, [*words, *form])
    if ran.returncode != one["status"] or ran.stderr:
        return f"status {ran.returncode}, wanted {one['status']}: {ran.stderr}"
    if form:
        return differs(wanted, json.loads(ran.stdout))
    return text_differs(words[0], wanted_text(words[0], wanted), ran.stdout.splitlines())


def page_wrong(program, folder, n, wanted):
    """What is wrong with the data in the page of dump n, or None."""
    page = folder / f"{n}.html"
    ran = run(program, folder, n, ["html", "-o", page, "--explain", "0", "--explain", "FFFFFFFF", "--length", "2"])
    status = int("pages" not in wanted["pages"])
    if ran.returncode != status or ran.stderr:
        return f"html: status {ran.returncode}, wanted {status}: {ran.stderr}"
    if status:
        return None
    data = json.loads(re.search(r'<script type="application/json" id="data">(.*?)</script>', page.read_text(), re.S)[1])
    page.unlink()
    if len(data["explained"]) != 12 or data["entries"] != len(wanted["pages"]["pages"]):
        return f"html: {len(data['explained'])} accesses explained, {data['entries']} entries"
    return (differs(wanted["pages"]["pages"], data["pages"], "html: pages")
            or differs(wanted["check"]["registers"], data["registers"], "html: registers"))


def dump(program, folder, n, tally, turns):
    """The first thing that is wrong on dump n, or None."""
    before = [(folder / f"{n}.{end}").read_bytes() for end in ("registers", "table")]
    commands = json.loads((folder / f"{n}.json").read_text())
    if n % 10 == 0:
        complaint = page_wrong(program, folder, n, {one["words"][0]: one["json"] for one in commands})
        if complaint:
            return f"dump {n}, {complaint}"
    for place, one in enumerate(commands):
        forms = [["--json"], []]
        for form in [forms[(n + place) % 2]] if turns else forms:
            complaint = wrong(program, folder, n, one, form)
            if complaint:
                return f"dump {n}, {' '.join(one['words'] + form)}: {complaint}"
        count(tally, one)
    after = [(folder / f"{n}.{end}").read_bytes() for end in ("registers", "table")]
    return None if before == after else f"dump {n} was written to"


# ---- What has to occur -----------------------------------------------------------------------------

def count(tally, one):
    wanted, command = one["json"], one["words"][0]
    seen = {f"{command}, status {one['status']}"}
    seen |= {f"refusal {rule['refusal']}" for rule in wanted.get("registers", {}).get("broken", [])
             } if command == "check" else set()
    if command == "check":
        seen.add(f"{wanted['registers']['bytes']} bytes")
    for page in wanted.get("pages", []):
        seen.add(page.get("state") or page["change"])
    for part in wanted.get("parts", []):
        seen |= {f"{wanted['kind']}, rule {part['rule']}, result {part['result']}"} | set(part.get("blocks", []))
    if len(wanted.get("parts", [])) == 2:
        seen.add(f"two parts, result {wanted['result']}")
    for thing in seen:
        tally[thing] = tally.get(thing, 0) + 1


RIGHT = [f"{kind}, rule {rule}, result {result}" for kind, fault in (("fetch", 65), ("load", 64), ("store", 64))
         for rule, result in ((0, 0), (1, 0), (1, fault), (3, fault), (5, fault), (6, 0), (0, 10))]
NEEDED = RIGHT + ["fetch, rule 2, result 65", "fetch, rule 4, result 65", "132 bytes", "196 bytes", "off", "covers",
                  "other state", "elsewhere", "two parts, result 0", "two parts, result 64", "two parts, result 65",
                  "gone", "added", "changed"]
NEEDED += [f"refusal {number}" for number in (2, 3, 4, 5)] + list(texts.NOTES)
NEEDED += [f"{command}, status {status}" for command in ("check", "pages", "group", "why") for status in (0, 1)]


def main():
    given = [word for word in sys.argv[1:] if word != "--turns"]
    turns = len(given) + 1 < len(sys.argv)
    program, folder = given[0], Path(given[1])
    numbers = sorted(int(path.stem) for path in folder.glob("*.json"))[:int(given[2]) if given[2:] else None]
    tally = {}
    with ThreadPoolExecutor(2) as threads:
        for complaint in threads.map(lambda n: dump(program, folder, n, tally, turns), numbers):
            if complaint:
                print(complaint)
                threads.shutdown(cancel_futures=True)
                return 1
    missing = [thing for thing in NEEDED if thing not in tally]
    if missing and len(numbers) >= 1000:
        print(f"never occurred: {missing}")
        return 1
    forms = "JSON or text" if turns else "JSON and text"
    print(f"{len(numbers)} dumps: each command's {forms}, and its status, as the model says")
    return 0


if __name__ == "__main__":
    sys.exit(main())
