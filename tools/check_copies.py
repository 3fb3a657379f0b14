#!/usr/bin/env python3
"""Counts text of the library that stands twice: lines in runs of eight or more equal lines that stand elsewhere too.

    check_copies.py                         the counts, and the pairs of files that share most
    check_copies.py --code N --all M        fails where more lines of code, or of all Rattle text, stand twice
    check_copies.py --self-test

Imports, comments, blank lines and lone brackets do not count, and a function's name in its head does not tell it from
another. Tests, whose crates begin with `test_`, are left out, and so is a static library: it repeats the contracts of the
crate below it word for word, to which tools/check_header.py holds it. A source file that is a link is a copy too, and fails.
"""
import collections
import re
import sys
import tempfile
from pathlib import Path

ROOT = Path(__file__).resolve().parent.parent
RUN = 8
PASSED_OVER = re.compile(r"//|--|(pub )?use |ghost use |(pub )?mod ")
PARTS = ("src", "specs", "proofs")
BRACKETS = "{}();]),"
HEAD = re.compile(r"^(pub )?fn \w+")


def lines_of(path):
    """The lines that count, with their numbers."""
    found = []
    for number, line in enumerate(path.read_text(encoding="utf-8").splitlines(), 1):
        text = " ".join(line.split())
        if text not in BRACKETS and not PASSED_OVER.match(text):
            found.append((number, HEAD.sub("fn", text)))
    return found


def copies(paths):
    """How many lines stand again elsewhere, and by pair of files how many runs they share."""
    files = {path: lines_of(path) for path in paths}
    places = collections.defaultdict(list)
    for path, lines in files.items():
        for at in range(len(lines) - RUN + 1):
            places[tuple(text for _, text in lines[at:at + RUN])].append((path, at))
    marked, pairs = set(), collections.Counter()
    for found in places.values():
        if len(found) > 1:
            marked.update((path, files[path][at + more][0]) for path, at in found for more in range(RUN))
            pairs.update((one, other) for one, _ in found for other, _ in found if str(one) < str(other))
    return len(marked), pairs


def library(root):
    """The Rattle files of the crates that are no tests."""
    lines = [line.split("#")[0] for line in (root / "crates.txt").read_text(encoding="utf-8").splitlines()]
    crates = [line.split(":")[0].split() for line in lines if ":" in line]
    crates = [names[0] for names in crates if "staticlib" not in names and not names[0].startswith("test_")]
    folders = [root / "crates" / crate / part for crate in crates for part in PARTS]
    return sorted(path for folder in folders for path in folder.rglob("*") if path.suffix in (".rt", ".antt"))


def counted(root):
    """The copies in the code, those in all text, the pairs of files, and the links."""
    paths = library(root)
    code, code_pairs = copies([path for path in paths if path.suffix == ".rt"])
    whole, pairs = copies(paths)
    return code, whole, code_pairs + pairs, [path for path in paths if path.is_symlink()]


def report(root, bounds):
    """Prints the counts; the exit status."""
    code, whole, pairs, links = counted(root)
    for (one, other), runs in pairs.most_common(8):
        print(f"{runs:4} {one.relative_to(root)} ~ {other.relative_to(root)}")
    print(f"{code} lines of code and {whole} lines of all library text stand again elsewhere")
    for link in links:
        print(f"a link: {link.relative_to(root)}")
    return 1 if links or code > bounds.get("--code", code) or whole > bounds.get("--all", whole) else 0


def self_test():
    with tempfile.TemporaryDirectory() as folder:
        root = Path(folder)
        body = "".join(f"    step({number});\n" for number in range(RUN - 1))
        for name, text in {"low": f"pub fn one() {{\n{body}}}\n", "high": f"// A remark.\nuse low;\nfn two() {{\n{body}}}\n", "test_other": f"fn two(a: u32) {{\n{body}}}\n", "for_c": f"fn two(b: u32) {{\n{body}}}\n"}.items():
            (root / "crates" / name / "src").mkdir(parents=True)
            (root / "crates" / name / "src" / "lib.rt").write_text(text, encoding="utf-8")
        (root / "crates.txt").write_text("low: # the lowest\nhigh: low\ntest_other: low check\nfor_c staticlib: low\n", encoding="utf-8")
        code, whole, pairs, links = counted(root)
        right = (code, whole, len(pairs), links) == (2 * RUN, 2 * RUN, 1, [])
        (root / "crates" / "high" / "src" / "more.rt").symlink_to("lib.rt")
        right = right and len(counted(root)[3]) == 1
        (root / "crates" / "high" / "src" / "more.rt").unlink()
        (root / "crates" / "high" / "src" / "lib.rt").write_text(f"fn two() {{\n{body.replace('3', '9')}}}\n", encoding="utf-8")
        if not right or counted(root)[0] != 0:
            sys.exit(f"counted wrongly: {code} {whole} {pairs} {links}")
    print("self test: equal runs of lines count whatever their function's name, a link is told, a test program and a static library are left out")


if __name__ == "__main__":
    if sys.argv[1:] == ["--self-test"]:
        self_test()
    else:
        words = sys.argv[1:]
        sys.exit(report(ROOT, {words[at]: int(words[at + 1]) for at in range(0, len(words), 2)}))
