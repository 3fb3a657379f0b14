#!/usr/bin/env python3
"""What moved between two revisions: definitions, promises, code and proofs, for the note of a landing in docs/REQUESTS.md.

    moved.py OLD            from the revision OLD to the working tree
    moved.py OLD NEW        from OLD to NEW
    moved.py --self-test

Promises are the contracts of functions, statements (the files that tools/definitions.py places as such) and rows. A text moved where it is another once comments,
imports and white space are left out, so a rename shows and a new layout does not. Proofs are told by file; a file that only moved is not told.
Program crates (those with src/main.rt) count as tests and are left out, with the crates that only they use and with `mmu_c`, which repeats the contracts of
`mmu` (PROGRAMS). Not for two revisions between which the kit's spelling changed: every text would have moved.
What tools/renamed.txt names is told under its new name on both sides, so that a renamed crate or module did not move.
"""
import os
import re
import subprocess
import sys
import tempfile

sys.path.insert(0, os.path.dirname(os.path.abspath(__file__)))
from definitions import HEAD, ORDER, ROWS, STATEMENTS, blocks_of, is_text  # noqa: E402

TOP = os.path.join(os.path.dirname(os.path.abspath(__file__)), "..")
PROGRAMS = {"test_report", "mmu_c"}
STATED = {place for title, places in ORDER if title == STATEMENTS for place in places}
FUNCTION = re.compile(r"^impl (?P<owner>\w+)|^(?P<indent> *)(?:pub )?(?:extern \"C\" )?fn (?P<name>\w+)(?P<head>.*?)^(?P=indent)\{\n(?P<body>.*?)^(?P=indent)\}", re.M | re.S)
KINDS = ["definitions", "statements", "rows", "contracts", "code", "proofs"]


def renamed_in(text):
    """Old names and new ones, of crates and of modules."""
    pairs = [line.split() for line in text.split("\n") if line.strip() and not line.startswith("#")]
    return {old: new for old, new in pairs if "/" not in old}, {old[2:]: new[2:] for old, new in pairs if old.startswith("*/")}


RENAMES = os.path.join(os.path.dirname(os.path.abspath(__file__)), "renamed.txt")
CRATES, MODULES = renamed_in(open(RENAMES, encoding="utf-8").read() if os.path.exists(RENAMES) else "")


def folded(lines):
    """Lines without comments, imports and layout."""
    kept = [re.sub(r"\s*//.*$", "", line) for line in lines]
    kept = [line for line in kept if is_text(line) and not line.strip().startswith("ghost use")]
    return " ".join(" ".join(kept).split())


def functions_of(place, text):
    """The functions of a source file: their contracts and their bodies."""
    owner = None
    for match in FUNCTION.finditer(text):
        if match["owner"]:
            owner = match["owner"]
            continue
        full = f"{place}::{owner}::{match['name']}" if match["indent"] else f"{place}::{match['name']}"
        yield full, folded(match["head"].split("\n")), folded(match["body"].split("\n"))


def definitions_of(crate, module, text):
    """The definitions of a file of specs/: kind, name and text."""
    kind = "rows" if module in ROWS else "statements" if f"{crate}/{module}" in STATED else "definitions"
    for block, _ in blocks_of(text):
        heads = [HEAD.match(line.strip()) for line in block if re.match(r"\s*(?:abbrev|unfoldable|pub record|pub data)\b", line)]
        for head in [head for head in heads if head][:1]:
            yield kind, head.group(1), folded(block)


def read_tree(folder):
    """Kind and name to text, for each crate of the library; and the lines of code, definitions and proofs."""
    found, lines = {kind: {} for kind in KINDS}, {"code": 0, "specs": 0, "proofs": 0}
    crates = os.path.join(folder, "crates")
    for own in sorted(os.listdir(crates)):
        crate = CRATES.get(own, own)
        if crate in PROGRAMS or os.path.exists(os.path.join(crates, own, "src", "main.rt")):
            continue
        for path, _, names in os.walk(os.path.join(crates, own)):
            for name in names:
                place = os.path.join(path, name)
                below = os.path.relpath(place, os.path.join(crates, own))
                part, _, rest = below.partition(os.sep)
                name = f"{MODULES.get(name[:-5], name[:-5])}.antt" if name.endswith(".antt") else name
                rest = os.path.join(os.path.dirname(rest), name)
                if not name.endswith((".rt", ".antt")) or part not in ("src", "specs", "proofs"):
                    continue
                text = re.sub(r"\b(\w+)(?=::)", lambda word: CRATES.get(word[1], word[1]), open(place, encoding="utf-8").read())
                lines["code" if part == "src" else part] += sum(1 for line in text.split("\n") if folded([line]))
                if part == "src":
                    module = crate if rest == "lib.rt" else f"{crate}::{rest[:-3].replace(os.sep, '::')}"
                    for full, contract, body in functions_of(module, text):
                        found["contracts"][full], found["code"][full] = contract, body
                elif part == "specs":
                    for kind, word, body in definitions_of(crate, name[:-5], text):
                        found[kind][f"{crate}/{name[:-5]} {word}"] = body
                else:
                    found["proofs"][f"{crate}/{rest}"] = folded(text.split("\n"))
    return found, lines


def compared(old, new):
    """Of one kind: what moved, what is new, what is gone, and how many stayed."""
    moved = sorted(name for name in new if name in old and old[name] != new[name])
    return moved, sorted(set(new) - set(old)), sorted(set(old) - set(new)), sum(old.get(name) == text for name, text in new.items())


def told(names):
    """Names gathered by what stands before their last word."""
    places = {}
    for name in names:
        place, _, last = name.rpartition(" ") if " " in name else name.rpartition("::") if "::" in name else name.partition("/")
        places.setdefault(place, []).append(last)
    return "; ".join(f"{place}: {', '.join(last)}" if place else ", ".join(last) for place, last in places.items())


def report(old, new):
    """The lines that the note has."""
    (before, lines_before), (after, lines_after) = old, new
    for kind in KINDS:
        moved, fresh, gone, stayed = compared(before[kind], after[kind])
        yield f"{kind}: {stayed} stayed, {len(moved)} moved, {len(fresh)} new, {len(gone)} gone"
        for word, names in (("moved", moved), ("new", fresh), ("gone", gone)):
            if names:
                yield f"  {word}: {told(names)}"
    for kind in lines_before:
        yield f"lines of {kind}: {lines_before[kind]} before, {lines_after[kind]} after"


def tree_of(revision, folder):
    archive = subprocess.run(["git", "-C", TOP, "archive", revision, "crates"], stdout=subprocess.PIPE, check=True).stdout
    subprocess.run(["tar", "-x", "-C", folder], input=archive, check=True)
    return read_tree(folder)


def self_test():
    """Two small trees: each kind of change is told as what it is."""
    source = "// Why.\npub fn f(x: u32) -> u32\n    ensures {{ result ≡ {0} }}\n{{\n    {1}\n}}\n"
    specs = "-- a comment\nunfoldable pub one : ℕ\none = {0}\n\n{1}"
    stated = "pub record Stated : Type 0 where\n  pub fact : one ≡ 1\n"
    crate, module = sorted(STATED)[0].split("/")
    trees = []
    for contract, body, one, more in (("x", "x", "1", ""), ("x + 1", "x", "2", "abbrev pub two : ℕ\ntwo = 2\n\n")):
        with tempfile.TemporaryDirectory() as folder:
            files = {"src/lib.rt": source.format(contract, body), "specs/A.antt": specs.format(one, more), f"specs/{module}.antt": stated, "proofs/B.antt": "law = refl\n"}
            for place, text in files.items():
                path = os.path.join(folder, "crates", crate, place)
                os.makedirs(os.path.dirname(path), exist_ok=True)
                open(path, "w", encoding="utf-8").write(text)
            trees.append(read_tree(folder)[0])
    expected = {"definitions": ([f"{crate}/A one"], [f"{crate}/A two"], [], 0), "statements": ([], [], [], 1), "rows": ([], [], [], 0),
                "contracts": ([f"{crate}::f"], [], [], 0), "code": ([], [], [], 1), "proofs": ([], [], [], 1)}
    got = {kind: compared(trees[0][kind], trees[1][kind]) for kind in KINDS}
    if renamed_in("# a remark\nold new\n*/Old */New\n") != ({"old": "new"}, {"Old": "New"}):
        sys.exit("moved.py does not read what was renamed")
    if got != expected:
        sys.exit(f"moved.py tells {got}, and should tell {expected}")
    print("ok   moved.py tells what moved")


def main():
    words = sys.argv[1:]
    if words == ["--self-test"]:
        self_test()
    elif len(words) in (1, 2):
        with tempfile.TemporaryDirectory() as folder:
            old = tree_of(words[0], folder)
        if len(words) == 1:
            new = read_tree(TOP)
        else:
            with tempfile.TemporaryDirectory() as folder:
                new = tree_of(words[1], folder)
        print("\n".join(report(old, new)))
    else:
        sys.exit(__doc__)


if __name__ == "__main__":
    main()
