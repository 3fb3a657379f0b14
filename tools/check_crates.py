#!/usr/bin/env python3
"""Holds crates.txt to the sources: a crate names what it uses, and nothing else.

    check_crates.py
    check_crates.py --self-test

A crate uses another where its Rattle text has `NAME::` or `use NAME`, or its definitions, proofs or contracts name the library
`Rattle.NAME.`. Behind the name of a static library stands the word `staticlib`.
"""
import re
import sys
import tempfile
from pathlib import Path

ROOT = Path(__file__).resolve().parent.parent


def listed(root):
    """The crates with the names behind them."""
    lines = [line.split("#")[0] for line in (root / "crates.txt").read_text(encoding="utf-8").splitlines()]
    return {line.split(":")[0].split()[0]: line.split(":")[1].split() for line in lines if ":" in line}


def text_of(folder):
    """All Rattle text of a crate, without comments; its folder out/ has what rt made."""
    paths = [path for part in ("src", "specs", "proofs") for path in sorted((folder / part).rglob("*"))]
    found = [path.read_text(encoding="utf-8") for path in paths if path.suffix in (".rt", ".antt")]
    return re.sub(r"(^|\s)(//|-- ).*", "", "\n".join(found))


def needless(root):
    """Each crate with the names that it does not use."""
    told = []
    for crate, names in listed(root).items():
        text = text_of(root / "crates" / crate)
        told += [(crate, name) for name in names if not re.search(rf"\b{name}::|\buse {name}\b|Rattle\.{name}\.", text)]
    return told


def self_test():
    with tempfile.TemporaryDirectory() as folder:
        root = Path(folder)
        for name, text in {"low": "", "stated": "", "high": "// low::none\nghost use Rattle.stated.specs.A.{a};\nfn f() {}\n", "top": "fn f() { low::g() }\n", "for_c": "fn f() { top::f() }\n"}.items():
            (root / "crates" / name / "src").mkdir(parents=True)
            (root / "crates" / name / "src" / "lib.rt").write_text(text, encoding="utf-8")
        (root / "crates.txt").write_text("# lowest first\nlow:\nstated:\nhigh: low stated\ntop: low\nfor_c staticlib: top\n", encoding="utf-8")
        if needless(root) != [("high", "low")]:
            sys.exit(f"told wrongly: {needless(root)}")
    print("self test: a name that only a comment has is needless, one of code or of a contract is not")


if __name__ == "__main__":
    if sys.argv[1:] == ["--self-test"]:
        self_test()
    else:
        for crate, name in needless(ROOT):
            print(f"crates.txt: {crate} names {name} and does not use it")
        sys.exit(1 if needless(ROOT) else 0)
