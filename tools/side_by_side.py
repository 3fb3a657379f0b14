#!/usr/bin/env python3
"""Sets what two checkouts promise beside one another: the library's public functions with their clauses, its types and
constants, and the definitions and statements of specs/, of which those whose words differ are printed, old and new.

  tools/side_by_side.py OLD [NEW]      NEW: this checkout, if none is given
"""
import pathlib
import re
import sys

NOT_LIBRARY = ("test_", "theory_")
FUNCTION = re.compile(r'\s*pub (?:extern "C" )?fn (\w+)')
TYPE = re.compile(r"pub (?:struct|enum|const) (\w+)")
OWNER = re.compile(r"impl(?:<[^>]*>)? (.*?) \{")
ENDS_HEAD = re.compile(r"^(?!\s*(?:requires|ensures)).*[^{] \{$")
SAID = re.compile(r"(?:unfoldable |abbrev )?(?:pub )?(?:record |data )?([^\s:(]+)")


def joined(lines):
    text = " ".join(" ".join(lines).split())
    return text.replace("( ", "(").replace(", )", ")").replace(",)", ")")


def head(lines, at):
    """A function's text up to its body."""
    found = []
    while lines[at].strip() != "{":
        line = lines[at]
        if ENDS_HEAD.match(line) and "record {" not in line:
            return joined(found + [line[:-1]])
        found.append(line)
        at += 1
    return joined(found)


def declared(lines, at):
    """A type or a constant, without its comments."""
    found = [lines[at]]
    while found[0].rstrip().endswith("{") and found[-1] != "}":
        at += 1
        found += [] if lines[at].strip().startswith("//") else [lines[at]]
    return joined(found)


def functions(root):
    """Name to text, of each public function, type and constant of the library."""
    texts = {}
    for path in sorted(root.glob("crates/*/src/**/*.rt")):
        crate = path.relative_to(root / "crates").parts[0]
        if crate.startswith(NOT_LIBRARY):
            continue
        lines, owner = path.read_text().split("\n"), ""
        for at, line in enumerate(lines):
            implemented, function, kind = OWNER.match(line), FUNCTION.match(line), TYPE.match(line)
            if implemented:
                owner = implemented[1].split(" for ")[-1].split("<")[0] + "::"
            elif line == "}":
                owner = ""
            elif function:
                texts[f"{crate}::{owner}{function[1]}"] = head(lines, at)
            elif kind:
                texts[f"{crate}::{kind[1]}"] = declared(lines, at)
    return texts


def definitions(root):
    """Name to text, of each definition and statement of specs/."""
    texts = {}
    for path in sorted(root.glob("crates/*/specs/**/*.antt")):
        if path.name == "Lib.antt":
            continue
        crate = path.relative_to(root / "crates").parts[0]
        text = re.sub(r"(?m)^\s*--.*\n", "", path.read_text())
        for block in re.split(r"\n(?=(?:unfoldable |abbrev |pub |record |data ))", text):
            if not block.startswith("use "):
                texts[f"{crate}/{path.stem} {SAID.match(block)[1]}"] = joined([block])
    return texts


def compared(title, old, new):
    differing = [name for name in sorted({*old, *new}) if old.get(name) != new.get(name)]
    print(f"### {title}: {len(differing)} of {len({*old, *new})} differ\n")
    for name in differing:
        print(f"- **{name}**")
        print(f"  - old: `{old[name]}`" if name in old else "  - old: none")
        print(f"  - new: `{new[name]}`" if name in new else "  - new: gone")
    print()


def main():
    old = pathlib.Path(sys.argv[1])
    new = pathlib.Path(sys.argv[2] if len(sys.argv) > 2 else pathlib.Path(__file__).resolve().parent.parent)
    compared("Functions, types and constants of the library", functions(old), functions(new))
    compared("Definitions and statements of specs/", definitions(old), definitions(new))


main()
