#!/usr/bin/env python3
"""Brings the names of definitions and lemmas of this repository to the spelling of today's Rattle: words in snake case, types in camel case.

usage: tools/respell_names.py      at the top of the repository, once, after port.py

The names and their new spelling stand in tools/respelled_names.txt, a pair a line. Functions of src/, exported C names and strings keep their
names, and so do names that a file imports from the library, and names that Rattle makes. Where two names fell together the lemma has `_law`
(a table of rows `_rows`) behind its new name.
"""

import os
import re
import sys

HERE = os.path.dirname(os.path.realpath(__file__))
WORD = re.compile(r"[A-Za-z_][A-Za-z0-9_'₀₁₂₃₄₅₆₇₈₉-]*")
USE = re.compile(r"^\s*(?:pub )?use ([^;{\n]+?)\.\{([^}]*)\}", re.M)
# `represents` is a type; where a file does not import it, the word is a variable.
TYPE_WORD, TYPE_NAME, TYPE_IMPORT = "represents", "TableRepresents", "Represents.{"


def table():
    with open(os.path.join(HERE, "respelled_names.txt"), encoding="utf-8") as lines:
        return dict(line.split() for line in lines)


def imported(text, crates):
    """The names that a file imports from the library."""
    names = set()
    for use in USE.finditer(text):
        parts = use.group(1).split(".")
        if not (parts[0] == "Rattle" and parts[1] in crates):
            names.update(re.split(r"[,\s]+", use.group(2)))
    return names


def turned(text, names, keep=()):
    """The text with each word of the table in its new spelling, but for words that are kept and words behind `tie.` and `lts.`"""
    def one(match):
        word = match.group(0)
        if word in keep or word not in names or re.search(r"\b(tie|lts)\.$", text[: match.start()][-5:]):
            return word
        return names[word]

    return WORD.sub(one, text)


def has_type(text):
    return re.search(r"Represents\.\{[^}]*\b" + TYPE_WORD + r"\b", text) or re.search(r"^abbrev pub " + TYPE_WORD + r" :", text, re.M)


def antt(text, names, crates):
    keep = imported(text, crates)
    lines = []
    typed = has_type(text)
    plain = {w: n for w, n in names.items() if "-" not in w}
    for line in text.split("\n"):
        code, dash, comment = line.partition("--")
        code = turned(code, names, keep)
        # In a comment a word with a hyphen is a name only in the tables of laws at a file's head, before the colon.
        head, colon, rest = comment.partition(":")
        if colon and re.match(r"^   \S", comment) and not code.strip():
            comment = turned(head, names, keep) + colon + turned(rest, plain, keep)
        else:
            comment = turned(comment, plain, keep)
        line = code + dash + comment
        if typed:
            line = re.sub(r"(?<![\w'.-])" + TYPE_WORD + r"(?![\w'-])(?=( [(\w]| :|[,}]|$))", TYPE_NAME, line) if not line.lstrip().startswith("--") else line
        lines.append(line)
    return "\n".join(lines)


def source(text, names):
    plain = {w: n for w, n in names.items() if "-" not in w}
    lines = []
    for line in text.split("\n"):
        words = names if line.lstrip().startswith("ghost use") else plain
        # Strings keep what they say.
        parts = re.split(r'("(?:[^"\\]|\\.)*")', line)
        lines.append("".join(part if i % 2 else turned(part, words) for i, part in enumerate(parts)))
    return "\n".join(lines)


def edit(text, names):
    return "\n".join(turned(line, names) if line.startswith(("old:", "new:")) else line for line in text.split("\n"))


def page(text, names):
    plain = {w: n for w, n in names.items() if "-" not in w}
    parts = re.split(r"(`[^`\n]*`)", text)
    return "".join(turned(part, names if i % 2 else plain) for i, part in enumerate(parts))


def main():
    names = table()
    crates = set(os.listdir("crates"))
    changed = 0
    places = [("crates", (".antt", ".rt", ".edit")), ("docs", (".md",))]
    for top, ends in places:
        for folder, dirs, files in os.walk(top):
            dirs[:] = sorted(d for d in dirs if d != "out")
            for name in sorted(files):
                if not name.endswith(ends):
                    continue
                path = os.path.join(folder, name)
                with open(path, encoding="utf-8") as f:
                    old = f.read()
                if name.endswith(".antt"):
                    new = antt(old, names, crates)
                elif name.endswith(".rt"):
                    new = source(old, names)
                elif name.endswith(".edit"):
                    new = edit(old, names)
                else:
                    new = page(old, names)
                if new != old:
                    with open(path, "w", encoding="utf-8") as f:
                        f.write(new)
                    changed += 1
    print(f"files changed: {changed}")


if __name__ == "__main__":
    sys.exit(main())
