#!/usr/bin/env python3
"""Counts the places of each point of docs/DESIGN-PASS.md in crates/*/src, and the files of point 8 in crates/*/proofs.

  tools/design_places.py [--list] [FOLDER]

FOLDER is a checkout (this one, if none is given); --list prints each place beside its count. It judges nothing: docs/DESIGN-PASS.md
says of each place whether it is changed or kept, and why. Lines of comments and of contracts count only where a point is about contracts.
"""
import collections
import pathlib
import re
import sys


def without_comments(text):
    return re.sub(r"//[^\n]*", lambda found: " " * len(found[0]), text)


def line_of(text, at):
    return text.count("\n", 0, at) + 1


def block_after(text, at):
    """The text between the brace at or behind `at` and the one that closes it."""
    start = text.index("{", at)
    depth, here = 0, start
    while True:
        depth += {"{": 1, "}": -1}.get(text[here], 0)
        here += 1
        if depth == 0:
            return text[start + 1:here - 1]


class Function:
    def __init__(self, path, text, found):
        self.path, self.name = path, found[1]
        self.line = line_of(text, found.start())
        head_end = self.end_of_parameters(text, found.end() - 1)
        self.parameters = text[found.end():head_end - 1]
        rest = text[head_end:]
        self.result = (re.match(r"\s*->\s*([^{\n]+?)\s*(?=\{|\n|;|where)", rest) or [None, ""])[1].strip()
        self.clauses, at = [], head_end
        while True:
            clause = re.compile(r"[^{};]*?\b(requires|ensures)\b[^{]*", re.S).match(text, at)
            if not clause:
                break
            body = block_after(text, clause.end() - 1 if text[clause.end() - 1] == "{" else clause.end())
            self.clauses.append((clause[1], body))
            at = text.index("{", clause.end() - 1) + len(body) + 2
        self.body = block_after(text, at) if "{" in text[at:] else ""

    @staticmethod
    def end_of_parameters(text, at):
        depth = 0
        while True:
            depth += {"(": 1, ")": -1}.get(text[at], 0)
            at += 1
            if depth == 0:
                return at


def functions_of(path, text):
    for found in re.finditer(r"\bfn (\w+)(?:<[^(]*>)?\(", text):
        yield Function(path, text, found)


def places(root):
    """Point and kind to its places."""
    out = collections.defaultdict(list)
    functions, sources = [], {}
    for path in sorted(root.glob("crates/*/src/**/*.rt")):
        text = without_comments(path.read_text())
        name = str(path.relative_to(root / "crates"))
        sources[name] = text
        functions += functions_of(name, text)
    for name, text in sources.items():
        point_1_types(name, text, out)
        point_1_lines(name, text, out)
        point_3(name, text, out)
        point_4(name, text, out)
        point_6(name, text, out)
    for it in functions:
        if it.result == "u32" and re.search(r"REFUSED_|\brefus", it.body) and "crates" not in it.name:
            out["1 a function that answers a refusal as a number"].append(f"{it.path}:{it.line} {it.name}")
    twins(functions, out)
    facts(functions, out)
    steps(functions, sources, out)
    for kind, pattern in (("answers", "proofs/**/Answers.antt"), ("invariants", "proofs/**/Invariants.antt"), ("walks", "proofs/**/Proof.antt")):
        out[f"8 {kind}: files"] += [str(path.relative_to(root / "crates")) for path in sorted(root.glob(f"crates/*/{pattern}"))]
    lemmas = [path for path in sorted(root.glob("crates/*/proofs/*.antt")) if path.name != "Lib.antt"]
    out["8 lemmas: files"] += [str(path.relative_to(root / "crates")) for path in lemmas]
    return out


def point_1_types(name, text, out):
    for found in re.finditer(r"\benum (\w+)[^{;]*", text):
        variants = [it.strip() for it in re.split(r",(?![^(]*\))", re.sub(r"#\[[^\]]*\]", "", block_after(text, found.end() - 1))) if it.strip()]
        if 2 <= len(variants) <= 3 and any("(" in it for it in variants):
            out["1 an enum of two or three variants, some with a value"].append(f"{name}:{line_of(text, found.start())} {found[1]}")
    for found in re.finditer(r"\bstruct (\w+)[^{;(]*(?=\{)", text):
        body = block_after(text, found.end() - 1)
        fields = re.findall(r"(\w+):\s*([^,\n]+)", body)
        flags = [field for field, kind in fields if (field in ("found", "any", "differs", "good") and kind in ("bool", "usize", "u32")) or (field in ("result", "number") and kind == "u32")]
        if flags and len(fields) > len(flags):
            out["1 a struct with a flag or a number beside values"].append(f"{name}:{line_of(text, found.start())} {found[1]} ({', '.join(flags)})")


CODES = r"REFUSED_\w+|RULE_\w+|FETCH|LOAD|STORE|NO_MATCH|NO_FETCH|PROTECTION|NO_ENTRY|HIT_ENTRY|NONE|AGREE|DIFFER"


def point_1_lines(name, text, out):
    for found in re.finditer(rf"\bconst ({CODES}): (?:u32|usize|Other)\b", text):
        out["1 a constant that is a code"].append(f"{name}:{line_of(text, found.start())} {found[1]}")
    for found in re.finditer(r"numbers::REFUSED_\w+", text):
        out["1 a refusal's number handed on"].append(f"{name}:{line_of(text, found.start())} {found[0]}")
    for found in re.finditer(r"\b(?:!= numbers::DONE|== numbers::DONE|\.result != |\b99\b)", text):
        out["1 a number asked for done, or 99 for bad"].append(f"{name}:{line_of(text, found.start())} {found[0]}")


def point_3(name, text, out):
    for found in re.finditer(r"\bwhile [^{]*|\bloop \{|\bfor (\w+) in [^{]*\.\.[^{]*", text):
        word = found[0].strip()
        if word.startswith("for"):
            body = block_after(text, found.end() - 1 if text[found.end() - 1] == "{" else found.end())
            if not re.search(rf"\b{found[1]}\b", body):
                continue
            kind = "3 a `for` over numbers that index"
        else:
            kind = "3 `while` and `loop`"
        out[kind].append(f"{name}:{line_of(text, found.start())} {word}")


def point_4(name, text, out):
    hand = {
        "4 bytes and words put together by hand": r"as u32\) << \d+|>> (?:8|16|24)\) % 256|% 256\) as u8",
        "4 a copy or a fill by hand": r"\w+\[\w+\] = (?:\w+\[\w+\]|0);",
        "4 a wrapping function in place of the method": r"std::num::wrapping_\w+",
        "4 printing by hand": r"println!\(rt; \"\{number\} (?:ok|bad)\"\)",
        "4 words written one by one, four or more in a row": r"(?:\n\s*(?:words::)?write_word\([^;]*\);){4,}|(?:\n\s*put\([^;]*\);){4,}",
        "4 an array compared item by item": r"\w+\[0\] == \w+\)?\s*& \(?\w+\[1\]",
    }
    for kind, pattern in hand.items():
        for found in re.finditer(pattern, text):
            at = found.start() + len(found[0]) - len(found[0].lstrip())
            out[kind].append(f"{name}:{line_of(text, at)} {' '.join(found[0].split())[:60]}")


def point_6(name, text, out):
    for found in re.finditer(r"\bstruct (\w+)[^{;(]*(?=\{)", text):
        body = block_after(text, found.end() - 1)
        if re.search(r"\[u\d+; ", body) and re.search(r"\b(?:size|len|length|count): usize", body):
            out["6 a buffer with its length beside it"].append(f"{name}:{line_of(text, found.start())} {found[1]}")
    for found in re.finditer(r"&mut \w+\[0\.\.0\]", text):
        out["6 an empty part lent for nothing"].append(f"{name}:{line_of(text, found.start())} {found[0]}")
    for found in re.finditer(r": isize\b", text):
        out["6 a length that may be negative"].append(f"{name}:{line_of(text, found.start())}")


def shape(it):
    """A function without its name, numbers, constants, literal types and the names of what it calls' sizes."""
    text = it.parameters + " -> " + it.result + " " + it.body
    text = re.sub(r"\b0x[0-9A-Fa-f_]+|\b\d[\d_]*(?:u8|u32|u64|usize)?\b", "0", text)
    text = re.sub(r"\b[A-Z][A-Z0-9_]+\b", "K", text)
    text = re.sub(r"\bu(?:8|16|32|64|size)\b|\bbool\b", "T", text)
    text = re.sub(rf"\b{it.name}\b", "self_name", text)
    return " ".join(text.split())


def twins(functions, out):
    same = collections.defaultdict(list)
    for it in functions:
        if it.path.startswith("mmu_c/") or len(it.body.split()) < 8:
            continue
        same[shape(it)].append(f"{it.path}:{it.line} {it.name}")
    for names in same.values():
        if len(names) > 1:
            out["2 functions alike but for numbers, constants and types"].append(" = ".join(names))


def conjuncts(body):
    depth, start, parts = 0, 0, []
    for at, sign in enumerate(body):
        depth += {"(": 1, ")": -1, "{": 1, "}": -1}.get(sign, 0)
        if depth == 0 and sign == "×":
            parts.append(body[start:at])
            start = at + 1
    return [" ".join(re.sub(r"\.(?:now|old|entry)\b", "", part).split()).strip("() ") for part in parts + [body[start:]]]


def facts(functions, out):
    said = collections.defaultdict(list)
    together = collections.defaultdict(list)
    for it in functions:
        if it.path.startswith(("mmu_c/", "mmu/")) or not it.clauses and not it.parameters:
            continue
        for kind, body in it.clauses:
            if kind == "requires":
                for part in conjuncts(body):
                    fact = re.sub(r"\b(?:page|whole|registers|pairs|group|cache|table|answer|to|from|s)\b", "x", part)
                    said[fact].append(f"{it.path}:{it.line} {it.name}")
        names = re.findall(r"(\w+):\s*([^,]+)", it.parameters)
        for first, second in zip(names, names[1:]):
            together[(first[0], second[0])].append(f"{it.path}:{it.line} {it.name}")
    for fact, names in sorted(said.items()):
        if len(names) >= 3:
            out["5 a fact asked in three or more contracts"].append(f"{fact}: {len(names)} ({', '.join(names)})")
    for pair, names in sorted(together.items()):
        library = [name for name in names if not name.startswith("test_")]
        if len(library) >= 4:
            out["5 two parameters side by side in four or more functions of the library"].append(f"{', '.join(pair)}: {len(library)} ({', '.join(library)})")


def steps(functions, sources, out):
    """An enum whose variants say what is to be done, handed to functions that match on it."""
    for name, text in sources.items():
        for found in re.finditer(r"\benum (\w+)", text):
            taken = [it for it in functions if re.search(rf":\s*(?:\w+::)*{found[1]}\b", it.parameters) and f"{found[1]}::" in it.body and "match" in it.body]
            if taken:
                out["7 an enum that says what to do, matched on"].append(f"{name}:{line_of(text, found.start())} {found[1]} ({', '.join(it.name for it in taken)})")
    for name, text in sources.items():
        for found in re.finditer(r"\[\s*(?:fn\(|\(\w+::)", text):
            out["7 a table of functions"].append(f"{name}:{line_of(text, found.start())}")


def main():
    arguments = [it for it in sys.argv[1:] if it != "--list"]
    root = pathlib.Path(arguments[0] if arguments else pathlib.Path(__file__).parent.parent).resolve()
    found = places(root)
    for kind in sorted(found):
        print(f"{len(found[kind]):4} {kind}")
        if "--list" in sys.argv:
            for place in found[kind]:
                print(f"       {place}")


main()
