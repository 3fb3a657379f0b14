#!/usr/bin/env python3
"""Tells which statements of specs/ rest on a law: from a declaration of proofs/ by all that cites it, crate over crate.

    statements.py CRATE MODULE NAME     the statements that rest on it, nearest first
    statements.py --self-test

A statement is a type without parameters that some crate's specs/ declares and that a public declaration of proofs/ has as its own type: a record of
rows, a law over all tables, a theorem. A text names what it cites, so the tool reads texts alone: a declaration cites another where it names it, and its file brings that
name by a `use` line or declares it.
"""
import re
import sys
from collections import deque
from pathlib import Path

ROOT = Path(__file__).resolve().parent.parent
DECLARATION = re.compile(r"^( *)((?:pub |abbrev |unfoldable )*)(record )?([^\s:(){}]+)((?: [({][^:]*:.*?[)}])*) : (.*)$")
MODULE = re.compile(r"^( *)module\b")
USE = re.compile(r"^ *(?:pub )?use Rattle\.(\w+)\.(specs|proofs)\.([^\s{]+?)(?:\.\{(.*)\}| as (\S+))?$")
TOKEN = re.compile(r"[^\s(){}\[\],;]+")


class Declaration:
    """A declaration: where it stands, its name, the type's text and all that it names."""

    def __init__(self, place, name, public, kind, type_text):
        self.place, self.name, self.public, self.kind, self.type = place, name, public, kind, type_text
        self.tokens = set(TOKEN.findall(type_text))

    @property
    def key(self):
        return self.place + (self.name,)


def read_file(place, text):
    """The declarations of a file and what its `use` lines bring: a name, or another name for a module, and where it comes from."""
    found, brought, depths = [], {}, []
    for line in text.split("\n"):
        line = re.sub(r"(^|\s)--( .*)?$", "", line).rstrip()
        if not line:
            continue
        used = USE.match(line)
        if used:
            crate, area, module, names, alias = used.groups()
            for name in (names or "").split(","):
                if name.strip():
                    brought[name.strip()] = (crate, area, module, name.strip())
            if alias:
                brought[alias + "."] = (crate, area, module, None)
            continue
        indent = len(line) - len(line.lstrip(" "))
        while depths and indent <= depths[-1] and not line.lstrip().startswith(("where", "{", "(")):
            depths.pop()
        if MODULE.match(line):
            depths.append(indent)
            continue
        match = DECLARATION.match(line)
        if match and indent == (depths[-1] + 2 if depths else 0):
            found.append(Declaration(place, match[4], "pub" in match[2].split(), "record" if match[3] else "", match[6]))
        elif found:
            found[-1].tokens.update(TOKEN.findall(line))
            if not found[-1].type:
                found[-1].type = line.strip()
    return found, brought


def read_tree(root):
    """Every declaration by its key, and by key what cites it."""
    files = {}
    for path in sorted(root.glob("crates/*/specs/**/*.antt")) + sorted(root.glob("crates/*/proofs/**/*.antt")):
        crate, area, *rest = path.relative_to(root / "crates").with_suffix("").parts
        files[(crate, area, ".".join(rest))] = read_file((crate, area, ".".join(rest)), path.read_text(encoding="utf-8"))
    declared = {one.key: one for found, _ in files.values() for one in found}
    cited_by = {}
    for place, (found, brought) in files.items():
        own = {one.name for one in found}
        for one in found:
            for token in one.tokens:
                target = place + (token,) if token in own else brought.get(token)
                alias, dot, rest = token.partition(".")
                if target is None and dot and alias + "." in brought:
                    target = brought[alias + "."][:3] + (rest,)
                if target in declared and target != one.key:
                    cited_by.setdefault(target, set()).add(one.key)
    return declared, cited_by, files


class Tree:
    """The declarations of a repository and what rests on what."""

    def __init__(self, root=ROOT):
        self.declared, self.cited_by, self.files = read_tree(root)
        self.names = {}
        for key in self.declared:
            if key[1] == "specs":
                self.names.setdefault(key[3], []).append(key)

    def statement(self, key):
        """The statement that a declaration of proofs/ is the proof of, or None."""
        one = self.declared[key]
        if one.place[1] != "proofs" or not one.public:
            return None
        stated = self.declared.get(self.files[one.place][1].get(one.type.strip()))
        return stated.name if stated and stated.place[1] == "specs" and re.search(r"\bType \d+( where)?$", stated.type) else None

    def above(self, failed):
        """The statements that rest on failed declarations, nearest first, each with the chain of names that leads there."""
        chains = {key: (key[3],) for key in failed if key in self.declared}
        queue, statements = deque(chains), {}
        while queue:
            key = queue.popleft()
            name = self.statement(key)
            if name and name not in statements:
                statements[name] = chains[key]
            for other in sorted(self.cited_by.get(key, ())):
                if other not in chains:
                    chains[other] = chains[key] + (other[3],)
                    queue.append(other)
        return statements


SAMPLE = {
    "crates/low/specs/Sum.antt": "pub sum : ℕ → ℕ\nsum n = n\n\npub record SumRows : Type 0 where\n  pub one : sum 1 ≡ 1\n",
    "crates/low/proofs/Sum.antt": "use Rattle.low.specs.Sum.{sum, SumRows}\n-- unused names law\nmodule _ (n : ℕ) where\n  pub law : sum n ≡ n\n  law = refl\n\n"
                                  "pub sum_rows : SumRows\nsum_rows = record { one = refl }\n",
    "crates/high/specs/All.antt": "pub record All : Type 0 where\n  pub every : Unit\n",
    "crates/high/proofs/All.antt": "use Rattle.low.proofs.Sum as low\nuse Rattle.high.specs.All.{All}\n\nstep : ℕ → Unit\nstep n = low.law n\n\npub all : All\nall = record { every = step 0 }\n",
}


def self_test():
    import tempfile
    with tempfile.TemporaryDirectory() as folder:
        for name, text in SAMPLE.items():
            path = Path(folder) / name
            path.parent.mkdir(parents=True, exist_ok=True)
            path.write_text(text, encoding="utf-8")
        tree = Tree(Path(folder))
        wanted = [
            (("low", "proofs", "Sum", "law"), {"All": ("law", "step", "all")}),
            (("low", "proofs", "Sum", "sum_rows"), {"SumRows": ("sum_rows",)}),
            (("low", "proofs", "Sum", "no_such_law"), {}),
        ]
        for key, statements in wanted:
            if tree.above([key]) != statements:
                sys.exit(f"told wrongly of {key}: {tree.above([key])}")
    print("self test: a statement is found from a law below it, through another crate and another name of a module")


if __name__ == "__main__":
    if sys.argv[1:] == ["--self-test"]:
        self_test()
    elif len(sys.argv) == 4:
        for name, chain in Tree().above([(sys.argv[1], "proofs", sys.argv[2], sys.argv[3])]).items():
            print(name, "by", " <- ".join(chain))
    else:
        sys.exit(__doc__)
