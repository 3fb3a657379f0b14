#!/usr/bin/env python3
"""Looks at the must-fail edits and at what `rt ci` or `rt must-fail` told of each: it keeps the rule, and is refused about a fact.

    check_refusals.py [--log FILE] [CRATE..]    FILE is what rt wrote; default target/log/ci.log, of the last gate
    check_refusals.py --list                    writes docs/WRONG-MACHINES.md
    check_refusals.py --current                 fails where that page is not what would be written, or an edit does not keep the rule
    check_refusals.py --self-test               shows that it tells such edits and such lines of rt from others

The rule (docs/EVIDENCE.md). An edit begins with a sentence that says what the wrong machine does, and changes the code alone or definitions alone.
  - Of the code: it says with `call: mmu_..` whose wrong program it is, with `machine: 1` to `6` or `reading: 1` to `5` which of document 01's, with
    `quick: ..` which quick path lets something through, or with `function: NAME` of which public function of its crate the contract refuses it. Each
    exported call has two with `call`, at least one of them outside the crate `mmu`.
  - Of definitions: it says with `by: NAME` which statement of specs/ refuses it: a record of rows, a law over all tables, a theorem.
  - Each machine and each reading of document 01 has a wrong program and a wrong definition.
An edit shows nothing where the wrong program or definition was never judged. So it is named, and the tool fails,
  - where an edit of the code changes its shape (another operation, another call): then a proof may fail though the program is right. A comparison,
    a sum, a shift or a mask may become another of its kind, and a test may be negated; an edit with a line `shape: WHY` may change it;
  - where an edit does nothing: an operation with its neutral operand (`1 * ..`), or the operands of a sum exchanged;
  - where rt told nothing of it, or did not refuse it;
  - where rt refused it only because a proof file names what the edit took away, or only by a limit of the prover: then no fact was refused.
rt keeps no log of an edit: it tells the first refusal alone, which is the first about a fact where there is one. So the tool cannot see whether the
statement that `by:` names was refused as well; where what rt told is a law or a row, it counts how many times that statement rests on it, from each law to
all that cites it, crate over crate (tools/statements.py).
"""
import glob
import os
import re
import sys

import statements

ROOT = os.path.join(os.path.dirname(os.path.abspath(__file__)), "..")
# A line of rt about an edit, and what follows where it is refused about a fact; rt cuts the latter off after 160 characters.
TOLD = re.compile(r"^rt: (?:edit \d+ of \d+: )?must-fail (\w+)/(\S+)\.edit: (.*)$", re.M)
REFUSED = "refused, as it must be"
NO_FACT = {"(only because a proof file names what the edit took away": "not about a fact: a proof file names what it took away",
           "(only by a limit of the prover": "by a limit of the prover alone"}
# What failed, where rt names it: a declaration of specs/ or proofs/.
DECLARATION = re.compile(r"(?:note: )?(?:\./)?(specs|proofs)/(\S+?)\.antt:\d+:\d+: error: `([^`]+)`: ")

TOKEN = re.compile(r"[A-Za-z_][A-Za-z_0-9]*(?:(?:::|\.)[A-Za-z_][A-Za-z_0-9]*)*|0x[0-9A-Fa-f]+|\d+|<<|>>|<=|>=|==|!=|&&|\|\||\.\.=|\.\.|->|=>|\S")
KINDS = ["== != < <= > >=", "+ - * / %", "<< >>", "& | ^ && ||"]
KIND = {operator: str(number) for number, operators in enumerate(KINDS) for operator in operators.split()}
NEUTRAL = re.compile(r"(?<![\w.])1 \* |\* 1(?![\w.])|(?<![\w.])0 \+ |\+ 0(?![\w.])|/ 1(?![\w.])|- 0(?![\w.])|<< 0(?!\w)|>> 0(?!\w)|\| 0(?!\w)|\^ 0(?!\w)|&& true|\|\| false")

LINES = [
    (False, None, "NOT REFUSED: the crate is still proved with this edit (one that means the same as before cannot be refused: remove it)"),
    (False, None, "BAD EDIT: an 'old:' text is in src/lib.rt 2 times, and not once"),
    (False, None, "NOT TRIED: its check was killed, most likely for memory, so nothing is known of it: run this again"),
    (False, None, "refused, as it must be (only because a proof file names what the edit took away, so this says little of the contract: change a value and keep the names): ./proofs/f/Answers.antt:1:1: error: `f`: record `x` has no field `y`"),
    (False, None, "refused, as it must be (only by a limit of the prover, which gave no verdict, so this says less of the contract: choose a change that it refuses sooner): antt ran out of stack"),
    (True, None, "refused, as it must be: note: src/lib.rt:18:1: it is not proved that what the function ensures holds when it returns (`returns-in-Protect`)"),
    (True, None, "refused, as it must be"),
    (True, False, "refused, as it must be: ./proofs/Other.antt:3:1: error: `apart`: as printed, the two types differ only where one has `1` (expected)"),
    (True, True, "refused, as it must be: ./proofs/Rows.antt:1:1: error: `rows`: as printed, the two types differ only where one has `1` (expected)"),
    (True, True, "refused, as it must be: ./proofs/deep/Other.antt:3:1: error: `law`: computed as far as they go, the two types differ only where"),
]
EDITS = [
    (False, "file: src/lib.rt\nold: low_ones(field >> 1)\nnew: low_ones(1 * (field >> 1))\n"),
    (False, "file: src/lib.rt\nold: word_of(d, c, b, a) == reversed\nnew: 1 * word_of(d, c, b, a) == reversed\n"),
    (False, "file: specs/A.antt\nold: f n = g n\nnew: f n = 1 * g n\n"),
    (False, "file: specs/A.antt\nold: f n = a + b\nnew: f n = b + a\n"),
    (False, "file: src/lib.rt\nold: x & mask\nnew: mask & x\n"),
    (False, "file: src/lib.rt\nold: f(x)\nnew: f(g(x))\n"),
    (True, "file: src/lib.rt\nold: low_ones(field >> 1)\nnew: low_ones(field >> 2)\n"),
    (True, "file: src/lib.rt\nold: if a == b {\nnew: if a != b {\n"),
    (True, "file: src/lib.rt\nold: if found {\nnew: if !found {\n"),
    (True, "file: src/lib.rt\nold: f(x, y)\nnew: f(y, x)\n"),
    (True, "file: src/lib.rt\nold: f(s[at + 1], s[at + 2])\nnew: f(s[at + 2], s[at + 1])\n"),
    (True, "file: specs/A.antt\nold: f n = g n\nnew: f n = g n / 2\n"),
    (True, "shape: no test is left to turn round\nfile: src/lib.rt\nold: return 1;\nnew: return f(1);\n"),
]


def tokens(text):
    return [token for token in TOKEN.findall(text) if token != "!"]


def shape(text):
    """The operations of a text, without its operands: names and numbers alike, operators by their kind, calls by their brackets."""
    found, kinds = tokens(text), []
    for at, token in enumerate(found):
        if token in KIND:
            kinds.append(KIND[token])
        elif re.match(r"\w", token):
            kinds.append("call" if at + 1 < len(found) and found[at + 1] == "(" else "operand")
        else:
            kinds.append(token)
    return kinds


def exchanged(old, new):
    """Whether the new text is the old one, or has the operands of one sum, product, mask or equation exchanged."""
    first, second = tokens(old), tokens(new)
    if first == second:
        return old.count("!") == new.count("!")
    for at, token in enumerate(first):
        if token in ("+", "*", "&", "|", "^", "&&", "||", "==", "!="):
            for left in range(at):
                for right in range(at + 2, len(first) + 1):
                    one, other = first[left:at], first[at + 1:right]
                    if whole(one) and whole(other) and first[:left] + other + [token] + one + first[right:] == second:
                        return True
    return False


def whole(part):
    """Whether tokens are one expression: no comma outside brackets, no bracket without its other."""
    depth = 0
    for token in part:
        depth += (token in "([{") - (token in ")]}")
        if depth < 0 or (depth == 0 and token == ","):
            return False
    return depth == 0


KEYS = ("file", "old", "new", "by", "shape", "call", "machine", "reading", "quick", "function")


class Edit:
    """A must-fail edit: its sentence, its replacements, and what its other lines say."""

    def __init__(self, text, crate="", label=""):
        self.crate, self.label, self.pairs, self.said = crate, label, [], {}
        name, old = "", ""
        for line in text.split("\n"):
            key, _, rest = line.partition(":")
            rest = rest[1:] if rest.startswith(" ") else rest
            if key == "file":
                name = rest
            elif key == "old":
                old = rest
            elif key == "new":
                self.pairs.append((name, old, rest))
            elif key in KEYS:
                self.said[key] = rest
        first = text.split("\n")[0]
        self.sentence = "" if first.partition(":")[0] in KEYS else first

    @property
    def areas(self):
        return {name.split("/")[0] for name, _, _ in self.pairs}

    def has_function(self, name):
        """Whether the crate has a public function of this name; `Type::name` names a method, which a trait's `impl` may have too."""
        paths = glob.glob(os.path.join(ROOT, "crates", self.crate, "src", "**", "*.rt"), recursive=True)
        sources = "".join(open(path, encoding="utf-8").read() for path in paths)
        owner, word = ([""] + name.split("::"))[-2:]
        impls = re.findall(r"^impl\b([^{]*\bfor\b[^{]*)\{\n(.*?)^\}", sources, re.M | re.S)
        of_trait = "".join(body for head, body in impls if re.search(rf"\b{re.escape(owner)}\b", head))
        return any(re.search(rf"\b{kind} {re.escape(word)}\b", text) for kind, text in (("pub fn", sources), ("fn", of_trait)))

    @property
    def of_code(self):
        return self.areas == {"src"}


def fault(edit):
    """What is wrong with an edit by its own text, or None."""
    for name, old, new in edit.pairs:
        if name.startswith("src/") and "shape" not in edit.said and shape(old) != shape(new):
            return f"changes the code's shape: {old.strip()}"
        if exchanged(old, new) or (NEUTRAL.search(new) and not NEUTRAL.search(old)):
            return f"does nothing: {new.strip()}"
    return None


def breach(edit, known):
    """How an edit breaks the rule, or None; `known` are the statements of specs/."""
    if not edit.sentence.endswith("."):
        return "has no sentence that says what the wrong machine does"
    if len(edit.areas) != 1:
        return "changes code and definitions at once"
    if edit.of_code:
        if "function" in edit.said and not edit.has_function(edit.said["function"]):
            return f"names no public function of its crate: {edit.said['function']}"
        return None if set(edit.said) & {"call", "machine", "reading", "quick", "function"} else "does not say whose wrong program it is"
    if edit.said.get("by") not in known:
        return f"names no statement of specs/ that refuses it: {edit.said.get('by')}"
    return None


def lacking(edits, calls):
    """What the edits lack as a whole: two programs for each call, and the machines and readings of document 01 as program and as definition."""
    told = []
    for call in calls:
        own = [edit for edit in edits if edit.said.get("call") == call]
        if len(own) != 2 or all(edit.crate == "mmu" for edit in own):
            told.append(f"{call}: {len(own)} wrong programs, and not two, of which one is outside the crate mmu")
    for key, last in (("machine", 6), ("reading", 5)):
        for number in range(1, last + 1):
            own = [edit for edit in edits if edit.said.get(key) == str(number)]
            if not any(edit.of_code for edit in own) or all(edit.of_code for edit in own):
                told.append(f"{key} {number} of document 01: not both a wrong program and a wrong definition")
    return told


def refusal(told):
    """What is wrong with what rt told of an edit, or None."""
    if not told.startswith(REFUSED):
        return told.split(":")[0][:80]
    return next((f"refused, but {why}" for words, why in NO_FACT.items() if told.startswith(f"{REFUSED} {words}")), None)


def rests(told, by, tree, crate):
    """Whether the statement `by` rests on the declaration that rt told of; None where it told of none."""
    named = DECLARATION.match(told[len(REFUSED) + 2:])
    return by in tree.above([(crate, named[1], named[2].replace("/", "."), named[3])]) if named else None


class SampleTree:
    """Stands for a repository in which the proof of `Rows` cites `law` and not `apart`."""

    def above(self, keys):
        return {"Rows": ()} if {key[3] for key in keys} & {"rows", "law"} else {}


RULES = [
    (False, "file: src/lib.rt\nold: a\nnew: b\n"),
    (False, "It is wrong.\nfile: src/lib.rt\nold: a\nnew: b\n"),
    (False, "It is wrong.\nby: Rows\nfile: src/lib.rt\nold: a\nnew: b\nfile: specs/A.antt\nold: a\nnew: b\n"),
    (False, "It is wrong.\nby: a-lemma\nfile: specs/A.antt\nold: a\nnew: b\n"),
    (True, "It is wrong.\nby: Rows\nfile: specs/A.antt\nold: a\nnew: b\n"),
    (True, "It is wrong.\ncall: mmu_map\nfile: src/lib.rt\nold: a\nnew: b\n"),
    (True, "It is wrong.\nfunction: result_of\nfile: src/lib.rt\nold: a\nnew: b\n"),
    (False, "It is wrong.\nfunction: result_off\nfile: src/lib.rt\nold: a\nnew: b\n"),
    (True, "It is wrong.\nfunction: Refusal::from\nfile: src/lib.rt\nold: a\nnew: b\n"),
    (False, "It is wrong.\nfunction: Refused::from\nfile: src/lib.rt\nold: a\nnew: b\n"),
]


def sample(crate, area, line):
    return Edit(f"It is wrong.\n{line}\nfile: {area}/a\nold: a\nnew: b\n", crate)


def self_test():
    wrong = [line for wanted, above, line in LINES if (refusal(line) is None) != wanted or rests(line, "Rows", SampleTree(), "low") != above]
    if TOLD.findall("rt: edit 2 of 3: must-fail low/e.edit: NOT TRIED: x\nrt: must-fail low/f-2.edit: refused, as it must be\n") != [("low", "e", "NOT TRIED: x"), ("low", "f-2", "refused, as it must be")]:
        wrong.append("the lines of rt")
    wrong += [edit for wanted, edit in EDITS if (fault(Edit(edit)) is None) != wanted]
    wrong += [edit for wanted, edit in RULES if (breach(Edit(edit, "numbers"), {"Rows"}) is None) != wanted]
    whole = [sample("mmu", "src", "call: mmu_map"), sample("page_calls", "src", "call: mmu_map")]
    both = [sample("theory_calls", area, f"{key}: {number}") for area in ("src", "specs") for key, last in (("machine", 6), ("reading", 5)) for number in range(1, last + 1)]
    if lacking(whole + both, ["mmu_map"]):
        wrong.append("edits that lack nothing")
    if len(lacking(whole[:1] + both[1:], ["mmu_map"])) != 2 or len(lacking(whole[:1] * 2 + both[:-1], ["mmu_map"])) != 2:
        wrong.append("edits that lack a program, a machine or a reading")
    if wrong:
        sys.exit("told wrongly:\n" + "\n".join(wrong))
    print(f"{len(LINES)} lines of rt, {len(EDITS) + len(RULES)} edits and the rule told rightly")


def edits_of(crates):
    found = []
    for path in sorted(path for crate in crates for path in glob.glob(os.path.join(ROOT, "crates", crate, "must-fail", "*.edit"))):
        with open(path, encoding="utf-8") as file:
            found.append(Edit(file.read(), path.split(os.sep)[-3], os.path.basename(path)[:-5]))
    return found


def complaint(edit, told):
    """What is wrong with an edit and with what rt told of it, or None."""
    return fault(edit) or (refusal(told) if told is not None else "rt told nothing of it")


def exported():
    """The names of the exported calls."""
    names = []
    for path in sorted(glob.glob(os.path.join(ROOT, "crates", "mmu_c", "src", "*.rt"))):
        with open(path, encoding="utf-8") as file:
            names += re.findall(r'pub extern "C" fn (\w+)', file.read())
    return names


HEAD = """# Wrong machines, and what refuses each

Written by `tools/check_refusals.py --list`, and held current by the gate. Each line is a must-fail edit, which the checker
must refuse. The rule by which they are chosen is in [EVIDENCE.md](EVIDENCE.md).

"""
DEFINITIONS = """## Wrong definitions

Each changes a definition alone, and is refused by the statement named last: a record of rows, a law over all tables, or a
theorem of `specs/`. Where a law below the statement fails, `tools/statements.py` follows it up to the statement's proof.
Behind a sentence: which of document 01's machines "in order of danger" or readings "that tempt" it is.

| wrong machine | edit | refused by |
|---|---|---|
"""
PROGRAMS = """
## Wrong programs

Each changes the code alone, and is refused since the contract is an equation with the definition: two for each exported
call, the machines and readings of document 01, one for each quick path that would let something through, and one for
each public function of the design pass that none of these names.

| wrong program | edit | of |
|---|---|---|
"""


def marks(edit):
    return [f"{key} {edit.said[key]}" for key in ("machine", "reading") if key in edit.said]


def listed():
    """The page of the wrong machines."""
    definitions, programs = [], []
    for edit in edits_of(["*"]):
        name, says = f"`{edit.crate}/{edit.label}`", edit.sentence.rstrip(".")
        if edit.of_code:
            of = [f"`{edit.said[key]}`" for key in ("call", "function") if key in edit.said] + marks(edit) + [edit.said.get("quick", "")]
            programs.append(f"| {says} | {name} | {', '.join(part for part in of if part)} |")
        else:
            definitions.append(f"| {says}{''.join(f' ({mark})' for mark in marks(edit))} | {name} | `{edit.said.get('by', '')}` |")
    return HEAD + DEFINITIONS + "\n".join(definitions) + "\n" + PROGRAMS + "\n".join(programs) + "\n"


def current(page):
    tree, edits = statements.Tree(), edits_of(["*"])
    known = {tree.statement(key) for key in tree.declared}
    told = [f"{edit.crate}/{edit.label}: {breach(edit, known)}" for edit in edits if breach(edit, known)] + lacking(edits, exported())
    if not os.path.exists(page) or open(page, encoding="utf-8").read() != listed():
        told.append("docs/WRONG-MACHINES.md is not current: run tools/check_refusals.py --list")
    if told:
        sys.exit("\n".join(told))


def main(words):
    log = os.path.join(ROOT, "target", "log", "ci.log")
    if words[:1] == ["--log"] and words[1:]:
        log, words = words[1], words[2:]
    if not os.path.exists(log):
        sys.exit(f"check_refusals.py: there is no {log}: run .ci/run, or rt must-fail into a file and give it by --log")
    with open(log, encoding="utf-8", errors="replace") as file:
        told = {(crate, label): text for crate, label, text in TOLD.findall(file.read())}
    edits, tree, bad, resting, others = edits_of(words or ["*"]), statements.Tree(), 0, 0, 0
    for edit in edits:
        text = told.get((edit.crate, edit.label))
        found = complaint(edit, text)
        if found:
            bad += 1
            print(f"{edit.crate}/{edit.label}: {found}")
        elif "by" in edit.said:
            is_above = rests(text, edit.said["by"], tree, edit.crate)
            resting, others = resting + (is_above is True), others + (is_above is not True)
    print(f"{len(edits) - bad} of {len(edits)} must-fail edits are refused about a fact; of {resting + others} wrong definitions {resting} by what their statement rests on,"
          f" and of {others} rt told another refusal first")
    if bad or not edits:
        sys.exit(1)


if __name__ == "__main__":
    page = os.path.join(ROOT, "docs", "WRONG-MACHINES.md")
    if sys.argv[1:] == ["--self-test"]:
        self_test()
    elif sys.argv[1:] == ["--list"]:
        open(page, "w", encoding="utf-8").write(listed())
    elif sys.argv[1:] == ["--current"]:
        current(page)
    else:
        main(sys.argv[1:])
