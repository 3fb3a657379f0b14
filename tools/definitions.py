#!/usr/bin/env python3
"""What a reader must believe: writes docs/DEFINITIONS.md, and counts its lines.

From the contracts of the exported calls and the statements of demands 1 to 3 it follows what each definition cites, over crates/*/specs and the
structs and enums of the code. Not followed: rows, which are proved and not believed, and what lies in crates/*/proofs (the decision whether an
arrangement exists: its type says that it is right).

    definitions.py             write docs/DEFINITIONS.md
    definitions.py --check     fail where docs/DEFINITIONS.md is not what would be written
    definitions.py --under N   fail where the definitions are N lines or more
    definitions.py --list      each definition and its lines

A line counts if it is text: imports, comments, empty lines, `module` and `unfolding` lines do not. Statements are counted apart. A name that two
definitions have fails the tool (rows have names of their own), and so does a file that the reading order below does not place.
"""
import collections
import glob
import os
import re
import sys

TOP = os.path.join(os.path.dirname(os.path.abspath(__file__)), "..")
ROOT = os.path.join(TOP, "crates")
PAGE = os.path.join(TOP, "docs", "DEFINITIONS.md")

# What the contracts cite, and the statements.
START = [
    ("theory_calls", "OnBytes", ["ended", "on_bytes"]),
    ("theory_calls", "WithoutTable", ["check_call", "set_register_call", "pack_call", "unpack_call"]),
    ("access_rights", "Rights", ["rights_call"]),
    ("theory_cache", "Cached", ["on_cached", "invalidate_call"]),
    ("theory_histories", "Demands", ["Demands"]),
    ("theory_lost_call", "Lost", ["OneLostCall"]),
]
ROWS = {"Examples", "Instances", "PageRows", "OperandRows", "FourGroups", "Rows", "Cases"}
STATEMENTS = "Statements"
ORDER = [
    ("Numbers", ["numbers/Numbers"]),
    ("Words", ["words/Bits", "words/Ones", "words/Below", "words/Words"]),
    ("Entries", ["entry/Entry"]),
    ("Registers", ["register_words/Sdr1", "register_words/Segment", "register_words/Block", "registers/Rules", "registers/Set"]),
    ("Access", ["protection/Access", "protection/Protection", "protection/Fault", "translation/Steps", "translation/Decision", "translation/Operand"]),
    ("Groups and matches", ["groups/Page", "groups/Hash", "groups/Group", "theory_tables/Matches", "theory_tables/Layout", "matches/Search"]),
    ("Calls on bytes", ["theory_calls/Request", "theory_calls/Made", "theory_calls/Rules", "theory_calls/Answers", "theory_calls/OnBytes", "theory_calls/Lent", "theory_calls/WithoutTable", "access_rights/Rights"]),
    ("Calls with a cache", ["cache/Cache", "theory_cache/Cached"]),
    ("The finite map", ["theory_placement/Lists", "theory_placement/FiniteMap", "theory_placement/Placement", "theory_calls/OnMap"]),
    ("The list", ["theory_tables/Runs", "theory_histories/Calls", "theory_histories/Fed", "theory_histories/Discipline"]),
    (STATEMENTS, ["entry/RoundTrip", "registers/Blocks", "registers/Check", "translation/Stated", "theory_calls/AnyTable", "theory_calls/Refusals", "theory_calls/Arguments", "theory_calls/Widened", "theory_calls/Represents", "access_rights/Stated", "cache/Placed",
        "theory_cache/Shown", "theory_cache/AnyCache", "theory_calls/FirstClear", "theory_histories/Histories", "theory_histories/Theorem", "theory_histories/Invisible", "theory_histories/Demands", "theory_lost_call/Lost"]),
]

WORD = re.compile(r"[^\s(){},;.]+")
USE = re.compile(r"use Rattle\.(\w+)\.specs\.(\w+)\.\{([^}]*)\}")
DECLARED = re.compile(r"use Rattle\.(\w+)\.specs\.declared\.(?:\w+\.)?(?!TheVariants)(\w+)(?:\.TheVariants)?(?:\.\{([^}]*)\}| as (\w+))")
HEAD = re.compile(r"(?:(?:abbrev|unfoldable|pub|record|data) )+([^\s(){}:]+)\s*(?:[({:]|$)")
MARKS = re.compile(r"^(\s*)(?:(?:unfoldable|abbrev|pub) )+(?!mod |use )")

Definition = collections.namedtuple("Definition", "lines sections words")


def is_text(line):
    return bool(line.strip()) and not line.strip().startswith(("--", "use ", "unfolding ", "module _ "))


def count(lines):
    return sum(is_text(line) for line in lines)


def read_types():
    """The structs and enums of the code: crate and name to their lines, comments above them included, derives left out."""
    types = {}
    for path in glob.glob(os.path.join(ROOT, "*", "src", "*.rt")):
        text = open(path, encoding="utf-8").read()
        for comment, kind, name, body in re.findall(r"((?:^//[^\n]*\n)*)(?:^#\[[^\n]*\n)*^pub (struct|enum) (\w+) (\{.*?^\})", text, re.M | re.S):
            types[(path.split(os.sep)[-3], name)] = (comment + f"{kind} {name} {body}".replace("    pub ", "    ")).split("\n")
    return types


def blocks_of(text):
    """The blocks of a file between empty lines, each with the `module` lines that it stands under."""
    sections, block = [], []
    for line in text.split("\n") + [""]:
        depth = len(line) - len(line.lstrip())
        if line.strip().startswith("module _ "):
            sections = [each for each in sections if each[0] < depth] + [(depth, line)]
        elif line.strip():
            if not block and not line.strip().startswith("--"):
                sections = [each for each in sections if each[0] < depth]
            block.append(line)
        elif block:
            first = next((each for each in block if is_text(each)), block[0])
            depth = len(first) - len(first.lstrip())
            yield block, [each for each in sections if each[0] < depth]
            block = []


def read(path):
    """What a file imports, name by name, and its definitions: name to lines, sections and words."""
    text = open(path, encoding="utf-8").read()
    imported = {}
    for crate, module, names in USE.findall(text):
        for name in names.split(","):
            imported[name.split(" as ")[0].strip()] = (crate, module)
    for crate, declared, names, alias in DECLARED.findall(text):
        for name in (alias or names).split(","):
            imported[name.strip()] = (crate, "the type " + declared)
    definitions = {}
    for block, sections in blocks_of(text):
        heads = [HEAD.match(line.strip()) for line in block]
        names = [head.group(1) for line, head in zip(block, heads) if head and not re.match(r"pub (?:mod|use) ", line.strip())]
        words = {word for line in block if is_text(line) for word in WORD.findall(line)}
        for name in names:
            definitions.setdefault(name, Definition(tuple(block), tuple(sections), words))
    return imported, definitions


def cited(files, types):
    """What the starts cite, and what those cite: a set of (crate, module, name), types of the code as modules of their own."""
    queue = [(crate, module, name) for crate, module, names in START for name in names]
    missing = [start for start in queue if start[2] not in files.get(start[:2], ({}, {}))[1]]
    if missing:
        sys.exit(f"not defined: {missing}")
    seen = set()
    while queue:
        crate, module, name = queue.pop()
        if module.startswith("the type "):
            seen.add((crate, module, module[len("the type "):]))
            continue
        if (crate, module, name) in seen or (crate, module) not in files or module in ROWS:
            continue
        imported, definitions = files[(crate, module)]
        if name in definitions:
            seen.add((crate, module, name))
            queue += [(*imported[word], word) if word in imported else (crate, module, word) for word in definitions[name].words]
    return seen


def one_meaning(files):
    """Fails where two files of specs/ define one name; rows have names of their own."""
    places = collections.defaultdict(set)
    for place, (_, definitions) in files.items():
        if place[1] in ROWS:
            continue
        for name, definition in definitions.items():
            if any(re.match(r"\s*(?:abbrev|unfoldable|pub record|pub data) ", line) for line in definition.lines if re.search(rf"(?<!\S){re.escape(name)}(?!\S)", line)):
                fields = [line for line in definition.lines if line.strip().startswith(f"pub {name} :")]
                if not fields:
                    places[name].add("/".join(place))
    twice = {name: sorted(found) for name, found in places.items() if len(found) > 1}
    if twice:
        sys.exit(f"a name has two meanings: {twice}")


def shown(lines):
    """A definition as it is printed: without the marks that say who may unfold it."""
    kept = [MARKS.sub(r"\1", line) for line in lines if not line.strip().startswith("unfolding ")]
    return [re.sub(r"^(\s*)pub ", r"\1", line) for line in kept]


def written(files, types, found):
    """The page, and the number of lines of definitions, of types among them, and of statements."""
    placed = [tuple(place.split("/")) for _, places in ORDER for place in places]
    lost = sorted({(crate, module) for crate, module, _ in found if not module.startswith("the type ")} - set(placed))
    if lost:
        sys.exit(f"the reading order does not place {lost}")
    body, sums, told = [], collections.Counter(), set()
    for title, places in ORDER:
        body += ["", f"## {title}"]
        for crate, module in [tuple(place.split("/")) for place in places]:
            own = sorted(name for c, m, name in found if c == crate and m.startswith("the type ") and (c, name) not in told)
            told |= {(crate, name) for name in own}
            names = {name for c, m, name in found if (c, m) == (crate, module)}
            definitions = files[(crate, module)][1]
            texts = list(dict.fromkeys((d.lines, d.sections) for name, d in definitions.items() if name in names))
            if not texts and not own:
                continue
            body += ["", f"### `{crate}/specs/{module}`", "", "```text"]
            for name in own:
                body += [*types[(crate, name)], ""]
                sums["types"] += sum(1 for line in types[(crate, name)][1:] if line.strip() and not line.strip().startswith("//"))
            open_sections = []
            for lines, sections in texts:
                for section in sections:
                    if section not in open_sections:
                        body += [section[1], ""]
                open_sections = list(sections)
                body += [*shown(lines), ""]
                sums["statements" if title == STATEMENTS else "definitions"] += count(lines)
            body[-1] = "```"
    return body, sums


def main():
    words = sys.argv[1:]
    paths = glob.glob(os.path.join(ROOT, "*", "specs", "*.antt"))
    files = {(path.split(os.sep)[-3], os.path.basename(path)[:-5]): read(path) for path in paths}
    types = read_types()
    one_meaning(files)
    found = cited(files, types)
    body, sums = written(files, types, found)
    total = sums["definitions"] + sums["types"]
    head = f"""# What to believe

Written by `tools/definitions.py`, and held current by the gate. Here is every definition that the contracts of the
exported calls and the statements of demands 1 to 3 cite, in reading order, with its comment, to be read beside
[the rules](RULES.md): {total} lines, {sums["types"]} of them structs and enums of the code, and then {sums["statements"]} lines of statements. The marks that say who
may unfold a definition are left out, and so are imports; a word that nothing here defines is the standard library's, `Rattle.std`.
"""
    text = head + "\n".join(body) + "\n"
    if "--list" in words:
        for crate, module, name in sorted(found):
            if not module.startswith("the type "):
                print(f"{count(files[(crate, module)][1][name].lines):4} {crate}/{module} {name}")
    print(f"{total} lines of definitions, {sums['types']} of them structs and enums of the code; beside them {sums['statements']} lines of statements")
    if "--under" in words and total >= int(words[words.index("--under") + 1]):
        sys.exit("that is too much for a reader")
    if "--check" in words:
        if not os.path.exists(PAGE) or open(PAGE, encoding="utf-8").read() != text:
            sys.exit("docs/DEFINITIONS.md is not current: run tools/definitions.py")
    elif not words:
        open(PAGE, "w", encoding="utf-8").write(text)


if __name__ == "__main__":
    main()
