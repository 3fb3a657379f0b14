#!/usr/bin/env python3
"""Compiles and runs the C blocks of README.md and docs/C-GUIDE.md, so that no code stands there that does not work.

run_blocks.py [ARCHIVE]     default target/staticlib/libmmu.a; exit status 1 and a line for each thing that is wrong
run_blocks.py --self-test   feeds wrong documents to the check, each of which must be told

How a document says what a block is, on the line directly above its fence:

    no comment               a ```c block is a program of its own
    <!-- block NAME -->      a ```c block is a part of a program: it is written to NAME.inc, and the programs in
                             tests/c/guide that need it have #include "NAME.inc"; they also say what it must do
    <!-- output -->          a ```text block is what the program above it writes

Every program is compiled as C99 without a warning, runs under AddressSanitizer and must end with status 0. Every named
block must be in some program, every program of tests/c/guide must have a block, and every document must have one.
"""
import re
import subprocess
import sys
import tempfile
from pathlib import Path

ROOT = Path(__file__).resolve().parent.parent
DOCUMENTS = ["README.md", "docs/C-GUIDE.md"]
PROGRAMS = ROOT / "tests" / "c" / "guide"
ARCHIVE = ROOT / "target" / "staticlib" / "libmmu.a"
FLAGS = ["-std=c99", "-Wall", "-Wextra", "-pedantic", "-Werror", "-g", "-O1", "-fsanitize=address,undefined",
         "-fno-sanitize-recover=all"]
FENCE = re.compile(r"^```\s*([\w+]*)\s*$")
COMMENT = re.compile(r"^<!-- (block (\w+)|output) -->$")
INCLUDED = re.compile(r'^\s*#include "(\w+)\.inc"', re.M)


class Block:
    """A fenced block: where it begins, its language, the comment above it, its text."""

    def __init__(self, place, language, comment, text):
        self.place, self.language, self.text = place, language, text
        found = COMMENT.match(comment)
        self.is_output = bool(found) and found.group(1) == "output"
        self.name = found.group(2) if found else None


def misplaced_fence(document, text):
    """A complaint about a fence that is indented, has more after its language, or is not closed."""
    lines = text.splitlines()
    fences = [i for i, line in enumerate(lines) if line.lstrip().startswith("```")]
    odd = [i for i in fences if not FENCE.match(lines[i])] + ([fences[-1]] if len(fences) % 2 else [])
    return [f"{document}:{i + 1}: a fence that is indented, not closed, or more than a language" for i in odd]


def blocks_of(document, text):
    """The fenced blocks of a document."""
    blocks, lines, start = [], text.splitlines(), None
    for i, line in enumerate(lines):
        if not FENCE.match(line):
            continue
        if start is None:
            start = i
        else:
            above = lines[start - 1] if start else ""
            body = "\n".join(lines[start + 1:i]) + "\n"
            blocks.append(Block(f"{document}:{start + 1}", FENCE.match(lines[start]).group(1), above, body))
            start = None
    return blocks


def run(program):
    """What is wrong with a run, or None; and what it wrote."""
    try:
        done = subprocess.run([str(program)], capture_output=True, text=True, timeout=300, check=False)
    except subprocess.TimeoutExpired:
        return "it does not end within 300 s", ""
    if done.returncode == 0:
        return None, done.stdout
    return f"it ends with status {done.returncode}:\n{done.stdout}{done.stderr}", done.stdout


def compile_and_run(source, out, archive):
    """What is wrong with a C program, or None; and what it wrote."""
    program = out / (source.stem + ".run")
    command = ["gcc", *FLAGS, f"-I{ROOT / 'include'}", f"-I{out}", str(source), *([str(archive)] if archive else []),
               "-o", str(program)]
    done = subprocess.run(command, capture_output=True, text=True, check=False)
    if done.returncode != 0:
        return f"it does not compile:\n{done.stderr}", ""
    return run(program)


def check_document(document, text, out, archive):
    """Runs a document's own programs and writes its named blocks: complaints, names and how many ran."""
    names, count, wrote = [], 0, None
    wrong, blocks = misplaced_fence(document, text), blocks_of(document, text)
    if not any(block.language == "c" for block in blocks):
        wrong.append(f"{document}: it has no C block")
    for block in blocks:
        if block.is_output:
            if wrote is None or block.text != wrote:
                wrong.append(f"{block.place}: the program above does not write this; it writes:\n{wrote}")
        elif block.language == "c" and block.name:
            names.append(block.name)
            (out / f"{block.name}.inc").write_text(f'#line {int(block.place.split(":")[1]) + 1} "{document}"\n{block.text}')
        elif block.language == "c":
            count += 1
            source = out / f"{re.sub(r'[^A-Za-z0-9]', '_', block.place)}.c"
            source.write_text(block.text)
            complaint, wrote = compile_and_run(source, out, archive)
            if complaint:
                wrong.append(f"{block.place}: {complaint}")
    return wrong, names, count


def check_programs(programs, names, out, archive):
    """Runs the programs that the named blocks belong to: complaints."""
    wrong = [f"block {name}: named twice" for name in sorted(set(names)) if names.count(name) > 1]
    used = set()
    for source in programs:
        included = set(INCLUDED.findall(source.read_text()))
        used |= included
        if not included & set(names):
            wrong.append(f"{source.name}: it has no block of a document")
        complaint, _ = compile_and_run(source, out, archive)
        if complaint:
            wrong.append(f"{source.name}: {complaint}")
    return wrong + [f"block {name}: in no program of tests/c/guide" for name in sorted(set(names) - used)]


def check(documents, programs, archive):
    """All complaints about documents (name to text) and the programs of their blocks, and how many programs ran."""
    with tempfile.TemporaryDirectory() as folder:
        wrong, names, count = [], [], len(programs)
        for document, text in documents.items():
            more, found, ran = check_document(document, text, Path(folder), archive)
            wrong, names, count = wrong + more, names + found, count + ran
        return wrong + check_programs(programs, names, Path(folder), archive), len(names), count


RIGHT = """# A document
```c
#include <stdio.h>
int main(void) { puts("seven"); return 0; }
```
<!-- output -->
```text
seven
```
<!-- block half -->
```c
static int half(int number) { return number / 2; }
```
    cc program.c
"""

PROGRAM = '#include "half.inc"\nint main(void) { return half(8) == 4 ? 0 : 1; }\n'

WRONG_TEXTS = {
    "a program that ends with status 1": ("return 0; }", "return 1; }"),
    "a program with a warning": ("return 0; }", "int unused; return 0; }"),
    "a program without main": ("int main", "int start"),
    "a program that reads past an array": ('puts("seven");', 'int a[1] = {1}; volatile int i = 1; puts("seven"); if (a[i]) puts("");'),
    "other output": ("seven\n```", "eight\n```"),
    "a part that does something else": ("number / 2", "number / 3"),
    "a part that does not compile": ("number / 2", "nothing / 2"),
    "a part that no program has": ("<!-- block half -->", "<!-- block quarter -->"),
    "a part that is not marked as one": ("<!-- block half -->", ""),
    "a part that is named twice": ("    cc program.c\n", "<!-- block half -->\n```c\nint twice;\n```\n"),
    "a block that is not closed": ("    cc program.c\n", "```c\nint open;\n"),
    "a block that is indented": ("    cc program.c\n", "    ```c\n    int in;\n    ```\n"),
    "a document without C": (RIGHT, "# A document\n"),
}


def self_test():
    with tempfile.TemporaryDirectory() as folder:
        program = Path(folder) / "program.c"
        program.write_text(PROGRAM)
        failed = [f"the right document is refused: {line}" for line in check({"sample": RIGHT}, [program], None)[0]]
        for label, (old, new) in WRONG_TEXTS.items():
            if RIGHT.count(old) != 1 or not check({"sample": RIGHT.replace(old, new)}, [program], None)[0]:
                failed.append(f"not refused: {label}")
        program.write_text("int main(void) { return 0; }\n")
        if not any("has no block" in line for line in check({"sample": RIGHT}, [program], None)[0]):
            failed.append("not refused: a program without a block")
    print("\n".join(failed) or f"self test: the right document passes, {len(WRONG_TEXTS) + 1} wrong ones are told")
    return 1 if failed else 0


def main(arguments):
    if arguments == ["--self-test"]:
        return self_test()
    archive = Path(arguments[0]).resolve() if arguments else ARCHIVE
    if not archive.is_file():
        print(f"run_blocks.py: no archive {archive}; run make first", file=sys.stderr)
        return 1
    documents = {name: (ROOT / name).read_text() for name in DOCUMENTS}
    wrong, parts, programs = check(documents, sorted(PROGRAMS.glob("*.c")), archive)
    print("\n".join(wrong) or f"{', '.join(DOCUMENTS)}: {programs} programs run, with {parts} named blocks in them")
    return 1 if wrong else 0


if __name__ == "__main__":
    sys.exit(main(sys.argv[1:]))
