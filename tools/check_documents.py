#!/usr/bin/env python3
"""Checks the documents for users: no line of prose over 120 characters, and every link leads to a file and a heading.

check_documents.py               exit status 1 and a line for each thing that is wrong
check_documents.py --self-test   feeds wrong documents to the check, each of which must be told

Tables, code and documents that a tool writes may have longer lines.
"""
import re
import sys
import tempfile
from pathlib import Path

ROOT = Path(__file__).resolve().parent.parent
DOCUMENTS = ["README.md", "CHANGELOG.md", "docs/C-GUIDE.md", "docs/PROOFS.md", "docs/CASES.md", "docs/RULES.md",
             "docs/EVIDENCE.md", "docs/DUMPS.md", "docs/DECISIONS.md", "docs/QEMU.md", "docs/REQUESTS.md",
             "docs/RUNNER.md", "tests/README.md", "tests/vectors/README.md"]
WIDTH = 120
LINK = re.compile(r"\]\(([^)\s]+)\)")


def prose(text):
    """The lines that are neither table nor code, with their numbers; a link in a table counts as prose does."""
    fenced = False
    for number, line in enumerate(text.splitlines(), 1):
        if line.startswith("```"):
            fenced = not fenced
        elif not fenced and not line.startswith("    "):
            yield number, line


def anchors(text):
    """The anchors of a document's headings, as the common renderers make them."""
    headings = [line.lstrip("#").strip().lower() for _, line in prose(text) if line.startswith("#")]
    return {re.sub(r"[^\w\- ]", "", heading).replace(" ", "-") for heading in headings}


def wrong_link(path, target):
    """What is wrong with a link in the document at path, or None."""
    if "://" in target:
        return None
    name, _, anchor = target.partition("#")
    file = (path.parent / name).resolve() if name else path
    if not file.exists():
        return f"no file {name}"
    if anchor and anchor not in anchors(file.read_text()):
        return f"no heading #{anchor} in {file.name}"
    return None


def check(path, name):
    """The complaints about one document."""
    wrong = []
    for number, line in prose(path.read_text()):
        if len(line) > WIDTH and not line.startswith("|"):
            wrong.append(f"{name}:{number}: {len(line)} characters")
        for target in LINK.findall(line):
            complaint = wrong_link(path, target)
            if complaint:
                wrong.append(f"{name}:{number}: {complaint}")
    return wrong


LONG = "word " * 30
RIGHT = f"# A heading, with more\n\nA [link](other.md#ours) and [one](#a-heading-with-more).\n\n| {LONG} |\n\n    {LONG}\n\n```c\n{LONG}\n```\n"
WRONG = {
    "a long line": RIGHT + LONG + "\n",
    "a long line after a block": RIGHT + "- " + LONG + "\n",
    "a link to no file": RIGHT.replace("other.md", "another.md"),
    "a link to no heading": RIGHT.replace("#ours", "#theirs"),
    "a link to no heading of its own": RIGHT.replace("#a-heading", "#the-heading"),
    "a link in a table to no file": RIGHT.replace(f"| {LONG} |", "| [x](nowhere) |"),
}


def self_test():
    with tempfile.TemporaryDirectory() as folder:
        path = Path(folder) / "sample.md"
        (Path(folder) / "other.md").write_text("## Ours\n")
        path.write_text(RIGHT)
        failed = [f"the right document is refused: {line}" for line in check(path, "sample")]
        for label, text in WRONG.items():
            path.write_text(text)
            if not check(path, "sample"):
                failed.append(f"not refused: {label}")
    print("\n".join(failed) or f"self test: the right document passes, {len(WRONG)} wrong ones are told")
    return 1 if failed else 0


def main(arguments):
    if arguments == ["--self-test"]:
        return self_test()
    wrong = [line for name in DOCUMENTS for line in check(ROOT / name, name)]
    print("\n".join(wrong) or f"{len(DOCUMENTS)} documents: lines and links are right")
    return 1 if wrong else 0


if __name__ == "__main__":
    sys.exit(main(sys.argv[1:]))
