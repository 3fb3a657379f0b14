#!/usr/bin/env python3
"""Wrong programs: one edit each in dump/, which the comparison with the model, the bad inputs or the page must find.

flaws.py ARCHIVE FOLDER WORK    FOLDER has the model's dumps, WORK is written to
"""
import os
import shutil
import subprocess
import sys
from pathlib import Path

HERE = Path(__file__).resolve().parent
ROOT = HERE.parent.parent
ARCHIVE, FOLDER, WORK = map(Path, sys.argv[1:])
MOST = 150  # Dumps that a flaw is tried on.

# File, what stands there once, what stands there instead, and who has to find it.
FLAWS = [
    ("groups.c", "vsid & 0x7FFFFu", "vsid & 0xFFFFu", "compare"),
    ("groups.c", "entry->h ? other_group(table, entry->group) : entry->group", "entry->group", "compare"),
    ("groups.c", "entry->reached = primary_group(table, entry->vsid, entry->page_index) == primary",
     "entry->reached = 1", "compare"),
    ("groups.c", "h < 2; h++", "h < 1; h++", "compare"),
    ("words.c", "return pp == 3 ? READ : WRITE", "return pp == 0 ? READ : WRITE", "compare"),
    ("words.c", "{NOTHING, READ, WRITE, READ}", "{NOTHING, READ, WRITE, WRITE}", "compare"),
    ("blocks.c", "(block->lower >> 17 & bl) != 0", "0", "compare"),
    ("blocks.c", "other->start < one->start", "other->start <= one->start", "compare"),
    ("blocks.c", "block.on && i < SHAPE_RULES", "i < SHAPE_RULES", "compare"),
    ("pages.c", " | MMU_SECOND_PP)", ")", "compare"),
    ("pages.c", "registers && n < SEGMENTS", "registers && n < 15", "compare"),
    ("pages.c", "order_of(lowest_segment(a), lowest_segment(b))", "0", "compare"),
    ("steps.c", "access->mode, access->kind", "access->mode & 3u, access->kind", "compare"),
    ("why.c", 'data ? "DSISR" : "SRR1 "', 'data ? "SRR1 " : "DSISR"', "compare"),
    ("why.c", "wimg_text(answer->second_attributes)", "wimg_text(answer->attributes)", "compare"),
    ("diff.c", "order_of(a->page_index, b->page_index)", "0", "compare"),
    ("diff.c", "one.second == other.second && ", "", "compare"),
    ("html.c", "json_pages(&json, dump, &list, MOST_ROWS)", "json_pages(&json, dump, &list, 5)", "compare"),
    ("files.c", "if (length < right)", "if (0)", "errors"),
    ("main.c", "if (number > most)", "if (0)", "errors"),
    ("json.c", " || *at == '<'", "", "page"),
    ("page.html", "words.every", "words.some", "page"),
    ("page.html", "(sorted.up ? 1 : -1) * order", "order", "page"),
]


def compile_all(sources, changed, program):
    """Objects of files that are as they were are used again."""
    objects = WORK / "objects"
    objects.mkdir(exist_ok=True)
    flags = ["-std=c99", "-O1", f"-I{ROOT}/include", f"-I{sources}"]
    with open(sources / "page.h", "w", encoding="utf-8") as header:
        subprocess.run(["sed", "-f", sources / "page.sed", sources / "page.html"], stdout=header, check=True)
    used = []
    for source in sorted(sources.glob("*.c")):
        kept = objects / f"{source.stem}.o"
        is_changed = source.name == changed or source.name == "html.c" and changed == "page.html"
        made = objects / "changed.o" if is_changed else kept
        if is_changed or not kept.exists():
            subprocess.run([os.environ.get("CC", "gcc"), *flags, "-c", source, "-o", made], check=True)
        used.append(made)
    subprocess.run([os.environ.get("CC", "gcc"), *used, ARCHIVE, "-o", program], check=True)


def judged(judge, program):
    errors = WORK / "errors"
    errors.mkdir(exist_ok=True)
    words = {"compare": ["compare.py", program, FOLDER, str(MOST)], "errors": ["errors.py", program, errors],
             "page": ["page.py", program, FOLDER]}[judge]
    return subprocess.run([sys.executable, HERE / words[0], *words[1:]], capture_output=True, text=True, check=False)


def main():
    program = WORK / "flawed"
    for name, old, new, judge in FLAWS:
        sources = WORK / "dump"
        shutil.rmtree(sources, ignore_errors=True)
        shutil.copytree(ROOT / "dump", sources)
        text = (sources / name).read_text()
        if text.count(old) != 1:
            sys.exit(f"FAIL {name}: {old!r} stands there {text.count(old)} times; expected once")
        (sources / name).write_text(text.replace(old, new))
        compile_all(sources, name, program)
        ran = judged(judge, program)
        if ran.returncode == 0 or "Traceback" in ran.stderr:
            sys.exit(f"FAIL {name}: {new!r} for {old!r} is not found by {judge}: {ran.stdout} {ran.stderr}")
    print(f"{len(FLAWS)} wrong programs, each found")


main()
