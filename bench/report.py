#!/usr/bin/env python3
"""Makes the benchmark's tables and picture from what bench/run.sh measured.

report.py DIRECTORY [--write]: prints the tables; with --write it also writes docs/BENCHMARKS.md and docs/benchmarks.svg.
bench/earlier.txt has the instructions of an earlier version's library by the same rows, its version in the first line.
"""
import html
import re
import sys
from pathlib import Path

EARLIER = dict(line.split("\t") for line in Path(__file__).with_name("earlier.txt").read_text().splitlines())
HEAD = ["row", "library", EARLIER["version"], "plain C", "ratio", "library ns", "plain C ns", "ratio"]
# A tenth more than the plain C is what has to be explained.
LIMIT = 1.1
# Each access with a cache, and the same access without one.
CACHED = [
    ("access with a cache, hit", "access, page hit, primary entry 0"),
    ("access with a cache, hit, blocks off", "access, page hit, primary entry 0, blocks off"),
    ("access with a cache, miss", "access, page hit, primary entry 0"),
    ("access with a cache, miss, blocks off", "access, page hit, primary entry 0, blocks off"),
]
# Each row of rights, and the access of which it tells the three kinds.
RIGHTS = [
    ("rights, page hit, primary entry 0", "access, page hit, primary entry 0"),
    ("rights, block hit in the fourth pairs", "access, block hit in the fourth pair"),
]
# Register pages with something that costs a check more, the same without it, and how many times as much is the goal.
CLOSE, FOUR_FALL, EIGHT_FALL = 4 / 3, 3 / 2, 2
UNUSUAL = [
    ("check, long page, blocks of 128 KB in a row", "check, long page", CLOSE),
    ("access, long page, blocks of 128 KB in a row", "access, long page, page hit, primary entry 0", CLOSE),
    ("check, W in one block and I in another", "check", CLOSE),
    ("access, W in one block and I in another", "access, page hit, primary entry 0", CLOSE),
    ("check, junk in an off pair", "check, Linux on a 750", CLOSE),
    ("access, junk in an off pair", "access, Linux on a 750, by a page", CLOSE),
    ("check, blocks in falling order", "check", FOUR_FALL),
    ("check, long page, blocks in falling order", "check, long page", EIGHT_FALL),
]
# What a hit may take of the same access without a cache, and how many instructions a miss may take more.
HIT_GOAL, MISS_GOAL = 0.90, 60


def fields(path):
    return [line.split("\t") for line in path.read_text().splitlines()]


def profile_total(directory, number):
    """The instructions of one profile; callgrind numbers them in the order of writing, from 1."""
    text = (directory / "profiles" / f"profile.{number}").read_text()
    return int(re.search(r"^totals: (\d+)", text, re.M).group(1))


def read_rows(directory):
    """For each row: its name, instructions of library and plain C, nanoseconds of library and plain C."""
    times = {name: (float(a), float(b)) for name, a, b in fields(directory / "times.txt")}
    rows = []
    for i, (name, calls) in enumerate(fields(directory / "rows.txt")):
        # Three profiles a row: what came before, the library's calls, the plain C's calls.
        library = profile_total(directory, 3 * i + 2) / int(calls)
        plain = profile_total(directory, 3 * i + 3) / int(calls)
        rows.append((name, library, plain, *times[name]))
    return rows


def cells(row):
    name, library, plain, library_ns, plain_ns = row
    return [
        name,
        f"{library:.0f}",
        EARLIER.get(name, ""),
        f"{plain:.0f}",
        f"{library / plain:.2f}",
        f"{library_ns:.1f}",
        f"{plain_ns:.1f}",
        f"{library_ns / plain_ns:.2f}",
    ]


def text_table(rows):
    lines = [HEAD] + [cells(row) for row in rows]
    widths = [max(len(line[i]) for line in lines) for i in range(len(HEAD))]
    return "\n".join(
        "  ".join([line[0].ljust(widths[0])] + [c.rjust(w) for c, w in zip(line[1:], widths[1:])]) for line in lines
    )


def markdown_table(rows):
    lines = ["| " + " | ".join(HEAD) + " |", "|---|" + "---:|" * (len(HEAD) - 1)]
    lines += ["| " + " | ".join(cells(row)) + " |" for row in rows]
    return "\n".join(lines)


def bar(y, width, color, label):
    return (
        f'<rect x="330" y="{y}" width="{width:.1f}" height="9" fill="{color}"/>'
        f'<text x="{336 + width:.1f}" y="{y + 8}" font-size="9">{label}</text>'
    )


def picture(rows):
    """A pair of bars a row: the library's instructions and nanoseconds, as a share of the plain C's."""
    ratios = [(row[0], row[1] / row[2], row[3] / row[4]) for row in rows]
    scale = 380 / max(2.0, max(max(a, b) for _, a, b in ratios))
    bottom = 46 + 26 * len(ratios)
    parts = [
        f'<svg xmlns="http://www.w3.org/2000/svg" width="780" height="{bottom + 24}" font-family="sans-serif">',
        f'<rect width="780" height="{bottom + 24}" fill="#ffffff"/>',
        '<text x="10" y="20" font-size="13">The library beside plain C: 1.00 is as much as the plain C</text>',
        '<rect x="470" y="11" width="10" height="9" fill="#31688e"/><text x="486" y="20" font-size="11">instructions</text>',
        '<rect x="570" y="11" width="10" height="9" fill="#b8c9d9"/><text x="586" y="20" font-size="11">nanoseconds</text>',
    ]
    for i, (name, instructions, time) in enumerate(ratios):
        y = 38 + 26 * i
        parts.append(f'<text x="322" y="{y + 13}" font-size="11" text-anchor="end">{html.escape(name)}</text>')
        parts.append(bar(y, instructions * scale, "#31688e", f"{instructions:.2f}"))
        parts.append(bar(y + 10, time * scale, "#b8c9d9", f"{time:.2f}"))
    x = 330 + scale
    parts.append(f'<line x1="{x:.1f}" y1="32" x2="{x:.1f}" y2="{bottom}" stroke="#c0392b" stroke-dasharray="4 3"/>')
    parts.append(f'<text x="{x:.1f}" y="{bottom + 14}" font-size="10" text-anchor="middle">1.00</text>')
    parts.append("</svg>")
    return "\n".join(parts) + "\n"


def over_limit(rows):
    over = [row[0] for row in rows if row[1] > LIMIT * row[2]]
    if not over:
        return "In no row does the library take more than a tenth more instructions than the plain C."
    return "More than a tenth more instructions than the plain C: " + "; ".join(over) + "."


def extremes(rows):
    """Where the library takes most and least, as a share of the plain C's instructions."""
    ratios = sorted((row[1] / row[2], row[0]) for row in rows)
    (least, least_name), (most, most_name) = ratios[0], ratios[-1]
    return f"The library takes {least:.2f} times ({least_name}) to {most:.2f} times ({most_name}) the plain C's instructions."


def beside_access(rows):
    """A table of each access with a cache beside the same access of the same build without one, and what misses a goal."""
    by_name = {row[0]: row for row in rows}
    lines = ["| access with a cache | library | without | ratio | more | plain C | without | ratio | more |",
             "|---|---:|---:|---:|---:|---:|---:|---:|---:|"]
    missed = []
    for name, same in CACHED:
        cells = [name.removeprefix("access with a cache, ")]
        for with_cache, without in zip(by_name[name][1:3], by_name[same][1:3]):
            cells += [f"{with_cache:.0f}", f"{without:.0f}", f"{with_cache / without:.2f}", f"{with_cache - without:+.0f}"]
        lines.append("| " + " | ".join(cells) + " |")
        library, access = by_name[name][1], by_name[same][1]
        if ", hit" in name and library > HIT_GOAL * access or ", miss" in name and library - access > MISS_GOAL:
            missed.append(name)
    goal = f"The goal is at most {HIT_GOAL:.2f} of the access for a hit and {MISS_GOAL} instructions more for a miss: "
    return "\n".join(lines), goal + ("missed in " + "; ".join(missed) if missed else "met in all four") + "."


def beside_usual(rows):
    """A table of checks and accesses on unusual register pages beside the same on usual ones, and what misses a goal."""
    by_name = {row[0]: row for row in rows}
    lines = ["| row | library | without | ratio | goal | plain C | without | ratio |", "|---|---:|---:|---:|---:|---:|---:|---:|"]
    missed = []
    for name, usual, goal in UNUSUAL:
        (library, plain), (library_usual, plain_usual) = by_name[name][1:3], by_name[usual][1:3]
        lines.append(f"| {name} | {library:.0f} | {library_usual:.0f} | {library / library_usual:.2f} | {goal:.2f} | "
                     f"{plain:.0f} | {plain_usual:.0f} | {plain / plain_usual:.2f} |")
        if library > goal * library_usual:
            missed.append(name)
    return "\n".join(lines), "The goal is " + ("missed in " + "; ".join(missed) if missed else "met in all rows") + "."


def beside_three(rows):
    """A table of rights beside three accesses of the same build."""
    by_name = {row[0]: row for row in rows}
    lines = ["| rights | library | three accesses | ratio | plain C | three accesses | ratio |",
             "|---|---:|---:|---:|---:|---:|---:|"]
    for name, same in RIGHTS:
        cells = [name.removeprefix("rights, ")]
        for rights, access in zip(by_name[name][1:3], by_name[same][1:3]):
            cells += [f"{rights:.0f}", f"{3 * access:.0f}", f"{rights / (3 * access):.2f}"]
        lines.append("| " + " | ".join(cells) + " |")
    return "\n".join(lines)


def without_rights(rows):
    """The rows that the goal is set for: those of rights have a table of their own."""
    names = {name for name, _ in RIGHTS}
    return [row for row in rows if row[0] not in names]


def real(rows):
    """The rows on register pages that a real system had."""
    return [row for row in rows if ", Linux on a " in row[0]]


def made(rows):
    """The rows on register pages that were made for measuring."""
    return [row for row in without_rights(rows) if row not in real(rows)]


def document(directory, rows):
    machine = dict(fields(directory / "machine.txt"))
    agreed = (directory / "agree.txt").read_text().splitlines()[0]
    notes = Path("bench/notes.md")
    parts = [
        "# Benchmarks",
        "Made by `bench/run.sh --write`; `make bench` prints the same table.",
        "The contender is `bench/plain.c`: the thirteen calls in portable C with the same checks, written for speed. Before the "
        f"timing both are held against each other: {agreed}.",
        "Instructions are those of one call, counted by callgrind inside the call alone; they repeat exactly. Nanoseconds are "
        f"the least of 200 rounds in which the two take turns. The column {EARLIER['version']} has the instructions of that "
        "version's library. An access checks the whole register page each time. It is to one byte, and over a page edge to "
        "eight, four in each page.",
        "## Register pages that Linux has",
        "The words are those of `bench/pages.txt`, which Linux 6.1 had in QEMU. On a 750 three instruction blocks and all four "
        "data blocks are on, on a 7455, a long page, two and six; all lie within one 256 MB, each behind the one before. The "
        "page is a program's, the block the third of the kernel's data; rights of a block are those of the kernel's text.",
        markdown_table(real(rows)),
        "## Register pages made for measuring",
        "The register page is the short one where a row does not say \"long page\". Where a row says nothing of the blocks "
        "every pair is on, on each side of 256 MB, 16 MB, 1 MB and 128 KB, each block in 256 MB of its own and behind the one "
        "before; a long page has each of these lengths twice a side. With a cache, a hit is of a page that was loaded, and "
        "before each miss the page's set is emptied.",
        markdown_table(made(rows)),
        "![The library beside plain C](benchmarks.svg)",
        extremes(without_rights(rows)) + " " + over_limit(without_rights(rows)),
        "## Register pages that cost a check more",
        "Instructions of the same build, beside the same row without what makes the page unusual. Blocks in a row or in falling "
        "order are of 128 KB each, next to each other. Junk is put into the pair that is off on Linux's page of the 750.",
        *beside_usual(rows),
        "## An access with a cache beside the same access without one",
        "Instructions of the same build, the page at its first place, both groups full.",
        *beside_access(rows),
        "## Rights beside three accesses",
        "What `mmu_rights` tells are the answers of three accesses, and the marks of each. Instructions of the same build.",
        beside_three(rows),
    ]
    if notes.exists():
        parts.append(notes.read_text().rstrip())
    parts.append(
        f"Measured on {machine['processor']}; plain C by {machine['compiler']}; {machine['valgrind']}. memset is counted "
        "without `rep stosb`, of which callgrind counts every byte; all symbols are bound before the first call (`-z now`)."
    )
    return "\n\n".join(parts) + "\n"


def main():
    directory = Path(sys.argv[1])
    rows = read_rows(directory)
    print(text_table(rows))
    print(extremes(without_rights(rows)), over_limit(without_rights(rows)), sep="\n")
    print(*beside_usual(rows), *beside_access(rows), beside_three(rows), sep="\n")
    if "--write" in sys.argv[2:]:
        Path("docs").mkdir(exist_ok=True)
        Path("docs/BENCHMARKS.md").write_text(document(directory, rows))
        Path("docs/benchmarks.svg").write_text(picture(without_rights(rows)))
        print("written: docs/BENCHMARKS.md, docs/benchmarks.svg")


if __name__ == "__main__":
    main()
