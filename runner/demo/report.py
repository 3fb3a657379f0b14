#!/usr/bin/env python3
"""Makes the demonstration's table and picture from what demo.sh counted.

report.py FOLDER [--write]: prints the table; with --write docs/RUNNER.md gets it, and docs/runner.svg is the picture.
"""
import html
import sys
from pathlib import Path

ROOT = Path(__file__).resolve().parent.parent.parent
HEAD = ["run", "right outputs", "fetches asked", "loads asked", "stores asked", "no match", "protection", "N, G",
        "maps", "into secondary", "full", "unmaps", "frames taken away", "written back"]
NAMES = ["fetches_asked", "loads_asked", "stores_asked", "faults_no_match", "faults_protection", "N, G", "maps",
         "maps_into_secondary", "maps_full", "unmaps", "frames_taken_away", "written_back"]
BEGIN, END = "<!-- counts -->", "<!-- end of counts -->"
STOPPED, TOO_LONG = 3, 124


def read_runs(folder):
    """For each run: runner, label, copies, right outputs, status, counts (none of a run that did not end)."""
    runs = []
    for line in (folder / "results").read_text().splitlines():
        number, runner, label, copies, right, status, wrong = line.split("\t")
        path = folder / f"counts.{number}"
        counts = {}
        if path.exists() and path.stat().st_size:
            counts = {name: int(value) for name, value in (row.split() for row in path.read_text().splitlines())}
            counts["N, G"] = counts["faults_no_execute"] + counts["faults_guarded"]
        said = (folder / f"said.{number}").read_text(errors="replace").splitlines()
        said = [line for line in said if line.startswith("runner: ")]
        runs.append({"runner": runner, "label": label, "copies": int(copies), "right": int(right),
                     "wrong": wrong.split(), "status": int(status), "counts": counts, "said": said})
    return runs


def outcome(run):
    text = f"{run['right']} of {run['copies']}"
    if run["status"] == STOPPED:
        return f"{text}: the run is stopped"
    if run["status"] == TOO_LONG:
        return f"{text}: did not end"
    return f"{text}; wrong: {', '.join(run['wrong'])}" if run["wrong"] else text


def table(runs):
    lines = ["| " + " | ".join(HEAD) + " |", "|---" * len(HEAD) + "|"]
    for run in runs:
        counts = [f"{run['counts'][name]:,}" if run["counts"] else "" for name in NAMES]
        lines.append("| " + " | ".join([run["label"], outcome(run)] + counts) + " |")
    lines.append("")
    lines.append("What the runner said of the wrong unmap, the first two lines of each run:")
    lines.append("")
    for run in runs:
        if run["said"]:
            lines.append(f"    {run['label']}")
            lines += [f"        {line}" for line in run["said"][:2]]
    return "\n".join(lines)


def text(x, y, words, anchor="middle", extra=""):
    return f'<text x="{x:.0f}" y="{y:.0f}" text-anchor="{anchor}" {extra}>{html.escape(words)}</text>'


def curve(runs, runner, colour, dash, x, y):
    points = sorted((run["copies"], run["right"]) for run in runs
                    if run["runner"] == runner and "minigzip of" not in run["label"] and "same" not in run["label"]
                    and "spread" not in run["label"] and "Lua" not in run["label"] and "bzip2" not in run["label"])
    path = " ".join(f"{x(a):.0f},{y(b):.0f}" for a, b in points)
    marks = "".join(f'<circle cx="{x(a):.0f}" cy="{y(b):.0f}" r="4" fill="{colour}"/>' for a, b in points)
    line = f'fill="none" stroke="{colour}" stroke-width="2" stroke-dasharray="{dash}"'
    return f'<polyline points="{path}" {line}/>{marks}'


def outputs_panel(runs):
    """Number of programs against right outputs."""
    def x(value):
        return 50 + value * 27

    def y(value):
        return 300 - value * 20
    parts = [text(210, 24, "Right outputs, by the number of programs"),
             f'<path d="M{x(0)} {y(12)}V{y(0)}H{x(12)}" fill="none" stroke="#444"/>']
    for value in (0, 4, 8, 12):
        parts += [text(x(value), y(0) + 18, str(value)), text(x(0) - 8, y(value) + 4, str(value), "end")]
    parts += [curve(runs, "right", "#1f6f3f", "none", x, y), curve(runs, "goes_on", "#b02a1f", "6 4", x, y)]
    words = "green: the library's unmap; red: one that empties the primary group only"
    parts.append(text(210, 340, words, extra='font-size="11"'))
    return "".join(parts)


def groups_panel(runs):
    """The share of maps by the number of valid entries that the page's primary group had."""
    labels = ["4 minigzip", "8 minigzip", "9 minigzip", "12 minigzip", "12 minigzip, spread VSIDs"]
    colours = ["#9bbcd8", "#5a8fbf", "#2c5f94", "#143a63", "#d0a13a"]
    chosen = [next(run for run in runs if run["runner"] == "right" and run["label"] == label) for label in labels]
    parts = [text(650, 24, "Valid entries that a map met in the primary group (8: it goes to the secondary)")]
    for k in range(9):
        left = 430 + k * 50
        parts.append(text(left + 20, 318, str(k)))
        for i, run in enumerate(chosen):
            share = run["counts"][f"maps_that_met_{k}"] / run["counts"]["maps"]
            parts.append(f'<rect x="{left + i * 8}" y="{300 - share * 240:.1f}" width="7" height="{share * 240:.1f}" '
                         f'fill="{colours[i]}"/>')
    parts.append('<path d="M425 60V300H885" fill="none" stroke="#444"/>')
    parts += [text(420, 64, "100 %", "end"), text(420, 304, "0", "end")]
    for i, label in enumerate(labels):
        parts.append(f'<rect x="{640}" y="{52 + i * 17}" width="10" height="10" fill="{colours[i]}"/>')
        parts.append(text(656, 61 + i * 17, label, "start", 'font-size="11"'))
    return "".join(parts)


def picture(runs):
    return ('<svg xmlns="http://www.w3.org/2000/svg" viewBox="0 0 900 350" font-family="sans-serif" font-size="12" '
            'fill="#222"><rect width="900" height="350" fill="#fff"/>' + outputs_panel(runs) + groups_panel(runs)
            + "</svg>\n")


def main(arguments):
    runs = read_runs(Path(arguments[0]))
    lines = table(runs)
    print(lines)
    (Path(arguments[0]) / "runner.svg").write_text(picture(runs))
    if "--write" in arguments:
        document = ROOT / "docs" / "RUNNER.md"
        before, rest = document.read_text().split(BEGIN)
        document.write_text(f"{before}{BEGIN}\n{lines}\n{END}{rest.split(END)[1]}")
        (ROOT / "docs" / "runner.svg").write_text(picture(runs))


if __name__ == "__main__":
    main(sys.argv[1:])
