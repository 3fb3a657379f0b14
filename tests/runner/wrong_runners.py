#!/usr/bin/env python3
"""Wrong runners, each made from the right one by one edit: the tests must tell every one of them.

wrong_runners.py ARCHIVE FOLDER   the programs of tests/runner/run.sh are in FOLDER
"""
import shutil
import subprocess
import sys
from pathlib import Path

ROOT = Path(__file__).resolve().parent.parent.parent
LIMIT = 60

# What is wrong, the file, the text that is there once, what stands in its place.
OF_SUPERVISOR = [
    ("the clock does not go by R", "if (!(marks & MMU_SECOND_R)) {", "if (marks | 1u) {"),
    ("C does not decide: all is written back", "if (second & MMU_SECOND_C || p->changed) {", "if (second | 1u) {"),
    ("C does not decide: nothing is written back", "if (second & MMU_SECOND_C || p->changed) {", "if (p->changed) {"),
    ("C is lost at a second chance", "sv->programs[i]->pages[page].changed = true;", ";"),
    ("a shared page may be written", "page->rights & SV_WRITE && !shared ? 2u", "page->rights & SV_WRITE ? 2u"),
    ("the copy on write is not copied", "memcpy(own_store(p)->bytes, shared->bytes, PAGE);",
     "own_store(p), (void)shared;"),
    ("programs share VSIDs", "program << 12 | segment", "program / 2u << 12 | segment"),
    ("an unmapped page is not lifted",
     "    if (program == sv->running && sv->lift)\n        sv->lift(page);\n    return", "    return"),
    ("a protected page is not lifted",
     "            if (program == sv->running && sv->lift)\n                sv->lift(page);\n", ""),
    ("a free frame is still shared", "        p->store->frame = 0;", "        ;"),
    ("a new page is not zeroed", "memset(sv->memory + frame * PAGE, 0, PAGE);", ";"),
    ("no G", "(p->rights & SV_EXECUTE ? 0u : MMU_ATTRIBUTE_G)", "0u"),
    ("a frame is taken from one user alone",
     "                take(sv, sv->programs[i], sv->frames[frame].page);\n            sv->count",
     "                { take(sv, sv->programs[i], sv->frames[frame].page); break; }\n            sv->count"),
]
OF_CORE = [
    ("the second page is not laid", "lay(address / PAGE + 1u, answer.second_physical, kind);", ";"),
    ("compiled code is kept", 'check(uc_ctl_remove_cache(uc, start, start + PAGE), "compiled code");', "(void)start;"),
    ("dcbz is not asked for", "case DCBZ:", "case 0:"),
    ("lmw and stmw are not asked for", "case LMW: case STMW:", "case 0:"),
    ("strings are not asked for", "case LSWI: case STSWI:", "case 0:"),
    ("a load is taken for a store's right", "tlb[page].kinds = kinds | 1u << kind;",
     "tlb[page].kinds = kinds | 1u << kind | 1u << MMU_STORE;"),
    ("the pages of another program stay laid",
     "        lift_all();\n        check(uc_context_restore", "        check(uc_context_restore"),
    ("a load over an edge is asked three times", "? 2u : 0u;", "? 0u : 0u;"),
]


def run(command):
    try:
        return subprocess.run(command, capture_output=True, timeout=LIMIT, check=False)
    except subprocess.TimeoutExpired:
        return None


def source_with(folder, name, old, new):
    """A copy of the runner's source with one edit."""
    source = folder / "wrong"
    shutil.rmtree(source, ignore_errors=True)
    shutil.copytree(ROOT / "runner", source)
    text = (source / name).read_text()
    if text.count(old) != 1:
        sys.exit(f"FAIL the edit of {name} is not there once: {old}")
    (source / name).write_text(text.replace(old, new))
    return source


def supervisor_told(archive, folder, source):
    program = str(folder / "wrong_supervisor")
    subprocess.run(["gcc", "-std=c99", "-O1", "-w", f"-I{ROOT}/include", f"-I{source}",
                    str(ROOT / "tests/runner/supervisor.c"), str(source / "supervisor.c"), archive, "-o", program],
                   check=True)
    done = run([program])
    return done is None or done.returncode != 0


def asked(folder, program, offset):
    """The counts of loads asked by edges at an offset, or None where it fails."""
    counts = folder / "wrong_counts"
    done = run([program, "-e", "-f", "200", "-c", str(counts), str(folder / "edges.ppc"), "03", offset])
    if done is None or done.returncode != 0:
        return None
    return int(dict(line.split() for line in counts.read_text().splitlines())["loads_asked"])


def core_told(archive, folder, source):
    program, output = str(folder / "wrong_runner"), folder / "wrong_copy"
    subprocess.run([str(ROOT / "runner/build.sh"), program, archive, "-w"], check=True,
                   env={"PATH": "/usr/bin:/bin", "RUNNER_SOURCE": str(source)})
    expected = run([str(folder / "operands.native"), "3000"]).stdout
    done = run([program, "-f", "12", str(folder / "operands.ppc"), "3000"])
    if done is None or done.stdout != expected:
        return True
    done = run([program, "-f", "100", "-p", "3", "-q", "50", "-o", str(output), str(folder / "operands.ppc"), "3000"])
    if done is None or any(Path(f"{output}.{i}").read_bytes() != expected for i in range(3)):
        return True
    inside, over = asked(folder, program, "0016"), asked(folder, program, "4094")
    return inside is None or inside != over


def main(archive, folder):
    missed = []
    for name, edits, told in (("supervisor.c", OF_SUPERVISOR, supervisor_told), ("core.c", OF_CORE, core_told)):
        for label, old, new in edits:
            if not told(archive, folder, source_with(folder, name, old, new)):
                missed.append(label)
        if told(archive, folder, source_with(folder, name, "PAGE MMU_PAGE_SIZE", "PAGE (MMU_PAGE_SIZE)")):
            missed.append(f"the right {name} is refused")
    if missed:
        sys.exit("FAIL not told: " + "; ".join(missed))
    print(f"ok   {len(OF_SUPERVISOR) + len(OF_CORE)} wrong runners are told")


if __name__ == "__main__":
    main(sys.argv[1], Path(sys.argv[2]).resolve())
