#!/usr/bin/env python3
"""Compiles crates/mmu_c/out/libmmu_c.a over the libraries that a `rt ci` has just proved.

    proved_archive.py RT CPU SINCE    RT is the kit's rt, by its whole path, CPU the processor that `rattle build` is to compile
                                      for, SINCE a file that is older than all that `rt ci` built
    proved_archive.py --self-test

`rt ci` checks a static library and builds none. It leaves each other library as crates/NAME/out/rlib/NAME.rlib, without
the file out/rlib/stamp by which `rt lib` knows its own, and then puts back in its place what the checkout had before. So
the archive is compiled by `rattle build`, which checks mmu_c over these libraries, where each of them is newer than SINCE
and has no stamp. Where one is not so, the exit status is 3 and nothing is built: `rt lib` is to prove what it needs.
"""
import os
import subprocess
import sys
import tempfile
from pathlib import Path

ROOT = Path(__file__).resolve().parent.parent
CRATE = "mmu_c"


def listed(root):
    """The crates of crates.txt with the names behind them."""
    lines = [line.split("#")[0] for line in (root / "crates.txt").read_text(encoding="utf-8").splitlines()]
    return {line.split(":")[0].split()[0]: line.split(":")[1].split() for line in lines if ":" in line}


def below(crates, crate):
    """The crates of the repository that a crate stands on, lowest first."""
    found = []
    for name in crates[crate]:
        if name in crates:
            found += [each for each in [*below(crates, name), name] if each not in found]
    return found


def rlib(root, name):
    return root / "crates" / name / "out" / "rlib" / f"{name}.rlib"


def stale(root, names, since):
    """The libraries that the last `rt ci` did not leave."""
    began = since.stat().st_mtime_ns
    return [name for name in names if not rlib(root, name).is_dir() or rlib(root, name).stat().st_mtime_ns < began
            or (rlib(root, name).parent / "stamp").exists()]


def words(root, kit, crate, cpu, out):
    """The command that checks the static library and compiles it."""
    crates = listed(root)
    externs = [("std", kit / "rlibs" / "std.rlib"), *((name, rlib(root, name)) for name in crates[crate] if name in crates)]
    folders = [kit / "rlibs", *(rlib(root, name).parent for name in below(crates, crate))]
    return [kit / "bin" / "rattle", "build", "--crate-name", crate, "src/lib.rt",
            *(word for name, place in externs for word in ("--extern", f"{name}={place}")),
            *(word for folder in folders for word in ("-L", f"dependency={folder}")),
            "--antt-project", kit / "rattle" / "logic" / "antt-project.json", "--logic-built", kit / "logic_built",
            "--jobs", "2", "--links", f"{crate}=", "--crate-type", "staticlib", "--cpu", cpu,
            "--toolchain", kit / "toolchain", "--backend", "llvm", "-o", out]


def build(root, kit, cpu, since):
    """Compiles the archive; the exit status."""
    old = stale(root, below(listed(root), CRATE), since)
    if old:
        print(f"not as rt ci left them: {', '.join(old)}")
        return 3
    out = root / "crates" / CRATE / "out" / f"lib{CRATE}.a"
    out.parent.mkdir(exist_ok=True)
    command = [str(word) for word in words(root, kit, CRATE, cpu, out)]
    print(" ".join(command), flush=True)
    return subprocess.run(command, cwd=root / "crates" / CRATE, check=False).returncode


def self_test():
    """A small repository: its libraries count only where all are new and none has a stamp."""
    with tempfile.TemporaryDirectory() as folder:
        root = Path(folder)
        (root / "crates.txt").write_text("# lowest first\nlow: # none\nhigh: low\nother: low\nmmu_c staticlib: high\n", encoding="utf-8")
        since = root / "since"
        since.touch()
        names = below(listed(root), CRATE)
        told = [stale(root, names, since)]
        for name in names:
            rlib(root, name).mkdir(parents=True)
            os.utime(rlib(root, name), (since.stat().st_mtime + 5,) * 2)
        told.append(stale(root, names, since))
        (rlib(root, "low").parent / "stamp").touch()
        os.utime(rlib(root, "high"), (since.stat().st_mtime - 5,) * 2)
        told.append(stale(root, names, since))
        command = " ".join(str(word) for word in words(root, Path("/kit"), CRATE, "x86-64", "a"))
    wanted = f"--extern high={root}/crates/high/out/rlib/high.rlib -L dependency=/kit/rlibs -L dependency={root}/crates/low/out/rlib -L dependency={root}/crates/high/out/rlib "
    if names != ["low", "high"] or told != [["low", "high"], [], ["low", "high"]] or wanted not in command:
        sys.exit(f"proved_archive.py: wrong: {names} {told} {command}")
    print("self test: libraries count where rt ci has left all of them, and no other's")


if __name__ == "__main__":
    if sys.argv[1:] == ["--self-test"]:
        self_test()
    elif len(sys.argv) == 4:
        told = subprocess.run([sys.argv[1], "doc"], capture_output=True, text=True, check=True).stdout.strip()
        sys.exit(build(ROOT, Path(told).parent, sys.argv[2], Path(sys.argv[3])))
    else:
        sys.exit(__doc__)
