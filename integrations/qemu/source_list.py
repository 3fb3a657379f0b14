#!/usr/bin/env python3
"""Debian's entries of the machine's own apt lists, each for binary and source packages, in the style of deb822.

usage: source_list.py [FOLDER]    FOLDER instead of /etc/apt
"""
import glob
import os
import re
import sys


def stanzas(text):
    """The stanzas of a .sources file as dictionaries."""
    for block in re.split(r"\n\s*\n", text):
        lines = [line for line in block.splitlines() if line.strip() and not line.startswith("#")]
        fields = dict(line.split(":", 1) for line in lines if ":" in line and not line[0].isspace())
        if fields:
            yield {name: value.strip() for name, value in fields.items()}


def one_line(line):
    """A line of a .list file as a stanza, or None."""
    match = re.match(r"deb(?:-src)?\s+(?:\[(?P<options>[^]]*)\]\s+)?"
                     r"(?P<uri>\S+)\s+(?P<suite>\S+)\s*(?P<parts>.*)", line)
    if not match:
        return None
    stanza = {"URIs": match["uri"], "Suites": match["suite"], "Components": match["parts"].split("#")[0].strip()}
    signed = re.search(r"signed-by=(\S+)", match["options"] or "")
    if signed:
        stanza["Signed-By"] = signed[1]
    return stanza


def of_debian(stanza):
    """Whether the entry names an archive of Debian: others have no source of QEMU."""
    return re.search(r"/debian(-security)?/?(\s|$)", stanza.get("URIs", "")) is not None


def main():
    folder = sys.argv[1] if len(sys.argv) > 1 else "/etc/apt"
    found = []
    for name in [os.path.join(folder, "sources.list")] + sorted(glob.glob(os.path.join(folder, "sources.list.d", "*"))):
        if not os.path.isfile(name):
            continue
        with open(name, encoding="utf-8") as file:
            text = file.read()
        found += list(stanzas(text)) if name.endswith(".sources") else filter(None, map(one_line, text.splitlines()))
    wanted = []
    for stanza in filter(of_debian, found):
        kept = {name: stanza[name] for name in ("URIs", "Suites", "Components", "Signed-By") if name in stanza}
        if kept not in wanted:
            wanted.append(kept)
    if not wanted:
        sys.exit("no entry of Debian in the apt lists of " + folder)
    for stanza in wanted:
        print("\n".join(["Types: deb deb-src"] + [f"{name}: {value}" for name, value in stanza.items()]), end="\n\n")


if __name__ == "__main__":
    main()
