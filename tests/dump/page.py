#!/usr/bin/env python3
"""The page of mmu-dump html in headless Chromium, on dumps of the model: sorted and filtered by real clicks and keys.

page.py PROGRAM FOLDER                      FOLDER has the model's dumps
page.py PROGRAM FOLDER --picture PNG STEM   also a picture of the page of STEM.registers and STEM.table
"""
import json
import subprocess
import sys
import tempfile
from pathlib import Path

import texts
from browser import Browser

PROGRAM, FOLDER = sys.argv[1], Path(sys.argv[2])
COLUMNS = ["address", "VSID", "page", "frame", "WIMG", "PP", "key 0", "key 1", "R", "C", "group", "entry", "H", "note"]
SHADES = ["#ffffff", "#e3eefb", "#c8def6", "#a6c9ee", "#7fb0e3", "#5793d2", "#3676bb", "#1f5a9d", "#b3261e"]
ROWS = "[...document.querySelectorAll('#pages tbody tr')].map(row => [...row.cells].map(cell => cell.textContent))"
COUNT = "document.querySelectorAll('#pages tbody tr').length"
MOST_SHOWN = 500
held = 0


def hold(what, got, wanted):
    global held
    held += 1
    if got != wanted:
        sys.exit(f"FAIL {what}:\ngot    {str(got)[:600]}\nwanted {str(wanted)[:600]}")


def make(registers, table, page, *words):
    files = ["--registers", registers, "--table", table, "-o", page]
    subprocess.run([PROGRAM, "html", *files, *words], check=True)


def row(one):
    """The texts of a page's row, from the model's answer."""
    entry = one["entry"]
    note = texts.NOTES[one["state"]]
    if "first_group" in one:
        note += f" {one['first_group']:05X}.{one['first_entry']}"
    return [" ".join(f"{address:08X}" for address in one["addresses"]) or "--------", f"{entry['vsid']:06X}",
            "----" if entry["page_index"] is None else f"{entry['page_index']:04X}", f"{entry['frame']:05X}",
            texts.wimg(entry["wimg"]), texts.PP[entry["pp"]], one["key0"], one["key1"], "R" if entry["r"] else "-",
            "C" if entry["c"] else "-", f"{entry['group']:05X}", str(entry["entry"]), str(entry["h"]), note]


def scenes():
    """Dumps to look at, which together have all of `wanted`; the first that is rich is looked at thoroughly."""
    chosen, wanted = [], set(texts.NOTES) | {"many", "large", "blocks", "refused", "rich"}
    for path in sorted(FOLDER.glob("*.json"), key=lambda path: int(path.stem)):
        commands = {one["words"][0]: one["json"] for one in json.loads(path.read_text())}
        check, pages = commands["check"], commands["pages"].get("pages")
        if pages is None:
            continue
        has = {one["state"] for one in pages}
        has |= {"many"} if len(pages) > MOST_SHOWN else set()
        has |= {"large"} if check["table"]["groups"] > 1024 else set()
        has |= {"refused"} if check["registers"]["result"] else set()
        has |= {"blocks"} if sum(block["on"] for block in check["registers"]["blocks"]) > 3 else set()
        addresses = sum(len(one["addresses"]) for one in pages)
        has |= {"rich"} if addresses > 1 and 40 < len(pages) < MOST_SHOWN and len(has) > 4 else set()
        if has & wanted:
            chosen.append((int(path.stem), commands, "rich" in has & wanted))
            wanted -= has
        if not wanted:
            return chosen
    sys.exit(f"FAIL no dump with {wanted}")


# ---- The parts of the page --------------------------------------------------------------------------

def sorting(browser, rows):
    for column, name in enumerate(COLUMNS):
        button = f"document.querySelectorAll('#pages th button')[{column}]"
        for way, reverse in (("ascending", False), ("descending", True)):
            browser.click(button)
            wanted = sorted(rows, key=lambda row: row[column], reverse=reverse)
            got = browser.value(ROWS)
            hold(f"sorted by {name}, {way}", [row[column] for row in got],
                 [row[column] for row in wanted[:MOST_SHOWN]])
            if len(rows) <= MOST_SHOWN:
                hold(f"rows sorted by {name}", sorted(got), sorted(rows))
            hold("mark of the sorted column", browser.value(
                "[...document.querySelectorAll('#pages th')].map(cell => cell.getAttribute('aria-sort'))"),
                [way if at == column else None for at in range(len(COLUMNS))])


def matching(rows, words):
    def fits(row):
        search = " ".join(f"{name.replace(' ', '')}={text}" for name, text in zip(COLUMNS, row)).lower()
        return all(word in search for word in words.lower().split())
    return [row for row in rows if fits(row)]


def filtering(browser, rows, thorough):
    row = rows[len(rows) // 2]
    words_tried = [row[3], f"group={row[10]} entry={row[11]}", f"frame={row[3].lower()} r=r", "no such row"]
    for words in words_tried if thorough else words_tried[:1]:
        browser.type_into("id('filter')", words)
        wanted = matching(rows, words)
        hold(f"filtered by {words}", browser.value(ROWS), wanted[:MOST_SHOWN])
        hold(f"count of {words}", browser.value("id('count').textContent"), f"{len(wanted)} of {len(rows)} rows")
    browser.click("id('clear')")
    hold("rows after the filter is cleared", browser.value(COUNT), min(len(rows), MOST_SHOWN))


def more(browser, rows):
    hold("button for more", browser.value("id('more').hidden"), len(rows) <= MOST_SHOWN)
    if len(rows) > MOST_SHOWN:
        browser.click("id('more')")
        hold("rows after the button", browser.value(COUNT), min(2 * MOST_SHOWN, len(rows)))


def groups(browser, rows, table):
    used = [0] * table["groups"]
    for row in rows:
        used[int(row[10], 16)] += 1
    shades = [[int(shade[at:at + 2], 16) for at in (1, 3, 5)] for shade in SHADES]
    got = browser.value("(() => { const image = pen.getImageData(0, 0, canvas.width, canvas.height);"
                        "return Array.from({length: groups}, (_, group) => { const at = 4 * (canvas.width *"
                        "(Math.floor(group / across) * cell) + group % across * cell);"
                        "return [...image.data.slice(at, at + 3)]; }); })()")
    hold("shades of the groups", got, [shades[count] for count in used])
    group = next(at for at in range(len(used) // 3, len(used)) if used[at])
    across, cell, width, height = browser.value("[across, cell, canvas.width, canvas.height]")
    browser.click("canvas", (group % across + 0.5) * cell / width, (group // across + 0.5) * cell / height)
    hold("filter by a click on a group", browser.value("id('filter').value"), f"group={group:05X}")
    hold("rows of that group", browser.value(COUNT), used[group])
    hold("group under the pointer", browser.value("id('group-under').textContent"),
         f"group {group:05X}: {used[group]} of 8 entries")
    browser.click("id('clear')")


def blocks(browser, registers):
    on = [block for block in registers["blocks"] if block["on"] and block["shaped"]]
    got = browser.value("[...document.querySelectorAll('#space rect')].filter(rect => rect.querySelector('title'))"
                        ".map(rect => ['x', 'y', 'width'].map(name => +rect.getAttribute(name)))")
    wanted = [[10 + block["start"] / 2 ** 32 * 1100, 64 if block["side"] == "data" else 20,
               max(2, block["length"] / 2 ** 32 * 1100)] for block in on]
    hold("places of the blocks", [[round(number, 6) for number in one] for one in got],
         [[round(number, 6) for number in one] for one in wanted])
    lines = browser.value("[...document.querySelectorAll('#blocks li')].map(line => line.textContent)")
    wanted = [f"{'D' if block['side'] == 'data' else 'I'}BAT{block['pair']} {block['start']:08X}-"
              f"{block['start'] + block['length'] - 1:08X} to {block['physical']:08X}, for {texts.users(block)}, "
              f"{block['rights']}, WIMG {texts.wimg(block['wimg'])}" for block in on]
    hold("blocks in words", lines, wanted or ["No block is on."])


def why(browser, number, addresses):
    for address in addresses:
        browser.type_into("id('address')", address)
        for kind, letter in (("store", "s"), ("fetch", "f"), ("load", "l")):
            for state in ("user", "supervisor"):
                for name, key in (("kind", letter), ("state", state[0])):
                    browser.value(f"id('{name}').focus()")
                    browser.send("Input.dispatchKeyEvent", type="keyDown", text=key, key=key)
                    browser.send("Input.dispatchKeyEvent", type="keyUp", key=key)
                browser.click("document.querySelector('#why button')")
                files = ["--registers", FOLDER / f"{number}.registers", "--table", FOLDER / f"{number}.table"]
                said = subprocess.run([PROGRAM, "why", address, f"--{kind}", *(["--user"] if state == "user" else []),
                                       *files], capture_output=True, text=True, check=False).stdout
                hold(f"steps of a {kind} at {address} by the {state}", browser.value("id('steps').textContent"), said)
    browser.type_into("id('address')", "1")
    browser.click("document.querySelector('#why button')")
    hold("an address that was not given", browser.value("id('steps').textContent"),
         f"00000001 was not given by --explain. Given: {', '.join(addresses)}.")


def quiet(browser, page):
    """No script failed, and nothing but the page itself was asked for."""
    failed = [event for event in browser.events if event["method"] == "Runtime.exceptionThrown"]
    asked = [event["params"]["request"]["url"] for event in browser.events
             if event["method"] == "Network.requestWillBeSent"]
    hold("scripts that failed", failed, [])
    hold("what the page asks for", asked, [page.as_uri()])


def look(browser, folder, number, commands, thorough):
    registers, pages = commands["check"]["registers"], commands["pages"]["pages"]
    # A name that would end or comment out the page's data where it were written as it is.
    odd = folder / "<!--<script>" / f"{number}.table"
    odd.parent.mkdir(exist_ok=True)
    odd.write_bytes((FOLDER / f"{number}.table").read_bytes())
    page = folder / f"{number}.html"
    addresses = [f"{address:08X}" for address in [one for row in pages for one in row["addresses"]][:2]]
    make(FOLDER / f"{number}.registers", odd, page, *[word for one in addresses for word in ("--explain", one)])
    browser.open(page.as_uri())
    rows = [row(one) for one in pages]
    hold("the page's script has run", browser.value("typeof render"), "function")
    hold("name of the table", str(odd) in browser.value("id('files').textContent"), True)
    hold("rows at first", browser.value(ROWS), rows[:MOST_SHOWN])
    hold("judgement is marked", browser.value("id('judgement').className"), "bad" if registers["result"] else "")
    more(browser, rows)
    blocks(browser, registers)
    if rows:
        groups(browser, rows, commands["check"]["table"])
        filtering(browser, rows, thorough)
    if thorough:
        sorting(browser, rows)
        why(browser, number, addresses)
    quiet(browser, page)


def crowded(browser, folder):
    """More entries than the page holds, all with V = 1: it says how many it leaves out."""
    names = [folder / "crowded.registers", folder / "crowded.table"]
    names[0].write_bytes(bytes.fromhex("00000003") + bytes(128))
    names[1].write_bytes(bytes.fromhex("8000000000000000") * 32768)
    page = folder / "crowded.html"
    make(*names, page)
    browser.open(page.as_uri())
    hold("count of a crowded table", browser.value("id('count').textContent"),
         "20000 of 20000 rows, of the first 20000 of 32768 entries")
    hold("rows of a crowded table", browser.value(COUNT), MOST_SHOWN)
    hold("groups of a crowded table", browser.value("data.table.used"), "8" * 4096)
    quiet(browser, page)


def picture(browser, folder, path, stem):
    page = folder / "picture.html"
    make(f"{stem}.registers", f"{stem}.table", page, "--explain", "00FFA01B", "--explain", "02000000")
    browser.open(page.as_uri())
    browser.value(f"id('files').textContent = id('files').textContent.replaceAll('{Path(stem).parent}/', '')")
    browser.type_into("id('filter')", "frame=12342")
    browser.value("document.activeElement.blur()")
    browser.picture(Path(path))


def main():
    with tempfile.TemporaryDirectory(ignore_cleanup_errors=True) as name:
        folder = Path(name)
        browser = Browser(folder / "profile")
        try:
            chosen = scenes()
            for number, commands, rich in chosen:
                look(browser, folder, number, commands, rich)
            crowded(browser, folder)
            if "--picture" in sys.argv:
                picture(browser, folder, *sys.argv[sys.argv.index("--picture") + 1:])
        finally:
            browser.close()
    print(f"{len(chosen) + 1} pages in Chromium: {held} things as the model says")


main()
