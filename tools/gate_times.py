#!/usr/bin/env python3
"""What the gate takes: a record of its last run, from which the next one tells what is left.

    gate_times.py begin SECONDS    a gate began, SECONDS after 1970 began: tells what the one on record took
    gate_times.py end              a gate has passed: the whole time, the record
    gate_times.py --self-test

While a gate runs, its tools note what took how long in the file that GATE_JOURNAL names; without that name nothing is
noted, and nothing is told of an earlier run. The record is .ci/times.last, which is not in git. A clone that has run no
gate goes by .ci/times, a record that was committed; where there is none either, what is left is not told. `rt ci` tells
no times of crates and edits, and proves only what it has not proved on this machine before: it counts as one part.

Journal and record have a line for each thing: its kind, its name and whole seconds, with tabs between.

    whole  gate    seconds
    part   NAME    seconds, and what was left of the gate at its end (in the journal: begin, end)
"""
import os
import sys
import tempfile
import time
from pathlib import Path

ROOT = Path(__file__).resolve().parent.parent
LAST = ROOT / ".ci" / "times.last"
COMMITTED = ROOT / ".ci" / "times"
JOURNAL = os.environ.get("GATE_JOURNAL")


def read(text):
    """The lines of a journal or record: the numbers by kind and name. What is no such line is passed over."""
    rows = {}
    for line in text.splitlines():
        kind, _, rest = line.partition("\t")
        name, *numbers = rest.split("\t")
        if numbers and all(number.isdigit() for number in numbers):
            rows[kind, name] = [int(number) for number in numbers]
    return rows


def written(rows):
    """The text that read() reads."""
    return "".join("\t".join([*key, *map(str, numbers)]) + "\n" for key, numbers in rows.items())


def note(kind, name, *seconds, journal=JOURNAL):
    """Adds a line to the journal of the gate that runs, if one does."""
    if journal:
        with open(journal, "a", encoding="utf-8") as file:
            file.write(written({(kind, name): [round(second) for second in seconds]}))


def last_record(places=(LAST, COMMITTED), journal=JOURNAL):
    """The record of the last gate, or of the one that was committed; empty where there is none, and outside a gate."""
    found = [place for place in places if place.exists()]
    return read(found[0].read_text()) if found and journal else {}


def exact(seconds):
    """A time that was taken."""
    seconds = round(seconds)
    return f"{seconds} s" if seconds < 120 else f"{seconds // 60} min {seconds % 60} s"


def roughly(seconds):
    """A time that is left."""
    minutes = round(seconds / 60)
    return f"about {minutes} minute{'s' if minutes > 1 else ''} left" if minutes else "less than a minute left"


def last_time(record, name):
    """What is said of a part that begins."""
    return f" ({exact(record['part', name][0])} last time)" if ("part", name) in record else ""


def left_after(record, name):
    """What is said of the gate when a part has ended."""
    return f", {roughly(record['part', name][1])}" if ("part", name) in record else ""


def record_of(journal, now):
    """The record of a gate that ends now."""
    record = {("whole", "gate"): [now - journal["began", "gate"][0]]}
    for (kind, name), numbers in journal.items():
        if kind == "part":
            record[kind, name] = [numbers[1] - numbers[0], now - numbers[1]]
    return record


def begin(seconds):
    note("began", "gate", int(seconds))
    record = last_record()
    if ("whole", "gate") in record:
        print(f"the run on record took {exact(record['whole', 'gate'][0])}; what is left is told by its times")
    else:
        print("there is no record of a run: what is left is not told")


def end():
    record = record_of(read(Path(JOURNAL).read_text()), round(time.time()))
    LAST.write_text(written(record))
    print(f"== the whole gate took {exact(record['whole', 'gate'][0])}")


NOTED = "began\tgate\t1000\npart\tfirst\t1003\t1010\nphase\tproofs\t77\npart\tsecond\t1010\t1200\nno line\n"


def told_by_place(folder, journal):
    """What is read of no record, of a committed one, and of both."""
    places = (folder / "last", folder / "committed")
    told = [last_record(places, journal)]
    for place, seconds in zip(reversed(places), (7, 8)):
        place.write_text(f"whole\tgate\t{seconds}\n")
        told.append(last_record(places, journal))
    return [record.get(("whole", "gate")) for record in told]


def in_folders():
    """What is told inside a gate and outside, and what is noted."""
    with tempfile.TemporaryDirectory() as first, tempfile.TemporaryDirectory() as second:
        journal = Path(first) / "journal"
        note("part", "one", 1.4, 2.6, journal=journal)
        note("part", "two", 3, 4, journal=None)
        return told_by_place(Path(first), journal), told_by_place(Path(second), None), journal.read_text()


def self_test():
    record = record_of(read(NOTED), 1300)
    inside, outside, noted = in_folders()
    checks = {
        "the whole": record["whole", "gate"] == [300],
        "a part": [record["part", name] for name in ("first", "second")] == [[7, 290], [190, 100]],
        "nothing else": len(record) == 1 + 2,
        "read again": read(written(record)) == record,
        "a part begins": last_time(record, "second") == " (3 min 10 s last time)",
        "a part has ended": left_after(record, "first") == ", about 5 minutes left",
        "a new part": last_time(record, "third") + left_after(record, "third") == "",
        "times": [exact(s) for s in (0.4, 119, 120)] == ["0 s", "119 s", "2 min 0 s"],
        "times left": [roughly(s)[:9] for s in (29, 31, 91)] == ["less than", "about 1 m", "about 2 m"],
        "places": inside == [None, [7], [8]] and outside == [None, None, None],
        "the journal": noted == "part\tone\t1\t3\n",
    }
    wrong = [label for label, right in checks.items() if not right]
    if wrong:
        sys.exit(f"gate_times.py: wrong: {', '.join(wrong)}\n{written(record)}")
    print("self test: the record of a run, and what is told of the next run")


if __name__ == "__main__":
    if sys.argv[1:] == ["--self-test"]:
        self_test()
    elif len(sys.argv) == 3 and sys.argv[1] == "begin":
        begin(sys.argv[2])
    elif sys.argv[1:] == ["end"]:
        end()
    else:
        sys.exit(__doc__)
