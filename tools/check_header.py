#!/usr/bin/env python3
"""Compares include/mmu.h with the archive's symbols, the exported functions of the Rattle source, and the version.

check_header.py [ARCHIVE]     default target/staticlib/libmmu.a; exit status 1 and a line for each difference
check_header.py --self-test   feeds wrong headers to the comparison, each of which must be refused

The version is the Makefile's VERSION: the header's MMU_VERSION_MAJOR and _MINOR, the first heading of CHANGELOG.md and
the find_package of docs/C-GUIDE.md must have it. The comment of a call must name each of its parameters, and the
refusals that the comparison with the model has for it (NUMBERS of tests/compare/src/tally.rs), no others. Each number of
the crate `numbers` stands in the header, in the code and in the definitions under one name, with one value. Names of
earlier versions that programs still use (KEPT) stand in the header for the name that took their place. The archive is the
crate `mmu_c`: each of its functions has the parameters and the contract of the function of `mmu` that has its name, word
for word, and does nothing but call it; and none of the calls that `mmu` offers is left out.
"""
import re
import subprocess
import sys
from pathlib import Path

ROOT = Path(__file__).resolve().parent.parent
HEADER = ROOT / "include" / "mmu.h"
SOURCES = ROOT / "crates" / "mmu_c" / "src"
OFFERED = ROOT / "crates" / "mmu" / "src"
MAKEFILE = ROOT / "Makefile"
CHANGELOG = ROOT / "CHANGELOG.md"
GUIDE = ROOT / "docs" / "C-GUIDE.md"
NUMBERS = ROOT / "crates" / "numbers"
TALLY = ROOT / "tests" / "compare" / "src" / "tally.rs"
ARCHIVE = ROOT / "target" / "staticlib" / "libmmu.a"

# A Rattle type and the C parameters that stand for it.
C_TYPES = {
    "u32": ["uint32_t"],
    "u64": ["uint64_t"],
    "usize": ["size_t"],
    "&[u8]": ["const uint8_t *", "size_t"],
    "&mut [u8]": ["uint8_t *", "size_t"],
}

# A name of an earlier version that stays, and the name that it stands for.
KEPT = {"MMU_REGISTERS_SIZE": "MMU_REGISTERS_SIZE_SHORT", "MMU_REGISTER_COUNT": "MMU_REGISTER_COUNT_SHORT"}


class Unreadable(Exception):
    """A text whose form the comparison does not know; it is never skipped."""


def c_type(rattle_type, where):
    normal = " ".join(rattle_type.split())
    if normal not in C_TYPES:
        raise Unreadable(f"{where}: no C type for the Rattle type {normal}")
    return C_TYPES[normal]


def rattle_parameters(text, where):
    types = []
    for parameter in filter(None, (part.strip() for part in text.split(","))):
        name, colon, rattle_type = parameter.partition(":")
        if not colon:
            raise Unreadable(f"{where}: parameter {name} has no type")
        types += c_type(rattle_type, where)
    return types


def exported_functions(source):
    """Name to C signature of every exported function of a Rattle text."""
    text = re.sub(r"//[^\n]*", "", source)
    found = re.findall(r'pub\s+extern\s+"C"\s+fn\s+(\w+)\s*\(([^)]*)\)\s*(?:->\s*(\w+))?', text)
    if len(found) != text.count('extern "C"') or len(found) != text.count("#[unsafe(no_mangle)]"):
        raise Unreadable('Rattle source: an extern "C" or a no_mangle is not of the form #[unsafe(no_mangle)] pub extern "C" fn NAME(..) -> TYPE')
    return {name: (c_type(result, name)[0] if result else "void", rattle_parameters(parameters, name))
            for name, parameters, result in found}


def texts_of(source):
    """Name to the parameters and contract, and to the body, of every public call mmu_.. of a Rattle text, comments left out."""
    text = re.sub(r"//[^\n]*\n", "\n", source)
    found = re.findall(r'^pub (?:extern "C" )?fn (mmu_\w+)(\(.*?)^\{\n(.*?)^\}', text, re.M | re.S)
    return {name: (" ".join(head.split()), " ".join(body.split())) for name, head, body in found}


def thin_differences(source, offered):
    """A line for each export that is not a function of `mmu` under its name, parameters and contract, and for each that is missing."""
    exports, functions, lines = texts_of(source), texts_of(offered), []
    for name in sorted(set(exports) | set(functions)):
        if name not in exports or name not in functions:
            lines.append(f"{name}: only in the crate {'mmu_c' if name in exports else 'mmu'}")
            continue
        head, body = exports[name]
        arguments = ", ".join(re.findall(r"[(,] ?(\w+):", head.split(" -> ")[0]))
        if head != functions[name][0]:
            lines.append(f"{name}: other parameters or another contract in mmu_c than in mmu")
        if body != f"mmu::{name}({arguments})":
            lines.append(f"{name}: in mmu_c it is not mmu::{name}({arguments})")
    return lines


def c_parameter_type(text):
    """The type of one C parameter, its name taken away."""
    words = re.findall(r"\w+|\*", text)
    if words[-1] != "*" and len(words) > 1:
        words.pop()
    return " ".join(words)


def without_static_functions(text):
    """The text with static functions, which are the header's own, taken out: from the word to the brace that ends the body."""
    while True:
        start = re.search(r"\bstatic\b[^{;]*\{", text)
        if not start:
            return text
        at, depth = start.end(), 1
        while depth:
            if at == len(text):
                raise Unreadable(f"header: no end of {start.group().split('{')[0].strip()}")
            depth += {"{": 1, "}": -1}.get(text[at], 0)
            at += 1
        text = text[:start.start()] + text[at:]


def declared_functions(header):
    """Name to C signature of every function that a header declares; static functions are the header's own."""
    text = re.sub(r"/\*.*?\*/", "", header, flags=re.S)
    text = re.sub(r"//[^\n]*", "", text)
    text = re.sub(r"^[ \t]*#(?:\\\n|[^\n])*", "", text, flags=re.M)
    text = re.sub(r'extern\s+"C"\s*\{', "", text)
    text = without_static_functions(text)
    functions = {}
    for result, name, parameters in re.findall(r"(\w[\w\s*]*?)\b(\w+)\s*\(([^)]*)\)\s*;", text):
        if name in functions:
            raise Unreadable(f"header: {name} is declared twice")
        types = [] if parameters.strip() in ("", "void") else [c_parameter_type(p) for p in parameters.split(",")]
        functions[name] = (" ".join(result.split()), types)
    return functions


def names_by(flags, archive):
    """The names that nm lists of an archive with these flags."""
    done = subprocess.run(["nm", *flags.split(), "--format=posix", str(archive)],
                          capture_output=True, text=True, check=False)
    if done.returncode != 0:
        raise Unreadable(f"nm {archive}: {done.stderr.strip()}")
    lines = [line.split() for line in done.stdout.splitlines() if not line.endswith(":")]
    return {line[0] for line in lines if len(line) >= 2}


def archive_symbols(archive):
    """The global symbols that an archive defines."""
    return names_by("-g --defined-only", archive)


def signature(name, function):
    result, types = function
    return f"{result} {name}({', '.join(types) or 'void'})"


# What the archive calls from outside; a program without a C library has to bring it.
ASKED_FOR = {"memset"}


def archive_asks(archive):
    """The symbols that an archive does not define and asks for."""
    return names_by("-u", archive)


def asked_differences(asked):
    """A line for each symbol that an archive asks for and may not."""
    return [f"{name}: the archive asks for it from outside" for name in sorted(asked - ASKED_FOR)]


def differences(header, source, symbols):
    """A line for each difference of a header's text, a Rattle text and a set of symbols."""
    declared = declared_functions(header)
    exported = exported_functions(source)
    lines = [f"{name}: in the archive, not declared in the header" for name in sorted(symbols - set(declared))]
    lines += [f"{name}: declared in the header, not in the archive" for name in sorted(set(declared) - symbols)]
    lines += [f"{name}: exported by the Rattle source, not declared in the header" for name in sorted(set(exported) - set(declared))]
    lines += [f"{name}: declared in the header, not exported by the Rattle source" for name in sorted(set(declared) - set(exported))]
    for name in sorted(set(declared) & set(exported)):
        if declared[name] != exported[name]:
            lines.append(f"{name}: header  {signature(name, declared[name])}")
            lines.append(f"{' ' * len(name)}  Rattle  {signature(name, exported[name])}")
    return lines


def version_differences(header, makefile, changelog, guide):
    """A line for each place whose version is not the Makefile's."""
    versions = re.findall(r"^VERSION\s*:?=\s*(\d+)\.(\d+)\.(\d+)\s*$", makefile, re.M)
    if len(versions) != 1:
        raise Unreadable("Makefile: no line VERSION := MAJOR.MINOR.PATCH, or several")
    wanted = dict(zip(["MAJOR", "MINOR"], versions[0]))
    lines = []
    for part, number in wanted.items():
        found = re.findall(rf"^#define MMU_VERSION_{part} (\d+)\s*$", header, re.M)
        if found != [number]:
            lines.append(f"MMU_VERSION_{part}: {' and '.join(found) or 'none'} in the header, {number} in the Makefile's VERSION")
    headings = re.findall(r"^## (\S+)", changelog, re.M)
    version = ".".join(versions[0])
    if headings[:1] != [version]:
        lines.append(f"CHANGELOG.md: its first heading is {' '.join(headings[:1]) or 'missing'}, the Makefile's VERSION {version}")
    packages = re.findall(r"find_package\(mmu (\S+)", guide)
    if packages != [".".join(versions[0][:2])]:
        lines.append(f"docs/C-GUIDE.md: find_package of {' and '.join(packages) or 'no version'}, the Makefile's VERSION {version}")
    return lines


def call_comments(header):
    """Name to the comment above each declared function and to its parameters' names."""
    found = re.findall(r"/\*((?:(?!\*/).)*)\*/\s*\w+ (mmu_\w+)\(([^)]*)\);", header, re.S)
    return {name: (comment, [part.split()[-1].lstrip("*") for part in parameters.split(",")])
            for comment, name, parameters in found}


def refusals_in_tally(tally):
    """Name of a call, as in the header, to its refusals in the comparison's table."""
    table = re.search(r"const NUMBERS[^=]*=\s*\[(.*?)\n\];", tally, re.S)
    if not table:
        raise Unreadable("tally.rs: no table NUMBERS")
    rows = re.findall(r'\("(\w+)", &\[([^\]]*)\]\)', table.group(1))
    names = {"set": "set_register", "cached": "access_cached"}
    return {"mmu_" + names.get(call, call): {int(number) for number in numbers.split(",")} - {0, 64, 65}
            for call, numbers in rows}


def comment_differences(header, tally):
    """A line for each parameter that a call's comment does not name, and each refusal too few or too many."""
    numbers = {name: int(number) for name, number in re.findall(r"^#define (MMU_REFUSED_\w+) (\d+)u", header, re.M)}
    names, lines = {number: name for name, number in numbers.items()}, []
    comments, wanted = call_comments(header), refusals_in_tally(tally)
    for call in sorted(declared_functions(header)):
        comment, parameters = comments.get(call, ("", []))
        lines += [f"{call}: the comment does not name {name}" for name in parameters
                  if not name.endswith("_len") and not re.search(rf"\b{name}\b", comment)]
        told = {numbers.get(name, name) for name in re.findall(r"MMU_REFUSED_\w+", comment)}
        for number in sorted(told ^ wanted.get(call, set()), key=str):
            where = "names" if number in told else "does not name"
            lines.append(f"{call}: the comment {where} {names.get(number, number)}, unlike the comparison's table")
    return lines


def code_numbers(code):
    """The numbers of the code by name: its constants, and the variants of Refusal, `TableLength` as REFUSED_TABLE_LENGTH."""
    numbers = {name: int(value, 0) for name, value in re.findall(r"^pub const (\w+): \w+ = (0x[0-9A-Fa-f]+|\d+);", code, re.M)}
    refusals = re.search(r"^pub enum Refusal \{\n(.*?)^\}", code, re.M | re.S)
    if not refusals:
        raise Unreadable("crates/numbers: no enum Refusal")
    for line in refusals[1].splitlines():
        variant = re.fullmatch(r"    (\w+) = (\d+),", line)
        if not variant:
            raise Unreadable(f"crates/numbers: a refusal without its number: {line.strip()}")
        numbers["REFUSED" + re.sub(r"(?=[A-Z])", "_", variant[1]).upper()] = int(variant[2])
    return numbers


def number_differences(header, code, definitions):
    """A line for each number of the code that header or definitions do not have, under its name and with its value."""
    macros = {name: int(value, 0) for name, value in re.findall(r"^#define MMU_(\w+) (0x[0-9A-Fa-f]+|\d+)u", header, re.M)}
    defined = {name: int(value, 0) for name, value in re.findall(r"^(\w+) = (0x[0-9A-Fa-f]+|\d+)$", definitions, re.M)}
    lines = []
    for name, value in code_numbers(code).items():
        other = name.lower()
        if macros.get(name) != value:
            lines.append(f"MMU_{name}: {macros.get(name, 'none')} in the header, {value} in the crate numbers")
        if defined.pop(other, None) != value:
            lines.append(f"{other}: not {value} in the definitions, as {name} is in the code")
    return lines + [f"{name}: in the definitions, not in the code" for name in defined]


def kept_differences(header):
    """A line for each name of an earlier version that does not stand for the name that took its place."""
    lines = []
    for old, new in KEPT.items():
        found = re.findall(rf"^#define {old} (\S+)", header, re.M)
        if found != [new] or not re.search(rf"^#define {new} \d+u", header, re.M):
            lines.append(f"{old}: stands for {' and '.join(found) or 'nothing'} in the header, not for the number {new}")
    return lines


SAMPLE_CODE = "pub const REGISTERS_SIZE_SHORT: usize = 132;\n\npub enum Refusal {\n    Sdr1 = 2,\n    LentLength = 11,\n}\n"

SAMPLE_DEFINITIONS = ("abbrev pub registers_size_short : ℕ\nregisters_size_short = 132\n\nabbrev pub refused_sdr1 : ℕ\nrefused_sdr1 = 2\n\n"
                      "abbrev pub refused_lent_length : ℕ\nrefused_lent_length = 11\n")

SAMPLE_TALLY = 'const NUMBERS: [(&str, &[u32]); 2] = [\n    ("look", &[0, 11, 2, 8]),\n    ("clear", &[0, 2]),\n];\n'

SAMPLE_MAKEFILE = "RT ?= rt\nVERSION := 3.14.1\n"

SAMPLE_CHANGELOG = "# Changes\n\n## 3.14.1\n\n## 3.13.0\n"

SAMPLE_GUIDE = "    find_package(mmu 3.14 CONFIG REQUIRED)\n"

SAMPLE_SOURCE_END = """#[unsafe(no_mangle)]
pub extern "C" fn mmu_clear(
    sdr1: u32,
    table: &mut [u8],
) -> u32
{
    mmu::mmu_clear(sdr1, table)
}
"""

SAMPLE_SOURCE = """
// mmu_note is only told of here: pub extern fn.
#[unsafe(no_mangle)]
pub extern "C" fn mmu_look(sdr1: u32, table: &[u8], answer: &mut [u8]) -> u32
    ensures { x }
{
    mmu::mmu_look(sdr1, table, answer)
}
#[unsafe(no_mangle)]
pub extern "C" fn mmu_clear(
    sdr1: u32,
    table: &mut [u8],
) -> u32
{
    mmu::mmu_clear(sdr1, table)
}
"""

SAMPLE_OFFERED = """
// Looks.
pub fn mmu_look(sdr1: u32, table: &[u8], answer: &mut [u8]) -> u32
    ensures { x }
{
    inner(sdr1)
}
fn inner(sdr1: u32) -> u32
{
    sdr1
}
pub extern "C" fn mmu_clear(
    sdr1: u32,
    table: &mut [u8],
) -> u32
{
    0
}
"""

WRONG_SOURCES = {
    "another clause": ("    ensures { x }\n", "    ensures { y }\n"),
    "a clause that is left out": ("    ensures { x }\n", ""),
    "parameters of other names": ("table: &mut [u8],", "bytes: &mut [u8],"),
    "a call of another function": ("mmu::mmu_clear(", "mmu::mmu_look("),
    "arguments in another order": ("(sdr1, table, answer)", "(sdr1, answer, table)"),
    "more than a call": ("    mmu::mmu_clear(", "    let sdr1 = 0;\n    mmu::mmu_clear("),
    "a call that only mmu offers": (SAMPLE_SOURCE_END, ""),
}

SAMPLE_HEADER = """
#include <stdint.h>
#define MMU_VERSION_MAJOR 3
#define MMU_VERSION_MINOR 14
#define MMU_SIZE(n) ((size_t)(n))
/* uint32_t mmu_old(uint32_t number); */
struct mmu_pair { uint32_t first; uint32_t second; };
static inline uint32_t mmu_half(uint32_t number) { if (number) { return mmu_word(number); } return 0; }
#define MMU_REFUSED_SDR1 2u
#define MMU_REFUSED_NO_MATCH 8u
#define MMU_REFUSED_LENT_LENGTH 11u
#define MMU_REGISTERS_SIZE_SHORT 132u
#define MMU_REGISTERS_SIZE MMU_REGISTERS_SIZE_SHORT
#define MMU_REGISTER_COUNT_SHORT 33u
#define MMU_REGISTER_COUNT MMU_REGISTER_COUNT_SHORT
/* Looks by sdr1 into table, fills answer. MMU_REFUSED_LENT_LENGTH, MMU_REFUSED_SDR1, MMU_REFUSED_NO_MATCH. */
uint32_t mmu_look(uint32_t sdr1, const uint8_t *table, size_t table_len, uint8_t *answer, size_t answer_len);
/* Zeroes table, as long as sdr1 says. Refusal: MMU_REFUSED_SDR1. */
uint32_t mmu_clear(uint32_t sdr1, uint8_t *table, size_t table_len);
static inline uint32_t mmu_word(const uint8_t *bytes) { return bytes[0]; }
"""

WRONG_HEADERS = {
    "a call is not declared": ("uint32_t mmu_clear(uint32_t sdr1, uint8_t *table, size_t table_len);", ""),
    "a declared call does not exist": ("uint32_t mmu_clear(", "uint32_t mmu_erase(uint32_t sdr1);\nuint32_t mmu_clear("),
    "a const is missing": ("const uint8_t *table", "uint8_t *table"),
    "parameters in another order": ("uint32_t sdr1, uint8_t *table, size_t table_len", "uint8_t *table, size_t table_len, uint32_t sdr1"),
    "a number of another width": ("mmu_clear(uint32_t sdr1", "mmu_clear(uint64_t sdr1"),
    "a length is missing": ("uint8_t *answer, size_t answer_len", "uint8_t *answer"),
    "another result": ("uint32_t mmu_look(", "int mmu_look("),
    "a call after a static function does not exist": ("return 0; }\n", "return 0; }\nuint32_t mmu_erase(uint32_t sdr1);\n"),
    "a parameter that the comment does not name": ("fills answer.", "fills it."),
    "a refusal that the comment does not name": (", MMU_REFUSED_NO_MATCH.", "."),
    "a refusal too many in the comment": ("Refusal: ", "Refusal: MMU_REFUSED_NO_MATCH, "),
    "a refusal of another name": ("Refusal: MMU_REFUSED_SDR1", "Refusal: MMU_REFUSED_SHAPE"),
    "a call without a comment": ("/* Zeroes table, as long as sdr1 says. Refusal: MMU_REFUSED_SDR1. */\n", ""),
    "a number of another value": ("MMU_REFUSED_SDR1 2u", "MMU_REFUSED_SDR1 3u"),
    "a name of an earlier version is gone": ("#define MMU_REGISTERS_SIZE MMU_REGISTERS_SIZE_SHORT\n", ""),
    "a name of an earlier version for another one": ("COUNT MMU_REGISTER_COUNT_SHORT", "COUNT MMU_REGISTERS_SIZE_SHORT"),
    "a name of an earlier version for no number": ("#define MMU_REGISTER_COUNT_SHORT 33u\n", ""),
    "another major version": ("MMU_VERSION_MAJOR 3", "MMU_VERSION_MAJOR 2"),
    "another minor version": ("MMU_VERSION_MINOR 14", "MMU_VERSION_MINOR 1"),
    "no minor version": ("#define MMU_VERSION_MINOR 14\n", ""),
}


def sample_differences(header, symbols):
    return (differences(header, SAMPLE_SOURCE, symbols) + comment_differences(header, SAMPLE_TALLY)
            + version_differences(header, SAMPLE_MAKEFILE, SAMPLE_CHANGELOG, SAMPLE_GUIDE)
            + number_differences(header, SAMPLE_CODE, SAMPLE_DEFINITIONS) + kept_differences(header))


def self_test():
    symbols = {"mmu_look", "mmu_clear"}
    failed = [f"the right header is refused: {line}" for line in sample_differences(SAMPLE_HEADER, symbols)]
    for label, (old, new) in WRONG_HEADERS.items():
        if SAMPLE_HEADER.count(old) != 1 or not sample_differences(SAMPLE_HEADER.replace(old, new), symbols):
            failed.append(f"not refused: {label}")
    if not version_differences(SAMPLE_HEADER, SAMPLE_MAKEFILE, SAMPLE_CHANGELOG.replace("## 3.14.1", "## 3.14.0"), SAMPLE_GUIDE):
        failed.append("not refused: another version in CHANGELOG.md")
    if not version_differences(SAMPLE_HEADER, SAMPLE_MAKEFILE, SAMPLE_CHANGELOG, SAMPLE_GUIDE.replace("3.14", "3.13")):
        failed.append("not refused: another version in the guide")
    if not number_differences(SAMPLE_HEADER, SAMPLE_CODE, SAMPLE_DEFINITIONS.replace("= 11", "= 12")):
        failed.append("not refused: another number in the definitions")
    for label, code in (("of a refusal", SAMPLE_CODE.replace("= 11", "= 12")), ("of a constant", SAMPLE_CODE.replace("132", "131"))):
        if not number_differences(SAMPLE_HEADER, code, SAMPLE_DEFINITIONS):
            failed.append(f"not refused: another number {label} in the code")
    failed += [f"the right source is refused: {line}" for line in thin_differences(SAMPLE_SOURCE, SAMPLE_OFFERED)]
    for label, (old, new) in WRONG_SOURCES.items():
        if SAMPLE_SOURCE.count(old) != 1 or not thin_differences(SAMPLE_SOURCE.replace(old, new), SAMPLE_OFFERED):
            failed.append(f"not refused: {label}")
    for lost in sorted(symbols):
        if not differences(SAMPLE_HEADER, SAMPLE_SOURCE, symbols - {lost}):
            failed.append(f"not refused: {lost} is not in the archive")
    if not differences(SAMPLE_HEADER, SAMPLE_SOURCE, symbols | {"mmu_extra"}):
        failed.append("not refused: mmu_extra is in the archive alone")
    if asked_differences({"memset"}) or not asked_differences({"memset", "memcpy"}):
        failed.append("not refused: the archive asks for memcpy")
    print("\n".join(failed) or f"self test: the right header passes, {len(WRONG_HEADERS)} wrong ones, 4 wrong archives,"
          f" {len(WRONG_SOURCES)} wrong sources, a wrong CHANGELOG.md, a wrong guide, a wrong definition and two wrong numbers of the code are refused")
    return 1 if failed else 0


def main(arguments):
    if arguments == ["--self-test"]:
        return self_test()
    archive = Path(arguments[0]) if arguments else ARCHIVE
    try:
        source = "\n".join(path.read_text() for path in sorted(SOURCES.rglob("*.rt")))
        symbols = archive_symbols(archive)
        offered = "\n".join(path.read_text() for path in sorted(OFFERED.rglob("*.rt")))
        lines = differences(HEADER.read_text(), source, symbols) + asked_differences(archive_asks(archive)) + thin_differences(source, offered)
        lines += version_differences(HEADER.read_text(), MAKEFILE.read_text(), CHANGELOG.read_text(), GUIDE.read_text())
        lines += comment_differences(HEADER.read_text(), TALLY.read_text())
        lines += kept_differences(HEADER.read_text())
        lines += number_differences(HEADER.read_text(), (NUMBERS / "src" / "lib.rt").read_text(), (NUMBERS / "specs" / "Numbers.antt").read_text())
    except (Unreadable, OSError) as error:
        lines = [str(error)]
    if lines:
        print("include/mmu.h and the library differ:")
        print("\n".join("  " + line for line in lines))
        return 1
    print(f"include/mmu.h: {len(symbols)} calls, as in the archive and in the Rattle source, with mmu's contracts; parameters and refusals are told;"
          " numbers are those of code and definitions; the version is the Makefile's")
    return 0


if __name__ == "__main__":
    sys.exit(main(sys.argv[1:]))
