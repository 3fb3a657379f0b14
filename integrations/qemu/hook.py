#!/usr/bin/env python3
"""Puts the glue into a QEMU source tree: its files beside QEMU's, and its calls at functions found by name.

usage: hook.py SOURCE        changes the tree; done again, it changes nothing
       hook.py --self-test

It fails, and changes nothing, where a place is not found exactly once: another QEMU wants another look.
"""
import os
import re
import shutil
import sys
import tempfile

HERE = os.path.dirname(os.path.abspath(__file__))
FILES = ("mmu-glue.c", "mmu-glue.h", "mmu-question.h", "mmu-compare.c", "mmu-counts.c", "mmu-counts.h")
INCLUDE = '#include "mmu-glue.h"\n'


class NotFound(Exception):
    """A place that is not there, or there more than once."""


def once(pattern, text, what, flags=re.M):
    found = list(re.finditer(pattern, text, flags))
    if len(found) != 1:
        raise NotFound(f"{what}: found {len(found)} times, wanted once")
    return found[0]


def body(text, name):
    """Start and end of the body of a function that is defined at the margin."""
    head = once(r"^[a-z][\w \*]*\b" + name + r"\([^;{]*\)\n\{\n", text, f"definition of {name}")
    return head.end(), once(r"^\}\n", text[head.end():].split("\n}\n", 1)[0] + "\n}\n", name).start() + head.end()


def call_at_end(text, name, call):
    """The call as the last statement of a function without a return."""
    start, end = body(text, name)
    if re.search(r"\breturn\b", text[start:end]):
        raise NotFound(f"{name}: has a return")
    return text[:end] + f"    {call}\n" + text[end:]


def call_before_last_return(text, name, call):
    start, end = body(text, name)
    tail = once(r"^    return 0;\n\Z", text[start:end], f"last return of {name}").start() + start
    return text[:tail] + f"    {call}\n" + text[tail:]


def call_instead(text, name, old, new):
    start, end = body(text, name)
    place = once(r"\b" + old + r"\(", text[start:end], f"call of {old} in {name}")
    return text[:start + place.start()] + new + "(" + text[start + place.end():end] + text[end:]


def include(text):
    place = once(r'^#include "qemu/osdep\.h"\n', text, "include of qemu/osdep.h")
    return text[:place.end()] + INCLUDE + text[place.end():]


def hook_translation(text):
    text = call_instead(text, "ppc_xlate", "ppc_hash32_xlate", "mmu_glue_xlate")
    return include(text)


def hook_stores(text):
    for name in ("ibatu", "ibatl", "dbatu", "dbatl"):
        call = f"mmu_glue_stored(env, MMU_GLUE_{name.upper()}, nr, value);"
        text = call_at_end(text, "helper_store_" + name, call)
    text = call_at_end(text, "helper_store_sr", "mmu_glue_stored(env, MMU_GLUE_SEGMENT, srnum, value);")
    return include(text)


def hook_sdr1(text):
    text = call_at_end(text, "helper_store_sdr1", "mmu_glue_stored(env, MMU_GLUE_SDR1, 0, val);")
    return include(text)


def hook_reset(text):
    text = call_at_end(text, "ppc_cpu_reset", "mmu_glue_forget();")
    return include(text)


def hook_saved_state(text):
    text = call_before_last_return(text, "cpu_post_load", "mmu_glue_forget();")
    return include(text)


def hook_build(text):
    place = once(r"^  'mmu-hash32\.c',\n", text, "mmu-hash32.c among the sources")
    return (text[:place.end()] + "  'mmu-compare.c',\n  'mmu-counts.c',\n  'mmu-glue.c',\n" + text[place.end():]
            + "ppc_softmmu_ss.add(dependency('mmu', static: true))\n")


HOOKS = {
    "mmu_common.c": hook_translation,
    "mmu_helper.c": hook_stores,
    "misc_helper.c": hook_sdr1,
    "cpu_init.c": hook_reset,
    "machine.c": hook_saved_state,
    "meson.build": hook_build,
}


def write_if_other(name, text):
    """A file that stays as it is keeps its time, so that it is not compiled again."""
    if os.path.exists(name):
        with open(name, encoding="utf-8") as file:
            if file.read() == text:
                return
    with open(name, "w", encoding="utf-8") as file:
        file.write(text)


def hook(source):
    folder = os.path.join(source, "target", "ppc")
    changed = {}
    for name, change in HOOKS.items():
        path = os.path.join(folder, name)
        # The file as QEMU has it is kept, so that a later glue begins from it.
        kept = path + ".qemu"
        with open(kept if os.path.exists(kept) else path, encoding="utf-8") as file:
            text = file.read()
        try:
            changed[path] = text, change(text)
        except NotFound as error:
            raise NotFound(f"{name}: {error}") from error
    for path, (old, new) in changed.items():
        write_if_other(path + ".qemu", old)
        write_if_other(path, new)
    for name in FILES:
        with open(os.path.join(HERE, name), encoding="utf-8") as file:
            write_if_other(os.path.join(folder, name), file.read())


# ---- Self-test: a small tree of ours with the names that are looked for ----

TREE = {
    "mmu_common.c": '#include "qemu/osdep.h"\n\nbool ppc_xlate(int a,\n               int b)\n{\n'
                    "    return ppc_hash32_xlate(a, b);\n}\n",
    "mmu_helper.c": '#include "qemu/osdep.h"\n\n' + "".join(
        f"void helper_store_{name}(int env, int {number}, int value)\n"
        "{\n    if (env) {\n        value = 1;\n    }\n}\n\n"
        for name, number in (("ibatu", "nr"), ("ibatl", "nr"), ("dbatu", "nr"), ("dbatl", "nr"), ("sr", "srnum"))),
    "misc_helper.c": '#include "qemu/osdep.h"\n\nvoid helper_store_sdr1(int env, int val)\n{\n    env = val;\n}\n',
    "cpu_init.c": '#include "qemu/osdep.h"\n\nstatic void ppc_cpu_reset(int *dev)\n{\n    *dev = 0;\n}\n',
    "machine.c": '#include "qemu/osdep.h"\n\nstatic int cpu_post_load(int *a)\n{\n    if (*a) {\n'
                 "        return 1;\n    }\n    return 0;\n}\n",
    "meson.build": "ppc_softmmu_ss.add(files(\n  'mmu-hash32.c',\n))\n",
}


def make_tree(source, tree):
    folder = os.path.join(source, "target", "ppc")
    os.makedirs(folder)
    for name, text in tree.items():
        write_if_other(os.path.join(folder, name), text)


def read_tree(source):
    folder = os.path.join(source, "target", "ppc")
    texts = {}
    for name in sorted(os.listdir(folder)):
        with open(os.path.join(folder, name), encoding="utf-8") as file:
            texts[name] = file.read()
    return texts


def self_test():
    with tempfile.TemporaryDirectory() as work:
        good = os.path.join(work, "good")
        make_tree(good, TREE)
        hook(good)
        first = read_tree(good)
        hook(good)
        assert read_tree(good) == first, "the second time changes the tree"
        assert "return mmu_glue_xlate(a, b);" in first["mmu_common.c"]
        assert first["mmu_helper.c"].count("    mmu_glue_stored(env, ") == 5
        assert "    env = val;\n    mmu_glue_stored(env, MMU_GLUE_SDR1, 0, val);\n}\n" in first["misc_helper.c"]
        assert "    mmu_glue_forget();\n    return 0;\n}\n" in first["machine.c"]
        # Each name that is looked for, taken away by itself or there twice, must be missed, with no file changed.
        wrong = [(name, text.replace(word, "other")) for name, text in TREE.items()
                 for word in re.findall(r"helper_store_\w+|ppc_xlate|ppc_hash32_xlate|ppc_cpu_reset|cpu_post_load|"
                                        r"mmu-hash32.c|qemu/osdep.h", text)]
        wrong += [(name, text + text) for name, text in TREE.items()]
        wrong += [("cpu_init.c", TREE["cpu_init.c"].replace("*dev = 0;", "return;"))]
        for number, (name, text) in enumerate(wrong):
            bad = os.path.join(work, str(number))
            make_tree(bad, dict(TREE, **{name: text}))
            before = read_tree(bad)
            try:
                hook(bad)
            except NotFound:
                assert read_tree(bad) == before, f"{name} was missed and the tree changed"
                shutil.rmtree(bad)
                continue
            sys.exit(f"hook.py: not missed in {name}:\n{text}")
    print(f"hook.py: {len(wrong)} trees without a place were refused")


def main():
    if len(sys.argv) != 2:
        sys.exit(__doc__)
    if sys.argv[1] == "--self-test":
        self_test()
        return
    try:
        hook(sys.argv[1])
    except NotFound as error:
        sys.exit(f"hook.py: this QEMU has no place for the glue: {error}")


if __name__ == "__main__":
    main()
