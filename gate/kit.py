#!/usr/bin/env python3
"""What the gate takes of the kit's own Python, and a test that says what of it has moved.

usage: gate/kit.py

The kit promises its commands, and not the functions behind them. The gate uses some, so that what it tries is read, checked and
shared out among the processors just as `rt ci` does. Every script here takes them from this file. Run as a command it compares
each with the parameters that the scripts rest on; with a new kit run it first. The last line is 'N passed, M failed'.

Two kits are known. The newer one keeps what `rt ci` proved on the machine, can prove some crates alone, and tells three ways in which
an edit is refused. For the older one this file has stand-ins: there each `rt ci` proves all from nothing, and the scripts keep libraries
in the checkout that they are run in (`gate/libraries.py`).
"""
import hashlib
import inspect
import os
import re
import shutil
import subprocess
import sys
from importlib.machinery import SourceFileLoader
from importlib.util import module_from_spec, spec_from_loader

sys.dont_write_bytecode = True
TOP = os.path.dirname(os.path.dirname(os.path.realpath(__file__)))


def load_rt():
    """Returns the kit's own `rt` as a module."""
    try:
        said = subprocess.run(["rt", "doc"], capture_output=True, text=True, check=True).stdout
    except FileNotFoundError:
        sys.exit("the command rt, of Rattle's kit, isn't on the path")
    loader = SourceFileLoader("rt", f"{os.path.dirname(said.strip())}/bin/rt")
    made = module_from_spec(spec_from_loader("rt", loader))
    loader.exec_module(made)
    return made


rt = load_rt()
KIT = rt.KIT
# The folders of a crate that a check reads.
PARTS = rt.rtlib.PARTS
ONE_JOB = ["--jobs", "1"]

# The functions that the scripts call, with the parameters that they rest on, in one kit or the other.
FUNCTIONS = {
    "checked": ("crate texts flags kept",),
    "edited": ("text file",),
    "handles_of": ("root",),
    "in_lanes": ("tasks",),
    "must_fail": ("crate edit flags kept",),
    "need": ("crate",),
    "processors": ("",),
    "unread": ("line changed",),
    "rtlib.crates_below": ("top",),
    "rtlib.files_of": ("folder",),
    "rtlib.fmt": ("folder flag out diff",),
    "rtlib.guarded": ("",),
    "rtlib.kit_sources": ("names",),
    "rtlib.sum_of": ("file",),
    "rtlib.text_of": ("file",),
    "rtlib.Crate.below": ("self",),
    "rtlib.Crate.build_rlib": ("self flags anew",),
    "rtlib.Crate.count": ("self pattern",),
    "rtlib.Crate.has_tests": ("self",),
    "rtlib.Crate.is_built": ("self",),
    "rtlib.Crate.makes_rlib": ("self",),
    "rtlib.Crate.stamp": ("crate made", "self"),
    "rtlib.Crate.sources_below": ("self",),
    "rtlib.Crate.words": ("self flags tests keeps as_source",),
}
# What they take of a kit that keeps what `rt ci` proved.
OF_KEPT = {
    "ci_over": ("aside anew names origin",),
    "copy_crates": ("root to",),
    "offer": ("crate proved",),
    "own_sum": ("crate",),
}
# What they take of one that doesn't.
OF_OTHERS = {
    "ci_from_nothing": ("aside",),
    "rtlib.lock": ("crates",),
}
# Whether the kit keeps what `rt ci` proved on the machine.
KEEPS = hasattr(rt, "ci_over")
# What else they take: names of values, and what a crate of the repository has.
VALUES = ("rtlib.RATTLE", "rtlib.KIT", *(("REFUSED", "AT_LIMIT", "UNSURE") if KEEPS else ()))
FIELDS = ("name", "folder", "rlib", "deps", "of_kit", "is_program", "said")


def crates(top=TOP):
    """Returns the crates of a checkout, the lower ones first."""
    return rt.rtlib.crates_below(top)


def guard():
    """Returns the words before a command that end it when this process ends. Its first call has to be in the main thread."""
    return rt.rtlib.guarded()


def copy_crates(top, to):
    """Copies what `rt ci` reads of a checkout."""
    if KEEPS:
        rt.copy_crates(top, to)
        return
    shutil.copytree(f"{top}/crates", f"{to}/crates", ignore=shutil.ignore_patterns("out"), symlinks=True)
    for name in ("crates.txt", "HANDLES"):
        shutil.copy2(f"{top}/{name}", f"{to}/{name}")


def own_sum(crate):
    """Returns a sum of the crate's own files, of the kit, and of what HANDLES allows."""
    if KEEPS:
        return rt.own_sum(crate)
    found = hashlib.sha256(repr((crate.said, rt.Crate.allowed)).encode())
    for file in [f"{KIT}/KIT-ID", f"{KIT}/WHAT", *rt.rtlib.files_of(crate.folder)]:
        with open(file, "rb") as it:
            found.update(repr((file.removeprefix(crate.folder), it.read())).encode())
    return found.hexdigest()


def offer(crate, stamp):
    """Notes what is proved for other checkouts on this machine, where the kit keeps that."""
    if KEEPS:
        rt.offer(crate, stamp)


def is_refused(crate, edit, kept):
    """Returns whether the crate's check refuses this edit, tried by itself, and what to say."""
    kind, text = rt.must_fail(crate, edit, ONE_JOB, kept)
    if kind == rt.UNSURE if KEEPS else "did not reach the prover" in text:
        # (its check was killed for memory, most likely)
        kind, text = rt.must_fail(crate, edit, ONE_JOB, kept)
    return kind in (rt.REFUSED, rt.AT_LIMIT) if KEEPS else kind, text


def wanted_functions():
    """Returns the functions that the scripts take of this kit."""
    return {**FUNCTIONS, **(OF_KEPT if KEEPS else OF_OTHERS)}


def moved():
    """Returns a line for each thing that isn't as the scripts use it."""
    found = []
    for name, wanted in wanted_functions().items():
        given = find(name)
        have = " ".join(inspect.signature(given).parameters) if callable(given) else None
        if have not in wanted:
            found.append(f"{name}({' or '.join(wanted)}) is {'gone' if have is None else f'{name}({have})'}")
    found += [f"{it} is gone" for it in VALUES if find(it) is None]
    crate = crates()[0]
    found += [f"a crate has no {it}" for it in FIELDS if not hasattr(crate, it)]
    help_text = subprocess.run([rt.rtlib.RATTLE, "check", "--help"], capture_output=True, text=True, check=False).stdout
    found += [f"rattle check has no {it}" for it in ("--only", "--incremental", "--jobs", "--links") if not re.search(rf"^ +{it}\b", help_text, re.M)]
    return found


def find(name):
    """Returns what has this path in the kit's module, or None."""
    found = rt
    for it in name.split("."):
        found = getattr(found, it, None)
    return found


def main():
    if sys.argv[1:]:
        print(__doc__, file=sys.stderr)
        return 2
    found = moved()
    for line in found:
        print(line)
    print(f"{len(wanted_functions()) + len(VALUES) + len(FIELDS) + 4 - len(found)} passed, {len(found)} failed")
    return 1 if found else 0


if __name__ == "__main__":
    sys.exit(main())
