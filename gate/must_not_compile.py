#!/usr/bin/env python3
"""Tries what must not compile: the compiler has to refuse each edit must-not-compile/CRATE/NAME.edit, with the error that its first
line names.

usage: gate/must_not_compile.py [--built] [CRATE]

Each edit is made in a copy of its crate, of which nothing is proved: only what comes before any proof is done, over the statements of the
libraries below. That the crate compiles without the edit is for `rt ci` to say. --built takes the libraries as `rt ci` left them in out/;
without it they are proved first, as far as they aren't kept on this machine. The last line is 'N passed, M failed', and the status 0 where
nothing failed.
"""
import glob
import os
import sys

sys.dont_write_bytecode = True
from kit import ONE_JOB, TOP, crates as crates_below, guard
from libraries import where_built
from wrong_bodies import checked

# A function of no crate: with it alone asked for, a check ends before its first proof.
NO_PROOF = ["--only", "nothing"]


def said_of(crate, file, text):
    """Returns what a check says before any proof of a crate with this text of a file."""
    tests = ["--test"] if crate.name.endswith("_tests") else []
    return checked(crate, {file: text}, [*ONE_JOB, *NO_PROOF, *tests], None).stdout


def fields_of(path):
    """Returns the error that is wanted, the file, and the texts before and after the edit."""
    with open(path, encoding="utf-8") as it:
        first, *lines = it.read().splitlines()
    fields = dict(line.split(": ", 1) for line in lines)
    return first.removeprefix("# "), fields["file"], fields["old"], fields["new"]


def tried(crate, path):
    """Tries an edit, says what came of it, and returns whether it is refused as it must be."""
    label = os.path.relpath(path, TOP)
    wanted, file, old, new = fields_of(path)
    with open(f"{crate.folder}/{file}", encoding="utf-8") as it:
        text = it.read()
    if text.count(old) != 1:
        print(f"{label}: NOT APPLIED: the old text is {text.count(old)} times in {file}", flush=True)
        return False
    said = said_of(crate, file, text.replace(old, new))
    well = f"error[{wanted}]" in said
    print(f"{label}: refused by {wanted}" if well else f"{label}: NOT REFUSED by {wanted}: {' '.join(said.split())[-300:]}", flush=True)
    return well


def main(words):
    is_built = "--built" in words
    names = [it for it in words if it != "--built"]
    if any(it.startswith("-") for it in names):
        print(__doc__, file=sys.stderr)
        return 2
    os.chdir(TOP)
    guard()
    edits = {}
    for path in sorted(glob.glob(f"{TOP}/must-not-compile/*/*.edit")):
        edits.setdefault(os.path.basename(os.path.dirname(path)), []).append(path)
    lost = sorted({*edits, *names} - {it.name for it in crates_below()})
    for name in lost:
        print(f"must-not-compile/{name}: there is no such crate")
    wanted = [it for it in crates_below() if it.name in edits and (not names or it.name in names)]
    with where_built(wanted, is_built) as built:
        wells = [tried(crate, path) for crate in built for path in edits[crate.name]]
    passed, failed = wells.count(True), wells.count(False) + len(lost)
    if not wells:
        failed = max(failed, 1)
    print(f"{passed} passed, {failed} failed")
    return 1 if failed else 0


if __name__ == "__main__":
    sys.exit(main(sys.argv[1:]))
