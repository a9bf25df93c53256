#!/usr/bin/env python3
"""Proves the programs and what they stand on, and leaves them in bin/.

usage: gate/build.py [NAME..]

The programs are tmsim, tmnode and client_example, and those that are named. It proves as `rt ci` does, several crates at a time, and takes from this machine's store what an earlier run proved of the same
files. A line tells of each crate: how many are done, and how long it took so far. Where one isn't proved, what was said of it
follows, and bin/ stays as it was.
"""
import os
import re
import shutil
import subprocess
import sys
import tempfile
import time

sys.dont_write_bytecode = True
from kit import TOP, crates, guard, rt
from libraries import prove

PROGRAMS = ("tmsim", "tmnode", "client_example")
# The word by which this runs itself, to read what the proofs print.
INNER = "--prove-in"


def keep_programs(top, names=PROGRAMS):
    """Copies the programs of a proved checkout to bin/, with the sum of its sources, and removes those of other sources."""
    os.makedirs(f"{TOP}/bin", exist_ok=True)
    words = ["bash", "-c", 'source "$0" && sum_of_sources', f"{TOP}/gate/sources.sh"]
    sum = subprocess.run(words, cwd=top, capture_output=True, text=True, check=True).stdout
    if rt.rtlib.text_of(f"{TOP}/bin/sources") != sum:
        for it in [it.path for it in os.scandir(f"{TOP}/bin") if it.is_file()]:
            os.remove(it)
    for name in names:
        shutil.copy2(f"{top}/crates/{name}/out/{name}", f"{TOP}/bin/{name}.new")
        os.replace(f"{TOP}/bin/{name}.new", f"{TOP}/bin/{name}")
    with open(f"{TOP}/bin/sources", "w", encoding="utf-8") as it:
        it.write(sum)


def follow(ran, count):
    """Prints a line for each crate that is done, and returns what else was said last."""
    done, said, began = 0, [], time.time()
    for line in ran.stdout:
        crate = re.match(r"rt: (\w+) (is kept|proved|NOT PROVED)", line)
        if crate:
            done += 1
            how = "proved before, on this machine" if crate[2] == "is kept" else crate[2]
            print(f"{done} of {count}: {crate[1]} {how} ({(time.time() - began) / 60:.0f} minutes)", flush=True)
        said = [*said[-200:], line] if not crate or crate[2] == "NOT PROVED" else []
    return said


def main(words):
    if words[:1] == [INNER]:
        guard()
        return 0 if prove(words[2:], TOP, words[1]) else 1
    names = [*PROGRAMS, *(it for it in words if it not in PROGRAMS)]
    wanted = [it for it in crates() if it.is_program and it.name in names]
    unknown = [it for it in names if it not in {program.name for program in wanted}]
    if unknown:
        print(f"gate/build.py: no program {unknown[0]}\n\n{__doc__}", file=sys.stderr)
        return 2
    count = len({below.name for it in wanted for below in [it, *it.below()]})
    with tempfile.TemporaryDirectory(prefix="gate-build-") as room:
        how = {"stdout": subprocess.PIPE, "stderr": subprocess.STDOUT, "text": True, "errors": "replace"}
        with subprocess.Popen([sys.executable, os.path.realpath(__file__), INNER, room, *names], **how) as ran:
            said = follow(ran, count)
        if ran.returncode:
            print("".join(said), end="", file=sys.stderr)
            return 1
        keep_programs(f"{room}/repo", names)
    return 0


if __name__ == "__main__":
    sys.exit(main(sys.argv[1:]))
