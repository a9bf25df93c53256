#!/usr/bin/env python3
"""Plants bugs, one at a time, and says after how many seeds the simulator of clusters finds each.

usage: test/planted.py [--seeds N] [--processors N] [EDIT..] [-- WORDS..]

An EDIT is a file of test/planted/, all of them if none is named: a line `file: PATH` from the top of the repository, and then pairs of
lines `old: TEXT`, `new: TEXT`, where TEXT is in that file exactly once. Further lines `file:` begin another file. Each is applied to a
copy of the sources; there gate/unproved.py builds tmcluster, and seeds 1 to N, 1,000 if no number is named, run until one fails. WORDS
go to tmcluster. The last line is 'N found, M not found', and the status 1 where one wasn't found or not built.
"""
import argparse
import concurrent.futures
import os
import pathlib
import shutil
import subprocess
import sys
import tempfile

TOP = pathlib.Path(__file__).resolve().parent.parent

# How long a seed may take, in seconds.
PATIENCE = 1800
# With which statuses tmcluster ends without a verdict on its seed.
WITHOUT_VERDICT = (2, 4, 5)


class BadEdit(Exception):
    """An edit that can't be applied."""


class NoVerdict(Exception):
    """The simulator ended without a run: for its words, for want of memory, or since it couldn't print."""


def apply(edit, top):
    """Applies an edit to the sources below `top`."""
    path = old = None
    for line in edit.read_text(encoding="utf-8").splitlines():
        kind, _, text = line.partition(": ")
        if kind == "file":
            path = top / text
        elif kind == "old":
            old = text
        elif kind == "new":
            found = path.read_text(encoding="utf-8")
            if found.count(old) != 1:
                raise BadEdit(f"{edit.name}: '{old}' is {found.count(old)} times in {path.name}")
            path.write_text(found.replace(old, text), encoding="utf-8")


def copy_of_sources(folder):
    """Copies what a build takes, without what earlier ones made."""
    for name in ("crates", "gate"):
        shutil.copytree(TOP / name, folder / name, ignore=shutil.ignore_patterns("out", "__pycache__"))
    for name in ("crates.txt", "HANDLES"):
        shutil.copy(TOP / name, folder / name)
    # (what it prints may be another thing with a bug)
    (folder / "crates/tmcluster/stdout").unlink()


def build(top):
    """Builds tmcluster, and returns the program, or nothing where it isn't built."""
    ran = subprocess.run([top / "gate/unproved.py", "--fast", "tmcluster"], capture_output=True, text=True, check=False)
    if ran.returncode:
        print(ran.stderr[-2000:], file=sys.stderr)
        return None
    return top / "bin/unproved/tmcluster"


def run(program, seed, words):
    """Runs a seed, and returns how it failed, or nothing."""
    command = [program, "--seed", str(seed), *words]
    try:
        ran = subprocess.run(command, capture_output=True, text=True, errors="replace", timeout=PATIENCE, check=False)
    except subprocess.TimeoutExpired:
        return "it takes too long"
    if ran.returncode == 0:
        return None
    if ran.returncode in WITHOUT_VERDICT:
        raise NoVerdict(f"tmcluster ends with {ran.returncode}: {ran.stderr.strip()}")
    failures = [line for line in ran.stdout.splitlines() if ": failed: " in line]
    return failures[-1] if failures else f"status {ran.returncode}"


def first_failure(program, count, processors, words):
    """Returns the first seed that fails, and how, or nothing."""
    with concurrent.futures.ThreadPoolExecutor(processors) as pool:
        for first in range(1, count + 1, processors):
            seeds = range(first, min(first + processors, count + 1))
            for seed, failure in zip(seeds, pool.map(lambda seed: run(program, seed, words), seeds)):
                if failure:
                    return seed, failure
    return None


def try_out(edit, asked, words):
    """Plants a bug, and returns whether it is found."""
    with tempfile.TemporaryDirectory(prefix="planted-") as room:
        top = pathlib.Path(room)
        copy_of_sources(top)
        apply(edit, top)
        program = build(top)
        if not program:
            print(f"{edit.stem}: not built", flush=True)
            return False
        found = first_failure(program, asked.seeds, asked.processors, words)
    if not found:
        print(f"{edit.stem}: not found in {asked.seeds} seeds", flush=True)
        return False
    print(f"{edit.stem}: found by seed {found[0]}: {found[1]}", flush=True)
    return True


def arguments():
    parser = argparse.ArgumentParser(usage="test/planted.py [--seeds N] [--processors N] [EDIT..] [-- WORDS..]")
    parser.add_argument("--seeds", type=int, default=1000)
    parser.add_argument("--processors", type=int, default=os.cpu_count())
    parser.add_argument("edits", nargs="*", type=pathlib.Path)
    words = sys.argv[1:]
    cut = words.index("--") if "--" in words else len(words)
    return parser.parse_args(words[:cut]), words[cut + 1 :]


def main():
    asked, words = arguments()
    edits = asked.edits or sorted((TOP / "test/planted").glob("*.edit"))
    try:
        found = [try_out(edit, asked, words) for edit in edits]
    except (BadEdit, NoVerdict) as bad:
        print(f"test/planted.py: {bad}", file=sys.stderr)
        return 2
    print(f"{sum(found)} found, {len(found) - sum(found)} not found")
    return 0 if all(found) else 1


if __name__ == "__main__":
    sys.exit(main())
