#!/usr/bin/env python3
"""Runs the program tmcluster on many seeds, one process each, on all processors.

usage: test/clusters.py --seeds A..B[,N..] [--with PROGRAM] [--processors N] [WORDS..]

Seeds A to B are run, B too, and single ones that are named, as in 1..100,422. PROGRAM is a built tmcluster, bin/tmcluster if none is named. WORDS go to each of them, as
`--minutes 30 --faults all`. What a seed that fails prints is printed, and how to repeat it. The last line is 'N passed, M failed',
and the status 1 where one failed.
"""
import argparse
import concurrent.futures
import os
import re
import subprocess
import sys
import time

TOP = os.path.dirname(os.path.dirname(os.path.realpath(__file__)))

# How long a seed may take, in seconds.
PATIENCE = 1800


def seeds_of(words):
    """Returns the seeds that these words name, each A..B or one number, with commas between."""
    seeds = []
    for word in words.split(","):
        found = re.fullmatch(r"(\d+)(?:\.\.(\d+))?", word)
        if not found:
            raise argparse.ArgumentTypeError(f"{word} is neither A..B nor a number")
        first, last = int(found[1]), int(found[2] or found[1])
        if last < first:
            raise argparse.ArgumentTypeError(f"{word} names no seed")
        seeds.extend(range(first, last + 1))
    return seeds


def run(program, seed, words):
    """Runs a seed, and returns its exit status and what it printed."""
    command = [program, "--seed", str(seed), *words]
    try:
        ran = subprocess.run(command, capture_output=True, text=True, errors="replace", timeout=PATIENCE, check=False)
    except subprocess.TimeoutExpired:
        return None, f"seed {seed} took more than {PATIENCE} seconds\n"
    return ran.returncode, ran.stdout + ran.stderr


def virtual_seconds(printed):
    """Returns how many seconds of virtual time a run took, as it printed."""
    found = re.search(r"^(\d+) s, ", printed, re.MULTILINE)
    return int(found[1]) if found else 0


def told(passed, failed, seconds, begun):
    """Returns how far the runs are, in a line."""
    took = time.monotonic() - begun
    return f"{passed} passed, {len(failed)} failed, {seconds / 3600:.1f} virtual hours in {took:.0f} s"


def arguments():
    parser = argparse.ArgumentParser(usage="test/clusters.py --seeds A..B[,N..] [--with PROGRAM] [--processors N] [WORDS..]")
    parser.add_argument("--seeds", type=seeds_of, required=True)
    parser.add_argument("--with", dest="program", default=f"{TOP}/bin/tmcluster")
    parser.add_argument("--processors", type=int, default=os.cpu_count())
    return parser.parse_known_args()


def main():
    asked, words = arguments()
    if not os.access(asked.program, os.X_OK):
        print(f"clusters.py: {asked.program} is no program; ./build.sh tmcluster makes it", file=sys.stderr)
        return 2
    begun, passed, failed, seconds = time.monotonic(), 0, [], 0
    with concurrent.futures.ThreadPoolExecutor(asked.processors) as pool:
        running = {pool.submit(run, asked.program, seed, words): seed for seed in asked.seeds}
        for done in concurrent.futures.as_completed(running):
            seed, (status, printed) = running[done], done.result()
            seconds += virtual_seconds(printed)
            if status == 0:
                passed += 1
            else:
                failed.append(seed)
                print(f"{printed}to repeat it: {asked.program} --seed {seed} {' '.join(words)}", flush=True)
            if sys.stdout.isatty():
                print(f"\r{told(passed, failed, seconds, begun)} ", end="", flush=True)
            elif (passed + len(failed)) % 100 == 0:
                print(told(passed, failed, seconds, begun), flush=True)
    print(f"{told(passed, failed, seconds, begun)}")
    if failed:
        print(f"failed: {' '.join(map(str, sorted(failed)))}")
    print(f"{passed} passed, {len(failed)} failed")
    return 1 if failed else 0


if __name__ == "__main__":
    sys.exit(main())
