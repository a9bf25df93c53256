#!/usr/bin/env python3
"""Runs tmsim on schedules, with each of its growths refused in turn.

usage: each_refusal.py [--with PROGRAM] [--runs N] [SCHEDULE ..]

Wants the built program (./build.sh builds it) and gcc, and says where there is none. With no schedule, all of this folder are run. With
--runs about N growths are refused in all, spread evenly over those of all schedules. Where a validator refuses a call for want of memory,
it is settled and the call made once more: the report has to be the stored one but for the line that reports that refusal, and a line of the
second call, where the first had taken the message in: that it is kept already, that its height is decided, or that the validator halted
in between. Where memory is refused outside the validator, the report has to be a beginning of the stored one, and the program has to say
why it ended. The last line is 'N passed, M failed', which counts the runs.
"""
import argparse
import concurrent.futures
import os
import pathlib
import shutil
import subprocess
import sys
import tempfile
from typing import NamedTuple

HERE = pathlib.Path(__file__).resolve().parent
# What each line of the report that is in a schedule begins with.
MARGIN = "#    "


class Wanted(NamedTuple):
    """What a run without a refusal ends with."""

    status: int
    report: list
    errors: str


class Growths:
    """The runs of one program with a growth refused."""

    def __init__(self, program, work):
        self.program, self.work = program, work
        self.library = f"{work}/refuse.so"
        subprocess.run(["gcc", "-O1", "-shared", "-fPIC", "-o", self.library, HERE / "refuse.c", "-ldl"], check=True)

    def run(self, schedule, number):
        """The status and the two texts of the run in which growth NUMBER is refused, and how many there were; none is for number 0."""
        counted = pathlib.Path(f"{self.work}/counted.{schedule.stem}.{number}")
        env = {"LD_PRELOAD": self.library, "REFUSED": str(number), "COUNTED": str(counted), "PATH": os.environ["PATH"]}
        done = subprocess.run([self.program, schedule.name], cwd=HERE, env=env, capture_output=True, text=True, check=False)
        growths = int(counted.read_text(encoding="ascii"))
        counted.unlink()
        return done.returncode, done.stdout, done.stderr, growths


def text_of(file, other):
    return file.read_text(encoding="ascii") if file.exists() else other


def wanted_of(schedule):
    lines = schedule.read_text(encoding="latin-1").splitlines()
    report = [line.removeprefix(MARGIN) for line in lines if line.startswith(MARGIN)]
    return Wanted(int(text_of(schedule.with_suffix(".status"), "0")), report, text_of(schedule.with_suffix(".errors"), ""))


def without_refusal(lines):
    """What the lines may be but for the refusal of memory, and for the second call's answer."""
    places = [place for place, line in enumerate(lines) if line.endswith(" refuses 16")]
    if not places:
        return [lines]
    first = places[0]
    once = lines[:first] + lines[first + 1:]
    again = [once[:place] + once[place + 1:] for place in range(first, len(once))
             if once[place].endswith((" refuses 9", " refuses 7", " refuses 15"))]
    return [once] + again


def is_right(status, out, err, wanted):
    told = without_refusal(out.splitlines())
    if status == wanted.status and err == wanted.errors:
        return wanted.report in told
    said = err == "tmsim: out of memory\n" if status == 4 else err.endswith(": fault 5\n") and status == 3
    return said and any(lines == wanted.report[: len(lines)] for lines in told)


def refuse_each(growths, schedule, numbers, pool):
    """Runs a schedule with each growth of these numbers refused, says what came of it, and returns how many runs were wrong."""
    wanted = wanted_of(schedule)
    bad, settled, with_answer = [], 0, 0
    for number, (status, out, err, _) in zip(numbers, pool.map(lambda number: growths.run(schedule, number), numbers)):
        settled += status == wanted.status and err == wanted.errors
        with_answer += " refuses 16" in out
        if not is_right(status, out, err, wanted):
            bad.append(number)
    print(f"{schedule.name}: {len(numbers)} runs, {settled} to the end, {with_answer} with a refusal reported, wrong at {bad or 'none'}", flush=True)
    return len(bad)


def numbers_of(counts, most):
    """Returns which growths of each schedule are refused: all, none first, or so many of all, spread evenly. None is growth 0."""
    step = max(1, -(-sum(counts) // most)) if most else 1
    found, before = [], 0
    for count in counts:
        found.append([it for it in range(count + 1) if it == 0 or (before + it) % step == 0])
        before += count
    return found


def main():
    words = argparse.ArgumentParser(description=__doc__, formatter_class=argparse.RawDescriptionHelpFormatter)
    words.add_argument("--with", dest="program", default=HERE.parent / "bin/tmsim")
    words.add_argument("--runs", type=int, default=0)
    words.add_argument("schedules", nargs="*")
    given = words.parse_args()
    program = pathlib.Path(given.program).resolve()
    if not os.access(program, os.X_OK):
        print(f"each_refusal.py: {program} is no program; ./build.sh makes it", file=sys.stderr)
        return 2
    if not shutil.which("gcc"):
        print("no growth can be refused without gcc\n0 passed, 0 failed")
        return 0
    schedules = [pathlib.Path(name).resolve() for name in given.schedules] or sorted(HERE.glob("*.txt"))
    with tempfile.TemporaryDirectory() as work, concurrent.futures.ThreadPoolExecutor(os.cpu_count()) as pool:
        growths = Growths(program, work)
        counts = [it[3] for it in pool.map(lambda schedule: growths.run(schedule, 0), schedules)]
        each = numbers_of(counts, given.runs)
        wrong = sum(refuse_each(growths, *it, pool) for it in zip(schedules, each))
    if not sum(counts):
        print("no schedule grows, so nothing was refused")
        wrong += 1
    print(f"{sum(map(len, each)) - wrong} passed, {wrong} failed")
    return 1 if wrong else 0


if __name__ == "__main__":
    sys.exit(main())
