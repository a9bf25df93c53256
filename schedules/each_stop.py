#!/usr/bin/env python3
"""Runs tmsim on the first decision with each call of the validator's store failing in turn.

usage: each_stop.py [--with PROGRAM]

Of an append each number of bytes stays in turn. Whatever stays, the validator delivers nothing or what it delivers
without a failure; and once it is opened again and the same lines come again, it has delivered all. Without PROGRAM the
tmsim in bin/ is taken (./build.sh builds it). The last line is 'N passed, M failed'.
"""
import os
import pathlib
import subprocess
import sys
import tempfile

HERE = pathlib.Path(__file__).resolve().parent
SETUP = 4
VALIDATOR = 3
# As much as no record of the run has.
ALL = 10_000


def lines_of(name):
    text = (HERE / f"{name}.txt").read_text(encoding="ascii")
    lines = [line for line in text.splitlines() if not line.startswith("#")]
    return lines[:SETUP], lines[SETUP:]


def report_of(program, folder, lines):
    schedule = folder / "schedule.txt"
    schedule.write_text("\n".join(lines) + "\n", encoding="ascii")
    ran = subprocess.run([program, schedule], capture_output=True, text=True, check=False)
    return ran.returncode, ran.stdout.splitlines()


def delivered(report):
    """Returns the delivered items of the end line."""
    return report[-1].partition(":")[2].split()


class Stops:
    """The runs of a schedule in which one call of the store fails."""

    def __init__(self, program, folder):
        self.program, self.folder = program, folder
        self.setup, self.events = lines_of("first_decision")
        self.passed, self.failed = 0, 0
        status, report = self.run([], [])
        self.whole = delivered(report)
        assert status == 0 and self.whole

    def run(self, before, after):
        return report_of(self.program, self.folder, self.setup + before + self.events + after)

    def outcome(self, call, keep):
        """Returns the reports of a run in which so much stays of a call that fails, and of one that goes on after it."""
        fails = [f"fail {VALIDATOR} {call} {keep}"]
        stopped, later = self.run(fails, []), self.run(fails, [f"restart {VALIDATOR}", *self.events])
        if f"v{VALIDATOR} refuses 17" not in stopped[1]:
            return None
        items = delivered(stopped[1])
        right = stopped[0] == later[0] == 0 and items == self.whole[: len(items)] and delivered(later[1]) == self.whole
        self.passed, self.failed = self.passed + right, self.failed + (not right)
        if not right:
            print(f"{fails[0]}: {stopped} and then {later}")
        return stopped, later

    def try_call(self, call):
        """Tries a call with each number of bytes that may stay of it, and returns whether it came at all."""
        none, whole = self.outcome(call, "-"), self.outcome(call, ALL)
        keep = 1
        # (of a sync, and from the last byte of a record on, the number tells nothing)
        while none != whole and keep < ALL and self.outcome(call, keep) != whole:
            keep += 1
        return none is not None


def main():
    words = sys.argv[1:]
    if words and (len(words) != 2 or words[0] != "--with"):
        print(__doc__, file=sys.stderr)
        return 2
    program = pathlib.Path(words[1]).resolve() if words else HERE.parent / "bin/tmsim"
    if not os.access(program, os.X_OK):
        print(f"each_stop.py: {program} is no program; ./build.sh makes it", file=sys.stderr)
        return 2
    with tempfile.TemporaryDirectory() as folder:
        stops = Stops(program, pathlib.Path(folder))
        call = 1
        while stops.try_call(call):
            call += 1
    print(f"{stops.passed} passed, {stops.failed} failed")
    return 1 if stops.failed or call == 1 else 0


if __name__ == "__main__":
    sys.exit(main())
