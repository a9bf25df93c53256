#!/usr/bin/env python3
"""Proves what a change touches, over kept work. No verdict rests on it: `rt ci` gives that, and proves what it lands from nothing.

usage: gate/trial.py [--lanes N] [--tests] [CRATE..]

It proves the crates that are named and those below them, all if none is named, several at a time (--lanes, one for each processor
if not given). A crate is tried only where its own text changed, or a library below it came out with other bytes; and there only
the functions and lemmas that the change reaches. So the first run takes as long as a build from nothing, and later ones a minute
to ten. Where fewer crates can be tried than there are lanes, a crate has several processes. --tests proves the tests too; they
aren't run (`rt try --test` does that, unproved). What was said of a crate that isn't proved is printed. The work is kept in each
crate's out/trial; `rm -rf crates/*/out/trial` begins anew. What is proved is handed to `rt check` and to other checkouts on this
machine, where nothing changed meanwhile: they then begin with it.
"""
import argparse
import contextlib
import json
import os
import shutil
import subprocess
import sys
import time
from concurrent.futures import FIRST_COMPLETED, ThreadPoolExecutor, wait

sys.dont_write_bytecode = True
from kept import sum_of, sum_of_library
from kit import crates, guard, offer, own_sum, rt


class Trial:
    """What a run of this has found so far: for each crate that is proved, the sum of the library that came out."""

    def __init__(self, with_tests):
        self.with_tests, self.sums, self.guard = with_tests, {}, guard()
        # what each crate took, in processor seconds
        self.used = {}

    def key(self, crate):
        return sum_of(own_sum(crate), self.with_tests, [(it.name, self.sums[it.name]) for it in crate.below()])

    def prove(self, crate, jobs):
        """Proves a crate unless nothing changed for it, and returns whether it is proved, the seconds taken and what was said."""
        stamp = crate.stamp()
        key, note = self.key(crate), f"{work_of(crate)}/proved.json"
        try:
            with open(note, encoding="utf-8") as it:
                before = json.load(it)
        except (OSError, ValueError):
            before = {}
        if before.get("key") == key and (os.path.isdir(crate.rlib) or not crate.makes_rlib()):
            self.sums[crate.name] = before["sum"]
            return True, 0, ""
        began = time.time()
        ran = self.build(crate, jobs) if crate.makes_rlib() else self.check(crate, jobs, False)
        said = ran.stdout
        if not ran.returncode and self.with_tests and crate.has_tests():
            ran = self.check(crate, jobs, True)
            said += ran.stdout
        if ran.returncode:
            return False, time.time() - began, said
        self.sums[crate.name] = sum_of_library(crate) if crate.makes_rlib() else ""
        with open(note, "w", encoding="utf-8") as it:
            json.dump({"key": key, "sum": self.sums[crate.name]}, it)
        if crate.stamp() == stamp:
            hand_over(crate, stamp)
        return True, time.time() - began, said

    def build(self, crate, jobs):
        """Builds a library beside the one that stands, and puts it in its place if a check above would read other bytes."""
        new = f"{os.path.dirname(crate.rlib)}/new"
        shutil.rmtree(new, ignore_errors=True)
        ran = self.call(crate, ["build", *crate.words(["--jobs", str(jobs)], keeps=False), "--incremental", f"{work_of(crate)}/proofs", "-o", new])
        if not ran.returncode:
            shutil.rmtree(crate.rlib, ignore_errors=True)
            os.rename(new, crate.rlib)
        return ran

    def check(self, crate, jobs, tests):
        place = "tests" if tests else "proofs"
        return self.call(crate, ["check", *crate.words(["--jobs", str(jobs)], tests=tests, keeps=False), "--incremental", f"{work_of(crate)}/{place}"])

    def call(self, crate, words):
        """Runs rattle on a crate, and adds up what it takes of processors."""
        how = {"cwd": crate.folder, "stdin": subprocess.DEVNULL, "stdout": subprocess.PIPE, "stderr": subprocess.STDOUT, "text": True, "errors": "replace"}
        with subprocess.Popen([*self.guard, rt.rtlib.RATTLE, *words], **how) as running:
            said = running.stdout.read()
            _, status, used = os.wait4(running.pid, 0)
            running.returncode = os.waitstatus_to_exitcode(status)
        self.used[crate.name] = self.used.get(crate.name, 0) + used.ru_utime + used.ru_stime
        return subprocess.CompletedProcess(words, running.returncode, said)


def work_of(crate):
    return f"{crate.folder}/out/trial"


def hand_over(crate, stamp):
    """Puts what was proved where `rt check` keeps its work, and notes it there for other checkouts."""
    with contextlib.suppress(OSError):
        for ours, theirs in (("rlib", "rlib"), ("proofs", "incremental")):
            if theirs == "incremental" or crate.makes_rlib():
                shutil.rmtree(f"{crate.folder}/out/{theirs}", ignore_errors=True)
                shutil.copytree(f"{work_of(crate)}/{ours}", f"{crate.folder}/out/{theirs}", copy_function=os.link)
        if crate.makes_rlib():
            with open(f"{crate.folder}/out/rlib/stamp", "w", encoding="utf-8") as it:
                it.write(stamp)
        offer(crate, stamp)


def wanted(names):
    """Returns the crates that are named and those below them, with their trial's own place for a library."""
    every = crates()
    known = {it.name for it in every}
    for it in names:
        if it not in known:
            sys.exit(f"gate/trial.py: no crate {it}")
    found = [it for it in every if not names or any(it.name == name or it in other.below() for name in names for other in every if other.name == name)]
    for it in found:
        it.rlib = f"{work_of(it)}/rlib/{it.name}.rlib"
        for part in ("rlib", "proofs", "tests"):
            os.makedirs(f"{work_of(it)}/{part}", exist_ok=True)
    return found


def by_chain(left):
    """Returns the crates, those first on which the longest chain stands, by the bytes of the crates in it."""
    longest = {}
    for crate in reversed(left):
        above = [longest[it.name] for it in left if it.name in longest and crate in it.below()]
        longest[crate.name] = sum(os.path.getsize(it) for it in rt.rtlib.files_of(crate.folder)) + max(above, default=0)
    return sorted(left, key=lambda it: -longest[it.name])


def tell(crate, found, used):
    """Prints what came of a crate, and in how many processor seconds, and returns whether it is proved."""
    is_proved, seconds, said = found
    if not is_proved:
        print(f"== {crate.name}: NOT PROVED\n{said[-6000:]}", flush=True)
    elif seconds:
        count = next((it.partition(": ")[2] for it in said.split("\n") if it.startswith(f"crate {crate.name}:")), "")
        print(f"{crate.name}: proved, {seconds:.0f} s, {used:.0f} processor seconds{', ' + count if count else ''}", flush=True)
    return is_proved


def run(trial, left, lanes):
    """Tries the crates, each once those below it are proved, and returns the numbers of those proved, unchanged and not proved."""
    running, proved, unchanged, failed = {}, 0, 0, 0
    with ThreadPoolExecutor(lanes) as pool:
        while True:
            ready = [it for it in left if all(below.name in trial.sums for below in it.below())]
            taken = ready[: lanes - len(running)]
            jobs = max(lanes // max(len(running) + len(taken), 1), 1)
            for it in taken:
                left.remove(it)
                running[pool.submit(trial.prove, it, jobs)] = it
            if not running:
                return proved, unchanged, failed
            for done in wait(running, return_when=FIRST_COMPLETED).done:
                found = done.result()
                crate = running.pop(done)
                is_proved = tell(crate, found, trial.used.get(crate.name, 0))
                proved, unchanged, failed = proved + (is_proved and found[1] > 0), unchanged + (is_proved and not found[1]), failed + (not is_proved)


def main():
    parser = argparse.ArgumentParser(usage=__doc__.split("usage: ")[1].split("\n")[0], add_help=False)
    parser.add_argument("--lanes", type=int, default=rt.processors())
    parser.add_argument("--tests", action="store_true")
    parser.add_argument("--help", action="store_true")
    parser.add_argument("names", nargs="*", metavar="CRATE")
    given = parser.parse_args()
    if given.help:
        print(__doc__)
        return 0
    left, began = by_chain(wanted(given.names)), time.time()
    proved, unchanged, failed = run(Trial(given.tests), left, max(given.lanes, 1))
    print(f"{proved} proved, {unchanged} unchanged, {failed} not proved, {len(left)} not tried for that; {time.time() - began:.0f} s. This is no verdict: rt ci gives that")
    return 1 if failed else 0


if __name__ == "__main__":
    sys.exit(main())
