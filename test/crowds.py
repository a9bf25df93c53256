#!/usr/bin/env python3
"""Runs many validators as processes on this machine: at work, at rest, all stopped for a while, most of them killed.

usage: test/crowds.py (--validators N | --powers P,P,..) [--with PROGRAM] [--seconds S] [--stopped S] [--transactions T] [--start MS]

With --validators each has the power 1. With guarded links and nothing to do, N validators decide heights for S seconds, 20 if no number is given; then they are started again to
rest, S seconds long; T transactions, 1,000 if no number is given, are sent to a third of them and one; all are stopped (SIGSTOP) for as long as --stopped says, 30
seconds if it doesn't, and let go; and two thirds of them and one are killed and started again. Each time heights have to go on, all that was sent has to be
delivered by all, and no link may be lost for good. --start is how long timeouts last at first, 1,000 ms if it isn't given. It prints a line for each part with what it took, and one with the frames on the links that
validator 0 dialed, by kind and by who said what is in them. It is no part of the gate, as it
takes minutes and every processor. The status is 0 where all held.
"""
import argparse
import collections
import concurrent.futures
import os
import shutil
import signal
import subprocess
import sys
import tempfile
import threading
import time

from link_trials import GUARDED, processor_seconds, sizes_of
from validators import ASK, BUNDLE, PRECOMMIT, PREVOTE, PROPOSAL, Cluster, Failed, Heading, Wires, allow_files, dial, end_when_told, free_addresses, peak_of, want

TOP = os.path.dirname(os.path.dirname(os.path.realpath(__file__)))
# How long a part may take until all go on, in seconds, and how much longer for each validator: a turn comes, and a crowd that was woken rests, behind
# as many heights as there are validators.
PATIENCE = 300
HEIGHT = 4
# Who decides no height for so long, in seconds, rests; and how long a height is held open, in milliseconds.
STILL, REST = 20, 60_000
# How many validators are asked at a time how far they are.
ASKED_TOGETHER = 16


# What frames are called, by their kind.
NAMES = {PROPOSAL: "proposals", PREVOTE: "prevotes", PRECOMMIT: "precommits", ASK: "asks", BUNDLE: "bundles"}


class Traffic:
    """Counts frames by kind, and of proposals and votes those that another validator than their sender passes on."""

    def __init__(self):
        self.counts, self.alone = collections.Counter(), threading.Lock()

    def passes(self, source, _, frame):
        heading = Heading(frame)
        name = NAMES.get(heading.kind, "others")
        with self.alone:
            self.counts[f"{name} passed on" if heading.sender not in (None, source) else name] += 1
        return True

    def taken(self):
        """Returns the counts since the last call, as a text."""
        with self.alone:
            counts, self.counts = self.counts, collections.Counter()
        return ", ".join(f"{count} {name}" for name, count in sorted(counts.items())) or "none"


class Crowd(Cluster):
    """Validators that tell how far they are."""

    def __init__(self, program, folder, powers, how):
        super().__init__(program, folder, powers)
        self.patience = PATIENCE + HEIGHT * self.count
        addresses = free_addresses(2 * self.count)
        self.how, self.addresses, self.told_at = how, addresses[: self.count], addresses[self.count :]
        self.traffic = Traffic()
        self.peers = Wires(self.addresses, self.traffic.passes).peers_of(0)

    def start_all(self, who, **changed):
        for me in who:
            wired = {"peers": self.peers} if me == 0 else {}
            self.start(me, {**GUARDED, **self.how, **changed, **wired, "log": "warn", "status": self.told_at[me]})

    def status_of(self, me):
        """Returns a validator's height, how many items it delivered, and how many links it has, or nothing."""
        try:
            with dial(self.told_at[me], 5) as link:
                words = link.makefile().read().split()
            return int(words[1]), int(words[3]), int(words[5])
        except (OSError, IndexError, ValueError):
            return None

    def statuses(self):
        with concurrent.futures.ThreadPoolExecutor(ASKED_TOGETHER) as pool:
            return [it or (0, 0, 0) for it in pool.map(self.status_of, range(self.count))]

    def wait_for(self, is_so, what):
        """Waits until this holds of all validators' statuses, and returns them, and how long it took."""
        began = time.monotonic()
        while True:
            seen = self.statuses()
            if all(map(is_so, seen)):
                return seen, time.monotonic() - began
            want(time.monotonic() < began + self.patience, f"{what}: after {self.patience} s the heights are {[it[0] for it in seen]}, items {[it[1] for it in seen]}, links {[it[2] for it in seen]}")
            time.sleep(0.2)

    def wait_until_all_go_on(self, what):
        highest = max(it[0] for it in self.statuses())
        return self.wait_for(lambda it: it[0] > highest + 1, what)

    def receivers(self):
        """Returns a third of the validators and one: as many as a client sends to, so that one of them is correct."""
        wanted = self.count // 3 + 1
        return [place * self.count // wanted for place in range(wanted)]

    def spent(self):
        return sum(processor_seconds(self.running[me]) for me in self.running)


def tell(what):
    print(what, flush=True)


def tell_traffic(crowd):
    tell(f"frames on the links that validator 0 dialed: {crowd.traffic.taken()}")


def works(crowd, seconds):
    """All decide heights with nothing to do."""
    crowd.start_all(range(crowd.count))
    _, took = crowd.wait_until_all_go_on("at first")
    tell(f"{crowd.count} validators have decided two heights after {took:.1f} s")
    before, spent = crowd.statuses(), crowd.spent()
    time.sleep(seconds)
    after = crowd.statuses()
    heights = min(it[0] for it in after) - max(it[0] for it in before)
    want(heights > 0, f"in {seconds} s heights go from {before} to {after}")
    tell(f"nothing to do: {heights / seconds:.2f} heights a second, {(crowd.spent() - spent) / seconds:.2f} processors, links {min(it[2] for it in after)} to {max(it[2] for it in after)}")
    crowd.end()


def rests(crowd, seconds):
    """All rest: a height takes a minute, and journals hardly grow."""
    crowd.start_all(range(crowd.count), rest=REST)
    crowd.wait_for(lambda it: it[2] >= crowd.count - 1, "links")
    crowd.send_until_taken(9, 0, 1, "--data", "")
    _, took = crowd.wait_for(lambda it: it[1] >= 1, "a first transaction")
    tell(f"started again: a first transaction is delivered by all after {took:.1f} s")
    ends = time.monotonic() + crowd.patience
    while (sizes := sizes_of(crowd, range(crowd.count))) != (time.sleep(STILL) or sizes_of(crowd, range(crowd.count))):
        want(time.monotonic() < ends, "they never rest")
    heights, spent = max(it[0] for it in crowd.statuses()), crowd.spent()
    time.sleep(seconds)
    passed = max(it[0] for it in crowd.statuses()) - heights
    want(passed <= seconds * 1000 // REST + 1, f"{passed} heights are decided in {seconds} s at rest")
    grown = max(now - before for now, before in zip(sizes_of(crowd, range(crowd.count)), sizes))
    tell(f"at rest: {passed} heights, journals grow by {grown} bytes, {(crowd.spent() - spent) / seconds:.3f} processors for all of them")


def delivers(crowd, first, count, what):
    """Transactions that are sent to a third of the validators and one are delivered by all."""
    began, wanted = time.monotonic(), max(it[1] for it in crowd.statuses()) + count
    file = crowd.file_of([f"{it:08x}" for it in range(count)])
    words = crowd.words_of_send(7, 0, first, "--file", file)
    words[words.index("--to") + 1] = ",".join(crowd.addresses[it] for it in crowd.receivers())
    with subprocess.Popen(words, stdout=subprocess.DEVNULL) as sender:
        try:
            crowd.wait_for(lambda it: it[1] >= wanted, what)
        finally:
            sender.kill()
    tell(f"{what}: {count} transactions are delivered by all after {time.monotonic() - began:.1f} s")


def all_are_stopped(crowd, seconds, sent):
    """All are stopped for a while, and let go."""
    for process in crowd.running.values():
        process.send_signal(signal.SIGSTOP)
    time.sleep(seconds)
    for process in crowd.running.values():
        process.send_signal(signal.SIGCONT)
    delivers(crowd, sent + 1, 10, f"all stopped for {seconds} s")


def most_are_killed(crowd, sent):
    """Two thirds and one are killed, and started again."""
    killed = range(2 * crowd.count // 3 + 1)
    for me in killed:
        crowd.kill(me)
    crowd.start_all(killed, rest=REST)
    crowd.wait_for(lambda it: it[2] >= crowd.count - 1, "links after most were killed")
    delivers(crowd, sent + 1, 10, f"{len(killed)} killed and started again")


def main():
    parser = argparse.ArgumentParser(usage="test/crowds.py (--validators N | --powers P,P,..) [--with PROGRAM] [--seconds S] [--stopped S] [--transactions T] [--start MS]")
    who = parser.add_mutually_exclusive_group(required=True)
    who.add_argument("--validators", type=int)
    who.add_argument("--powers")
    parser.add_argument("--with", dest="program", default=f"{TOP}/bin/tmnode")
    parser.add_argument("--seconds", type=int, default=20)
    parser.add_argument("--stopped", type=int, default=30)
    parser.add_argument("--transactions", type=int, default=1000)
    parser.add_argument("--start", type=int, default=1000)
    asked = parser.parse_args()
    program = os.path.realpath(asked.program)
    if not os.access(program, os.X_OK):
        print(f"crowds.py: {program} is no program; ./build.sh makes it", file=sys.stderr)
        return 2
    end_when_told()
    allow_files(4_096)
    folder = tempfile.mkdtemp(prefix="crowd.")
    crowd = Crowd(program, folder, asked.powers or ",".join(["1"] * asked.validators), {"start": asked.start, "delta": asked.start // 2, "redial": 1000})
    try:
        crowd.begin()
        for part in (
            lambda: works(crowd, asked.seconds),
            lambda: rests(crowd, asked.seconds),
            lambda: delivers(crowd, 1, asked.transactions, "at work"),
            lambda: all_are_stopped(crowd, asked.stopped, asked.transactions),
            lambda: most_are_killed(crowd, asked.transactions + 10),
        ):
            part()
            tell_traffic(crowd)
        seen = crowd.statuses()
        tell(f"at the end: {max(map(peak_of, crowd.running.values())) / 1e6:.0f} MB at most in a process, journals of {max(sizes_of(crowd, range(crowd.count))) / 1e6:.1f} MB, links {min(it[2] for it in seen)} at least, heights {max(it[0] for it in seen)}")
    except Failed as fault:
        print(f"FAILED: {fault}; see {folder}", file=sys.stderr)
        return 1
    finally:
        crowd.end()
    shutil.rmtree(folder)
    return 0


if __name__ == "__main__":
    sys.exit(main())
