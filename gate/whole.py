#!/usr/bin/env python3
"""The whole gate: every proof, every test and every wrong body, on a copy of the sources.

usage: gate/whole.py [--anew]

Its stages run in turn, each of which says 'N passed, M failed' on its last line: what the scripts take of the kit; the files' layout; `rt
ci`, which proves and tests each crate and runs each program; what must not compile; the wrong bodies; the schedules, by the program as
both compilers made it; the pictures of all; one of them with each write of the validator's journal failing; random ones; a thousand
growths of them, each refused; whole clusters in a simulator, from a hundred seeds, and an hour each from those that failed once; and what
`tmnode` says of failures and what a cluster of it outlives, as processes. What must not compile and the wrong bodies are tried beside all
that comes behind them, so that no processor waits; their lines come among the others'. Then come the processor seconds of each crate, and
a last line that counts everything. Where the layout or `rt ci` fails, nothing behind it is tried. The edits of must-fail/, each of which
`rt ci` tries by a check of its own, stand among the wrong bodies here, where it takes some seconds.

What this machine proved before of the same files, and what it told of the same edits, isn't done again; with --anew all is. Every
test, program and schedule runs each time. The proved programs are left in bin/.
"""
import os
import re
import resource
import shutil
import signal
import subprocess
import sys
import tempfile
import threading
import time

sys.dont_write_bytecode = True
from build import PROGRAMS, keep_programs
from kit import KEEPS
from libraries import put_with_wrong_bodies

TOP = os.path.dirname(os.path.dirname(os.path.realpath(__file__)))
STAGES = {
    "the kit's parts": ["gate/kit.py"],
    "layout": ["gate/layout.py"],
    "proofs, tests and programs": ["rt", "ci"],
    "what must not compile": ["nice", "-n", "10", "gate/must_not_compile.py", "--built"],
    "wrong bodies": ["nice", "-n", "10", "gate/wrong_bodies.py", "--built"],
    "schedules, as LLVM builds the program": ["schedules/check.sh", "--with", "crates/tmsim/out/tmsim"],
    "schedules, as Rattle's compiler builds it": ["schedules/check.sh", "--with", "crates/tmsim/out/tmsim.by-rattle"],
    "pictures of schedules": ["schedules/charts.py", "--with", "crates/tmsim/out/tmsim"],
    "a stop at each write": ["schedules/each_stop.py", "--with", "crates/tmsim/out/tmsim"],
    "random schedules": ["schedules/random_runs.py", "--count", "200", "--with", "crates/tmsim/out/tmsim"],
    "growths refused": ["schedules/each_refusal.py", "--runs", "1000", "--with", "crates/tmsim/out/tmsim"],
    "clusters in a simulator": ["test/clusters.py", "--seeds", "1..100", "--minutes", "10", "--with", "crates/tmcluster/out/tmcluster"],
    "clusters that failed once": ["test/clusters.py", "--seeds", "422,524,3282,4899,8893", "--validators", "4", "--hours", "1", "--with", "crates/tmcluster/out/tmcluster"],
    "the program as processes": ["test/processes.py", "--with", "crates/tmnode/out/tmnode"],
}
# What is said where a stage fails behind which nothing is tried.
ENDS = {
    "layout": "`rt fmt` in a crate's folder lays its files out. Until then nothing else is tried.",
    "proofs, tests and programs": "The stages behind stand on these proofs, so they are left out.",
}
# The stages beside which the next ones run.
BESIDE = ("what must not compile", "wrong bodies")
# The stages that keep what they did: `rt ci` does where the kit can.
KEEP = ("proofs, tests and programs", "wrong bodies") if KEEPS else ("wrong bodies",)
# About what a whole run takes where nothing is kept, in processor seconds; its table says what it took.
USUAL = 16_200
# The part of a crate's time that a check belongs to.
PARTS = ("proof", "tests", "edits")
TICKS = os.sysconf("SC_CLK_TCK")
# What runs of the stages, and what they spent.
RUNNING, METERS = [], []


class Meter(threading.Thread):
    """Adds up the processor time of each check that runs below this process, by looking at them twice a second."""

    def __init__(self):
        super().__init__(daemon=True)
        self.spent, self.names, self.ended = {}, {}, threading.Event()

    def run(self):
        while not self.ended.wait(0.5):
            self.look()

    def look(self):
        seen = dict(filter(None, map(process, filter(str.isdigit, os.listdir("/proc")))))
        by_number, sums = {key[0]: key for key in seen}, {}
        for key, (_, spent) in seen.items():
            first = None
            while key and key[0] != os.getpid():
                # (a check may fork: what its copies spend is its own)
                first = key if self.name_of(key) else first
                key = by_number.get(seen[key][0])
            if first and key:
                sums[first] = sums.get(first, 0.0) + spent
        self.spent.update(sums)

    def name_of(self, key):
        """Returns the crate and the part of a check, or None for another process, which may yet become one."""
        found = self.names.get(key) or check_of(key[0])
        if found:
            self.names[key] = found
        return found

    def table(self):
        """Returns the seconds by crate and part."""
        found = {}
        for key, spent in self.spent.items():
            crate, part = self.names[key]
            row = found.setdefault(crate, dict.fromkeys(PARTS, 0.0))
            row[part] += spent
        return found


def process(number):
    """Returns a process's number and start, its parent and what it spent itself, with those of its children that ended."""
    try:
        with open(f"/proc/{number}/stat", encoding="ascii", errors="replace") as it:
            fields = it.read().rpartition(")")[2].split()
    except OSError:
        return None
    spent = sum(map(int, fields[11:15])) / TICKS
    return (int(number), fields[19]), (int(fields[1]), spent)


def check_of(number):
    try:
        with open(f"/proc/{number}/cmdline", encoding="utf-8", errors="replace") as it:
            words = it.read().split("\0")
        folder = os.path.basename(os.readlink(f"/proc/{number}/cwd"))
    except OSError:
        return None
    if os.path.basename(words[0]) != "rattle" or "--crate-name" not in words:
        return None
    crate = words[words.index("--crate-name") + 1]
    if folder.startswith("rt-edit-"):
        return crate, "edits"
    return crate, "tests" if "--test" in words else "proof"


class Stage(threading.Thread):
    """A stage that runs and shows what it prints, and then how much passed and failed."""

    def __init__(self, name, words):
        super().__init__(daemon=True)
        # (what ends before it has counted has failed)
        self.title, self.words, self.passed, self.failed = name, words, 0, 1
        self.start()

    def run(self):
        print(f"== {self.title}\n", end="", flush=True)
        counts = None
        with subprocess.Popen(self.words, stdout=subprocess.PIPE, stderr=subprocess.STDOUT, text=True, errors="replace") as ran:
            RUNNING.append(ran)
            for line in ran.stdout:
                counts = re.fullmatch(r"(\d+) passed, (\d+) failed\n", line) or counts
                print(f"{self.title}: {line}" if counts and self.title in BESIDE else line, end="", flush=True)
        self.passed, self.failed = (int(counts[1]), int(counts[2])) if counts else (0, 0)
        # (a stage that ends badly has failed, whatever it counted, and so has one that didn't count)
        if ran.returncode or not counts:
            self.failed = max(self.failed, 1)


def run_stages(copy, anew):
    """Runs the stages in turn, and returns them. Those beside which the next ones run have ended too."""
    ran = []
    for name, words in STAGES.items():
        if words[-1].endswith(".by-rattle") and not os.path.isfile(words[-1]):
            print(f"== {name}: left out, since `rt ci` above made no such program", flush=True)
            continue
        ran.append(Stage(name, [*words, *anew] if name in KEEP else words))
        if name in BESIDE:
            continue
        ran[-1].join()
        if ran[-1].failed and name in ENDS:
            print(ENDS[name], flush=True)
            break
        if words[0] == "rt":
            keep_programs(copy, (*PROGRAMS, "tmcluster"))
    for it in ran:
        it.join()
    return ran


def end(*_):
    """Ends the run and what runs of it, and shows what was spent so far."""
    for it in RUNNING:
        it.terminate()
    for it in METERS:
        show(it.table(), sum(it.spent.values()))
    sys.exit(1)


def show(table, whole):
    print(f"\n{'processor seconds':<24}" + "".join(f"{it:>8}" for it in (*PARTS, "all")))
    for crate, row in sorted(table.items(), key=lambda it: -sum(it[1].values())):
        print(f"{crate:<24}" + "".join(f"{row[it]:8.0f}" for it in PARTS) + f"{sum(row.values()):8.0f}")
    sums = [sum(row[it] for row in table.values()) for it in PARTS]
    print(f"{'all crates':<24}" + "".join(f"{it:8.0f}" for it in sums) + f"{sum(sums):8.0f}")
    print(f"{'the whole':<24}{whole:32.0f}")


def main():
    anew = sys.argv[1:]
    if anew not in ([], ["--anew"]):
        print(__doc__, file=sys.stderr)
        return 2
    minutes = USUAL / 60 / len(os.sched_getaffinity(0)) * 1.1
    print(f"This takes about {minutes:.0f} minutes on these processors where nothing is kept of earlier runs.", flush=True)
    began, meter = time.time(), Meter()
    meter.start()
    METERS.append(meter)
    with tempfile.TemporaryDirectory(prefix="gate-") as copy:
        left_out = shutil.ignore_patterns("out", ".git", "bin", "__pycache__")
        shutil.copytree(TOP, copy, ignore=left_out, symlinks=True, dirs_exist_ok=True)
        put_with_wrong_bodies(copy)
        os.chdir(copy)
        ran = run_stages(copy, anew)
        os.chdir(TOP)
    passed, failed = (sum(getattr(it, what) for it in ran) for what in ("passed", "failed"))
    meter.ended.set()
    used = resource.getrusage(resource.RUSAGE_CHILDREN)
    show(meter.table(), used.ru_utime + used.ru_stime)
    print(f"{(time.time() - began) / 60:.0f} minutes")
    print(f"{passed} passed, {failed} failed")
    return 1 if failed else 0


if __name__ == "__main__":
    for number in (signal.SIGTERM, signal.SIGINT):
        signal.signal(number, end)
    sys.exit(main())
