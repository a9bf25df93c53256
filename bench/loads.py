"""Validators under the load of clients that send to all of them, and what that takes."""
import json
import mmap
import os
import signal
import statistics
import subprocess
import sys
import tempfile
import time
from typing import NamedTuple

TOP = os.path.dirname(os.path.dirname(os.path.realpath(__file__)))
sys.path.insert(0, f"{TOP}/test")
import validators  # noqa: E402

TICKS = os.sysconf("SC_CLK_TCK")
# How many connections the clients share with each validator at most.
CONNECTIONS = 4
# Up to how many validators a round may be as short as in test/validators.py. More of them share the processors of one machine.
FEW = 8
HAVE_MORE_TIME = {"start": 2000, "delta": 1000, "idle": 100}
# What is noted where two validators printed other lists.
DIFFER = "LISTS DIFFER"
# Replies that every load brings: `accepted`, and that a number is delivered already, where others were quicker.
USUAL = ("0 0", "13 3")
# How many bytes of a list are compared at once.
PIECE = 1 << 20


class Load(NamedTuple):
    """So many clients, each with so many transactions of so many bytes that aren't listed yet."""

    clients: int
    window: int
    bytes: int


class Figures(NamedTuple):
    """What was seen of a load: counts and shares for each second, times in seconds, bytes for each transaction."""

    delivered: float
    heights: float
    middle: float
    late: float
    shares: list
    journal: float
    sender: float
    notes: list

    def processor(self):
        """Returns how long processors take for a transaction, at all validators together."""
        return sum(self.shares) / self.delivered if self.delivered else 0.0


def build_sender(folder):
    """Returns the words that begin the command of a sender: of the one in C, or where no compiler is, of the one in Python."""
    for march in (["-march=native"], []):
        try:
            words = ["cc", "-O2", *march, "-o", f"{folder}/sender", f"{TOP}/bench/sender.c"]
            if subprocess.run(words, capture_output=march, check=False).returncode == 0:
                return [f"{folder}/sender"]
        except FileNotFoundError:
            break
    print("no C compiler (cc) builds bench/sender.c here: bench/sender.py sends, which takes as much as the validators do", flush=True)
    return [sys.executable, f"{TOP}/bench/sender.py"]


def processor_seconds(process):
    fields = validators.read(f"/proc/{process.pid}/stat").rpartition(")")[2].split()
    return sum(map(int, fields[11:13])) / TICKS


class Spent:
    """What processes, and the journals of validators among them, take from now on."""

    def __init__(self, processes, files=()):
        self.processes, self.files = processes, files
        self.first = self.now()

    def now(self):
        return time.monotonic(), [processor_seconds(it) for it in self.processes], [os.path.getsize(it) for it in self.files]

    def since(self):
        """Returns the seconds, the share of a processor that each process took, and the sizes of each file then and now."""
        (began, before, sizes), (ended, after, grown) = self.first, self.now()
        return ended - began, [(new - old) / (ended - began) for old, new in zip(before, after)], [*zip(sizes, grown)]


def heights_between(path, first, last):
    """Returns how many decisions begin between these places of a journal."""
    count, at = 0, 4
    with open(path, "rb") as file, mmap.mmap(file.fileno(), 0, access=mmap.ACCESS_READ) as held:
        while at + 4 < min(last, len(held)):
            count += at >= first and held[at + 4] == validators.DECISION
            at += 4 + int.from_bytes(held[at : at + 4], "big")
    return count


def begin_alike(one, other):
    """Returns whether two files are the same as far as both go."""
    with open(one, "rb") as first, open(other, "rb") as second:
        while (left := first.read(PIECE)) and (right := second.read(PIECE)):
            if left[: len(right)] != right[: len(left)]:
                return False
    return True


def sync_time(folder):
    """Returns how long the disk takes to save and sync 600 bytes, the middle of some times, in seconds."""
    took = []
    with open(f"{folder}/synced", "ab", buffering=0) as it:
        for _ in range(200):
            began = time.monotonic()
            it.write(b"x" * 600)
            os.fdatasync(it.fileno())
            took.append(time.monotonic() - began)
    return statistics.median(took)


class Running:
    """A cluster of so many validators in a new folder, which runs, with keys for so many clients."""

    def __init__(self, program, parent, count, clients, **how):
        self.folder = tempfile.TemporaryDirectory(dir=parent)
        self.cluster = validators.Cluster(os.path.realpath(program), self.folder.name, ",".join(["1"] * count))
        self.cluster.addresses = validators.free_addresses(count)
        self.how = {**(HAVE_MORE_TIME if count > FEW else {}), **how}
        self.cluster.begin(clients)

    def __enter__(self):
        try:
            for me in range(self.cluster.count):
                self.cluster.start(me, self.how)
            self.cluster.wait_for_heights(2, 0, validators.PATIENCE)
            time.sleep(1)
            ended = [me for me, it in self.cluster.running.items() if it.poll() is not None]
            validators.want(not ended, f"these validators ended at the start: {ended}")
        except BaseException:
            self.__exit__()
            raise
        return self

    def __exit__(self, *_):
        self.cluster.end()
        self.folder.cleanup()

    def spent(self):
        """Returns what the validators take from now on, in order."""
        each = range(self.cluster.count)
        return Spent([self.cluster.running[it] for it in each], [self.cluster.path(f"v{it}.journal") for it in each])

    def heights(self, sizes):
        """Returns how many heights validator 0 decided while journals grew so."""
        return heights_between(self.cluster.path("v0.journal"), *sizes[0])

    def lists_differ(self):
        """Returns whether a list isn't the beginning of another one."""
        paths = sorted((self.cluster.list_of(it) for it in range(self.cluster.count)), key=os.path.getsize)
        return not all(begin_alike(it, paths[-1]) for it in paths[:-1])

    def send(self, sender, load, seconds):
        """Starts a sender of this load, and waits until its clock runs."""
        path, connections = self.cluster.path, min(CONNECTIONS, load.clients)
        words = [",".join(self.cluster.addresses), path("keys"), self.cluster.list_of(0), *load, seconds, connections]
        sends = subprocess.Popen([*sender, *map(str, words)], stdout=subprocess.PIPE, text=True)
        validators.want(sends.stdout.readline() == "began\n", "the sender doesn't begin")
        return sends

    def figures(self, sender, load, seconds, meanwhile=lambda: None):
        """Returns what is seen of a load for so many seconds. `meanwhile` is called in them."""
        with self.send(sender, load, seconds) as sends:
            spent = self.spent()
            meanwhile()
            validators.want(sends.stdout.readline() == "ended\n", "the sender doesn't end")
            took, shares, sizes = spent.since()
            seen = json.loads(sends.stdout.readline())
        count = seen["delivered"]
        grown = statistics.mean(new - old for old, new in sizes) / took
        delivered = count / seen["seconds"]
        journal = grown / delivered if delivered else 0.0
        return Figures(delivered, self.heights(sizes) / took, seen["middle"], seen["late"], shares, journal, seen["processor"], self.notes_of(seen))

    def notes_of(self, seen):
        """Returns what else there is to be said of a load."""
        lost = ("again", "were sent again"), ("missing", "weren't listed five seconds later")
        notes = [f"{seen[it]} transactions {what}" for it, what in lost if seen[it]]
        notes += [f"{count} replies are `refused {code}`" for code, count in seen["codes"].items() if code not in USUAL]
        return notes + ([DIFFER] if self.lists_differ() else [])
