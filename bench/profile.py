#!/usr/bin/env python3
"""Prints where a validator's processor time goes under full load, by samples of `perf`: what bench/profile.sh prints.

usage: bench/profile.py [--with PROGRAM] [--seconds S] [--memory] [--links KEEPING] [--raw]

Four validators get transactions of 64 bytes from 256 clients, each of which has 16 that aren't listed yet. The samples are validator
0's, for S seconds, 10 if left out. With --raw there are the 40 dearest symbols too, for whom hashing and memory are,
and the calls of the system. PROGRAM is a built tmnode, bin/tmnode if none is named. Journals are on the disk of TMPDIR, with --memory in
/dev/shm.
"""
import argparse
import collections
import functools
import re
import shutil
import subprocess
import sys
import tempfile

sys.dont_write_bytecode = True
from loads import TOP, Load, Running, build_sender, validators

LOAD = Load(256, 16, 64)
# Samples for each second of a processor.
RATE = 1999
KERNEL = "[kernel.kallsyms]"
CALLS = ("write", "sendto", "recvfrom", "futex", "fdatasync", "mmap", "munmap", "madvise", "mprotect")
COUNTED = (*(f"syscalls:sys_enter_{it}" for it in CALLS), "context-switches", "page-faults")
MOST_SYMBOLS, MOST_OWN, LEAST_OWN = 40, 20, 0.003
SHA, MEMORY, WRITE, SEND, RECV = "SHA-256", "malloc and free", "write: journal and list", "send", "recv"
SWITCHES, SYNC, PRINTING, MOVES = "futex, locks, switching", "fdatasync", "printing, hexadecimal", "memmove"
OWN, REST = "the node's own functions", "the rest"
ASKED, MOST_ASKERS = (SHA, MEMORY, MOVES), 4
ROWS = (SHA, MEMORY, WRITE, SEND, RECV, SWITCHES, SYNC, PRINTING, MOVES, OWN, REST)
# By what a sample of the kernel is known, anywhere among those that called it; the first row that has one is taken.
OF_KERNEL = (
    (SWITCHES, r"schedule|schedule_timeout|(do|__x64_sys)_futex|__x64_sys_sched_yield|do_nanosleep"),
    (SYNC, r"do_fsync|__x64_sys_(fdatasync|fsync)"),
    (WRITE, r"ksys_write|vfs_write|__x64_sys_write"),
    (SEND, r"__sys_send(to|msg)|__x64_sys_send(to|msg)"),
    (RECV, r"__sys_recv(from|msg)|__x64_sys_recv(from|msg)"),
    (MEMORY, r"__x64_sys_(brk|mmap|munmap|mremap|madvise)|asm_exc_page_fault"),
)
# By what a sample of the program or its libraries is known: its own symbol.
OF_PROGRAM = (
    (SHA, r"sha2::.*"),
    (MEMORY, r".*(malloc|calloc|realloc|cfree|_int_free|unlink_chunk|memalign|tcache|sysmalloc|systrim).*|free|__libc_free|arena_.*|__asan::.*"),
    (MOVES, r"(__(sanitizer_internal_)?|___interceptor_|)mem(move|cpy|set|cmp|pcpy).*"),
    (WRITE, r"(__|__libc_|__GI_+libc_)?write"),
    (SEND, r"(__|__libc_)?send"),
    (RECV, r"(__|__libc_)?recv"),
    (SYNC, r"fdatasync"),
    (SWITCHES, r"syscall|(clock_)?nanosleep.*|sched_yield|core::sync::.*|pthread_.*|___?pthread_.*|__?lll_.*"),
    (PRINTING, r"core::fmt::.*|printed_lines::.*|node_program::printing::.*|std::io::.*"),
)


def own_crates():
    """Returns the names of the repository's crates."""
    with open(f"{TOP}/crates.txt", encoding="utf-8") as it:
        return {line.split(":")[0] for line in it if re.match(r"\w+[ :]", line)}


def name_of(symbol):
    """Returns a symbol without the sum of its types."""
    return re.sub(r"::<#\w+>|<#\w+>", "", symbol)


class Sample:
    """Whose function ran, and who called it, as far as it is known."""

    def __init__(self, thread, calls):
        self.thread, self.calls = thread, calls
        self.symbol, self.place = calls[0] if calls else ("unknown", "")

    def row(self, own):
        """Returns which row of the table it is of. `own` are the repository's crates."""
        if self.place == KERNEL:
            called = [symbol for symbol, place in self.calls if place == KERNEL]
            return next((row for row, known in OF_KERNEL if any(re.fullmatch(known, it) for it in called)), REST)
        row = next((row for row, known in OF_PROGRAM if re.fullmatch(known, self.symbol)), None)
        return row or (OWN if self.symbol.split("::")[0] in own else REST)

    def name(self):
        return name_of(self.symbol)

    def askers(self, own):
        """Returns the own functions that called what ran, the innermost first, each once."""
        return list(dict.fromkeys(name_of(symbol) for symbol, _ in self.calls if symbol.split("::")[0] in own))


def samples_in(text):
    """Returns the samples that `perf script` prints: a line of the thread, then a line for each call, the innermost first."""
    found = []
    for part in text.split("\n\n"):
        lines = part.strip("\n").splitlines()
        calls = [it.groups() for it in (re.match(r"\s+[0-9a-f]+ (.*) \((.*)\)$", line) for line in lines[1:]) if it]
        if lines and lines[0].strip():
            found.append(Sample(lines[0].split()[0], calls))
    return found


class Perf:
    """What `perf` takes of a process for so many seconds."""

    def __init__(self, folder):
        self.file, self.counts, self.recording, self.counting = f"{folder}/perf.data", f"{folder}/perf.counts", None, None

    def record(self, process, seconds, counts):
        """Begins to take samples, or to count calls of the system and switches."""
        given = ["-p", str(process.pid), "sleep", str(seconds)]
        words = ["perf", "record", "-e", "cpu-clock", "-F", str(RATE), "-g", "-o", self.file, *given]
        self.recording = subprocess.Popen(words, stdout=subprocess.DEVNULL, stderr=subprocess.PIPE, text=True)
        words = ["perf", "stat", "-x,", "-o", self.counts, "-e", ",".join(COUNTED), *given]
        self.counting = subprocess.Popen(words, stdout=subprocess.DEVNULL, stderr=subprocess.DEVNULL) if counts else None

    def counted(self):
        """Returns how often each of what is counted happened, as far as the system lets it be counted."""
        self.counting.wait()
        with open(self.counts, encoding="utf-8") as it:
            fields = [line.split(",") for line in it]
        return {it[2].rpartition("enter_")[2]: int(it[0]) for it in fields if len(it) > 2 and it[0].isdigit()}

    def samples(self):
        """Returns the samples, once they are taken."""
        _, said = self.recording.communicate()
        words = ["perf", "script", "-i", self.file, "-F", "tid,ip,sym,dso"]
        found = samples_in(subprocess.run(words, capture_output=True, text=True, errors="replace", check=False).stdout)
        if not found:
            sys.exit(f"profile.py: perf takes no samples here; root may, or anyone with `sysctl kernel.perf_event_paranoid=1`\n{said}")
        return found


def begin_table(*columns):
    print(f"\n| {' | '.join(columns)} |\n|{'---|' * len(columns)}")


def print_rows(samples, each):
    """Prints the table. `each` is how long the validator's processors take for a transaction, in microseconds."""
    own = own_crates()
    rows, names = collections.Counter(), collections.Counter()
    for it in samples:
        row = it.row(own)
        rows[row] += 1
        if row == OWN:
            names[it.name()] += 1
    begin_table("where", "share", "µs for each transaction")
    for row in ROWS:
        share = rows[row] / len(samples)
        print(f"| {row} | {share * 100:.1f} % | {share * each:.2f} |")
        for name, count in names.most_common(MOST_OWN) if row == OWN else ():
            share = count / len(samples)
            if share >= LEAST_OWN:
                print(f"| - `{name}` | {share * 100:.1f} % | {share * each:.2f} |")


def print_symbols(samples):
    """Prints the dearest symbols, each by itself and with all that it calls, as far as callers are known."""
    alone, below = collections.Counter(), collections.Counter()
    for it in samples:
        alone[it.symbol] += 1
        below.update({symbol for symbol, _ in it.calls})
    begin_table("symbol", "alone", "with what it calls")
    for symbol, count in alone.most_common(MOST_SYMBOLS):
        print(f"| `{symbol}` | {count / len(samples) * 100:.1f} % | {below[symbol] / len(samples) * 100:.1f} % |")


def print_askers(samples, each):
    """Prints for whom hashing, memory and moves are, by the own functions that called them, as far as these are known."""
    own, askers = own_crates(), collections.Counter()
    for it in samples:
        if (row := it.row(own)) in ASKED:
            askers[row, " < ".join(it.askers(own)[:MOST_ASKERS]) or "unknown"] += 1
    begin_table("what", "for whom", "share", "µs for each transaction")
    for row in ASKED:
        mine = [(names, count / len(samples)) for (of, names), count in askers.most_common() if of == row]
        for names, share in mine[:MOST_SYMBOLS // len(ASKED)]:
            print(f"| {row} | `{names}` | {share * 100:.1f} % | {share * each:.2f} |")


def print_counted(counted, transactions):
    begin_table("call of the system", "for each transaction")
    for name, count in counted.items():
        print(f"| {name} | {count / transactions:.3f} |")


def words():
    asked = argparse.ArgumentParser(description=__doc__.splitlines()[0])
    asked.add_argument("--with", dest="program", default=f"{TOP}/bin/tmnode", help="a built tmnode")
    asked.add_argument("--seconds", type=int, default=10, help="for how long samples are taken")
    asked.add_argument("--memory", action="store_true", help="journals in /dev/shm")
    asked.add_argument("--links", choices=("guarded", "open"), default="guarded")
    asked.add_argument("--raw", action="store_true", help="symbols, callers and calls of the system too")
    return asked


def main():
    given = words().parse_args()
    validators.end_when_told()
    if not shutil.which("perf"):
        sys.exit("profile.py: perf is missing: apt-get install linux-perf (on Ubuntu linux-tools-generic)")
    with tempfile.TemporaryDirectory(prefix="profile.", dir="/dev/shm" if given.memory else None) as parent:
        sender, perf = build_sender(parent), Perf(parent)
        with Running(given.program, parent, 4, LOAD.clients, links=given.links) as running:
            observe = functools.partial(perf.record, running.cluster.running[0], given.seconds, given.raw)
            seen = running.figures(sender, LOAD, given.seconds, observe)
            samples, counted = perf.samples(), perf.counted() if given.raw else {}
    threads = collections.Counter(it.thread for it in samples)
    busiest = threads.most_common(1)[0][1] / len(samples) * seen.shares[0]
    system = sum(it.place == KERNEL for it in samples) / len(samples)
    print(f"{seen.delivered:,.0f} transactions a second; validator 0 takes {seen.shares[0]:.2f} of a processor, the busiest of its threads {busiest:.2f};")
    print(f"{system * 100:.0f} % of that is the system's; {len(samples):,} samples")
    each = seen.shares[0] / seen.delivered * 1e6
    print_rows(samples, each)
    if given.raw:
        print_symbols(samples)
        print_askers(samples, each)
        print_counted(counted, seen.delivered * given.seconds)


if __name__ == "__main__":
    main()
