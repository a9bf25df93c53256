#!/usr/bin/env python3
"""Measures clusters of validators on this machine: what bench/cluster.sh prints.

usage: bench/cluster.py [--with PROGRAM] [--validators N,..] [--data BYTES,..] [--clients N [--window W]] [--seconds S] [--memory]
                        [--links KEEPING] [--beside etcd] [--rest [--idle S]]

PROGRAM is a built tmnode, bin/tmnode if none is named. A table has a line for each number of validators (4 if none is given), each
length of a transaction (64) and each load: N clients each of which has W transactions that aren't listed yet, 1 if none is given;
without --clients a lone client with one, 64 with one, and 256 with 16. S are the seconds of each line, 10 if left out. Journals
and lists are on the disk of TMPDIR, with --memory in /dev/shm. KEEPING is guarded, as it also is if left out, or open.

With --beside etcd there are lines for three nodes of etcd too, in the same place, where etcd and wrk are installed.
--rest measures, in the place of all that, what four validators take for S seconds (60) to which nobody sends anything.
"""
import argparse
import os
import statistics
import sys
import tempfile
import time

sys.dont_write_bytecode = True
import beside
from loads import DIFFER, TOP, Load, Running, build_sender, sync_time, validators

LOADS = ((1, 1), (64, 1), (256, 16))
# A load more where etcd is beside, whose clients wait for each put.
BESIDE = (256, 1)
COLUMNS = (
    "cluster", "bytes", "clients x window", "delivered a second", "heights a second", "p50, ms", "p99, ms", "processor of each",
    "processor µs for each transaction", "journal bytes for each", "processor of the sender",
)
# The manners of which the figures at rest are told.
MANNERS = (
    ("an empty height after 100 ms", {}),
    ("an empty height after 500 ms (--idle 500)", {"start": 1000, "delta": 500, "idle": 500}),
    ("empty heights at once (--idle 0)", {"idle": 0}),
    ("a height is held open (--rest 60000)", {"rest": 60_000}),
)


def line_of(cells):
    return f"| {' | '.join(map(str, cells))} |"


def begin_table(columns):
    print(line_of(columns), line_of(["---"] * len(columns)), sep="\n", flush=True)


def spread(shares):
    """Returns the least and the most of some shares of a processor, or both at once where they are close."""
    least, most = (f"{it(shares):.2f}" for it in (min, max))
    return least if least == most else f"{least} to {most}"


def cells_of(name, load, seen):
    """Returns a line's cells. What a cluster doesn't have is `-`."""
    heights = "-" if seen.heights is None else f"{seen.heights:.0f}"
    journal = "-" if seen.journal is None else f"{seen.journal:,.0f}"
    times = f"{seen.middle * 1e3:.2f}", f"{seen.late * 1e3:.2f}"
    given = load.bytes, f"{load.clients} x {load.window}"
    taken = spread(seen.shares), f"{seen.processor() * 1e6:,.0f}", journal, f"{seen.sender:.2f}"
    return [name, *given, f"{seen.delivered:,.0f}", heights, *times, *taken]


def told(name, load, seen):
    """Prints a line, and returns what else there is to be said of it."""
    print(line_of(cells_of(name, load, seen)), flush=True)
    return [f"{name}, {load.bytes} bytes, {load.clients} x {load.window}: {it}" for it in seen.notes]


def measure(given, parent, sender):
    """Prints the lines of our clusters, and returns what else there is to be said of them."""
    notes = []
    for count in given.validators:
        for load in given.loads:
            with Running(given.program, parent, count, load.clients, links=given.links) as running:
                seen = running.figures(sender, load, given.seconds)
            notes += told(f"{count} validators", load, seen)
    return notes


def measure_etcd(given, parent):
    """Prints the lines of etcd, and returns what else there is to be said of them."""
    if lacking := beside.lacking():
        return [lacking]
    notes = []
    for api in beside.APIS:
        for load in dict.fromkeys(it._replace(window=1) for it in given.loads):
            with beside.Etcd(parent) as etcd:
                seen = etcd.figures(api, load, given.seconds)
            notes += told(f"3 of etcd, {api}", load, seen)
    return notes


def print_loads(given, parent):
    sender = build_sender(parent)
    begin_table(COLUMNS)
    notes = measure(given, parent, sender) + (measure_etcd(given, parent) if given.beside else [])
    for it in notes:
        print(f"- {it}")
    if any(DIFFER in it for it in notes):
        sys.exit(1)


def print_rest(given, parent):
    """Prints what four validators take to which nobody sends anything."""
    begin_table(("four validators at rest", "heights a second", "processor of each", "journal bytes a second of each"))
    for name, how in MANNERS:
        with Running(given.program, parent, 4, 1, links=given.links, **how) as running:
            time.sleep(2)
            spent = running.spent()
            time.sleep(given.idle)
            took, shares, sizes = spent.since()
            grown = statistics.mean(new - old for old, new in sizes) / took
            print(line_of([name, f"{running.heights(sizes) / took:.1f}", spread(shares), f"{grown:,.0f}"]), flush=True)


def numbers(text):
    return [int(it) for it in text.split(",")]


def words():
    asked = argparse.ArgumentParser(description=__doc__.splitlines()[0])
    asked.add_argument("--with", dest="program", default=f"{TOP}/bin/tmnode", help="a built tmnode")
    asked.add_argument("--validators", type=numbers, default=[4], help="how many, with commas between them")
    asked.add_argument("--data", type=numbers, default=[64], help="bytes of a transaction, with commas between them")
    asked.add_argument("--clients", type=int, help="one load of so many clients")
    asked.add_argument("--window", type=int, default=1, help="how many transactions of each wait, at most 64")
    asked.add_argument("--seconds", type=int, default=10, help="how long each load lasts")
    asked.add_argument("--memory", action="store_true", help="journals in /dev/shm")
    asked.add_argument("--links", choices=("guarded", "open"), default="guarded")
    asked.add_argument("--beside", choices=("etcd",), help="lines of three nodes of etcd too")
    asked.add_argument("--rest", action="store_true", help="what is taken without any load")
    asked.add_argument("--idle", type=int, default=60, help="for how many seconds that is measured")
    return asked


def main():
    given = words().parse_args()
    validators.end_when_told()
    usual = sorted([*LOADS, BESIDE]) if given.beside else LOADS
    loads = usual if given.clients is None else ((given.clients, given.window),)
    given.loads = [Load(*load, size) for size in given.data for load in loads]
    with tempfile.TemporaryDirectory(prefix="cluster.", dir="/dev/shm" if given.memory else None) as parent:
        synced = f"a save and sync of 600 bytes takes {sync_time(parent) * 1e3:.2f} ms in {os.path.dirname(parent)}"
        print(f"{os.cpu_count()} processors, load {os.getloadavg()[0]:.1f} before; {synced}\n", flush=True)
        (print_rest if given.rest else print_loads)(given, parent)


if __name__ == "__main__":
    main()
