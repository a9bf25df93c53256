#!/usr/bin/env python3
"""Runs tmsim on random schedules, and looks at what each report tells that was delivered.

usage: random_runs.py [--count N] [--seed S] [--with PROGRAM]

A schedule is made in three parts: after each it is run from its beginning, and the next part goes on from where the report says
that the validators stand. Of each report the delivered lists have to begin one another, where the liars have less than a third
of the power; then those of an earlier part begin the later ones too, and the items of a client that nobody invents begin what it
sent. Among any liars each list has to keep every client's order: sessions from zero, each but the first behind the close of the
one before it, and in each numbers from one. Schedule number I of a seed is the same on each machine. Without PROGRAM the tmsim
in bin/ is taken (./build.sh builds it). A breach is printed with its schedule. The last line is 'N passed, M failed'.
"""
import argparse
import collections
import concurrent.futures
import dataclasses
import os
import pathlib
import random
import subprocess
import sys
import tempfile

HERE = pathlib.Path(__file__).resolve().parent
PARTS = 3
CLIENTS = 5
# Nobody invents what the clients from this one on send.
HONEST = 3
KINDS = ("propose", "prevote", "precommit")
POWERS = ([1, 1, 1, 1], [1, 1, 1, 1], [1, 1], [2, 1, 1, 1], [3, 3, 3, 1], [1, 1, 1, 1, 1, 1, 1], [5, 3, 2, 4])


def item_text(client, session, number, what):
    sender = f"{client}.{session}" if session else f"{client}"
    return f"{sender}:{number}:{what}"


@dataclasses.dataclass
class Standing:
    """Where a client stands: the session and number of its last transaction, and whether that closed the session."""

    session: int = 0
    last: int = 0
    closed: bool = False

    def wanted(self):
        """Returns the session and number of the next transaction."""
        return (self.session + 1, 1) if self.closed else (self.session, self.last + 1)

    def take(self, session, number, what):
        self.session, self.last, self.closed = session, number, what == "close"

    def begin(self):
        """Begins the session behind the close."""
        self.session, self.last, self.closed = self.session + 1, 0, False


class Schedule:
    """A random schedule, and what is known of its run so far."""

    def __init__(self, random_source):
        self.random = random_source
        self.powers = self.random.choice(POWERS)
        everyone = range(len(self.powers))
        self.liars = self.some_liars(list(everyone))
        self.correct = [validator for validator in everyone if validator not in self.liars]
        self.sent = {client: [] for client in range(CLIENTS)}
        self.clients = [Standing() for _ in range(CLIENTS)]
        self.invented = [Standing() for _ in range(HONEST)]
        self.names = ["E"]
        self.lines = [f"powers {' '.join(map(str, self.powers))}", f"clients {CLIENTS}"]
        if self.liars:
            self.lines.append(f"liars {' '.join(map(str, self.liars))}")
        self.lines.append("value E")
        for name in "ABCD"[: self.random.randrange(1, 5)]:
            self.lines.append(f"value {name} {' '.join(self.items())}")
            self.names.append(name)
        self.messages = 0
        self.places = {validator: (0, 0) for validator in self.correct}

    def few_lie(self):
        return 3 * sum(self.powers[liar] for liar in self.liars) < sum(self.powers)

    def some_liars(self, everyone):
        """Mostly few validators lie, seldom any number, but never all."""
        count = self.random.choice((0, 0, 1, 1, 1, 2, len(everyone) - 1))
        return sorted(self.random.sample(everyone, min(count, len(everyone) - 1)))

    def op(self):
        return self.random.choice(("61", "62", "-", "close"))

    def wrong_tag(self):
        return f"/{self.random.randrange(len(self.powers))}" if self.random.random() < 0.2 else ""

    def item(self):
        """An item of a client that is invented, of any session and number."""
        client = self.random.randrange(HONEST)
        session, number = self.random.choice((0, 0, 0, 1, 1, 2)), self.random.choice((1, 1, 1, 2, 3))
        return item_text(client, session, number, self.op()) + self.wrong_tag()

    def next_item(self):
        """An item that goes on behind those of the values before it."""
        client = self.random.randrange(HONEST)
        session, number = self.invented[client].wanted()
        what = self.op()
        self.invented[client].take(session, number, what)
        return item_text(client, session, number, what) + self.wrong_tag()

    def items(self):
        draw = self.random.choice((self.item, self.next_item, self.next_item))
        return [draw() for _ in range(self.random.randrange(1, 4))]

    def client_line(self):
        # Some clients do more than others, or few would come to a later session.
        client = self.random.choice((0, 1, 2, HONEST, HONEST, HONEST, HONEST, CLIENTS - 1))
        standing = self.clients[client]
        if standing.closed:
            if self.random.random() < 0.2:
                return "pass"
            standing.begin()
            return f"open {client}"
        what = "close" if self.random.random() < 0.4 else self.random.choice(("-", "61", "6263"))
        session, number = standing.wanted()
        self.sent[client].append(item_text(client, session, number, what))
        standing.take(session, number, what)
        return f"close {client}" if what == "close" else f"send {client} {what}"

    def place_of(self, validator):
        """Returns a height and a round, mostly those at which the validator stood."""
        height, round_number = self.places[validator]
        return (height + self.random.choice((0, 0, 0, 0, 1)), round_number + self.random.choice((0, 0, 0, 0, 1)))

    def liar_line(self):
        if not self.liars:
            return "pass"
        liar, validator = self.random.choice(self.liars), self.random.choice(self.correct)
        height, round_number = self.place_of(validator)
        name = self.random.choice(self.names)
        kind = self.random.choice(("propose", "vote", "vote", "vote", "bundle"))
        if kind == "propose":
            valid_round = self.random.choice((-1, -1, 0, max(0, round_number - 1)))
            return f"propose {liar} {validator} {height} {round_number} {valid_round} {name}"
        if kind == "vote":
            content = self.random.choice((name, name, "nil"))
            return f"vote {liar} {validator} {self.random.choice(KINDS[1:])} {height} {round_number} {content}"
        signers = ",".join(str(self.random.choice(self.liars)) for _ in range(self.random.randrange(1, 4)))
        return f"bundle {liar} {validator} {height} {round_number} {name} {self.random.choice(self.names)} {signers}"

    def validator_line(self):
        validator = self.random.choice(self.correct)
        kind = self.random.choice(("timeout", "timeout", "timeout", "ask", "resend", "restart", "fail", "tx", "state", "raw"))
        if kind == "timeout":
            height, round_number = self.place_of(validator)
            return f"timeout {validator} {self.random.choice(KINDS)} {height} {round_number}"
        if kind == "fail":
            return f"fail {validator} {self.random.randrange(1, 9)} {self.random.choice(('-', '4', '30', '200', '5000'))}"
        if kind == "tx":
            return f"tx {validator} {self.item()}"
        if kind == "raw":
            return f"raw {validator} {self.random.choice(('-', '00000000', '000000017f', '0000000113'))}"
        return f"{kind} {validator}"

    def line(self):
        draw = self.random.random()
        if draw < 0.4:
            return "pass"
        if draw < 0.5 and self.messages:
            return f"deliver {self.random.randrange(self.messages)} {self.random.choice(self.correct)}"
        if draw < 0.65:
            return self.client_line()
        return self.liar_line() if draw < 0.85 else self.validator_line()

    def go_on(self):
        self.lines += [self.line() for _ in range(self.random.randrange(5, 25))]

    def take(self, report):
        """Notes where the validators stand, and returns their delivered lists."""
        self.messages = sum(line[:1].isdigit() for line in report)
        lists = {}
        for line in report[len(report) - len(self.correct):]:
            place, _, items = line.partition(":")
            validator, _, height, round_number = place.split()
            self.places[int(validator[1:])] = (int(height), int(round_number))
            lists[int(validator[1:])] = items.split()
        assert list(lists) == self.correct
        return lists


def begins(one, other):
    return other[: len(one)] == one


def fields_of(item):
    """Returns the client, session, number and bytes of an item."""
    sender, number, what = item.split(":")
    client, _, session = sender.partition(".")
    return int(client), int(session or 0), int(number), what


def keeps_order(items):
    """Whether each client's sessions stand in order, each but the first behind a close, and in each its numbers from one."""
    standings = collections.defaultdict(Standing)
    for client, session, number, what in map(fields_of, items):
        if (session, number) != standings[client].wanted():
            return False
        standings[client].take(session, number, what)
    return True


def begins_sent(items, sent):
    """Whether the items of the clients that nobody invents begin what they sent."""
    for client in range(HONEST, CLIENTS):
        mine = [item for item in items if fields_of(item)[0] == client]
        if not begins(mine, sent[client]):
            return False
    return True


def breach_of(schedule, earlier, lists):
    """Returns what is wrong with the lists of a report, or None."""
    if not all(map(keeps_order, lists.values())):
        return "a client's order isn't kept"
    if not schedule.few_lie():
        return None
    every = list(lists.values()) + earlier
    if not all(begins(one, other) or begins(other, one) for one in every for other in every):
        return "two lists differ"
    if not all(begins_sent(items, schedule.sent) for items in lists.values()):
        return "a client didn't send what was delivered of it"
    return None


def run_one(program, folder, seed, number):
    """Returns a description of the breach of one random schedule, or None, and how many items it delivered at most."""
    schedule = Schedule(random.Random(f"{seed} {number}"))
    file = pathlib.Path(folder) / f"{number}.txt"
    earlier, longest = [], 0
    try:
        for _ in range(PARTS):
            schedule.go_on()
            file.write_text("\n".join(schedule.lines) + "\n", encoding="ascii")
            ran = subprocess.run([program, file], capture_output=True, text=True, check=False, timeout=120)
            if ran.returncode != 0 or ran.stderr:
                return f"schedule {number}: status {ran.returncode}, {ran.stderr}" + file.read_text(encoding="ascii"), 0
            lists = schedule.take(ran.stdout.splitlines())
            breach = breach_of(schedule, earlier, lists)
            if breach:
                return f"schedule {number}: {breach}\n" + file.read_text(encoding="ascii") + ran.stdout, 0
            earlier += lists.values()
            longest = max(longest, *map(len, lists.values()))
        return None, longest
    finally:
        file.unlink(missing_ok=True)


def main():
    parser = argparse.ArgumentParser(description=__doc__, formatter_class=argparse.RawDescriptionHelpFormatter)
    parser.add_argument("--count", type=int, default=1000)
    parser.add_argument("--seed", type=int, default=1)
    parser.add_argument("--with", dest="program", type=pathlib.Path, default=HERE.parent / "bin/tmsim")
    asked = parser.parse_args()
    program = asked.program.resolve()
    if not os.access(program, os.X_OK):
        print(f"random_runs.py: {program} is no program; ./build.sh makes it", file=sys.stderr)
        return 2
    failed = delivering = 0
    with tempfile.TemporaryDirectory() as folder, concurrent.futures.ThreadPoolExecutor(os.cpu_count()) as pool:
        runs = pool.map(lambda number: run_one(program, folder, asked.seed, number), range(asked.count))
        for breach, longest in runs:
            delivering += longest > 0
            if breach:
                failed += 1
                print(breach)
    print(f"in {delivering} of them something was delivered")
    print(f"{asked.count - failed} passed, {failed} failed")
    # (runs in which nothing is ever delivered say nothing of lists)
    return 1 if failed or not delivering else 0


if __name__ == "__main__":
    sys.exit(main())
