#!/usr/bin/env python3
"""Sends clients' transactions as bench/sender.c does, where that can't be built, by four processes that take as much as validators do.

usage: bench/sender.py ADDRESS,.. KEYS LIST CLIENTS WINDOW BYTES SECONDS CONNECTIONS

The words and what is printed are those of bench/sender.c. What isn't listed isn't sent again, and replies are passed over. CONNECTIONS
is also how many processes send.
"""
import json
import multiprocessing
import os
import sys
import threading
import time

TOP = os.path.dirname(os.path.dirname(os.path.realpath(__file__)))
sys.path.insert(0, f"{TOP}/test")
import validators  # noqa: E402

WARM, CLOSE_AFTER = 1.0, 5.0
# How many tags of frames are made before the clock runs, at most.
MOST_TAGS = 2_000_000


def tag_keys_of(folder, client):
    """Returns a client's keys with the validators in turn."""
    lines = [it.split() for it in validators.read(f"{folder}/c{client}.keys").splitlines()]
    keys = {int(to[1:]): bytes.fromhex(key) for _, to, key in lines}
    return [keys[it] for it in sorted(keys)]


class Clients:
    """Some clients that send each transaction to all validators, and follow a list."""

    def __init__(self, words, clients):
        self.links = [validators.dial(it) for it in words.addresses]
        for link in self.links:
            link.settimeout(None)
            threading.Thread(target=self.forget_replies, args=(link,), daemon=True).start()
        self.window, self.data = words.window, b"x" * words.bytes
        self.keys = {it: tag_keys_of(words.keys, it) for it in clients}
        self.frames = {it: [self.frame_of(it, number + 1) for number in range(words.made_before())] for it in clients}
        self.sent, self.listed = dict.fromkeys(clients, 0), dict.fromkeys(clients, 0)
        self.times, self.waits, self.rest = {}, [], ""
        self.list = open(words.list, encoding="utf-8")
        self.list.seek(0, os.SEEK_END)

    def frame_of(self, client, number):
        return validators.transaction_frame(client, number, self.data, self.keys[client])

    @staticmethod
    def forget_replies(link):
        while link.recv(1 << 16):
            time.sleep(0.002)

    def next_of(self, client, most):
        """Returns the frames of the client's next transactions, so many."""
        first, made = self.sent[client], self.frames[client]
        frames = made[first : first + most]
        frames += [self.frame_of(client, first + it + 1) for it in range(len(frames), most)]
        for it in range(most):
            self.times[client, first + it + 1] = time.monotonic()
        self.sent[client] += most
        return b"".join(frames)

    def send(self):
        """Sends of each client as many as may wait."""
        piece = b"".join(self.next_of(it, self.window + self.listed[it] - self.sent[it]) for it in self.sent)
        for link in self.links if piece else ():
            link.sendall(piece)

    def follow(self):
        """Reads the lines that are new."""
        *lines, self.rest = (self.rest + self.list.read()).split("\n")
        now = time.monotonic()
        for line in lines:
            _, client, number, _ = line.split(" ", 3)
            if (client := int(client)) in self.listed:
                self.listed[client] = int(number)
                self.waits.append(now - self.times.pop((client, int(number))))

    def run(self, seconds):
        """Keeps the window full for so long."""
        ends = time.monotonic() + seconds
        while time.monotonic() < ends:
            self.send()
            time.sleep(0.0005)
            self.follow()

    def finish(self):
        """Waits for what was sent, and returns how many don't come."""
        ends = time.monotonic() + CLOSE_AFTER
        while self.times and time.monotonic() < ends:
            time.sleep(0.01)
            self.follow()
        return len(self.times)


def send_for(words, clients, barrier, told):
    """Sends for these clients, in a process of its own."""
    own = Clients(words, clients)
    barrier.wait()
    own.run(WARM)
    barrier.wait()
    own.waits, began = [], time.process_time()
    own.run(words.seconds)
    barrier.wait()
    waits, spent = own.waits, time.process_time() - began
    told.put((waits, spent, own.finish()))


class Words:
    """The command line."""

    def __init__(self, addresses, keys, path, *numbers):
        self.addresses, self.keys, self.list = addresses.split(","), keys, path
        self.clients, self.window, self.bytes, self.seconds, self.processes = map(int, numbers)

    def made_before(self):
        return MOST_TAGS // len(self.addresses) // self.clients


def report(each, seconds):
    waits = sorted(wait for it in each for wait in it[0])
    middle, late = (waits[len(waits) * it // 100] if waits else 0 for it in (50, 99))
    seen = {"delivered": len(waits), "seconds": seconds, "middle": middle, "late": late, "processor": sum(it[1] for it in each) / seconds}
    print(json.dumps({**seen, "again": 0, "missing": sum(it[2] for it in each), "codes": {}}), flush=True)


def main():
    if len(sys.argv) != 9:
        print(__doc__, file=sys.stderr)
        return 2
    words = Words(*sys.argv[1:])
    barrier, told = multiprocessing.Barrier(words.processes + 1), multiprocessing.Queue()
    for it in range(words.processes):
        clients = range(it, words.clients, words.processes)
        multiprocessing.Process(target=send_for, args=(words, clients, barrier, told), daemon=True).start()
    barrier.wait()
    barrier.wait()
    print("began", flush=True)
    barrier.wait()
    print("ended", flush=True)
    report([told.get() for _ in range(words.processes)], words.seconds)
    return 0


if __name__ == "__main__":
    sys.exit(main())
