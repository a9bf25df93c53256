"""Validators of a cluster as processes on this machine, clients, and what stands between them."""
import contextlib
import hashlib
import hmac
import os
import random
import resource
import signal
import socket
import subprocess
import sys
import threading
import time

POWERS = "1,1,1,1"
# How long a list may take to grow as far as it is waited for, in seconds.
PATIENCE = 120
# The first byte of a body, and that of a record of a journal (docs/FORMATS.md).
PROPOSAL, PREVOTE, PRECOMMIT, ASK, BUNDLE = 0x10, 0x11, 0x12, 0x13, 0x14
OWN, LOCK, DECISION, MARK = 0x01, 0x02, 0x03, 0x04
# The ports that were given to a test.
GIVEN_PORTS = set()


class Failed(Exception):
    """What a test saw that should not be."""


class LeftOut(Exception):
    """What a test asks for that this machine doesn't have."""


def want(is_so, why):
    if not is_so:
        raise Failed(why)


def among(powers):
    """Has a test run with validators of these powers."""

    def with_powers(test):
        test.powers = powers
        return test

    return with_powers


def free_addresses(count):
    """Returns addresses that nobody has, of ports that the system gives to nobody who dials, and none of them twice."""
    dialed, found = int(read("/proc/sys/net/ipv4/ip_local_port_range").split()[0]), []
    for port in random.sample(range(1024, dialed), dialed - 1024):
        if len(found) == count:
            return found
        with socket.socket() as it, contextlib.suppress(OSError):
            it.bind(("127.0.0.1", port))
            if port not in GIVEN_PORTS:
                GIVEN_PORTS.add(port)
                found.append(f"127.0.0.1:{port}")
    raise LeftOut(f"{count} free ports below {dialed}")


def allow_files(count):
    """Lets this process, and those that it begins, have so many files open, as far as they may."""
    soft, hard = resource.getrlimit(resource.RLIMIT_NOFILE)
    resource.setrlimit(resource.RLIMIT_NOFILE, (min(max(soft, count), hard), hard))


def end_when_told():
    """Has this process end at SIGTERM as at an error, so that what it began is ended too."""
    signal.signal(signal.SIGTERM, lambda *_: sys.exit(1))


def ended(process, seconds):
    """Whether a process ends within so many seconds."""
    try:
        process.wait(timeout=seconds)
    except subprocess.TimeoutExpired:
        return False
    return True


def want_all_ended(processes, bring_back):
    """Wants each of four validators, which end after some items, to end without a failure. Who ends takes its links with it, so where a
    processor is short up to two may be left behind, too few to decide: they end once another one is back, which `bring_back` starts."""
    behind = [me for me, it in processes.items() if not ended(it, 20)]
    want(len(behind) <= 2, f"validators {behind} don't end, though they are enough to decide")
    if behind:
        bring_back(next(me for me in processes if me not in behind))
    for me, it in processes.items():
        status = it.wait(timeout=PATIENCE)
        want(status == 0, f"validator {me} ends with status {status}")


def read(path):
    with open(path, encoding="utf-8") as it:
        return it.read()


def records_of(path):
    """Returns the whole records of a journal, which may be written to meanwhile."""
    try:
        with open(path, "rb") as it:
            held = it.read()
    except OSError:
        return []
    found, at = [], 4
    while at + 4 <= len(held):
        end = at + 4 + int.from_bytes(held[at : at + 4], "big")
        if end <= len(held):
            found.append(held[at + 4 : end])
        at = end
    return found


def dial(address, patience=10):
    host, port = address.split(":")
    return socket.create_connection((host, int(port)), timeout=patience)


def hold(address, given):
    """Returns a link on which this was sent, or as much of it as was taken, and nothing is read."""
    link = dial(address)
    try:
        link.settimeout(0.2)
        link.sendall(given)
    except OSError:
        pass
    return link


def peak_of(process):
    """Returns the most memory that a process held, in bytes."""
    lines = read(f"/proc/{process.pid}/status").splitlines()
    return next(int(it.split()[1]) * 1024 for it in lines if it.startswith("VmHWM:"))


def limited(**limits):
    """Returns what sets these limits in a process before it begins. Writes past one are refused, and don't kill."""

    def set_limits():
        for name, value in limits.items():
            kind = getattr(resource, f"RLIMIT_{name}")
            resource.setrlimit(kind, (value, value))

    return {"preexec_fn": set_limits, "restore_signals": False}


def saved_by(path):
    """Returns the bodies of the own messages in a journal, in order: what the validator may have said."""
    return [it[1 : 49 if it[0] == LOCK else None] for it in records_of(path) if it[0] in (OWN, LOCK)]


def want_one_for_each_step(path):
    """Wants that a journal has one message at most for each step of a round."""
    steps = {}
    for body in saved_by(path):
        want(steps.setdefault(body[:13], body) == body, f"{path} has two messages of kind {body[0]:x} for one step of a round")


def transaction_frame(client, number, data, keys):
    """Returns the frame of a client's transaction, with a tag under each of its keys with the validators."""
    body = b"\1" + client.to_bytes(2, "big") + number.to_bytes(8, "big") + b"\0" + len(data).to_bytes(2, "big") + data
    tags = b"".join(hmac.digest(key, body, hashlib.sha256) for key in keys)
    message = body + bytes([len(keys)]) + tags
    return len(message).to_bytes(4, "big") + message


def proposals_in(path):
    """Returns the height and the round of each own proposal in a journal, in order."""
    return [(int.from_bytes(it[1:9], "big"), int.from_bytes(it[9:13], "big")) for it in saved_by(path) if it[0] == PROPOSAL]


def decisions_in(path):
    """Returns the height and the round of each decision in a journal, in order."""
    decided = (it for it in records_of(path) if it[0] == DECISION)
    return [(int.from_bytes(it[2:10], "big"), int.from_bytes(it[12:16], "big")) for it in decided]


class Cluster:
    """Validators of these powers with their keys, in a folder."""

    def __init__(self, program, folder, powers=POWERS):
        self.program, self.folder, self.powers = program, folder, powers
        self.count = len(powers.split(","))
        self.addresses, self.running, self.starts = free_addresses(self.count), {}, [0] * self.count

    def begin(self, clients=10):
        told = self.make_keys(clients)
        want(told == (0, ""), f"the keys are told {told}")

    def path(self, name):
        return os.path.join(self.folder, name)

    def make_keys(self, clients=10):
        """Makes the key files of the validators and of so many clients, and returns the status and what was told."""
        words = ["keys", "--validators", str(self.count), "--clients", str(clients), "--out", self.path("keys")]
        ran = subprocess.run([self.program, *words], capture_output=True, text=True, timeout=30, check=False)
        return ran.returncode, ran.stdout + ran.stderr

    def keys_of(self, party):
        return self.path(f"keys/{party}.keys")

    def tag_keys_of(self, client):
        """Returns a client's keys with the validators in turn."""
        keys = dict(it.split()[1:] for it in read(self.keys_of(f"c{client}")).splitlines())
        return [bytes.fromhex(keys[f"v{it}"]) for it in range(self.count)]

    def words(self, me, **changed):
        given = {
            "id": me,
            "powers": self.powers,
            "keys": self.keys_of(f"v{me}"),
            "journal": self.path(f"v{me}.journal"),
            "peers": ",".join(self.addresses),
            "start": 200,
            "delta": 100,
            **changed,
        }
        return [self.program, "run", *(word for key, value in given.items() for word in (f"--{key}", str(value)))]

    def run_out(self, me, changed=None, seconds=30, **how):
        """Runs a validator that ends by itself, and returns its status and the last line that it told."""
        ran = subprocess.run(self.words(me, **(changed or {})), capture_output=True, text=True, timeout=seconds, check=False, **how)
        said = [it for it in ran.stderr.splitlines() if it.startswith("tmnode: ")]
        return ran.returncode, said[-1] if said else ""

    def start(self, me, changed=None, in_front=(), **how):
        """Starts a validator, whose list goes to a file of this start."""
        words = [*in_front, *self.words(me, **(changed or {}))]
        self.starts[me] += 1
        with open(self.list_of(me), "w", encoding="utf-8") as out, open(self.path(f"v{me}.log"), "a", encoding="utf-8") as log:
            self.running[me] = subprocess.Popen(words, stdout=out, stderr=log, **how)

    def decisions_of(self, me):
        """Returns how many heights a validator has decided, as its journal tells."""
        return len(decisions_in(self.path(f"v{me}.journal")))

    def wait_for_precommit(self, me):
        """Returns the round of a validator's first precommit, and whether it is for a value."""
        ends = time.monotonic() + PATIENCE
        while time.monotonic() < ends:
            for it in records_of(self.path(f"v{me}.journal")):
                if it[0] in (OWN, LOCK) and it[1] == PRECOMMIT:
                    return int.from_bytes(it[10:14], "big"), it[16] == 1
            time.sleep(0.02)
        raise Failed(f"validator {me} has not precommitted")

    def wait_for_heights(self, count, me, patience):
        ends = time.monotonic() + patience
        while (decided := self.decisions_of(me)) < count:
            want(time.monotonic() < ends, f"validator {me} has decided {decided} heights of {count}")
            time.sleep(0.02)

    def listed_by_journal(self, me):
        """Returns the lines of the list that a validator's journal holds."""
        words = [self.program, "journal", self.path(f"v{me}.journal"), "--list"]
        return subprocess.run(words, capture_output=True, text=True, timeout=PATIENCE, check=False).stdout.splitlines()

    def list_of(self, me):
        return self.path(f"v{me}.{self.starts[me]}.list")

    def kill(self, me):
        process = self.running.pop(me)
        process.kill()
        process.wait()

    def end(self):
        for me in list(self.running):
            self.kill(me)

    def words_of_send(self, client, to, number, *what):
        words = ["send", "--id", client, "--validators", self.count, "--keys", self.keys_of(f"c{client}"), "--to", self.addresses[to], "--number", number, *what]
        return [self.program, *map(str, words)]

    def send(self, client, to, number, *what):
        """Sends one transaction, and returns what is told of it."""
        ran = subprocess.run(self.words_of_send(client, to, number, *what), capture_output=True, text=True, timeout=PATIENCE, check=False)
        return ran.returncode, (ran.stdout + ran.stderr).strip()

    def file_of(self, lines):
        with open(self.path("lines"), "w", encoding="utf-8") as out:
            out.writelines(f"{it}\n" for it in lines)
        return self.path("lines")

    def send_file(self, client, number, file, *what):
        """Sends the transactions of a file to all validators, and returns what is told of them."""
        words = self.words_of_send(client, 0, number, "--file", file, *what)
        words[words.index("--to") + 1] = ",".join(self.addresses)
        ran = subprocess.run(words, capture_output=True, text=True, timeout=PATIENCE, check=False)
        return ran.returncode, (ran.stdout + ran.stderr).strip()

    def send_to_one_that_hangs_up(self, listener):
        """Sends one transaction to validator 0's address, where this listener takes the connection and ends it."""
        words = self.words_of_send(7, 0, 1, "--close")
        with subprocess.Popen(words, stdout=subprocess.PIPE, stderr=subprocess.STDOUT, text=True) as sender:
            listener.accept()[0].close()
            return sender.wait(timeout=30), sender.stdout.read().strip()

    def send_until_taken(self, client, to, number, *what):
        """Sends a transaction until it is taken: its number is an old one where it was delivered meanwhile, by way of another."""
        ends = time.monotonic() + PATIENCE
        while (told := self.send(client, to, number, *what))[0] != 0 and told[1].strip() != "refused 13 3":
            want(time.monotonic() < ends, f"transaction {number} of client {client} is told {told[1]!r}")
            time.sleep(0.1)

    def wait_for(self, count, *who):
        """Waits until these validators' lists have so many lines, and returns the lists."""
        ends = time.monotonic() + PATIENCE
        while True:
            lists = [read(self.list_of(me)).splitlines() for me in who]
            if all(len(it) >= count for it in lists):
                return lists
            want(time.monotonic() < ends, f"lists have {[len(it) for it in lists]} lines of {count}")
            time.sleep(0.05)

    def has_listed(self, client, number):
        """Returns whether a validator has printed a client's transaction since it was started."""
        for me in list(self.running):
            try:
                if f" {client} {number} " in read(self.list_of(me)):
                    return True
            except OSError:
                pass
        return False

    def want_same(self, count, *who):
        lists = self.wait_for(count, *who)
        for me, own in zip(who, lists):
            want(own[:count] == lists[0][:count], f"the lists of validators {who[0]} and {me} differ")
        return lists[0]


class Client(threading.Thread):
    """Sends one transaction after the other to all validators, each again until it stands in a list."""

    def __init__(self, cluster, client):
        super().__init__(daemon=True)
        self.cluster, self.client, self.listed, self.ended = cluster, client, 0, threading.Event()
        self.keys = cluster.tag_keys_of(client)

    def run(self):
        while not self.ended.is_set():
            self.send_until_listed(self.listed + 1)
            self.listed += 1

    def send_until_listed(self, number):
        frame, again = transaction_frame(self.client, number, b"%d" % number, self.keys), 0.0
        while not self.cluster.has_listed(self.client, number):
            if time.monotonic() >= again:
                for address in self.cluster.addresses:
                    self.hand(address, frame)
                again = time.monotonic() + 0.5
            time.sleep(0.005)

    @staticmethod
    def hand(address, frame):
        try:
            with dial(address, 1) as link:
                link.sendall(frame)
                link.recv(1)
        except OSError:
            pass

    def end(self):
        """Has the client stop once its last transaction is listed, and returns how many are."""
        self.ended.set()
        self.join(PATIENCE)
        want(not self.is_alive(), f"transaction {self.listed + 1} of client {self.client} isn't listed")
        return self.listed


class Wires:
    """What stands between validators: each frame on their links is shown to a filter, which says whether it passes."""

    def __init__(self, addresses, passes):
        self.addresses, self.passes = addresses, passes

    def peers_of(self, me):
        """Returns the `--peers` of a validator that reaches each other one through a wire."""
        return ",".join(self.addresses_for(me, set(range(len(self.addresses))) - {me}))

    def addresses_for(self, me, others):
        """Returns the addresses by which a validator reaches these others through wires."""
        return [self.wire(me, it) if it in others else address for it, address in enumerate(self.addresses)]

    def wire(self, source, target):
        listener = socket.create_server(("127.0.0.1", 0))
        threading.Thread(target=self.accept, args=(listener, source, target), daemon=True).start()
        return f"127.0.0.1:{listener.getsockname()[1]}"

    def accept(self, listener, source, target):
        while True:
            near = listener.accept()[0]
            try:
                far = dial(self.addresses[target])
            except OSError:
                near.close()
                continue
            far.settimeout(None)
            for ends in ((near, far, source, target), (far, near, target, source)):
                threading.Thread(target=self.carry, args=ends, daemon=True).start()

    def carry(self, near, far, source, target):
        stream = near.makefile("rb")
        try:
            while len(length := stream.read(4)) == 4:
                frame = length + stream.read(int.from_bytes(length, "big"))
                if self.passes(source, target, frame):
                    far.sendall(frame)
        except OSError:
            pass
        for it in (near, far):
            # (the other direction reads of the same two, so closing them alone would tell nobody)
            with contextlib.suppress(OSError):
                it.shutdown(socket.SHUT_RDWR)
            it.close()


class Tap:
    """Notes what validators send of their own over wires."""

    def __init__(self):
        self.bodies = [set() for _ in range(4)]

    def passes(self, source, _, frame):
        if Heading(frame).sender == source:
            self.bodies[source].add(frame[4 : -1 - 32 * 4])
        return True


class Heading:
    """What stands at the front of a proposal's or a vote's frame; of other frames it has the kind alone."""

    def __init__(self, frame):
        self.kind, self.round, self.sender = frame[4], None, None
        if self.kind in (PROPOSAL, PREVOTE, PRECOMMIT):
            self.round, self.sender = int.from_bytes(frame[13:17], "big"), int.from_bytes(frame[17:19], "big")


def vote_by(frame, sender, key_file):
    """Returns the frame of the same vote, by this sender, with its tags."""
    body = frame[4:17] + sender.to_bytes(2, "big") + frame[19 : -1 - 32 * 4]
    keys = dict(line.split()[1:] for line in read(key_file).splitlines() if line.startswith(f"v{sender} v"))
    tags = b"".join(hmac.new(bytes.fromhex(keys[f"v{it}"]), body, hashlib.sha256).digest() for it in range(4))
    message = body + b"\x04" + tags
    return len(message).to_bytes(4, "big") + message
