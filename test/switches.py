"""A switch between validators on this machine: it carries their links, counts what they send, and breaks what it carries."""
import collections
import os
import selectors
import socket
import struct
import threading
import time

from validators import ASK, BUNDLE, PATIENCE, PRECOMMIT, PREVOTE, PROPOSAL, dial, read, want

# What becomes of a link at its next frame, or at once where none comes.
AT_ITS_START, WITHIN_IT = "at the start of a frame", "within a frame"
# How long a link waits for a frame to break at, and how often it looks, in seconds.
NEXT_FRAME, TURN = 1.0, 0.05
# Closes without a farewell: what is under way is lost, and the other end is told that the connection is reset.
RESET = struct.pack("ii", 1, 0)


def reset(link):
    link.setsockopt(socket.SOL_SOCKET, socket.SO_LINGER, RESET)
    link.close()


class Carried(threading.Thread):
    """A link that is carried between the validator that dialed it and the one that it reached."""

    def __init__(self, switch, ends, near, far):
        super().__init__(daemon=True)
        self.switch, self.ends = switch, ends
        self.other, self.held = {near: far, far: near}, {near: b"", far: b""}
        self.sender = {near: ends, far: ends[::-1]}
        self.is_half_open, self.is_ended, self.broken, self.since = False, False, None, 0.0
        self.coming = selectors.DefaultSelector()
        for link in self.other:
            self.coming.register(link, selectors.EVENT_READ)

    def run(self):
        try:
            while self.other and not self.is_ended:
                for key, _ in self.coming.select(TURN):
                    self.take(key.fileobj)
                if self.broken and time.monotonic() > self.since + NEXT_FRAME:
                    break
        except OSError:
            pass
        self.coming.close()
        is_broken = self.broken or self.is_ended
        for link in [*self.other]:
            reset(link) if is_broken else link.close()
        self.is_ended = True

    def break_off(self, where):
        self.since, self.broken = time.monotonic(), where

    def take(self, link):
        """Takes what has come on one end, and hands it on to the other."""
        came = link.recv(1 << 16)
        if self.is_half_open:
            # (neither end is told of the other's)
            if not came:
                self.coming.unregister(link)
                del self.other[link]
                link.close()
            return
        if not came:
            raise ConnectionError
        self.held[link] += came
        while (frame := self.next_frame(link)) is not None:
            if self.broken == WITHIN_IT:
                self.other[link].sendall(frame[: len(frame) // 2])
            if self.broken:
                raise ConnectionError
            self.switch.count(*self.sender[link], frame)
            self.other[link].sendall(frame)

    def next_frame(self, link):
        held = self.held[link]
        end = 4 + int.from_bytes(held[:4], "big")
        if len(held) < max(end, 4):
            return None
        self.held[link] = held[end:]
        return held[:end]


class Socket(threading.Thread):
    """The address by which one validator reaches another one. Nobody can dial it while it is cut."""

    def __init__(self, switch, ends, target):
        super().__init__(daemon=True)
        self.switch, self.ends, self.target, self.port = switch, ends, target, 0
        self.is_cut, self.is_ended = False, False
        self.listener = self.listen()
        self.port = self.listener.getsockname()[1]

    def listen(self):
        listener = socket.create_server(("127.0.0.1", self.port))
        listener.settimeout(TURN)
        return listener

    def run(self):
        while not self.is_ended:
            if self.is_cut == bool(self.listener):
                self.turn()
            elif self.listener:
                self.accept()
            else:
                time.sleep(TURN)
        if self.listener:
            self.listener.close()

    def turn(self):
        """Listens no more, or again."""
        if self.listener:
            self.listener.close()
            self.listener = None
        else:
            self.listener = self.listen()

    def accept(self):
        try:
            near = self.listener.accept()[0]
        except socket.timeout:
            return
        try:
            far = dial(self.target)
        except OSError:
            reset(near)
            return
        near.settimeout(far.gettimeout())
        self.switch.carry(Carried(self.switch, self.ends, near, far))


class Switch:
    """What stands between validators: each reaches each other one by an address of the switch."""

    def __init__(self, addresses):
        self.addresses, self.links, self.lock = addresses, [], threading.Lock()
        everyone = range(len(addresses))
        self.sockets = {(a, b): Socket(self, (a, b), addresses[b]) for a in everyone for b in everyone if a != b}
        # How often each frame of a height and a kind went from a validator to another one.
        self.sent = collections.Counter()
        for it in self.sockets.values():
            it.start()

    def __enter__(self):
        return self

    def __exit__(self, *_):
        for it in [*self.sockets.values(), *self.links]:
            it.is_ended = True

    def peers_of(self, me):
        """Returns the `--peers` of a validator that reaches each other one by the switch."""
        return ",".join(address if it == me else f"127.0.0.1:{self.sockets[me, it].port}" for it, address in enumerate(self.addresses))

    def carry(self, link):
        with self.lock:
            self.links = [*(it for it in self.links if not it.is_ended), link]
        link.start()

    def count(self, source, target, frame):
        kind = frame[4] if len(frame) > 4 else None
        if kind in (PROPOSAL, PREVOTE, PRECOMMIT, ASK, BUNDLE):
            with self.lock:
                self.sent[source, target, kind, int.from_bytes(frame[5:13], "big")] += 1

    def sent_of(self, kind):
        """Returns how often frames of a kind went from a validator to another one, by height."""
        with self.lock:
            return {(it[0], it[1], it[3]): times for it, times in self.sent.items() if it[2] == kind}

    def links_of(self, me):
        """Returns the links of a validator that carry what comes."""
        with self.lock:
            return [it for it in self.links if me in it.ends and not (it.is_ended or it.is_half_open or it.broken)]

    def wait_for_links(self, me):
        """Waits until a validator has dialed each other one, and was dialed by it."""
        others, ends = set(range(len(self.addresses))) - {me}, time.monotonic() + PATIENCE
        wanted = {pair for other in others for pair in ((me, other), (other, me))}
        while {it.ends for it in self.links_of(me)} != wanted:
            want(time.monotonic() < ends, f"validator {me} has links of {sorted(it.ends for it in self.links_of(me))}")
            time.sleep(TURN)

    def break_off(self, me, where):
        """Resets every link of a validator, at the start of a frame or within one."""
        for it in (links := self.links_of(me)):
            it.break_off(where)
        for it in links:
            it.join()

    def hold_half_open(self, me):
        """Swallows what comes on every link of a validator, and closes none."""
        for it in self.links_of(me):
            it.is_half_open = True

    def cut(self):
        """Takes all links away. No address of the switch can be dialed."""
        for it in self.sockets.values():
            it.is_cut = True
        # (until nobody waits for a connection)
        time.sleep(3 * TURN)
        with self.lock:
            for it in self.links:
                it.is_ended = True

    def mend(self):
        for it in self.sockets.values():
            it.is_cut = False


def connections_of(process):
    """Returns the ends, own and other, of each connection over TCP that a process has."""
    folder, own = f"/proc/{process.pid}/fd", set()
    for it in os.listdir(folder):
        try:
            own.add(os.readlink(f"{folder}/{it}"))
        except OSError:
            # (closed meanwhile)
            pass
    rows = (it.split() for it in read(f"/proc/{process.pid}/net/tcp").splitlines()[1:])
    return {(it[1], it[2]) for it in rows if it[3] == "01" and f"socket:[{it[9]}]" in own}


def linked_pairs(processes):
    """Returns the pairs of these processes, by their keys, that have a connection with one another."""
    each = {me: connections_of(it) for me, it in processes.items()}
    return {(a, b) for a in each for b in each if a < b and any((there, here) in each[b] for here, there in each[a])}


class Strangers(threading.Thread):
    """Connections that send nothing: so many stay at each address, and so many new ones come there a second, each for a second."""

    def __init__(self, addresses, staying, coming):
        super().__init__(daemon=True)
        self.addresses, self.coming, self.ended = addresses, coming, threading.Event()
        self.staying = [self.connect(it) for it in addresses * staying]
        self.guests, self.count = collections.deque(), 0

    @staticmethod
    def connect(address):
        """Returns a connection, whether or not it has been taken yet."""
        host, port = address.split(":")
        link = socket.socket()
        link.setblocking(False)
        link.connect_ex((host, int(port)))
        return link

    def __enter__(self):
        self.start()
        return self

    def __exit__(self, *_):
        self.ended.set()
        self.join()
        for it in [*self.staying, *(link for _, link in self.guests)]:
            reset(it)

    def run(self):
        began = time.monotonic()
        while not self.ended.wait(0.01):
            while self.count < (time.monotonic() - began) * self.coming:
                self.guests.extend((time.monotonic(), self.connect(it)) for it in self.addresses)
                self.count += 1
            while self.guests and self.guests[0][0] < time.monotonic() - 1:
                reset(self.guests.popleft()[1])
