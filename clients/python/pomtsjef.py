#!/usr/bin/env python3
"""A client of tmnode: it sends transactions to validators, and finds where it is in the list that one prints.

It is written from docs/FORMATS.md and docs/PROTOCOL.md, with the standard library alone.
"""
import argparse
import hmac
import re
import socket
import struct
import sys
import time
from concurrent.futures import ThreadPoolExecutor
from typing import NamedTuple, Optional

# How long one may wait at most, in seconds.
MAX_TIMEOUT = 86_400.0
CLIENTS, VALIDATORS, SESSIONS, NUMBERS = range(1_024), range(2, 129), range(1 << 32), range(1, (1 << 48) + 1)
MAX_DATA, MAX_FRAME = 1_024, 1_048_576
REPLY, NOT_QUEUED = 0x20, 13
# The names of a reply's codes, and those of its inner numbers, which go from 1.
CODES = (
    "Accepted", "Truncated", "TooLong", "BadKind", "BadSpelling", "UnknownSender", "BadTag", "OtherHeight", "VoterFull",
    "Repeat", "RoundLimit", "RoundAhead", "WrongProposer", "NotQueued", "BadBundle", "Halted", "OutOfMemory", "JournalFailed",
)
CAUSES = (
    "", "UnknownClient", "BadTag", "OldNumber", "Gap", "Closed", "QueueFull", "TooLong", "OutOfMemory", "SessionAhead",
)
# A line of a list: the position, the client, the session where it isn't 0, the number, and the data.
ITEM = re.compile(
    r"(0|[1-9]\d{0,18}) (0|[1-9]\d{0,3})(?:\.([1-9]\d{0,9}))? ([1-9]\d{0,14}) (-|close|(?:[0-9a-f]{2}){1,1024})\n", re.ASCII
)


class BadFile(ValueError):
    """A key file or a list that isn't as it has to be."""


def read_keys(text, client, validators):
    """Reads what the client's key file holds, as bytes, into its keys with validators 0, 1, ..

    BadFile: `keys K` with 1 for a bad line, 2 for a line that is missing, 3 for a pair that comes twice.
    """
    pairs, found = [b"c%d v%d" % (client, it) for it in range(validators)], {}
    for line in text.split(b"\n"):
        if not line or line.startswith(b"#"):
            continue
        pair, _, key = line.rpartition(b" ")
        if pair not in pairs or not re.fullmatch(rb"[0-9a-fA-F]{64}", key):
            raise BadFile("keys 1")
        if pair in found:
            raise BadFile("keys 3")
        found[pair] = bytes.fromhex(key.decode())
    if len(found) < validators:
        raise BadFile("keys 2")
    return [found[it] for it in pairs]


def spell_transaction(client, session, number, data):
    """Returns the body of a transaction of these bytes, or of a close where `data` is None. ValueError: it has no spelling."""
    if client not in CLIENTS or session not in SESSIONS or number not in NUMBERS or len(data or b"") > MAX_DATA:
        raise ValueError("the client, the session, the number or the data's length is out of range")
    sender = struct.pack(">BHI", 2, client, session) if session else struct.pack(">BH", 1, client)
    content = b"\x01" if data is None else struct.pack(">BH", 0, len(data)) + data
    return sender + struct.pack(">Q", number) + content


def tag(key, body):
    return hmac.digest(key, body, "sha256")


class Client:
    """A client by what its key file holds, as bytes, its number, and how many validators there are."""

    def __init__(self, keys, client, validators):
        if client not in CLIENTS or validators not in VALIDATORS:
            raise ValueError("the client or the number of validators is out of range")
        self.client, self.keys = client, read_keys(keys, client, validators)

    def frame(self, session, number, data):
        """Returns the frame of what `spell_transaction` spells, with its tag for each validator."""
        body = spell_transaction(self.client, session, number, data)
        message = body + bytes([len(self.keys)]) + b"".join(tag(it, body) for it in self.keys)
        return struct.pack(">I", len(message)) + message


class Reply(NamedTuple):
    """A validator's answer to a transaction: 0 or a refusal's number, and with 13 the cause."""

    code: int
    inner: int

    def __str__(self):
        name = CAUSES[self.inner] if self.code == NOT_QUEUED else CODES[self.code]
        return f"refused {self.code} {self.inner} ({name})" if self.code else "accepted"


def read_reply(content):
    """Reads what a reply's frame holds. ValueError: it is no reply."""
    if len(content) == 3 and content[0] == REPLY and content[1] < len(CODES):
        reply = Reply(*content[1:])
        if reply.inner in (range(1, len(CAUSES)) if reply.code == NOT_QUEUED else (0,)):
            return reply
    raise ValueError(f"{content.hex()} is no reply")


def receive(link, count, ends):
    """Returns the next bytes of a link, so many, which have to come by the time `ends`."""
    held = b""
    while len(held) < count:
        link.settimeout(max(ends - time.monotonic(), 0.001))
        piece = link.recv(count - len(held))
        if not piece or time.monotonic() > ends:
            raise ConnectionError("the validator ends the connection, or is late")
        held += piece
    return held


def send(address, frame, seconds=10.0):
    """Sends a transaction's frame to the validator at this host and port, and returns its reply.

    OSError: it can't be connected to, ends the connection, or hasn't replied in time. ValueError: its reply is none.
    """
    with socket.create_connection(address, timeout=seconds) as link:
        # (a name may have several addresses, each of which is given as long)
        ends = time.monotonic() + seconds
        link.sendall(frame)
        while True:
            (length,) = struct.unpack(">I", receive(link, 4, ends))
            if length > MAX_FRAME:
                raise ConnectionError("the validator sends a frame above the limit")
            content = receive(link, length, ends)
            # (what the validator says to all comes on this link too)
            if content[:1] == bytes([REPLY]):
                return read_reply(content)


class Item(NamedTuple):
    """A transaction in a list, of which a close has no data."""

    position: int
    client: int
    session: int
    number: int
    data: Optional[bytes]


def read_list(lines):
    """Yields each item of a validator's list once, also where later starts of it have printed them again.

    A last line without its line feed is still being written. BadFile: a line is no item, or the item before it is missing.
    """
    count = 0
    for line in lines:
        if not line.endswith("\n"):
            return
        found = ITEM.fullmatch(line)
        if not found or int(found[1]) > count:
            raise BadFile(f"no item that may stand behind {count} others: {line!r}")
        if int(found[1]) == count:
            data = None if found[5] == "close" else bytes.fromhex(found[5].strip("-"))
            yield Item(count, int(found[2]), int(found[3] or 0), int(found[4]), data)
            count += 1


def place_behind(items, client):
    """Returns the session and the number that come next for a client. BadFile: the items don't keep its order."""
    session, number = 0, 1
    for item in items:
        if item.client == client:
            if (item.session, item.number) != (session, number):
                raise BadFile(f"item {item.position} isn't the next one of client {client}")
            session, number = (session + 1, 1) if item.data is None else (session, number + 1)
    return session, number


def address_of(word):
    """Returns the host and the port of HOST:PORT. ValueError: it has another form."""
    host, _, port = word.rpartition(":")
    if not host or not (port.isascii() and port.isdecimal()) or int(port) not in range(1, 1 << 16):
        raise ValueError(f"{word} is no HOST:PORT")
    return host.strip("[]"), int(port)


def run_send(given):
    """Sends one transaction to all addresses at once, and prints their answers in order."""
    if not 0 < given.timeout <= MAX_TIMEOUT:
        raise ValueError("the timeout is out of range")
    with open(given.keys, "rb") as file:
        client = Client(file.read(), given.client, given.validators)
    frame, words = client.frame(given.session, given.number, given.data), given.to.split(",")

    def answer_of(address):
        try:
            return send(address, frame, given.timeout)
        except (OSError, ValueError) as fault:
            print(f"pomtsjef.py: cannot connect to {address[0]}:{address[1]}: {fault}", file=sys.stderr)
            return None

    with ThreadPoolExecutor(len(words)) as pool:
        answers = list(pool.map(answer_of, [address_of(it) for it in words]))
    for word, answer in zip(words, answers):
        front = f"{word} {given.number} " if len(words) > 1 else ""
        print(f"{front}{answer or 'unanswered'}")
    return 5 if None in answers else int(any(it.code for it in answers))


def run_where(given):
    """Prints where a client is behind a list."""
    if given.client not in CLIENTS:
        raise ValueError("the client is out of range")
    with open(0 if given.list == "-" else given.list, encoding="ascii", errors="replace", newline="\n") as lines:
        session, number = place_behind(read_list(lines), given.client)
    print(f"session {session} number {number}")
    return 0


def main():
    words = argparse.ArgumentParser(description=__doc__.splitlines()[0], allow_abbrev=False)
    commands = words.add_subparsers(required=True, metavar="send | where")
    sending = commands.add_parser("send", allow_abbrev=False, help="send one transaction, and print each answer")
    sending.add_argument("--keys", required=True, metavar="FILE")
    sending.add_argument("--client", required=True, type=int, metavar="C")
    sending.add_argument("--validators", required=True, type=int, metavar="N")
    sending.add_argument("--to", required=True, metavar="ADDR[,ADDR..]")
    sending.add_argument("--session", default=0, type=int, metavar="S")
    sending.add_argument("--number", required=True, type=int, metavar="M")
    sending.add_argument("--timeout", default=10.0, type=float, metavar="SECONDS")
    content = sending.add_mutually_exclusive_group(required=True)
    content.add_argument("--data", type=bytes.fromhex, metavar="HEX")
    content.add_argument("--close", action="store_true")
    sending.set_defaults(run=run_send)
    finding = commands.add_parser("where", allow_abbrev=False, help="print the session and the number that come next")
    finding.add_argument("--client", required=True, type=int, metavar="C")
    finding.add_argument("list", metavar="LIST", help="a file, or - for standard input")
    finding.set_defaults(run=run_where)
    given = words.parse_args()
    try:
        return given.run(given)
    except (BadFile, OSError) as fault:
        print(f"pomtsjef.py: {fault}", file=sys.stderr)
        return 3
    except ValueError as fault:
        return words.error(str(fault))


if __name__ == "__main__":
    sys.exit(main())
