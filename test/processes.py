#!/usr/bin/env python3
"""Tries the program tmnode as processes on this machine: what each failure says, and what a cluster outlives.

usage: test/processes.py [--long] [--with PROGRAM] [TEST..]

PROGRAM is a built tmnode, bin/tmnode if none is named. --long kills fifty times instead of five, cuts a validator off five
times instead of two, and sends a hundred megabytes of noise instead of four. Each test has a line, also one that this machine
can't run, which is left out; the last line is 'N passed, M failed', and the status 0 where nothing failed. The folder of a
test that failed stays, with what its validators wrote.
"""
import argparse
import contextlib
import os
import queue
import random
import shutil
import socket
import subprocess
import sys
import tempfile
import threading
import time

TOP = os.path.dirname(os.path.dirname(os.path.realpath(__file__)))
IN_PYTHON = f"{TOP}/clients/python"
sys.path.append(IN_PYTHON)
import pomtsjef
from config_trials import CONFIG_TRIALS
from journal_trials import JOURNAL_TRIALS, want_journals_shown
from link_trials import LINK_TRIALS
from log_lines import LogLines
from metrics_trials import METRICS_TRIALS
from validators import (
    PATIENCE,
    PRECOMMIT,
    PREVOTE,
    PROPOSAL,
    Client,
    Cluster,
    Failed,
    Heading,
    LeftOut,
    MARK,
    POWERS,
    Tap,
    Wires,
    allow_files,
    among,
    decisions_in,
    dial,
    end_when_told,
    free_addresses,
    hold,
    limited,
    peak_of,
    proposals_in,
    read,
    records_of,
    saved_by,
    transaction_frame,
    vote_by,
    want,
    want_all_ended,
    want_one_for_each_step,
)

CLIENTS = (7, 9)


# ---- what each failure says


def failures_of_words(cluster, _):
    for words in ([], ["walk"], [b"\xff"], cluster.words(4)[1:], cluster.words(0, start=86_400_001)[1:]):
        ran = subprocess.run([cluster.program, *words], capture_output=True, text=True, timeout=30, check=False)
        told = ran.returncode, ran.stderr
        want(told == (2, "tmnode: usage\n"), f"{words} is told {told}")


def failures_of_files(cluster, _):
    for name, text in (("empty.keys", ""), ("bad.keys", "v0 v0 1\n"), ("none.journal", "this is no journal\n")):
        with open(cluster.path(name), "w", encoding="utf-8") as it:
            it.write(text)
    for changed, wanted in (
        ({"keys": cluster.path("nowhere.keys")}, (3, "tmnode: keys 0")),
        ({"keys": cluster.path("bad.keys")}, (3, "tmnode: keys 1")),
        ({"keys": cluster.path("empty.keys")}, (3, "tmnode: keys 2")),
        ({"journal": cluster.folder}, (4, "tmnode: journal 0")),
        ({"journal": cluster.path("none.journal")}, (4, "tmnode: journal 3")),
    ):
        told = cluster.run_out(0, changed)
        want(told == wanted, f"{changed} is told {told}, and not {wanted}")


def keys_are_made_once(cluster, _):
    names = sorted(os.listdir(cluster.path("keys")))
    want(names == sorted([f"v{it}.keys" for it in range(4)] + [f"c{it}.keys" for it in range(10)]), f"there are {names}")
    before = {it: read(cluster.path(f"keys/{it}")) for it in names}
    modes = {oct(os.stat(cluster.path(f"keys/{it}")).st_mode & 0o777) for it in names}
    want(modes == {"0o600"}, f"the files' modes are {modes}")
    told = cluster.make_keys()
    want(told == (3, "tmnode: keys 4\n"), f"keys that are there are told {told}")
    want(before == {it: read(cluster.path(f"keys/{it}")) for it in names}, "keys that were there are others now")


def failures_of_sockets(cluster, _):
    told = cluster.send(7, 0, 1, "--close")
    want(told == (5, "tmnode: cannot connect"), f"a closed port is told {told}")
    host, port = cluster.addresses[0].split(":")
    with socket.create_server((host, int(port))) as listener:
        told = cluster.run_out(0)
        want(told == (5, "tmnode: cannot listen"), f"an address that is taken is told {told}")
        told = cluster.send_to_one_that_hangs_up(listener)
    want(told == (5, "tmnode: cannot connect"), f"a connection that ends before a reply is told {told}")


def failures_of_the_system(cluster, _):
    told = cluster.run_out(0, **limited(FSIZE=0))
    want(told == (4, "tmnode: journal 1"), f"a journal that takes no byte is told {told}")
    with open(cluster.path("long.keys"), "w", encoding="utf-8") as it:
        it.truncate(4 << 30)
    told = cluster.run_out(0, {"keys": cluster.path("long.keys")}, **limited(AS=1 << 30))
    want(told == (7, "tmnode: out of memory"), f"a key file of four gigabytes is told {told}")


def a_second_process_over_one_journal(cluster, _):
    cluster.start(0)
    ends = time.monotonic() + PATIENCE
    while not os.path.isfile(cluster.path("v0.journal")) and time.monotonic() < ends:
        time.sleep(0.05)
    told = cluster.run_out(0, {"peers": ",".join(free_addresses(4))})
    want(told == (4, "tmnode: journal 0"), f"a second process is told {told}")


def halts_and_comes_back(cluster, changed, make_room, **how):
    """Wants a validator that can't save to halt, and to come back with all that it had once there is room."""
    for me in (0, 1, 2):
        cluster.start(me)
    cluster.start(3, changed, **how)
    journal = changed.get("journal", cluster.path("v3.journal"))
    for number in range(1, 13):
        cluster.send_until_taken(7, 0, number, "--data", "61" * 200)
    cluster.want_same(12, 0, 1, 2)
    status = cluster.running[3].wait(timeout=PATIENCE)
    want(status == 6, f"the validator ends with status {status}")
    want(read(cluster.path("v3.log")).endswith("tmnode: halted\n"), "it doesn't say that it halted")
    before, saved = read(cluster.list_of(3)).rstrip("\n"), records_of(journal)
    make_room()
    cluster.start(3, changed)
    after = cluster.want_same(12, 0, 3)
    want("\n".join(after).startswith(before), "what it delivered before is gone")
    want(records_of(journal)[: len(saved)] == saved, "what it saved before is gone")
    want_one_for_each_step(journal)


def a_file_that_may_not_grow(cluster, _):
    halts_and_comes_back(cluster, {}, lambda: None, **limited(FSIZE=4_096))


def a_full_disk(cluster, _):
    small = cluster.path("small")
    os.mkdir(small)
    if subprocess.run(["mount", "-t", "tmpfs", "-o", "size=8k", "none", small], capture_output=True, check=False).returncode:
        raise LeftOut("no file system can be mounted here")
    try:
        grow = ["mount", "-o", "remount,size=64m", small]
        halts_and_comes_back(cluster, {"journal": f"{small}/v3.journal"}, lambda: subprocess.run(grow, check=True))
    finally:
        cluster.end()
        subprocess.run(["umount", small], check=True)


# ---- what a cluster does, and outlives


def four_print_the_same_and_end(cluster, _):
    for me in range(4):
        cluster.start(me, {"stop": 2})
    cluster.send_until_taken(7, 0, 1, "--data", "61")
    cluster.send_until_taken(7, 0, 2, "--close")
    lists = {me: cluster.list_of(me) for me in range(4)}
    want_all_ended({**cluster.running}, cluster.start)
    for me in range(4):
        want(read(lists[me]) == "0 7 1 61\n1 7 2 close\n", f"validator {me} prints {read(lists[me])!r}")


def what_a_client_is_told(cluster, _):
    for me in range(4):
        cluster.start(me)
    cluster.send_until_taken(7, 0, 1, "--data", "61")
    cluster.want_same(1, *range(4))
    told = cluster.send(7, 0, 1, "--data", "61")
    want(told == (1, "refused 13 3"), f"an old number is told {told}")


def prints_from_a_position(cluster, _):
    """Validators that are started again print the list from a position on: one that they have, and one that is still to come."""
    for me in range(4):
        cluster.start(me)
    for number in range(1, 4):
        cluster.send_until_taken(7, 0, number, "--data", f"0{number}")
    cluster.want_same(3, *range(4))
    for me, first in ((2, 1), (3, 4)):
        cluster.kill(me)
        cluster.start(me, {"from": first})
    for number in range(4, 6):
        cluster.send_until_taken(7, 0, number, "--data", f"0{number}")
    for me, first in ((2, 1), (3, 4)):
        lines = cluster.wait_for(5 - first, me)[0]
        want(lines == [f"{it} 7 {it + 1} 0{it + 1}" for it in range(first, 5)], f"from position {first} on validator {me} prints {lines}")


def send_of_many(cluster, _):
    """A file of transactions goes to every validator: more of them than a client's queue holds."""
    lines = [*(f"{it:08x}" for it in range(300)), "-", "close"]
    file = cluster.file_of(lines)
    for me in range(4):
        cluster.start(me)
    cluster.send_until_taken(9, 0, 1, "--data", "")
    cluster.want_same(1, *range(4))
    status, told = cluster.send_file(7, 1, file)
    want(status in (0, 1), f"the file is told {status}, {told[:200]}")
    answers = [it.split(" ", 2) for it in told.splitlines()]
    for address in cluster.addresses:
        mine = [it for it in answers if it[0] == address]
        want([int(it[1]) for it in mine] == list(range(1, len(lines) + 1)), f"{address} tells {len(mine)} answers")
        # (what stands in the list already has an old number)
        want({it[2] for it in mine} <= {"accepted", "refused 13 3"}, f"{address} tells {sorted({it[2] for it in mine})}")
    numbers = {it[1] for it in answers if it[2] == "accepted"}
    want(len(numbers) == len(lines), f"{len(numbers)} transactions of {len(lines)} are accepted")
    listed = [it.split()[2:] for it in cluster.want_same(len(lines) + 1, *range(4)) if it.split()[1] == "7"]
    want(listed == [[str(at), it] for at, it in enumerate(lines, 1)], "the list has other transactions")


def a_file_that_is_none(cluster, _):
    told = cluster.send_file(7, 1, cluster.file_of(["61", "-", "6"]))
    want(told == (8, "tmnode: line 3"), f"a bad line is told {told}")
    told = cluster.send_file(7, 1 << 48, cluster.file_of(["61", "61"]))
    want(told == (8, "tmnode: line 2"), f"a line behind the last number is told {told}")
    told = cluster.send_file(7, 1, cluster.path("absent"))
    want(told == (8, "tmnode: line 0"), f"an absent file is told {told}")


def a_validator_that_is_gone_is_told(cluster, _):
    """Those that can be reached take the transactions, and of the other it is said."""
    for me in range(3):
        cluster.start(me)
    cluster.send_until_taken(9, 0, 1, "--data", "")
    cluster.want_same(1, *range(3))
    status, told = cluster.send_file(7, 1, cluster.file_of(["61", "62"]))
    want(status == 5 and told.endswith("tmnode: cannot connect"), f"the file is told {status}, {told}")
    gone = [it for it in told.splitlines() if it.startswith(cluster.addresses[3])]
    want(gone == [f"{cluster.addresses[3]} {it} unanswered" for it in (1, 2)], f"of the one that is gone it is told {gone}")
    cluster.want_same(3, *range(3))


def send_no_replies(server):
    """Takes a connection, and sends frames that are no replies on it, one a second, until it ends."""
    with contextlib.suppress(OSError):
        link = server.accept()[0]
        with link:
            while True:
                link.sendall(bytes.fromhex("000000017f"))
                time.sleep(1)


def one_that_hangs_is_given_up(cluster, is_long):
    """Addresses that take no connection, answer nothing, or send what is no reply are given up, and the others are asked meanwhile."""
    for me in range(4):
        cluster.start(me)
    cluster.send_until_taken(9, 0, 1, "--data", "")
    servers = [socket.create_server(("127.0.0.1", 0), backlog=it) for it in (0, 1, 1)]
    with servers[0] as full, servers[1], servers[2] as noisy:
        full_address, *mute = (f"127.0.0.1:{it.getsockname()[1]}" for it in servers)
        held = [socket.create_connection(full.getsockname())]
        threading.Thread(target=send_no_replies, args=(noisy,), daemon=True).start()
        words = cluster.words_of_send(7, 0, 1, "--data", "61")
        words[words.index("--to") + 1] = ",".join([full_address, *mute, cluster.addresses[0]])
        began = time.monotonic()
        with subprocess.Popen(words, stdout=subprocess.PIPE, stderr=subprocess.PIPE, text=True) as sender:
            told = [sender.stdout.readline() for _ in range(2)]
            took = time.monotonic() - began
            want(told == [f"{full_address} 1 unanswered\n", f"{cluster.addresses[0]} 1 accepted\n"] and took < 60, f"after {took:.1f} s it is told {told}")
            if is_long:
                status = sender.wait(timeout=PATIENCE)
                want(status == 5 and time.monotonic() - began < 100, f"those that hang are told {status} after {time.monotonic() - began:.0f} s")
                told = sorted(sender.stdout.read().splitlines())
                want(told == sorted(f"{it} 1 unanswered" for it in mute), f"of those that answer nothing it is told {told}")
            else:
                sender.kill()
        for it in held:
            it.close()
    cluster.want_same(2, *range(4))


def who_reads_nothing_is_told(cluster, _):
    """What a link has no room for is dropped, and the log says so: of one that reads no frames, and of a client that reads no replies."""
    for me in range(4):
        cluster.start(me, {"idle": 0})
    cluster.send_until_taken(9, 0, 1, "--data", "")
    slow = [socket.socket() for _ in range(2)]
    for it in slow:
        it.setsockopt(socket.SOL_SOCKET, socket.SO_RCVBUF, 2_048)
        it.connect(("127.0.0.1", int(cluster.addresses[0].split(":")[1])))
    frames = transaction_frame(9, 1, b"", cluster.tag_keys_of(9)) * 200
    wanted = ["frames are dropped, since a link has no room", "replies are dropped, since their link has no room"]
    ends = time.monotonic() + PATIENCE
    while missing := [it for it in wanted if it not in read(cluster.path("v0.log"))]:
        want(time.monotonic() < ends, f"the log says nothing of {missing}")
        slow[0].settimeout(0.05)
        try:
            slow[0].sendall(frames)
        except OSError:
            time.sleep(0.05)
    for it in slow:
        it.close()


def a_list_that_cannot_be_written(cluster, _):
    """A validator whose list goes to a full disk says so, goes on, and its journal has all."""
    for me in range(3):
        cluster.start(me)
    with open("/dev/full", "w", encoding="utf-8") as full, open(cluster.path("v3.log"), "w", encoding="utf-8") as log:
        cluster.running[3] = subprocess.Popen(cluster.words(3), stdout=full, stderr=log)
    cluster.send_until_taken(9, 0, 1, "--data", "")
    cluster.send_until_taken(9, 3, 2, "--data", "")
    status, told = cluster.send_file(7, 1, cluster.file_of(["61" * 1000] * 60))
    want(status in (0, 1), f"the file is told {status}, {told[:200]}")
    cluster.want_same(62, *range(3))
    ends = time.monotonic() + PATIENCE
    while "the list cannot be written, so it lacks lines from position " not in read(cluster.path("v3.log")):
        want(time.monotonic() < ends, f"it says nothing of its list: {read(cluster.path('v3.log'))[-400:]!r}")
        time.sleep(0.1)
    want(cluster.running[3].poll() is None, "it has ended")
    while (listed := cluster.listed_by_journal(3)) != (wanted := read(cluster.list_of(0)).splitlines()):
        want(time.monotonic() < ends, f"its journal has {len(listed)} lines of {len(wanted)}")
        time.sleep(0.1)


def a_list_whose_end_is_lost(cluster, _):
    """A validator that ends by --stop says so where the end of its list can't be written."""
    for me in range(3):
        cluster.start(me)
    with open("/dev/full", "w", encoding="utf-8") as full, open(cluster.path("v3.log"), "w", encoding="utf-8") as log:
        cluster.running[3] = subprocess.Popen(cluster.words(3, stop=1), stdout=full, stderr=log)
    cluster.send_until_taken(9, 0, 1, "--data", "61")
    want(cluster.running[3].wait(PATIENCE) == 0, "it fails")
    want("the list cannot be written, so it lacks its last lines" in read(cluster.path("v3.log")), "it says nothing of its list")


def streams_that_are_closed(cluster, _):
    """A validator that is started with its standard streams closed writes neither its list nor its log into its journal."""
    for me in range(3):
        cluster.start(me)
    for number, closed in enumerate(((0, 1), (1, 2), (0, 1, 2)), 1):
        cluster.running[3] = subprocess.Popen(cluster.words(3), preexec_fn=lambda closed=closed: [os.close(it) for it in closed])
        cluster.send_until_taken(9, 3, number, "--data", "61")
        cluster.want_same(number, *range(3))
        want(cluster.running[3].poll() is None, f"without {closed} it ends")
        cluster.kill(3)
    cluster.start(3)
    cluster.want_same(3, *range(4))


def take_little(link, ended):
    """Takes 32 kB a second of what comes on a link: as little as has the other side send something each two seconds."""
    with contextlib.suppress(OSError):
        while not ended.wait(0.2) and link.recv(6_400):
            pass


def a_reader_that_takes_little(cluster, _):
    """A validator ends within seconds though a link takes what waits for it a little at a time."""
    cluster.start(0, {"stop": 1_153})
    for me in range(1, 4):
        cluster.start(me)
    cluster.send_until_taken(9, 1, 1, "--data", "61")
    cluster.want_same(1, *range(4))
    host, port = cluster.addresses[0].split(":")
    with socket.socket() as link:
        link.setsockopt(socket.SOL_SOCKET, socket.SO_RCVBUF, 4_096)
        # (so that the validator's side holds little, too)
        link.setsockopt(socket.IPPROTO_TCP, socket.TCP_MAXSEG, 536)
        link.connect((host, int(port)))
        ended = threading.Event()
        reader = threading.Thread(target=take_little, args=(link, ended))
        reader.start()
        try:
            for number in (1, 65):
                for client in range(9):
                    # (only the validator that has them proposes them)
                    told = cluster.send(client, 0, number, "--file", cluster.file_of(["61" * 1_000] * 64))
                    want(told[0] == 0, f"the file is told {told[0]}, {told[1][-200:]}")
                cluster.wait_for(9 * (number + 63) + 1, 0)
            began = time.monotonic()
            want(cluster.running[0].wait(30) == 0, "it fails")
        finally:
            ended.set()
            reader.join()
    took = time.monotonic() - began
    # (what waits would take half a minute)
    want(5 < took < 16, f"it ends after {took:.1f} s")


def nothing_to_do(cluster, _):
    """Validators with nothing to propose rest, and a transaction wakes them."""
    for me in range(4):
        cluster.start(me, {"start": 4_000, "idle": 2_000})
    cluster.send_until_taken(9, 0, 1, "--data", "")
    cluster.want_same(1, *range(4))
    before = cluster.decisions_of(0)
    time.sleep(3)
    want(cluster.decisions_of(0) - before <= 3, f"{cluster.decisions_of(0) - before} heights are decided in three seconds of rest")
    began = time.monotonic()
    cluster.send_file(7, 1, cluster.file_of(["61"]))
    cluster.want_same(2, *range(4))
    took = time.monotonic() - began
    want(took < 1.5, f"a transaction waits for {took:.1f} s")


def kills(cluster, is_long):
    """Kills a validator, or all at once, at a random moment while clients send, and starts it again. What it printed it prints
    again, and what it sent stands in its journal, with one message at most for each step."""
    tap = Tap()
    wires = Wires(cluster.addresses, tap.passes)
    peers = [{"peers": wires.peers_of(it)} for it in range(4)]
    for me in range(4):
        cluster.start(me, peers[me])
    clients = [Client(cluster, it) for it in CLIENTS]
    for it in clients:
        it.start()
    cluster.wait_for(1, *range(4))
    chance = random.Random(1)
    for turn in range(50 if is_long else 5):
        time.sleep(chance.random() / 2)
        victims = range(4) if turn % 5 == 4 else [chance.randrange(4)]
        for it in victims:
            cluster.kill(it)
        before = [read(cluster.list_of(it)).rstrip("\n") for it in victims]
        time.sleep(chance.random() / 5)
        for it in victims:
            cluster.start(it, peers[it])
        for it, lines in zip(victims, before):
            again = cluster.wait_for(lines.count("\n") + 2, it)[0]
            want("\n".join(again).startswith(lines), f"what validator {it} printed before is gone")
    counts = [it.end() for it in clients]
    lines = cluster.want_same(sum(counts), *range(4))
    for client, count in zip(CLIENTS, counts):
        numbers = [int(it.split()[2]) for it in lines if it.split()[1] == str(client)]
        want(numbers == list(range(1, count + 1)), f"client {client} has the numbers {numbers}")
    cluster.end()
    for me, sent in enumerate(tap.bodies):
        path = cluster.path(f"v{me}.journal")
        want_one_for_each_step(path)
        want(sent and sent <= set(saved_by(path)), f"validator {me} has sent what isn't in its journal")


def goes_on_in_its_next_session(cluster, is_long):
    """A client closes and goes on in its next session, while a validator is killed and started again over a journal that has some
    of its sessions. All have the same list, and the client is told which session is next."""
    for me in range(4):
        cluster.start(me)
    wanted = []
    for session in range(20 if is_long else 4):
        sender = f"7.{session}" if session else "7"
        in_session = ("--session", str(session))
        cluster.send_until_taken(7, 0, 1, *in_session, "--data", "61")
        cluster.kill(3)
        cluster.send_until_taken(7, 1, 2, *in_session, "--data", "")
        cluster.send_until_taken(7, 2, 3, *in_session, "--close")
        cluster.start(3)
        wanted += [f"{sender} 1 61", f"{sender} 2 -", f"{sender} 3 close"]
        lines = cluster.want_same(len(wanted), *range(4))
        want(lines == [f"{at} {it}" for at, it in enumerate(wanted)], f"the list is {lines}")
        for words, answer in (
            ((4, *in_session, "--data", "61"), "refused 13 5"),
            ((3, *in_session, "--close"), "refused 13 3"),
            ((1, "--session", str(session + 2), "--data", "61"), "refused 13 9"),
            ((2, "--session", str(session + 1), "--data", "61"), "refused 13 4"),
        ):
            told = cluster.send(7, 3, *words)
            want(told == (1, answer), f"{words} is told {told} after session {session}")


def a_file_is_one_session(cluster, _):
    """What stands behind a close in a file is refused, and the next file goes on in the next session."""
    for me in range(4):
        cluster.start(me)
    cluster.send_until_taken(9, 0, 1, "--data", "")
    cluster.want_same(1, *range(4))
    status, told = cluster.send_file(7, 1, cluster.file_of(["61", "close", "62"]))
    answers = {it.split(" ", 1)[1] for it in told.splitlines()}
    want(status == 1 and "3 refused 13 5" in answers, f"a line behind a close is told {status}, {told}")
    cluster.want_same(3, *range(4))
    status, told = cluster.send_file(7, 1, cluster.file_of(["62", "close"]), "--session", "1")
    want(status in (0, 1), f"the second file is told {status}, {told}")
    lines = cluster.want_same(5, *range(4))
    want(lines[1:] == ["1 7 1 61", "2 7 2 close", "3 7.1 1 62", "4 7.1 2 close"], f"the list is {lines}")


def a_journal_of_before_sessions(cluster, _):
    """A journal without the mark, as one that was written before there were sessions, is carried over when it is opened."""
    journal = cluster.path("v3.journal")
    for me in range(4):
        cluster.start(me)
    cluster.send_until_taken(7, 0, 1, "--data", "61")
    cluster.send_until_taken(7, 0, 2, "--close")
    cluster.want_same(2, *range(4))
    cluster.kill(3)
    with open(journal, "rb") as it:
        held = it.read()
    with open(journal, "wb") as it:
        # (the mark is the first record, of five bytes, behind a header of four)
        it.write(held[:4] + held[13:])
    want(all(it[0] != MARK for it in records_of(journal)), "the mark isn't the first record")
    before = records_of(journal)
    cluster.start(3)
    cluster.send_until_taken(7, 3, 1, "--session", "1", "--data", "62")
    lines = cluster.want_same(3, *range(4))
    want(lines == ["0 7 1 61", "1 7 2 close", "2 7.1 1 62"], f"the list is {lines}")
    after = records_of(journal)
    want(after[: len(before)] == before, "a record of before is another one now")
    want([at for at, it in enumerate(after) if it[0] == MARK] == [len(before)], "the mark doesn't stand once, behind what was there")


@among("5,1,1,1,1,1,1")
def proposers_by_power(cluster, is_long):
    """Of eleven heights in turn the first validator of seven proposes five, and each other one of them one."""
    for me in range(7):
        cluster.start(me, {"start": 1_000, "idle": 0})
    cluster.send_until_taken(7, 6, 1, "--data", "61")
    cluster.want_same(1, *range(7))
    for me in range(7):
        cluster.wait_for_heights(110 if is_long else 33, me, PATIENCE)
    cluster.end()
    proposed = {it: me for me in range(7) for it in proposals_in(cluster.path(f"v{me}.journal"))}
    for (height, turn), me in proposed.items():
        # (validator 0 has the turns 0 to 4 of eleven, and validator 1 the next one)
        place = (height + turn) % 11
        wanted = 0 if place < 5 else place - 4
        want(me == wanted, f"height {height} has in round {turn} a proposal of validator {me}, and not {wanted}")
    for me in range(7):
        decided = decisions_in(cluster.path(f"v{me}.journal"))
        want(all(it in proposed for it in decided), f"validator {me} has decided what nobody proposed")
        want([it[0] for it in decided] == list(range(len(decided))), f"validator {me} has decided {decided}")
    want(set(proposed.values()) == set(range(7)), f"only {sorted(set(proposed.values()))} have proposed")


@among("100,100,100,100")
def a_far_turn_is_not_waited_for(cluster, _):
    """The last of four validators proposes only after three hundred heights. It alone is sent transactions, one as soon as the one
    before is delivered, and passes each on: none waits for more than some heights."""
    for me in range(4):
        cluster.start(me, {"links": "guarded", "idle": 100})
    for number in range(1, 12):
        cluster.send_until_taken(7, 3, number, "--data", "61")
        cluster.want_same(number, *range(4))
    passed = cluster.decisions_of(0)
    want(passed < 100, f"{passed} heights are decided until eleven transactions are delivered")


def cut_off(cluster, is_long):
    """Links delay all that they carry, and for a while nothing comes to or from a validator: it prints a beginning of the list,
    and catches up."""
    is_cut, chance, count = threading.Event(), random.Random(3), 0

    def passes(source, target, _):
        time.sleep(chance.random() / 100)
        return not (is_cut.is_set() and 3 in (source, target))

    wires = Wires(cluster.addresses, passes)
    for me in range(4):
        cluster.start(me, {"peers": wires.peers_of(me)})
    for _ in range(5 if is_long else 2):
        is_cut.set()
        for _ in range(5):
            count += 1
            cluster.send_until_taken(7, 0, count, "--data", f"{count:04x}")
        lines = cluster.want_same(count, 0, 1, 2)
        own = read(cluster.list_of(3)).splitlines()
        want(len(own) < count and own == lines[: len(own)], f"validator 3, which is cut off, prints {own}")
        is_cut.clear()
        cluster.want_same(count, *range(4))


def far_behind(cluster, _):
    """A validator that is a thousand heights behind catches up in the turns of a link, and not in those of a timer."""
    quick = {"start": 2, "delta": 1, "idle": 0}
    for me in range(3):
        cluster.start(me, quick)
    cluster.wait_for_heights(1_000, 0, PATIENCE)
    cluster.start(3, quick)
    cluster.wait_for_heights(1_000, 3, PATIENCE)
    cluster.send_until_taken(7, 3, 1, "--data", "61")
    cluster.send_until_taken(7, 0, 1, "--data", "61")
    cluster.want_same(1, *range(4))


def a_prevote_that_reached_one_alone(cluster, _):
    """Validator 0 locks its value by a prevote of validator 3 that nobody else got, and that one is gone. The two others, who
    prefer another value, decide with it once what it got may reach them."""
    seen, is_open = queue.Queue(), threading.Event()

    def passes(source, target, frame):
        heading = Heading(frame)
        if (source, heading.kind, heading.round) == (0, PREVOTE, 0):
            seen.put(frame)
        of_third = heading.sender == 3
        return is_open.is_set() or not (of_third or (heading.kind == PROPOSAL and heading.round == 0 and target == 2))

    wires = Wires(cluster.addresses, passes)
    for me in range(3):
        # (what validator 0 said before its links were there comes a second later)
        cluster.start(me, {"peers": ",".join(wires.addresses_for(me, {0, 1, 2} - {me})), "start": 1_500, "delta": 0, "idle": 0})
    for me in (1, 2):
        cluster.send_until_taken(7, me, 1, "--data", "61")
    with dial(cluster.addresses[0]) as link:
        link.sendall(vote_by(seen.get(timeout=PATIENCE), 3, cluster.keys_of("v3")))
        precommits = [cluster.wait_for_precommit(it) for it in range(3)]
    want(precommits == [(0, True), (0, False), (0, False)], f"the first precommits are {precommits}")
    want([cluster.decisions_of(it) for it in range(3)] == [0, 0, 0], "a height is decided by two alone")
    is_open.set()
    cluster.want_same(1, 0, 1, 2)


def a_wall_clock_that_is_set(cluster, _):
    """The wall clock goes a day forward or back at each reading, and nobody minds."""
    library = cluster.path("set_clock.so")
    words = ["gcc", "-O1", "-shared", "-fPIC", "-o", library, f"{TOP}/test/set_clock.c", "-ldl"]
    if shutil.which("gcc") is None or subprocess.run(words, capture_output=True, check=False).returncode:
        raise LeftOut("gcc makes no library here")
    for me in range(4):
        cluster.start(me, env={**os.environ, "LD_PRELOAD": library})
    for number in range(1, 6):
        cluster.send_until_taken(7, 0, number, "--data", "61")
        cluster.want_same(number, *range(4))
    began, before = time.monotonic(), cluster.decisions_of(0)
    time.sleep(3)
    heights = cluster.decisions_of(0) - before
    # (at rest a height takes the hundred milliseconds of --idle, and its turns)
    want(heights >= 5 * (time.monotonic() - began) / 3, f"{heights} heights are decided in three seconds of rest")


def a_clock_that_begins_anew(cluster, _):
    """A validator's clock stands elsewhere after each of its starts, as after that of a machine."""
    if subprocess.run(["unshare", "--time", "--monotonic", "1000", "true"], capture_output=True, check=False).returncode:
        raise LeftOut("there are no time namespaces here")
    for me in range(3):
        cluster.start(me)
    count = 0
    for since in (1_000_000, 0, 2_000_000):
        cluster.start(3, in_front=["unshare", "--time", "--monotonic", str(since)])
        for _ in range(3):
            count += 1
            cluster.send_until_taken(7, 0, count, "--data", "61")
        cluster.want_same(count, *range(4))
        cluster.kill(3)


def what_is_logged(cluster, _):
    """Each level leaves out what is behind it, and a failure is told at any."""
    told = cluster.run_out(0, {"log": "loud"})
    want(told == (2, "tmnode: usage"), f"a level that is none is told {told}")
    for me, level in enumerate(("info", "WARN", "error", "off")):
        cluster.start(me, {"log": level})
        # (so that one can't be reached at first)
        time.sleep(0.5)
    cluster.send_until_taken(7, 0, 1, "--data", "61")
    cluster.want_same(1, *range(4))
    cluster.end()
    lines = [read(cluster.path(f"v{it}.log")).splitlines() for it in range(4)]
    begun = [it for it in lines[0] if it.startswith("[INFO ") and it.endswith("validator 0 is at height 0, with 0 decisions in its journal")]
    want(len(begun) == 1, f"with info it logs {lines[0]}")
    want(all(it.startswith(("[INFO ", "[WARN ")) for it in lines[0]), f"with info it logs {lines[0]}")
    want(lines[1] and all(it.startswith("[WARN ") for it in lines[1]), f"with warn it logs {lines[1]}")
    want(lines[2:] == [[], []], f"with error and off they log {lines[2:]}")
    told = cluster.run_out(0, {"log": "off", "journal": cluster.folder})
    want(told == (4, "tmnode: journal 0"), f"a failure is told {told} with off")


def status_of(address):
    """Returns the height, the delivered items and the links that a validator tells."""
    with dial(address) as link, link.makefile(encoding="ascii") as stream:
        line = stream.read()
    words = line.split(" ")
    want(line.endswith("\n") and words[::2] == ["height", "delivered", "links"] and len(words) == 6, f"the status is {line!r}")
    return [int(it) for it in words[1::2]]


def how_far_it_is(cluster, _):
    """A validator tells its status at each connection, whoever else is connected there."""
    tells = free_addresses(4)
    told = cluster.run_out(0, {"status": cluster.addresses[0]})
    want(told == (5, "tmnode: cannot listen"), f"an address that is taken is told {told}")
    for me in range(4):
        cluster.start(me, {"status": tells[me]})
    for number in range(1, 4):
        cluster.send_until_taken(7, 0, number, "--data", "61")
        cluster.want_same(number, *range(4))
        for tell in tells:
            height, delivered, links = status_of(tell)
            want(height > 0 and delivered == number and 3 <= links <= 6, f"the status is {height, delivered, links}")
    held = [dial(tells[0]) for _ in range(50)]
    before = status_of(tells[0])[0]
    time.sleep(1)
    want(status_of(tells[0])[0] > before, "the height stays")
    guests = [dial(cluster.addresses[0]) for _ in range(5)]
    ends = time.monotonic() + PATIENCE
    while (links := status_of(tells[0])[2]) < 8:
        want(time.monotonic() < ends, f"{links} links are told, and five guests are there")
    for it in held + guests:
        it.close()
    while (links := status_of(tells[0])[2]) > 6:
        want(time.monotonic() < ends, f"{links} links are told, and the guests have gone")
    for tell in tells:
        want(status_of(tell)[1] == 3, "another count of items is told")


def the_example(cluster, _):
    """The client to be copied sends a text, and finds it in the list that a validator prints meanwhile."""
    beside = os.path.dirname(cluster.program)
    example = next(filter(os.path.isfile, (f"{beside}/client_example", f"{beside}/../../client_example/out/client_example")), None)
    if example is None:
        raise LeftOut(f"no client_example is beside {cluster.program}")
    for me in range(4):
        cluster.start(me)
    cluster.send_until_taken(9, 0, 1, "--data", "")
    cluster.want_same(1, *range(4))
    words = [example, cluster.keys_of("c7"), "7", "4", cluster.addresses[1], "1", "hello"]
    with subprocess.Popen(["tail", "-n", "+1", "-f", cluster.list_of(0)], stdout=subprocess.PIPE) as follower:
        ran = subprocess.run(words, stdin=follower.stdout, capture_output=True, text=True, timeout=30, check=False)
        follower.kill()
    told = ran.returncode, ran.stdout + ran.stderr
    want(told == (0, "accepted\n1 7 1 68656c6c6f\n"), f"the example is told {told}")
    ran = subprocess.run(words, stdin=subprocess.DEVNULL, capture_output=True, text=True, timeout=30, check=False)
    want((ran.returncode, ran.stdout) == (1, "") and "refused 13 3" in ran.stderr, f"an old number is told {ran}")
    cluster.send_until_taken(7, 1, 2, "--close")
    cluster.want_same(3, *range(4))
    words[2] = "7.1"
    with subprocess.Popen(["tail", "-n", "+1", "-f", cluster.list_of(0)], stdout=subprocess.PIPE) as follower:
        ran = subprocess.run(words, stdin=follower.stdout, capture_output=True, text=True, timeout=30, check=False)
        follower.kill()
    told = ran.returncode, ran.stdout + ran.stderr
    want(told == (0, "accepted\n3 7.1 1 68656c6c6f\n"), f"the example is told {told} in the next session")


def by_python(*words, stderr=subprocess.DEVNULL):
    """Runs a script of the client in Python, and returns its status and what it prints."""
    words = [sys.executable, "-B", *map(str, words)]
    ran = subprocess.run(words, cwd=IN_PYTHON, stdout=subprocess.PIPE, stderr=stderr, text=True, timeout=PATIENCE, check=False)
    return ran.returncode, ran.stdout


def send_by_python(cluster, to, session, number, data):
    """Sends a transaction of client 7 by the client in Python, a close where there is no data."""
    what = ("--session", session, "--number", number, *(("--close",) if data is None else ("--data", data.hex())))
    whose = ("--keys", cluster.keys_of("c7"), "--client", 7, "--validators", 4)
    return by_python("pomtsjef.py", "send", *whose, "--to", to, "--timeout", 60, *what)


def want_refused_by_python(cluster):
    """Wants each refusal of what comes behind the close that is number 3 of client 7's session 0."""
    for session, number, wanted in (
        (0, 3, "refused 13 3 (OldNumber)\n"),
        (0, 4, "refused 13 5 (Closed)\n"),
        (1, 2, "refused 13 4 (Gap)\n"),
        (2, 1, "refused 13 9 (SessionAhead)\n"),
    ):
        told = send_by_python(cluster, cluster.addresses[3], session, number, b"")
        want(told == (1, wanted), f"number {number} of session {session} is told {told}")
    with open(cluster.keys_of("c7"), "rb") as file:
        frame = bytearray(pomtsjef.Client(file.read(), 7, 4).frame(1, 1, b""))
    # (the last byte is one of validator 3's tag)
    frame[-1] ^= 1
    told = str(pomtsjef.send(pomtsjef.address_of(cluster.addresses[3]), frame))
    want(told == "refused 13 2 (BadTag)", f"a tag that isn't right is told {told}")


def a_client_in_another_language(cluster, _):
    """The client in Python, which knows the formats alone, closes a session and goes on in the next one, beside `tmnode send`. It
    finds what was sent in each list, byte for byte, and where it is."""
    status, told = by_python("test_pomtsjef.py", stderr=subprocess.STDOUT)
    want(status == 0, f"the tests in {IN_PYTHON} fail: {told}")
    told = send_by_python(cluster, cluster.addresses[0], 0, 1, None)
    want(told == (5, "unanswered\n"), f"a closed port is told {told}")
    for me in range(4):
        cluster.start(me)
    cluster.send_until_taken(9, 0, 1, "--data", "")
    cluster.want_same(1, *range(4))
    sent = [(0, 1, bytes(range(256)) * 4), (0, 2, b""), (0, 3, None)]
    for at, it in enumerate(sent, 1):
        told = send_by_python(cluster, cluster.addresses[at], *it)
        want(told == (0, "accepted\n"), f"{it} is told {told}")
        cluster.send_until_taken(9, 0, at + 1, "--data", "")
        cluster.want_same(2 * at + 1, *range(4))
    want_refused_by_python(cluster)
    _, told = send_by_python(cluster, ",".join(cluster.addresses), 1, 1, b"hello")
    answers = [it.split(" ", 2) for it in told.splitlines()]
    want([it[:2] for it in answers] == [[it, "1"] for it in cluster.addresses], f"four validators are told {told}")
    # (where it is delivered already it has an old number)
    want({"accepted"} <= {it[2] for it in answers} <= {"accepted", "refused 13 3 (OldNumber)"}, f"four validators are told {told}")
    cluster.send_until_taken(7, 3, 2, "--session", "1", "--data", "00")
    cluster.want_same(9, *range(4))
    for me in range(4):
        lines = read(cluster.list_of(me)).splitlines(keepends=True)
        own = [it[2:] for it in pomtsjef.read_list(lines) if it.client == 7]
        want(own == [*sent, (1, 1, b"hello"), (1, 2, b"\0")], f"validator {me} lists {own}")
        told = by_python("pomtsjef.py", "where", "--client", 7, cluster.list_of(me))
        want(told == (0, "session 1 number 3\n"), f"where the client is is told {told}")


def framed_noise(chance):
    """Returns a megabyte of frames, each of which begins as one of some kind, with random bytes behind."""
    contents = (bytes([chance.choice((0x01, PROPOSAL, PREVOTE, PRECOMMIT, 0x13, 0x14, 0x20))]) + chance.randbytes(4_091) for _ in range(256))
    return b"".join(len(it).to_bytes(4, "big") + it for it in contents)


def noise(cluster, is_long):
    """Random bytes, as they come and in frames, change nothing, and keep nobody from being served."""
    for me in range(4):
        cluster.start(me)
    cluster.send_until_taken(7, 0, 1, "--data", "61")
    chance = random.Random(2)
    for turn in range(100 if is_long else 4):
        with dial(cluster.addresses[0]) as link:
            try:
                link.sendall(framed_noise(chance) if turn % 4 else chance.randbytes(1 << 20))
                link.shutdown(socket.SHUT_WR)
                # (until all is read there)
                while link.recv(1 << 16):
                    pass
            except OSError as fault:
                want(turn % 4 == 0, f"a link with whole frames fails: {fault}")
    cluster.send_until_taken(7, 0, 2, "--data", "62")
    for me, lines in enumerate(cluster.wait_for(2, *range(4))):
        want([it.split()[1:] for it in lines] == [["7", "1", "61"], ["7", "2", "62"]], f"validator {me} prints {lines}")
    peak = peak_of(cluster.running[0])
    want(peak < 256 << 20, f"the validator held {peak} bytes")


def links_that_are_never_done(cluster, _):
    """Two hundred links at once, more than are taken, each with half a frame or with frames whose replies nobody reads. A client that
    was served before is served meanwhile, and others by the other validators, and by this one once they are gone."""
    for me in range(4):
        cluster.start(me)
    cluster.send_until_taken(7, 0, 1, "--data", "61")
    cluster.want_same(1, *range(4))
    keys, early = cluster.tag_keys_of(9), dial(cluster.addresses[0])
    old = transaction_frame(9, 1, b"", keys)
    early.sendall(old)
    cluster.want_same(2, *range(4))
    held = [hold(cluster.addresses[0], old * 500 if it % 2 else b"\0\x0f\xff\xff" + b"x" * 5_000) for it in range(200)]
    for number in range(2, 7):
        early.sendall(transaction_frame(9, number, b"", keys))
        cluster.send_until_taken(7, 1, number, "--data", "62")
        cluster.want_same(2 * number, *range(4))
    peak = peak_of(cluster.running[0])
    for link in [early, *held]:
        link.close()
    cluster.send_until_taken(7, 0, 7, "--data", "63")
    cluster.want_same(13, *range(4))
    want(peak < 256 << 20, f"the validator held {peak} bytes")


TESTS = (
    failures_of_words,
    failures_of_files,
    keys_are_made_once,
    failures_of_sockets,
    failures_of_the_system,
    a_second_process_over_one_journal,
    four_print_the_same_and_end,
    what_a_client_is_told,
    prints_from_a_position,
    send_of_many,
    a_file_that_is_none,
    a_validator_that_is_gone_is_told,
    one_that_hangs_is_given_up,
    a_list_that_cannot_be_written,
    a_list_whose_end_is_lost,
    streams_that_are_closed,
    a_reader_that_takes_little,
    who_reads_nothing_is_told,
    what_is_logged,
    how_far_it_is,
    the_example,
    a_client_in_another_language,
    nothing_to_do,
    a_file_that_may_not_grow,
    a_full_disk,
    kills,
    goes_on_in_its_next_session,
    a_file_is_one_session,
    a_journal_of_before_sessions,
    proposers_by_power,
    a_far_turn_is_not_waited_for,
    cut_off,
    far_behind,
    a_prevote_that_reached_one_alone,
    a_wall_clock_that_is_set,
    a_clock_that_begins_anew,
    noise,
    links_that_are_never_done,
    *CONFIG_TRIALS,
    *JOURNAL_TRIALS,
    *LINK_TRIALS,
    *METRICS_TRIALS,
)


LOGGED = LogLines()


def each_line_of_the_log(is_whole):
    """Returns whether each line of the log that is documented was logged in some test, or nothing where one of them was left out."""
    missing = LOGGED.missing()
    if missing and not is_whole:
        print(f"each_line_of_the_log: left out: not logged in the tests that there were: {'; '.join(missing)}", flush=True)
        return None
    print(f"each_line_of_the_log: {'FAILED: never logged: ' + '; '.join(missing) if missing else 'passed'}", flush=True)
    return not missing


def tried(test, program, is_long):
    """Runs a test in a folder of its own, and returns whether it passed, or None where it was left out."""
    folder, began = tempfile.mkdtemp(prefix=f"{test.__name__}."), time.monotonic()
    cluster = Cluster(program, folder, getattr(test, "powers", POWERS))
    try:
        cluster.begin()
        test(cluster, is_long)
        cluster.end()
        want_journals_shown(cluster)
    except LeftOut as lack:
        print(f"{test.__name__}: left out: {lack}", flush=True)
        shutil.rmtree(folder)
        return None
    except Exception as fault:
        # (whatever it is, the tests behind this one run)
        why = fault if isinstance(fault, (Failed, OSError, subprocess.SubprocessError)) else repr(fault)
        print(f"{test.__name__}: FAILED: {why}; see {folder}", flush=True)
        return False
    finally:
        cluster.end()
        LOGGED.note(folder)
    shutil.rmtree(folder)
    print(f"{test.__name__}: passed in {time.monotonic() - began:.1f} s", flush=True)
    return True


def main():
    words = argparse.ArgumentParser(description=__doc__.splitlines()[0])
    words.add_argument("--long", action="store_true")
    words.add_argument("--with", dest="program", default=f"{TOP}/bin/tmnode")
    words.add_argument("names", nargs="*", metavar="TEST", help="these tests alone")
    given = words.parse_args()
    program = os.path.realpath(given.program)
    if not os.access(program, os.X_OK):
        print(f"processes.py: {program} is no program; ./build.sh makes it", file=sys.stderr)
        return 2
    if unknown := {*given.names} - {it.__name__ for it in TESTS}:
        print(f"processes.py: there is no test {', '.join(sorted(unknown))}", file=sys.stderr)
        return 2
    end_when_told()
    allow_files(4_096)
    wells = [tried(test, program, given.long) for test in TESTS if not given.names or test.__name__ in given.names]
    if not given.names:
        wells.append(each_line_of_the_log(None not in wells))
    print(f"{wells.count(True)} passed, {wells.count(False)} failed")
    return 1 if False in wells else 0


if __name__ == "__main__":
    sys.exit(main())
