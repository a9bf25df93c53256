"""What guarded links outlive, what they cost, and what a validator prints and does at rest."""
import collections
import os
import random
import re
import shutil
import socket
import subprocess
import threading
import time

from switches import AT_ITS_START, WITHIN_IT, Strangers, Switch, linked_pairs
from validators import BUNDLE, PATIENCE, PRECOMMIT, PREVOTE, Client, Heading, LeftOut, Wires, among, dial, free_addresses, hold, limited, read, want

GUARDED = {"links": "guarded", "redial": 200}
# How often a processor's clock ticks a second, by which the system counts the time of processes.
TICKS = os.sysconf("SC_CLK_TCK")


def heights_of(cluster, who):
    return [cluster.decisions_of(me) for me in who]


def want_all_to_go_on(cluster, who, patience, after):
    """Wants these validators to decide heights that none of them has decided now."""
    wanted, ends = max(heights_of(cluster, who)) + 3, time.monotonic() + patience
    while min(heights := heights_of(cluster, who)) < wanted:
        want(time.monotonic() < ends, f"{after} the heights are {heights} after {patience} seconds, and not {wanted}")
        time.sleep(0.05)


def start_behind(cluster, switch, **changed):
    """Starts all validators, each of which reaches the others by the switch, and waits until they go on."""
    everyone = range(cluster.count)
    for me in everyone:
        cluster.start(me, {**GUARDED, "idle": 50, "peers": switch.peers_of(me), **changed})
    for me in everyone:
        switch.wait_for_links(me)
    want_all_to_go_on(cluster, everyone, PATIENCE, "at first")


def links_that_are_reset(cluster, is_long):
    """Every link of a validator is reset, at the start of a frame or within one, and again: all go on together."""
    with Switch(cluster.addresses) as switch:
        start_behind(cluster, switch)
        for turn in range(10 if is_long else 2):
            for where in (AT_ITS_START, WITHIN_IT):
                switch.break_off(3, where)
                want_all_to_go_on(cluster, range(4), 20, f"with links reset {where} for the {turn + 1}. time")
                switch.wait_for_links(3)


def logged_silence(cluster):
    return {me for me in range(4) if "closed: silent for too long" in read(cluster.path(f"v{me}.log"))}


def links_that_are_half_open(cluster, _):
    """All that comes on a validator's links vanishes, and nothing ends: all go on over new ones, and both ends notice the silence of the old."""
    with Switch(cluster.addresses) as switch:
        start_behind(cluster, switch)
        switch.hold_half_open(3)
        want_all_to_go_on(cluster, range(4), 30, "with half-open links")
        ends = time.monotonic() + PATIENCE
        while (silent := logged_silence(cluster)) != set(range(4)):
            want(time.monotonic() < ends, f"a link that is silent is logged by {sorted(silent)} alone")
            time.sleep(0.1)


def a_switch_that_is_off_for_a_while(cluster, is_long):
    """All links are taken away at once, and nobody can be dialed. Some seconds later all is as it was."""
    with Switch(cluster.addresses) as switch:
        start_behind(cluster, switch)
        for seconds in (1, 5, 30) if is_long else (3,):
            switch.cut()
            time.sleep(1)
            before = heights_of(cluster, range(4))
            time.sleep(seconds)
            want(heights_of(cluster, range(4)) == before, "heights are decided without links")
            switch.mend()
            want_all_to_go_on(cluster, range(4), 10 + 2 * seconds, f"after {seconds} seconds without links")
            for me in range(4):
                switch.wait_for_links(me)


def starts_in_any_order(cluster, is_long):
    """Validators start one after the other, with seconds between: each two of them come to have a link."""
    chance = random.Random(4)
    for _ in range(6 if is_long else 1):
        for me in (order := chance.sample(range(4), 4)):
            cluster.start(me, {**GUARDED, "idle": 50})
            time.sleep(chance.random() * (4 if is_long else 2))
        ends, everyone = time.monotonic() + 20, {(a, b) for a in range(4) for b in range(4) if a < b}
        while (pairs := linked_pairs(cluster.running)) != everyone:
            want(time.monotonic() < ends, f"started in the order {order} only {sorted(pairs)} are linked")
            time.sleep(0.1)
        want_all_to_go_on(cluster, range(4), 20, f"started in the order {order}")
        cluster.end()


def each_vote_comes_once(cluster, is_long):
    """Of the links between two validators one is used: while heights follow, a vote comes to each of the others once."""
    counts, counted = collections.Counter(), threading.Event()

    def passes(source, target, frame):
        heading = Heading(frame)
        if counted.is_set() and heading.kind in (PREVOTE, PRECOMMIT) and heading.sender == source:
            counts[target, frame] += 1
        return True

    wires = Wires(cluster.addresses, passes)
    for me in range(4):
        cluster.start(me, {**GUARDED, "idle": 50, "peers": wires.peers_of(me)})
    want_all_to_go_on(cluster, range(4), PATIENCE, "at first")
    counted.set()
    time.sleep(20 if is_long else 2)
    twice, pairs = sum(it > 1 for it in counts.values()), {(Heading(frame).sender, target) for target, frame in counts}
    want(len(pairs) == 12, f"votes come between {sorted(pairs)} alone")
    # (who stands still for a second says its votes again; with both links in use a third of them came twice)
    want(twice <= len(counts) // 10, f"{twice} of {len(counts)} votes come to a validator several times")


def timeouts_come_in_time(cluster, is_long):
    """Of four validators one is gone. In its turns the others wait for a timeout of a tenth of a second, and hardly longer."""
    for me in range(3):
        cluster.start(me, {**GUARDED, "start": 100, "delta": 50, "idle": 0})
    want_all_to_go_on(cluster, range(3), PATIENCE, "at first")
    before, seconds = max(heights_of(cluster, range(3))), 20 if is_long else 4
    time.sleep(seconds)
    passed = min(heights_of(cluster, range(3))) - before
    want(passed >= seconds * 4, f"{passed} heights are decided in {seconds} seconds")


def strangers_hold_no_place(cluster, is_long):
    """Three hundred silent connections and hundreds of new ones a second, while clients are served and a validator comes back."""
    for me in range(4):
        cluster.start(me, {**GUARDED, "idle": 50})
    want_all_to_go_on(cluster, range(4), PATIENCE, "at first")
    with Strangers(cluster.addresses[:3], 300, 500 if is_long else 100) as strangers:
        clients = [Client(cluster, it) for it in (7, 9)]
        for it in clients:
            it.start()
        for _ in range(5 if is_long else 1):
            cluster.kill(3)
            time.sleep(2)
            cluster.start(3, {**GUARDED, "idle": 50})
            want_all_to_go_on(cluster, range(4), 30, f"among {strangers.count} strangers that came to each")
        counts = [it.end() for it in clients]
        want(min(counts) > 0, f"the clients had {counts} transactions delivered")
        cluster.want_same(sum(counts), *range(4))
    lines = [it for it in read(cluster.path("v0.log")).splitlines() if "link " in it or "closed: " in it]
    # (512 at once, and four more a second)
    want(len(lines) < 1_500, f"{len(lines)} lines on links are logged")


def strangers_get_nothing(cluster, is_long):
    """Who connects and sends nothing gets no byte, while heights are decided."""
    for me in range(4):
        cluster.start(me, {**GUARDED, "idle": 20})
    want_all_to_go_on(cluster, range(4), PATIENCE, "at first")
    strangers = [dial(it) for it in cluster.addresses for _ in range(3)]
    time.sleep(20 if is_long else 2)
    want_all_to_go_on(cluster, range(4), 20, "beside strangers")
    for it in strangers:
        it.settimeout(0.01)
        try:
            came = it.recv(1 << 16)
        except socket.timeout:
            came = b""
        it.close()
        want(came == b"", f"a stranger gets {len(came)} bytes, of kind {came[4:5].hex()} first")


def bundles_for_who_is_behind(cluster, is_long):
    """A validator that is hundreds of heights behind gets hardly more than a bundle of each height, and others hardly any."""
    heights, quick = 3_000 if is_long else 300, {**GUARDED, "idle": 1}
    with Switch(cluster.addresses) as switch:
        for me in range(3):
            cluster.start(me, {**quick, "peers": switch.peers_of(me)})
        # (one height in four waits for two timeouts, since its proposer isn't there)
        cluster.wait_for_heights(heights, 0, PATIENCE + heights // 8)
        before = switch.sent_of(BUNDLE)
        cluster.start(3, {**quick, "peers": switch.peers_of(3)})
        cluster.wait_for_heights(heights, 3, PATIENCE)
        want_all_to_go_on(cluster, range(4), 20, "after it came")
        bundles = switch.sent_of(BUNDLE)
    came = collections.Counter()
    for (_, target, height), times in bundles.items():
        came[height] += times if target == 3 else 0
    # (of the height that it begins at each validator sends one, since it asks each that it links with)
    often = {height: times for height, times in came.items() if times > 2}
    want(len(often) <= heights // 50, f"of these heights it gets several bundles: {often}")
    want(sum(came.values()) <= 1.5 * len(came), f"it gets {sum(came.values())} bundles of {len(came)} heights")
    # (one that is a height behind asks too)
    others = sum(times for it, times in bundles.items() if it[1] != 3 and times != before.get(it))
    want(others <= heights // 20, f"others get {others} bundles")


def processor_seconds(process):
    """Returns the processor time that a process has spent."""
    fields = read(f"/proc/{process.pid}/stat").rpartition(")")[2].split()
    return (int(fields[11]) + int(fields[12])) / TICKS


def sizes_of(cluster, who):
    """Returns how many bytes the journals of validators have."""
    return [os.path.getsize(cluster.path(f"v{me}.journal")) for me in who]


def wait_until_it_rests(cluster, who):
    ends, before = time.monotonic() + 30, []
    while (sizes := sizes_of(cluster, who)) != before:
        want(time.monotonic() < ends, f"it never rests: the journals have {sizes} bytes, and {before} a second before")
        before = sizes
        time.sleep(1)


def rests_until_a_transaction_comes(cluster, is_long, sender):
    """With nothing waiting no journal grows and no processor is busy, and a transaction at one validator wakes all."""
    everyone = range(cluster.count)
    for me in everyone:
        cluster.start(me, {**GUARDED, "rest": 60_000})
    cluster.send_until_taken(9, 0, 1, "--data", "")
    cluster.want_same(1, *everyone)
    # (a validator stays awake for some heights)
    wait_until_it_rests(cluster, everyone)
    sizes, spent = sizes_of(cluster, everyone), [processor_seconds(cluster.running[me]) for me in everyone]
    time.sleep(seconds := 20 if is_long else 5)
    want(sizes_of(cluster, everyone) == sizes, f"at rest the journals grow from {sizes} to {sizes_of(cluster, everyone)} bytes")
    shares = [(processor_seconds(cluster.running[me]) - it) / seconds for me, it in zip(everyone, spent)]
    want(max(shares) < 0.05, f"at rest the validators take {[f'{it:.3f}' for it in shares]} of a processor")
    began = time.monotonic()
    cluster.send_until_taken(7, sender, 1, "--data", "61")
    cluster.want_same(2, *everyone)
    took = time.monotonic() - began
    want(took < 2, f"a transaction at validator {sender} alone is delivered after {took:.1f} s")


def four_rest(cluster, is_long):
    rests_until_a_transaction_comes(cluster, is_long, 2)


@among("5,1,1,1,1,1,1")
def seven_rest(cluster, is_long):
    rests_until_a_transaction_comes(cluster, is_long, 6)


def writes_of(process):
    """Returns how often a process has written to anything."""
    return next(int(it.split()[1]) for it in read(f"/proc/{process.pid}/io").splitlines() if it.startswith("syscw:"))


def lines_leave_in_blocks(cluster, is_long):
    """What is printed at once leaves in blocks of whole lines, and a line that comes alone leaves alone."""
    count = 400 if is_long else 40
    for me in range(4):
        cluster.start(me, {"start": 1_000, "idle": 50})
    for number in range(1, count + 1):
        cluster.send_until_taken(7, 0, number, "--data", f"{number:08x}" * 250)
    wanted = cluster.want_same(count, *range(4))
    cluster.end()
    with subprocess.Popen(cluster.words(0), stdout=subprocess.PIPE, stderr=subprocess.DEVNULL) as alone:
        try:
            reads = reads_until(alone.stdout.fileno(), len(wanted))
            writes = writes_of(alone)
        finally:
            alone.kill()
    want(b"".join(reads).decode().splitlines() == wanted, "another list is printed")
    # (a block has some thirty of these lines, and some writes are the log's)
    want(writes < len(wanted) // 4, f"{len(wanted)} lines leave by {writes} writes")
    cut = [it for it in reads if not it.endswith(b"\n")]
    # (a block that comes while the pipe has another one may be read in two parts)
    want(len(cut) <= 1 + len(reads) // 10, f"{len(cut)} of {len(reads)} reads end within a line")


def reads_until(descriptor, lines):
    """Returns what a pipe gives at each read, until so many lines have come."""
    found, ends = [], time.monotonic() + PATIENCE
    while lines > 0:
        want(time.monotonic() < ends, f"{lines} lines are missing")
        found.append(os.read(descriptor, 1 << 20))
        want(found[-1], f"it ends, and {lines} lines are missing")
        lines -= found[-1].count(b"\n")
    return found


def too_few_files(cluster, _):
    """A validator that may open few files can't take all who connect, says so, and goes on with whom it has."""
    told_at, asked_at = free_addresses(2)
    for me in range(3):
        cluster.start(me, {**GUARDED, "idle": 50})
    want_all_to_go_on(cluster, range(3), PATIENCE, "at first")
    # (a connection takes two files: with an odd number of them the last one is taken, and can't be used)
    for limit in (24, 25):
        cluster.start(3, {**GUARDED, "idle": 50, "status": told_at, "metrics": asked_at}, **limited(NOFILE=limit))
        want_all_to_go_on(cluster, range(4), PATIENCE, "at first")
        held = [hold(cluster.addresses[3], b"") for _ in range(30)]
        # (first links take what files are left, and who asks for more comes behind them)
        time.sleep(0.5)
        held += [hold(it, b"") for it in (told_at, asked_at) for _ in range(3)]
        time.sleep(1)
        want_all_to_go_on(cluster, range(4), 20, "with no files left")
        for it in held:
            it.close()
        cluster.kill(3)
    log = read(cluster.path("v3.log"))
    for line in ("a peer cannot be taken", "cannot be used", "nobody can be told how far it is", "nobody can ask for metrics"):
        want(line in log, f"'{line}' isn't logged")
    cluster.start(3, {**GUARDED, "idle": 50})
    want_all_to_go_on(cluster, range(4), 30, "with files again")


def too_few_threads(cluster, _):
    """A validator that may have few threads closes links for which it has none, says so, and the others go on."""
    if os.geteuid() or not shutil.which("setpriv"):
        raise LeftOut("it wants to be root, who may run it as somebody else, whose threads are counted")
    program = shutil.copy2(cluster.program, cluster.path("tmnode"))
    for path in (cluster.folder, cluster.path("keys"), program):
        os.chmod(path, 0o777)
    os.chmod(cluster.keys_of("v3"), 0o644)
    for me in range(3):
        cluster.start(me, {**GUARDED, "idle": 50})
    want_all_to_go_on(cluster, range(3), PATIENCE, "at first")
    cluster.program = program
    nobody = ["setpriv", "--reuid=65534", "--regid=65534", "--clear-groups"]
    cluster.start(3, {**GUARDED, "idle": 50}, nobody, **limited(NPROC=9))
    log, ends = cluster.path("v3.log"), time.monotonic() + 20
    while "closed: no thread can be started" not in read(log):
        want(time.monotonic() < ends and cluster.running[3].poll() is None, f"it logs {read(log).splitlines()[-3:]}")
        time.sleep(0.1)
    want_all_to_go_on(cluster, range(3), 20, "beside one that has too few threads")
    cluster.kill(3)
    # (the list's own, and one for its status: none is left for its timer)
    ran = subprocess.run(
        [*nobody, *cluster.words(3, **GUARDED, status=free_addresses(1)[0])],
        stdout=subprocess.DEVNULL, stderr=subprocess.PIPE, text=True, timeout=20, check=False, **limited(NPROC=3),
    )
    want(ran.returncode == 7 and ran.stderr.endswith("tmnode: out of memory\n"), f"with three threads it ends with {ran.returncode}: {ran.stderr[-200:]}")


def a_link_of_no_use(cluster, _):
    """A link on which nothing comes that can be used is closed after a thousand frames, and those of others stay."""
    for me in range(4):
        cluster.start(me, {**GUARDED, "idle": 50})
    want_all_to_go_on(cluster, range(4), PATIENCE, "at first")
    with dial(cluster.addresses[0]) as link:
        link.sendall(bytes.fromhex("000000017f") * 1_100)
        want(link.recv(1) == b"", "the link gets an answer")
    want_all_to_go_on(cluster, range(4), 20, "after it")
    told = [it for it in read(cluster.path("v0.log")).splitlines() if "closed: it sends nothing that can be used" in it]
    want(len(told) == 1, f"it isn't logged why: {told}")
    link = re.search(r"link \d+: ", told[0])[0]
    lines = [it for it in read(cluster.path("v0.log")).splitlines() if f"{link}closed: " in it]
    want(len(lines) == 1, f"its end is logged by {lines}")


LINK_TRIALS = (
    too_few_files,
    too_few_threads,
    a_link_of_no_use,
    lines_leave_in_blocks,
    links_that_are_reset,
    links_that_are_half_open,
    a_switch_that_is_off_for_a_while,
    starts_in_any_order,
    each_vote_comes_once,
    timeouts_come_in_time,
    strangers_hold_no_place,
    strangers_get_nothing,
    bundles_for_who_is_behind,
    four_rest,
    seven_rest,
)
