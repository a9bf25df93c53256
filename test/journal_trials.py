"""What `tmnode journal` tells of journals, beside a reading of the same bytes here (docs/FORMATS.md)."""
import glob
import hashlib
import json
import os
import subprocess
import time

from validators import DECISION, LOCK, MARK, OWN, PATIENCE, PRECOMMIT, PREVOTE, PROPOSAL, read, want


class Bytes:
    """Bytes that are read from the front."""

    def __init__(self, held):
        self.held, self.at = held, 0

    def take(self, count):
        self.at += count
        return self.held[self.at - count : self.at]

    def number(self, count):
        return int.from_bytes(self.take(count), "big")


def item_in(it):
    """Reads a transaction, and returns its client with its session, its number, and what it does, as a line has them."""
    kind, client = it.number(1), it.number(2)
    session = it.number(4) if kind == 2 else 0
    number, is_close = it.number(8), it.number(1)
    done = "close" if is_close else it.take(it.number(2)).hex() or "-"
    it.take(32 * it.number(1))
    return f"{client}.{session}" if session else f"{client}", number, done


def items_in(it):
    return [item_in(it) for _ in range(it.number(2))]


def place_in(it):
    return {"height": it.number(8), "round": it.number(4)}


def proposal_in(it):
    told, _, valid = place_in(it), it.number(2), it.number(4)
    value = it.held[it.at :]
    return {**told, "step": "propose", "content": hashlib.sha256(value).hexdigest(), "items": len(items_in(it)), "valid_round": valid - 1 if valid else None}


def vote_in(it, step):
    told, _, is_for_value = place_in(it), it.number(2), it.number(1)
    return {**told, "step": step, "content": it.take(32).hex() if is_for_value else None}


def decision_in(it):
    """Reads a bundle, and returns what is told of it, and the items of its value."""
    kind, height, _, round_number = it.number(1), it.number(8), it.number(2), it.number(4)
    want(kind == 0x14, f"a decision is of kind {kind:x}")
    content, items, senders = it.take(32).hex(), items_in(it), []
    for _ in range(it.number(1)):
        senders.append(it.number(2))
        it.take(32 * it.number(1))
    return {"height": height, "round": round_number, "step": "decide", "content": content, "items": len(items), "by": senders}, items


def own_in(it, kind):
    """Reads an own message, and returns what is told of it."""
    body = it.number(1)
    if body == PROPOSAL:
        return proposal_in(it)
    told = vote_in(it, {PREVOTE: "prevote", PRECOMMIT: "precommit"}[body])
    return {**told, "items": len(items_in(it))} if kind == LOCK else told


def reading_of(held):
    """Returns what is to be told of a journal's bytes, as objects, and its delivered items, as lines."""
    objects, items, at = [], [], 4
    while at + 4 <= len(held):
        end = at + 4 + int.from_bytes(held[at : at + 4], "big")
        if end > len(held):
            break
        it = Bytes(held[at + 4 : end])
        kind = it.number(1)
        told = {"offset": at, "bytes": end - at}
        if kind == DECISION:
            decided, fresh = decision_in(it)
            told.update(decided)
            items += [f"{len(items) + place} {client} {number} {done}" for place, (client, number, done) in enumerate(fresh)]
        elif kind in (OWN, LOCK):
            told.update(own_in(it, kind))
        else:
            want(kind == MARK, f"a record is of kind {kind}")
            told["step"] = "mark"
        objects.append(told)
        at = end
    if at < len(held) or len(held) < 4:
        objects.append({"offset": min(at, len(held)) if len(held) >= 4 else 0, "bytes": len(held) - (at if len(held) >= 4 else 0), "step": "torn"})
    return objects if held else [], items


def as_line(told):
    """Returns what is told of an entry, as a line."""
    text = f"{told['offset']} {told['bytes']} " if "bytes" in told else f"{told['offset']} "
    if told["step"] in ("mark", "torn", "bad"):
        return text + told["step"]
    text += f"{told['height']} {told['round']} {told['step']} {told['content'] or 'nil'}"
    if "items" in told:
        text += f" items {told['items']}"
    if "valid_round" in told:
        text += f" valid {'-' if told['valid_round'] is None else told['valid_round']}"
    return text + (f" by {','.join(map(str, told['by']))}" if "by" in told else "")


def shown(program, path, *words):
    """Returns the status with which a journal is shown, its lines, and what is told on standard error."""
    ran = subprocess.run([program, "journal", path, *words], capture_output=True, text=True, timeout=PATIENCE, check=False)
    return ran.returncode, ran.stdout.splitlines(), ran.stderr


def want_shown(program, path):
    """Wants that each form of a journal is what its bytes say."""
    with open(path, "rb") as it:
        objects, items = reading_of(it.read())
    told = shown(program, path, "--json")
    want(told[0] == 0 and [json.loads(it) for it in told[1]] == objects, f"{path} as JSON: status {told[0]}, {told[1][-3:]}, wanted {objects[-3:]}")
    told = shown(program, path)
    want(told == (0, [as_line(it) for it in objects], ""), f"{path} as lines: status {told[0]}, {told[1][-3:]}")
    told = shown(program, path, "--list")
    want(told == (0, items, ""), f"{path} as a list: status {told[0]}, {told[1][-3:]}, wanted {items[-3:]}")


def want_journals_shown(cluster):
    """Wants that each journal which a trial left is shown as its bytes say, but where something else than a validator wrote it."""
    for path in glob.glob(cluster.path("v*.journal")):
        if os.path.isfile(path):
            want_shown(cluster.program, path)


def run_for_a_while(cluster, count):
    for me in range(cluster.count):
        cluster.start(me, {"links": "guarded"})
    for number in range(1, count + 1):
        cluster.send_until_taken(7, 0, number, *(["--close"] if number == count else ["--data", f"{number:04x}"]))
    cluster.want_same(count, *range(cluster.count))


def journals_at_each_cut(cluster, is_long):
    """A journal that ends anywhere is shown as far as it goes, and where it is torn."""
    run_for_a_while(cluster, 3)
    cluster.end()
    with open(cluster.path("v0.journal"), "rb") as it:
        whole = it.read()
    step = 1 if is_long else 37
    for length in [*range(0, min(len(whole), 2000), step), len(whole) - 1]:
        cut = cluster.path("cut")
        with open(cut, "wb") as out:
            out.write(whole[:length])
        want_shown(cluster.program, cut)


def journals_that_are_none(cluster, _):
    """What is no entry is told by where it stands, behind all that stands before it."""
    run_for_a_while(cluster, 2)
    cluster.end()
    with open(cluster.path("v0.journal"), "rb") as it:
        whole = it.read()
    objects = [it for it in reading_of(whole)[0] if it["step"] != "torn"]
    second, third = objects[1]["offset"], objects[2]["offset"]
    damages = {
        "a kind of none": (whole[: second + 4] + b"\7" + whole[second + 5 :], second),
        "a length of 0": (whole[:third] + bytes(4), third),
        "a length above the limit": (whole[:third] + (1_100_001).to_bytes(4, "big"), third),
        "another header": (b"TMJ2" + whole[4:], 0),
    }
    for name, (held, offset) in damages.items():
        with open(cluster.path("bad"), "wb") as out:
            out.write(held)
        lines = [as_line(it) for it in objects if it["offset"] < offset] if offset else []
        told = shown(cluster.program, cluster.path("bad"))
        want(told == (4, [*lines, f"{offset} bad"], "tmnode: journal 3\n"), f"{name}: {told[0]}, {told[1][-2:]}, {told[2]}")
        told = shown(cluster.program, cluster.path("bad"), "--json")
        want(told[0] == 4 and json.loads(told[1][-1]) == {"offset": offset, "step": "bad"}, f"{name} as JSON: {told[1][-1:]}")
    told = shown(cluster.program, cluster.path("absent"))
    want(told == (4, [], "tmnode: journal 0\n"), f"a file that isn't there: {told}")
    one = [as_line(it) for it in objects if it.get("height") == 1]
    told = shown(cluster.program, cluster.path("v0.journal"), "--height", "1")
    want(told == (0, one, ""), f"height 1 alone: {told[1][:3]}, wanted {one[:3]}")


def a_journal_is_followed(cluster, _):
    """A journal is followed while its validator runs, is killed within a record and started again."""
    path, out = cluster.path("v0.journal"), cluster.path("followed")
    for me in range(cluster.count):
        cluster.start(me, {"links": "guarded"})
    cluster.wait_for_heights(1, 0, PATIENCE)
    with open(out, "w", encoding="utf-8") as to:
        follower = subprocess.Popen([cluster.program, "journal", path, "--list", "--follow"], stdout=to)
    try:
        for number in range(1, 6):
            cluster.send_until_taken(7, 1, number, "--data", f"{number:02x}")
            if number == 3:
                cluster.kill(0)
                # (as if it had been killed in the midst of a record)
                with open(path, "ab") as it:
                    it.write(bytes.fromhex("0000006401"))
                time.sleep(0.5)
                cluster.start(0, {"links": "guarded"})
        wanted = cluster.want_same(5, *range(cluster.count))
        ends = time.monotonic() + PATIENCE
        while (lines := read(out).splitlines()) != wanted:
            want(time.monotonic() < ends and follower.poll() is None, f"the journal that is followed tells {lines}, wanted {wanted}")
            time.sleep(0.1)
    finally:
        follower.kill()
        follower.wait()


def a_reader_that_leaves(cluster, _):
    """The output may end early, as into `head`: the status is then 1 and nothing more is told."""
    run_for_a_while(cluster, 2)
    words = [cluster.program, "journal", cluster.path("v0.journal")]
    reading, writing = os.pipe()
    os.close(reading)
    with open("/dev/full", "wb") as full, open(writing, "wb") as left:
        for name, out in (("a full device", full), ("a pipe that nobody reads", left)):
            ran = subprocess.run(words, stdout=out, stderr=subprocess.PIPE, timeout=PATIENCE, check=False)
            want((ran.returncode, ran.stderr) == (1, b""), f"{name}: status {ran.returncode}, {ran.stderr!r}")


JOURNAL_TRIALS = (journals_at_each_cut, journals_that_are_none, a_journal_is_followed, a_reader_that_leaves)
