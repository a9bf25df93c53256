"""What `tmnode run --metrics` answers, while a cluster of four is loaded, one is killed and one is cut off (docs/RUNNING.md)."""
import json
import re
import socket
import threading
import time

from validators import PATIENCE, Client, Wires, dial, free_addresses, want

# The lines of Prometheus' text form 0.0.4, as far as a validator needs them: no escapes and no times.
NAME = r"[a-zA-Z_:][a-zA-Z0-9_:]*"
HELP = re.compile(rf"# HELP ({NAME}) [^\n]+")
TYPE = re.compile(rf"# TYPE ({NAME}) (counter|gauge)")
LABEL = r'[a-zA-Z_][a-zA-Z0-9_]*="[^"\\\n]*"'
READING = re.compile(rf"({NAME})(\{{{LABEL}(?:,{LABEL})*\}})? (\d+(?:\.\d+)?)")
# How long a visitor is served at most, in seconds.
VISIT = 5
STEPS = ("propose", "prevote", "precommit")


def ask(address, given, patience=10):
    """Sends these bytes, and returns all that comes back until the connection ends."""
    with dial(address, patience) as link:
        link.sendall(given)
        return heard_on(link)


def heard_on(link):
    heard = b""
    while piece := link.recv(65_536):
        heard += piece
    return heard


def response_in(heard):
    """Returns the status, the fields and the body of a response, whose length has to be right."""
    head, _, body = heard.partition(b"\r\n\r\n")
    first, *lines = head.decode("ascii").split("\r\n")
    version, status, _ = first.split(" ", 2)
    want(version == "HTTP/1.1", f"a response begins with {first}")
    fields = {name.lower(): value for name, value in (it.split(": ", 1) for it in lines)}
    want(fields.get("connection") == "close", f"a response has the fields {fields}")
    return int(status), fields, body.decode("utf-8")


def get(address, path, method="GET"):
    """Returns the status, the fields and the body of what is answered."""
    status, fields, body = response_in(ask(address, f"{method} {path} HTTP/1.1\r\nHost: here\r\nUser-Agent: trial\r\n\r\n".encode()))
    wanted = "0" if method == "HEAD" else str(len(body.encode()))
    want(method == "HEAD" or fields["content-length"] == wanted, f"{path} has the length {fields['content-length']} and {wanted} bytes")
    return status, fields, body


def read_metrics(text):
    """Returns the kinds and the readings of a text, which has to be one of Prometheus: each metric's lines are together."""
    want(text.endswith("\n"), "the last line doesn't end")
    kinds, helped, readings, open_name = {}, set(), {}, None
    for line in text[:-1].split("\n"):
        if found := HELP.fullmatch(line):
            want(found[1] not in helped, f"{found[1]} has its help twice")
            helped.add(found[1])
        elif found := TYPE.fullmatch(line):
            want(found[1] in helped and found[1] not in kinds, f"{line} is at a wrong place")
            kinds[found[1]] = found[2]
            open_name = found[1]
        else:
            found = READING.fullmatch(line)
            want(found is not None, f"this line is none of Prometheus: {line}")
            want(found[1] == open_name, f"{line} is among those of {open_name}")
            want((found[1], found[2]) not in readings, f"{found[1]}{found[2] or ''} is read twice")
            readings[found[1], found[2]] = float(found[3])
    want(set(kinds) == {name for name, _ in readings}, f"of {set(kinds) ^ {name for name, _ in readings}} there is a kind or a reading alone")
    want(all(name.startswith("pomtsjef_") for name in kinds), f"there are the metrics {sorted(kinds)}")
    want(all((kind == "counter") == name.endswith("_total") for name, kind in kinds.items()), f"the kinds are {kinds}")
    return kinds, readings


def scrape(address):
    status, fields, text = get(address, "/metrics")
    want((status, fields["content-type"]) == (200, "text/plain; version=0.0.4; charset=utf-8"), f"/metrics answers {status}, {fields}")
    return read_metrics(text)


def status_of(address):
    code, fields, text = get(address, "/status")
    want((code, fields["content-type"]) == (200, "application/json"), f"/status answers {code}, {fields}")
    status = json.loads(text)
    names = {"version", "height", "undecided_seconds", "round", "step", "queued", "delivered", "items_per_second", "links"}
    want(set(status) == names and status["step"] in STEPS, f"/status has {status}")
    return status


class Scraper(threading.Thread):
    """Asks a validator again and again, and notes the first thing that is wrong."""

    def __init__(self, address):
        super().__init__(daemon=True)
        self.address, self.ended, self.wrong, self.count = address, threading.Event(), None, 0
        self.readings = {}

    def run(self):
        try:
            while not self.ended.is_set():
                self.look()
                time.sleep(0.05)
        except Exception as wrong:  # (raised by the trial's own thread)
            self.wrong = wrong

    def look(self):
        kinds, readings = scrape(self.address)
        for at, value in readings.items():
            before = self.readings.get(at, 0)
            want(kinds[at[0]] == "gauge" or value >= before, f"{at} goes from {before} to {value}")
        steps = [readings["pomtsjef_step", f'{{step="{it}"}}'] for it in STEPS]
        want(sorted(steps) == [0, 0, 1], f"the steps are {steps}")
        self.readings = readings
        status = status_of(self.address)
        want(status["delivered"] >= readings["pomtsjef_delivered_items_total", None], f"/status has {status}")
        want(get(self.address, "/healthz")[::2] == (200, "ok\n"), "it isn't alive")
        self.count += 1

    def value(self, name, label=None):
        return self.readings.get((f"pomtsjef_{name}", label), 0)

    def wait_for(self, is_so, what):
        ends = time.monotonic() + PATIENCE
        while not is_so(self):
            want(self.wrong is None, f"{self.wrong}")
            want(time.monotonic() < ends, f"it never reports {what}: {self.readings}")
            time.sleep(0.05)

    def end(self):
        self.ended.set()
        self.join(PATIENCE)
        want(self.wrong is None, f"{self.wrong}")
        want(self.count > 1, "it was asked once at most")


def metrics_of_a_loaded_cluster(cluster, _):
    """What is reported parses, counters never go down, and what is seen from outside is reported: items, links, refusals, and who is gone."""
    is_cut = threading.Event()
    wires = Wires(cluster.addresses, lambda source, target, _: not (is_cut.is_set() and 2 in (source, target)))
    at = free_addresses(4)

    def start(me):
        cluster.start(me, {"peers": wires.peers_of(me), "metrics": at[me], "links": "guarded", "redial": 200})

    for me in range(4):
        start(me)
    client = Client(cluster, 7)
    client.start()
    cluster.wait_for(3, *range(4))
    scrapers = [Scraper(it) for it in at[:3]]
    for it in scrapers:
        it.start()
    first = scrapers[0]
    first.wait_for(lambda it: it.value("delivered_items_total") >= 5, "five items")
    first.wait_for(lambda it: it.value("links", '{kind="validator"}') >= 6, "a link each way to three validators")
    for name in ("received_frames_total", "received_bytes_total", "sent_frames_total", "sent_bytes_total", "journal_syncs_total"):
        first.wait_for(lambda it, name=name: it.value(name) > 0, name)
    want(cluster.send(7, 0, 1, "--data", "61") == (1, "refused 13 3"), "an old number is taken")
    first.wait_for(lambda it: it.value("refusals_total", '{number="13"}') >= 1, "a refusal")
    cluster.kill(3)
    first.wait_for(lambda it: it.value("links", '{kind="validator"}') < 6, "a link that is gone")
    listed = len(cluster.wait_for(1, 0)[0])
    is_cut.set()
    start(3)
    cluster.wait_for(listed + 3, 0, 1, 3)
    is_cut.clear()
    count = client.end()
    cluster.want_same(count, *range(4))
    first.wait_for(lambda it: it.value("delivered_items_total") >= count, "all items")
    for it in scrapers:
        it.end()
    want(first.value("build_info", '{version="0.1.0"}') == 1, "the version isn't reported")


def requests_that_are_refused(cluster, _):
    """What is no request, no page and no method of one is answered so, and a head without end is cut off."""
    [at] = free_addresses(1)
    cluster.start(0, {"metrics": at})
    wait_until_it_answers(at)
    for method, path, wanted in (
        ("GET", "/nothing", 404),
        ("POST", "/nothing", 404),
        ("GET", "/metrics/", 404),
        ("POST", "/metrics", 405),
        ("DELETE", "/status", 405),
        ("GET", "/metrics?name=all", 200),
    ):
        status, fields, _ = get(at, path, method)
        want(status == wanted, f"{method} {path} answers {status}")
        want((fields.get("allow") == "GET, HEAD") == (wanted == 405), f"{method} {path} answers {fields}")
    for path in ("/metrics", "/status", "/healthz", "/nothing"):
        status, fields, body = get(at, path, "HEAD")
        want(status == (404 if path == "/nothing" else 200) and body == "" and int(fields["content-length"]) > 0, f"HEAD {path} answers {status}, {body}")
    many = b"".join(b"A%d: b\r\n" % it for it in range(65))
    for given, wanted in (
        (b"\x16\x03\x01\x02\x00", 400),
        (b"GET /metrics HTTP/2.0\r\n\r\n", 400),
        (b"GET  /metrics HTTP/1.1\r\n\r\n", 400),
        (b"GET /metrics HTTP/1.1\r\nNo colon\r\n\r\n", 400),
        (b"GET /" + b"a" * 9_000 + b" HTTP/1.1\r\n\r\n", 431),
        (b"GET /metrics HTTP/1.1\r\n" + many + b"\r\n", 431),
        (b"GET /healthz HTTP/1.0\r\n\r\n", 200),
        (b"POST /metrics HTTP/1.1\r\nContent-Length: 100000\r\n\r\n" + b"a" * 100_000, 405),
    ):
        status = response_in(ask(at, given))[0]
        want(status == wanted, f"{given[:40]} answers {status}")


def wait_until_it_answers(address):
    ends = time.monotonic() + PATIENCE
    while True:
        try:
            return get(address, "/healthz")
        except OSError:
            want(time.monotonic() < ends, "it never answers")
            time.sleep(0.05)


def visitors_who_are_slow(cluster, _):
    """Who sends nothing, or a byte at a time, is closed after five seconds and keeps nobody out; forty at once are all answered."""
    [at] = free_addresses(1)
    cluster.start(0, {"metrics": at})
    wait_until_it_answers(at)
    began = time.monotonic()
    slow = [dial(at, 3 * VISIT) for _ in range(8)]
    slow[0].sendall(b"GET /metr")
    want(get(at, "/healthz")[0] == 200 and time.monotonic() - began < 2, "slow visitors keep another one out")
    for it in slow:
        want(heard_on(it) == b"", "who asked nothing is answered")
        it.close()
    took = time.monotonic() - began
    want(VISIT - 0.5 < took < VISIT + 3, f"slow visitors are closed after {took:.1f} s")
    links = [dial(at, 3 * VISIT) for _ in range(40)]
    for it in links:
        it.sendall(b"GET /metrics HTTP/1.1\r\nHost: here\r\n\r\n")
    for it in links:
        want(response_in(heard_on(it))[0] == 200, "one of forty isn't answered")
        it.close()
    full = [dial(at, 3 * VISIT) for _ in range(20)]
    want(get(at, "/healthz")[0] == 200, "who comes behind twenty silent ones isn't answered")
    for it in full:
        it.close()


def a_metrics_address_that_is_taken(cluster, _):
    with socket.create_server(("127.0.0.1", 0)) as listener:
        ended = cluster.run_out(0, {"metrics": f"127.0.0.1:{listener.getsockname()[1]}"})
    want(ended == (5, "tmnode: cannot listen"), f"at an address that is taken it ends with {ended}")


METRICS_TRIALS = (
    metrics_of_a_loaded_cluster,
    requests_that_are_refused,
    visitors_who_are_slow,
    a_metrics_address_that_is_taken,
)
