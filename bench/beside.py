"""Three nodes of etcd on this machine, and what wrk puts into them: what validators are measured beside."""
import base64
import json
import resource
import shutil
import subprocess
import tempfile
import time
import urllib.error
import urllib.request

from loads import Figures, Spent, validators

NODES = 3
# The ways to put: etcd's API of JSON, which it hands on as gRPC, and its older one, which it answers itself.
APIS = V3, V2 = "/v3/kv/put", "/v2/keys"
# wrk's script: 4,096 keys of two bytes, in turn.
SCRIPT = """
local letters = "ABCDEFGHIJKLMNOPQRSTUVWXYZabcdefghijklmnopqrstuvwxyz0123456789-_"
local headers, requests, count = {["Content-Type"] = "TYPE"}, {}, 0
function init()
    for it = 0, 4095 do
        local one, two = math.floor(it / 64) + 1, it % 64 + 1
        local key = letters:sub(one, one) .. letters:sub(two, two)
        requests[it] = wrk.format("METHOD", "PATH", headers, "BODY")
    end
end
function request()
    count = (count + 1) % 4096
    return requests[count]
end
function done(summary, latency)
    local errors = summary.errors
    local failed = errors.connect + errors.read + errors.write + errors.status + errors.timeout
    io.write(string.format('\\n{"delivered": %d, "seconds": %f, "middle": %f, "late": %f, "failed": %d}\\n', summary.requests,
        summary.duration / 1e6, latency:percentile(50) / 1e6, latency:percentile(99) / 1e6, failed))
end
"""


def lacking():
    """Returns what has to be installed, or nothing."""
    missing = [package for program, package in (("etcd", "etcd-server"), ("wrk", "wrk")) if not shutil.which(program)]
    return f"for the lines of etcd: apt-get install {' '.join(missing)}" if missing else ""


def script_of(api, size):
    """Returns wrk's script for puts of values of this size."""
    value = "x" * size
    if api == V2:
        changed = {"TYPE": "application/x-www-form-urlencoded", "METHOD": "PUT", '"PATH"': '"/v2/keys/" .. key', "BODY": f"value={value}"}
    else:
        # The key is written in base64: its two letters and a third one for the bits that are left.
        encoded = base64.b64encode(value.encode()).decode()
        body = f"""'{{"key":"' .. key:gsub("-", "+"):gsub("_", "/") .. 'A=","value":"{encoded}"}}'"""
        changed = {"TYPE": "application/json", "METHOD": "POST", "PATH": api, '"BODY"': body}
    script = SCRIPT
    for word, text in changed.items():
        script = script.replace(word, text)
    return script


def asked(address, path, body=None):
    """Returns what a node answers, as JSON."""
    with urllib.request.urlopen(f"http://{address}{path}", None if body is None else json.dumps(body).encode(), 2) as answer:
        return json.load(answer)


class Etcd:
    """Three nodes in a new folder, which run."""

    def __init__(self, parent):
        self.folder = tempfile.TemporaryDirectory(dir=parent)
        addresses = validators.free_addresses(2 * NODES)
        self.clients, self.peers, self.running = addresses[:NODES], addresses[NODES:], []

    def words(self, me):
        client, peer = f"http://{self.clients[me]}", f"http://{self.peers[me]}"
        given = {
            "name": f"e{me}",
            "data-dir": f"{self.folder.name}/e{me}",
            "listen-client-urls": client,
            "advertise-client-urls": client,
            "listen-peer-urls": peer,
            "initial-advertise-peer-urls": peer,
            "initial-cluster": ",".join(f"e{it}=http://{address}" for it, address in enumerate(self.peers)),
            "enable-v2": "true",
            "log-level": "error",
        }
        return ["etcd", *(f"--{name}={value}" for name, value in given.items())]

    def __enter__(self):
        try:
            for me in range(NODES):
                with open(f"{self.folder.name}/e{me}.log", "w", encoding="utf-8") as log:
                    self.running.append(subprocess.Popen(self.words(me), stdout=log, stderr=log))
            self.leader = self.wait_for_leader()
        except BaseException:
            self.__exit__()
            raise
        return self

    def __exit__(self, *_):
        for it in self.running:
            it.kill()
            it.wait()
        self.folder.cleanup()

    def wait_for_leader(self):
        """Returns the address of the leader, once there is one that all nodes know."""
        ends = time.monotonic() + validators.PATIENCE
        while time.monotonic() < ends:
            try:
                told = [asked(it, "/v3/maintenance/status", {}) for it in self.clients]
                found = {it["leader"] for it in told}
                members = {it["header"]["member_id"]: address for it, address in zip(told, self.clients)}
                if len(found) == 1:
                    return members[found.pop()]
            except (OSError, KeyError, urllib.error.URLError):
                pass
            time.sleep(0.1)
        raise validators.Failed("etcd has no leader")

    def put(self, api, load, seconds):
        """Has wrk put to the leader, with a connection for each client, and returns what it reports and its share of a processor."""
        path = f"{self.folder.name}/put.lua"
        with open(path, "w", encoding="utf-8") as it:
            it.write(script_of(api, load.bytes))
        words = ["wrk", "-t1", f"-c{load.clients}", f"-d{seconds}s", "--timeout", "10s", "-s", path, f"http://{self.leader}"]
        before = resource.getrusage(resource.RUSAGE_CHILDREN)
        said = subprocess.run(words, capture_output=True, text=True, check=True).stdout
        after = resource.getrusage(resource.RUSAGE_CHILDREN)
        took = after.ru_utime - before.ru_utime + after.ru_stime - before.ru_stime
        return json.loads(said.strip().splitlines()[-1]), took / seconds

    def figures(self, api, load, seconds):
        """Returns what is seen of this load."""
        self.put(api, load, 1)
        spent = Spent(self.running)
        seen, sender = self.put(api, load, seconds)
        shares = spent.since()[1]
        notes = [f"{seen['failed']} puts failed"] if seen["failed"] else []
        return Figures(seen["delivered"] / seen["seconds"], None, seen["middle"], seen["late"], shares, None, sender, notes)
