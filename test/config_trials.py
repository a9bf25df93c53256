"""What `tmnode run --config FILE` takes from its file, and what it says of one that it can't use (docs/FORMATS.md)."""
import subprocess

from validators import read, want, want_all_ended


def config_of(cluster, **more):
    """Returns the text of a configuration file of all that the cluster's validators share."""
    addresses = ", ".join(f'"{it}"' for it in cluster.addresses)
    given = {"powers": f"[{cluster.powers}]", "peers": f"[{addresses}]", "start": 200, "delta": "100", "links": '"guarded"', **more}
    return "".join(f"{name} = {value}\n" for name, value in given.items())


def run_words(cluster, me, *more):
    """Returns the words of a validator that has its shared ones in a file."""
    own = ["--id", me, "--keys", cluster.keys_of(f"v{me}"), "--journal", cluster.path(f"v{me}.journal")]
    return [cluster.program, "run", "--config", cluster.path("tmnode.toml"), *map(str, own), *map(str, more)]


def write(cluster, text, encoding="utf-8"):
    with open(cluster.path("tmnode.toml"), "w", encoding=encoding) as it:
        it.write(text)


def a_cluster_by_a_file(cluster, _):
    """Four validators whose shared words are in one file deliver the same, and the command line wins over the file."""
    write(cluster, "# a cluster\n\n" + config_of(cluster, stop=1))
    ran = {}
    try:
        for me in range(4):
            with open(cluster.path(f"v{me}.list"), "w", encoding="utf-8") as out, open(cluster.path(f"v{me}.log"), "w", encoding="utf-8") as log:
                ran[me] = subprocess.Popen(run_words(cluster, me, "--stop", 2), stdout=out, stderr=log)
        cluster.send_until_taken(7, 0, 1, "--data", "61")
        cluster.send_until_taken(7, 0, 2, "--close")
        want_all_ended(ran, lambda me: cluster.start(me, {"links": "guarded"}))
        for me in range(4):
            want(read(cluster.path(f"v{me}.list")) == "0 7 1 61\n1 7 2 close\n", f"validator {me} prints {read(cluster.path(f'v{me}.list'))!r}")
            want("validator" in read(cluster.path(f"v{me}.log")), "nothing is logged")
    finally:
        for it in ran.values():
            it.kill()
            it.wait()


def files_that_give_no_words(cluster, _):
    """Each file that gives no words is refused by its number, with status 2, and no validator begins."""
    rows = (
        (config_of(cluster) + "powers = [1]\n", "tmnode: config 1 line 6\n"),
        (config_of(cluster) + "\nrest 5\n", "tmnode: config 1 line 7\n"),
        (config_of(cluster, rest="1.5"), "tmnode: config 2\n"),
        (config_of(cluster, rests=1), "tmnode: config 2\n"),
        (config_of(cluster, config='"other.toml"'), "tmnode: config 2\n"),
        (config_of(cluster, idle=201), "tmnode: usage\n"),
        (config_of(cluster, id=4), "tmnode: usage\n"),
    )
    for text, wanted in rows:
        write(cluster, text)
        words = [it for it in run_words(cluster, 0) if "id = " not in text or it not in ("--id", "0")]
        ran = subprocess.run(words, capture_output=True, text=True, timeout=30, check=False)
        want((ran.returncode, ran.stderr) == (2, wanted), f"{text!r} is told {ran.returncode}, {ran.stderr!r}, and not {wanted!r}")
    write(cluster, "# \xe4\n", encoding="latin-1")
    for words in (run_words(cluster, 0), [cluster.program, "run", f"--config={cluster.path('nowhere.toml')}"]):
        ran = subprocess.run(words, capture_output=True, text=True, timeout=30, check=False)
        want((ran.returncode, ran.stderr) == (2, "tmnode: config 0\n"), f"an unreadable file is told {ran.returncode}, {ran.stderr!r}")


CONFIG_TRIALS = (a_cluster_by_a_file, files_that_give_no_words)
