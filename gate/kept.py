"""What earlier runs of the gate on this machine told of edits, by the sum of all that their checks read.

It lies in ~/.cache/pomtsjef-gate/edits, or in the folder that GATE_KEPT names, for its user alone. An entry's name is a sum of
the kit, of the scripts that try edits, of the crate's own files, of the libraries below it as they were built, and of the edit;
so none goes stale, and one that can't be read counts for nothing. Edits that stand in one check say nothing of one another, so
each has an entry of its own. Only what went well is kept.
"""
import contextlib
import hashlib
import json
import os
import tempfile
import time

from kit import TOP, own_sum, rt

STORE = os.environ.get("GATE_KEPT") or os.path.expanduser("~/.cache/pomtsjef-gate/edits")
# The scripts that say what a check comes to.
SCRIPTS = ("kit.py", "kept.py", "functions.py", "placeholders.py", "trait_methods.py", "definitions.py", "wrong_bodies.py")
# Entries that no run asked for in so many seconds are removed.
LONGEST_UNUSED = 30 * 24 * 3600


def sum_of(*parts):
    return hashlib.sha256(repr(parts).encode()).hexdigest()


# What files were when they were summed, and their sums.
SUMMED = {}


def sum_of_file(path):
    """Returns a file's sum. A file is read again only where its number, size or times have changed: the libraries below a crate have
    gigabytes."""
    it = os.stat(path)
    state = (it.st_dev, it.st_ino, it.st_size, it.st_mtime_ns, it.st_ctime_ns)
    if path not in SUMMED or SUMMED[path][0] != state:
        SUMMED[path] = (state, rt.rtlib.sum_of(path))
    return SUMMED[path][1]


def sum_of_library(library):
    """Returns a sum of what a check above reads of a built library: each file but the texts of its proofs and `format`, which has a
    sum over those. A check over statements takes a library's modules as they were checked, and reads neither."""
    found = []
    for at, folders, names in os.walk(library.rlib):
        folders.sort()
        paths = sorted(os.path.relpath(f"{at}/{name}", library.rlib) for name in names)
        found += [(it, sum_of_file(f"{library.rlib}/{it}")) for it in paths if it != "format" and not it.startswith("lang/antt/proofs/")]
    return sum_of(*found)


class Kept:
    """Gives what is kept of edits, or has them tried and keeps what went well."""

    def __init__(self, is_anew):
        self.is_anew, self.given, self.libraries = is_anew, 0, {}
        self.scripts = sum_of(*(rt.rtlib.sum_of(f"{TOP}/gate/{it}") for it in SCRIPTS))
        # (a crate's own sum has what HANDLES allows, which `rt ci` notes here)
        rt.Crate.allowed = rt.handles_of(TOP)
        with contextlib.suppress(OSError):
            os.makedirs(STORE, 0o700, exist_ok=True)
        self.is_ours = os.path.isdir(STORE) and os.stat(STORE).st_uid == os.geteuid()

    def below(self, crate, anew=False):
        """Returns the names and sums of the libraries below a crate, each looked at once where it isn't wanted anew."""
        for it in crate.below():
            if anew or it.name not in self.libraries:
                self.libraries[it.name] = sum_of_library(it)
        return [(it.name, self.libraries[it.name]) for it in crate.below()]

    def front(self, crate, anew=False):
        """Returns the sum of all that the check of an edit reads beside the edit."""
        return sum_of(self.scripts, own_sum(crate), self.below(crate, anew))

    def line_of(self, key):
        """Returns the line that an earlier run told under this key, or None."""
        if self.is_anew or not self.is_ours:
            return None
        try:
            with open(f"{STORE}/{key}", encoding="utf-8") as it:
                found = json.load(it)
            os.utime(f"{STORE}/{key}")
            return found["line"] if found["key"] == key else None
        except (OSError, ValueError, KeyError, TypeError):
            return None

    def told(self, crate, edits, tried, say):
        """Returns whether all is well with each of these edits, and prints a line for each. `tried` tries those of which nothing is kept, and is
        handed what is to be called with an edit, whether all is well with it, and its line."""
        front, left, found = self.front(crate), [], []
        for edit in edits:
            line = self.line_of(sum_of(front, edit.label, edit.text))
            if line is None:
                left.append(edit)
            else:
                self.given += 1
                say(f"{line} (kept)")

        def note(edit, well, line):
            found.append((edit, well, line))
            say(line)

        if left:
            tried(crate, left, note)
            if self.front(crate, anew=True) == front:
                for edit, _, line in (it for it in found if it[1]):
                    self.keep(sum_of(front, edit.label, edit.text), line)
        return [True] * (len(edits) - len(left)) + [well for _, well, _ in found]

    def keep(self, key, line):
        """Writes an entry apart and then renames it, so that no other run meets half of it."""
        if not self.is_ours:
            return
        with contextlib.suppress(OSError):
            with tempfile.NamedTemporaryFile("w", prefix="new-", dir=STORE, delete=False, encoding="utf-8") as it:
                json.dump({"key": key, "line": line}, it)
            os.replace(it.name, f"{STORE}/{key}")

    def shrink(self):
        """Removes what no run asked for in a month."""
        with contextlib.suppress(OSError):
            for it in os.scandir(STORE) if self.is_ours else ():
                if it.stat().st_mtime < time.time() - LONGEST_UNUSED:
                    os.remove(it.path)
