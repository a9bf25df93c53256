"""The lines of the log that docs/RUNNING.md names, and which of them validators have logged."""
import os
import re

TOP = os.path.dirname(os.path.dirname(os.path.realpath(__file__)))
# What a placeholder of the table stands for.
PLACEHOLDERS = {"ADDRESS": r"\S+", "..": ".*", "I": r"\d+", "H": r"\d+", "N": r"\d+", "M": r"\d+", "P": r"\d+"}
# Those that come after half a minute or more alone, which no trial waits for.
LATE = ("height H, N items, M a second", "link N: closed: it took nothing for 30 seconds")
# Those that no trial brings about: every kind of links has its own places, which together are fewer than all; and what memory is
# refused to can't be chosen from outside.
NEVER = (
    "ADDRESS: closed: there are too many links",
    "a timeout waits for memory",
    "link N: closed: memory is short",
    "ADDRESS: closed: out of memory",
)


def rows():
    """Returns the lines of the table, as they stand there."""
    found, is_there = [], False
    with open(f"{TOP}/docs/RUNNING.md", encoding="utf-8") as it:
        for line in it:
            if line.startswith("| line | it means"):
                is_there = True
            elif is_there and not line.startswith("|"):
                break
            elif is_there:
                found += re.findall(r"`([^`]*)`", line.split("|")[1])
    if not found:
        raise LookupError("docs/RUNNING.md has no table of the log's lines")
    return found


def pattern(row):
    """Returns what finds a line of the table in a log."""
    parts = re.split(r"(\.\.|\b(?:ADDRESS|[IHNMP])\b)", row)
    return re.compile("".join(PLACEHOLDERS.get(it) or re.escape(it) for it in parts))


class LogLines:
    """Notes which lines of the table were logged."""

    def __init__(self):
        self.wanted = {it: pattern(it) for it in rows()}

    def note(self, folder):
        """Reads the logs in a folder of a trial."""
        for name in os.listdir(folder) if os.path.isdir(folder) else ():
            if name.endswith(".log"):
                with open(os.path.join(folder, name), encoding="utf-8", errors="replace") as it:
                    text = it.read()
                for row in [it for it, known in self.wanted.items() if known.search(text)]:
                    del self.wanted[row]

    def missing(self):
        """Returns the lines that none logged, but for those that can't come."""
        return [it for it in self.wanted if it not in (*NEVER, *LATE)]
