#!/usr/bin/env python3
"""Says which files are not in the layout of `rt fmt`, and changes none. It takes a second.

usage: gate/layout.py

`rt ci` refuses such a file too, but only when its crate's turn comes. The last line is 'N passed, M failed', of crates.
"""
import sys
import tempfile

sys.dont_write_bytecode = True
from kit import TOP, crates, rt


def not_laid_out(crate):
    """Returns a line for each file of the crate that is not in the layout, or for what keeps it from being read."""
    with tempfile.TemporaryFile("w+") as said:
        if not rt.rtlib.fmt(crate.folder, "--check", said):
            return []
        said.seek(0)
        return said.read().replace(f"{TOP}/", "").splitlines() or [f"{crate.name} is not in the layout"]


def main():
    if sys.argv[1:]:
        print(__doc__, file=sys.stderr)
        return 2
    each = [not_laid_out(it) for it in crates()]
    for line in sum(each, []):
        print(line)
    failed = sum(map(bool, each))
    print(f"{len(each) - failed} passed, {failed} failed")
    return 1 if failed else 0


if __name__ == "__main__":
    sys.exit(main())
