#!/usr/bin/env python3
"""Says of each law what it is, where it is stated, where it is proved, and on which files of lemmas the proof rests.

usage: gate/law_index.py [LAW..]
       gate/law_index.py --lemmas [CRATE..]

A law is a public function with an empty body: its contract is the law. With no LAW: every one, the lower crates first.
The files of lemmas are those of this repository that the proof uses, directly or through others, from the ground up;
the kit's own lemmas aren't listed. With --lemmas: each public lemma of these crates, or of all, and the files whose
proofs it serves.
"""
import re
import signal
import sys
import textwrap
from pathlib import Path
from typing import NamedTuple

TOP = Path(__file__).resolve().parent.parent
# (its body has nothing, or calls of other laws)
LAW = re.compile(r"((?:^///[^\n]*\n)*)^pub fn (\w+)(?:<[^>]*>)?\(\)\n((?: +(?://[^\n]*|ensures [^\n]*)\n)+)\{(?:\n(?: +\w+\(\);\n)+)?\}", re.M)
STATED = re.compile(r"ensures \w* ?\{ (\w+)")
LEMMA = re.compile(r"^pub (?:unfoldable |abbrev )?([^\s:]+) :(?! goal\.)", re.M)
NAMES = re.compile(r"^(?:pub )?use Rattle\.(\w+)\.proofs\.([\w.]*\w)\.\{([^}]*)\}", re.M)
LEMMAS = re.compile(r"^(?:pub )?use Rattle\.(\w+)\.proofs\.([\w.]*\w)", re.M)


class Law(NamedTuple):
    name: str
    says: str
    stated: str
    proved: str


def text_of(path):
    return (TOP / path).read_text(encoding="utf-8")


def stated_in(text, statement):
    """Returns a law's definition with its file, as the code that cites it brings it in."""
    where = re.search(rf"Rattle\.(\w+)\.specs\.(\w+)\.\{{[^}}]*\b{statement}\b", text)
    return f"{statement} in crates/{where[1]}/specs/{where[2]}.antt"


def laws_of(crate):
    for file in sorted((TOP / f"crates/{crate}/src").glob("*.rt")):
        text = text_of(file)
        # (a proof's folder is named after its function, within one that is named after the file, but for lib.rt)
        inner = "" if file.stem == "lib" else f"{file.stem}/"
        for doc, name, clauses in LAW.findall(text):
            says = " ".join(doc.replace("///", " ").split())
            stated = ", ".join(stated_in(text, it) for it in STATED.findall(clauses))
            yield Law(name, says, stated, f"crates/{crate}/proofs/{inner}{name}")


def follow(path, found):
    """Adds the files of lemmas that a file uses to a list, each after those that it rests on."""
    for crate, module in LEMMAS.findall(text_of(path)):
        used = f"crates/{crate}/proofs/{module.replace('.', '/')}.antt"
        if (TOP / used).exists() and used not in found:
            follow(used, found)
            found.append(used)


def show(law, crates):
    lines, found = [f"says: {law.says}", f"stated: {law.stated}", f"proved: {law.proved}"], []
    for file in sorted((TOP / law.proved).glob("*.antt")):
        follow(file, found)
    for folder in (f"crates/{it}/proofs/" for it in crates):
        files = [it.removeprefix(folder).removesuffix(".antt") for it in found if it.startswith(folder)]
        lines += [f"lemmas: {folder} {' '.join(files)}"] if files else []
    print(law.name)
    for line in lines:
        print(textwrap.fill(line, 120, initial_indent=" " * 4, subsequent_indent=" " * 12))


def users_of(files):
    """Returns for each lemma, by its file and name, the files that use it."""
    found = {}
    for file in files:
        for crate, module, names in NAMES.findall(text_of(file)):
            used = f"crates/{crate}/proofs/{module.replace('.', '/')}.antt"
            for name in filter(None, map(str.strip, names.split(","))):
                found.setdefault((used, name.partition(" as ")[0]), []).append(file)
    return found


def show_lemmas(crates, asked):
    """Prints each public lemma of the crates that are asked for, and who uses it."""
    folders = [TOP / f"crates/{it}/proofs" for it in crates]
    files = [str(it.relative_to(TOP)) for folder in folders for it in sorted(folder.rglob("*.antt"))]
    users = users_of(files)
    for file in (it for it in files if it.split("/")[1] in asked):
        lemmas = LEMMA.findall(text_of(file))
        if lemmas:
            print(file)
        for name in lemmas:
            who = [it[len("crates/") : -len(".antt")].replace("/proofs/", ":", 1) for it in users.get((file, name), [])]
            served = f"{name}: {' '.join(who) or 'nobody beyond its file'}"
            print(textwrap.fill(served, 120, initial_indent=" " * 4, subsequent_indent=" " * 8))


def main(names):
    crates = re.findall(r"^(\w+):", text_of("crates.txt"), re.M)
    if names[:1] == ["--lemmas"]:
        if unknown := {*names[1:]} - {*crates}:
            print(f"no crate {' '.join(unknown)}", file=sys.stderr)
            return 2
        show_lemmas(crates, names[1:] or crates)
        return 0
    laws = [law for crate in crates for law in laws_of(crate)]
    if unknown := {*names} - {law.name for law in laws}:
        print(f"no law {' '.join(unknown)}", file=sys.stderr)
        return 2
    for law in laws:
        if not names or law.name in names:
            show(law, crates)
    return 0


if __name__ == "__main__":
    # (a reader may stop early, as head does)
    signal.signal(signal.SIGPIPE, signal.SIG_DFL)
    sys.exit(main(sys.argv[1:]))
