#!/usr/bin/env python3
"""Counts the lines that have to be read to believe what a law says, following names from the law.

usage: gate/lines_to_believe.py [--files | --list] [LAW..]

A LAW is a definition in a crate's specs, as `BeginsLaw`, or with its crate, as `world_schedule:CountLaw`, which it needs
where several crates have one of that name and `protocol` doesn't. With no LAW: what the headline reaches (`BeginsLaw`),
what all laws of crates/protocol/specs/Laws.antt and Order.antt do, what the headline over stores does
(`StoppedHeadlineLaw` of `vote_journal`), and the headlines over what code does (`HeadlineLaw`, `EndsLaw` and `OutcomeLaw`
of `world_schedule`).

A line is one of a definition of this repository, or of a type that its code declares and a definition names, with how
contracts see that type (`ghost Value`, `ghost view`), without comments, attributes and blank lines. What a type's
private field is of counts only where something that is counted takes that field. One of more than 100 characters counts
as the lines that it has when it is wrapped there. The kit's library and its SHA-256 aren't counted, nor contracts, nor
the computed run of `PremisesMetLaw`, which shows that the headline's premises can hold: name that law to count it.

Where laws determine a definition, or all of it that matters to what is said, its body needs no belief: PINNED and PINNED_IN_RUNS
name it, and the laws' lines and what they reach are counted in its place; the second ones only where that is less to read. --files shows what has to be read of each file, and --list each definition with its
source and its lines; both show what was pinned.
"""
import os
import re
import signal
import sys
import textwrap
from typing import NamedTuple

TOP = os.path.dirname(os.path.dirname(os.path.realpath(__file__)))
CRATES = f"{TOP}/crates"
PROTOCOL = "Rattle.protocol.specs"
LAWS, ORDER = f"{PROTOCOL}.Laws", f"{PROTOCOL}.Order"
FRAMING, HEARD = "Rattle.messages.specs.Framing", "Rattle.message_laws.specs.Heard"
HEAD = re.compile(r"(?:(?:pub|abbrev|unfoldable|opaque)\s+)*(?:(data|record)\s+)?([^\s:({]+)\s*(?:[({].*)?:(?=\s)")
BLOCK = re.compile(r"module _ .* where$")
WORD = re.compile(r"[^\s(){}\[\],;.\"]+")
# a type in code, up to the line that ends it
TYPE = re.compile(r"(?m)^(?:pub(?:\(\w+\))? )?(?:struct|enum|type) (\w+)(?:[^\n]*;$|[^\n]*\{\}?$(?:\n[ ][^\n]*|\n(?=\n| ))*(?:\n\})?)")
# a field that a definition takes of a value
FIELD = re.compile(r"(?<=[\w)])\.([a-z]\w*)")
# the longest line
WIDTH = 100


class Pin(NamedTuple):
    """Laws that together determine a definition, and why they do."""

    laws: tuple
    why: str
    # what speaks of a part that they leave open: a law that reaches one of these counts the body as well
    unless: tuple = ()


PINNED = {
    ("Rattle.messages.specs.Framing", "message_of"): Pin(
        ((LAWS, "FrameLaw"),),
        "lists of bytes are read as a message exactly where they spell its frame; which of the faults 1 to 4 is given of others is open",
        unless=((f"{PROTOCOL}.Refusals", "answer"),),
    ),
    (ORDER, "enabled"): Pin(
        ((ORDER, "EnabledLaw"), (ORDER, "FirstLaw"), (ORDER, "QuietLaw")),
        "it names none exactly where none holds, else one that holds and that none comes before, and of equals the one whose proposal was kept first",
    ),
    (f"{PROTOCOL}.Calls", "timeout_answer"): Pin(
        ((LAWS, "TimeoutLaw"),),
        "the limit of rounds exactly at the round's end where the rule doesn't hold, else nothing",
    ),
    (f"{PROTOCOL}.History", "after"): Pin(((LAWS, "HistoryLaw"),), "the node that the call's events leave in a run"),
    (f"{PROTOCOL}.History", "replay"): Pin(((LAWS, "ReplayLaw"),), "the node that the history's events leave in a run"),
    (f"{PROTOCOL}.Effects", "bodies_taken"): Pin(
        ((LAWS, "HistoryLaw"),), "with no firings: what the call's one event adds to the released ones"
    ),
    (f"{PROTOCOL}.Effects", "timeouts_after"): Pin(
        ((LAWS, "HistoryLaw"),), "the timeouts that the call's events schedule in a run"
    ),
}
# What speaks of the bytes of messages themselves, or of why they are refused.
OF_BYTES = ((FRAMING, "SpellsFrame"), (FRAMING, "IsMessage"), (f"{PROTOCOL}.Refusals", "answer"))
SAME = Pin(((HEARD, "SameLaw"),), "it tells whether two are the same")
APART = Pin(((HEARD, "ApartLaw"),), "it tells apart what is read; which bytes it gives is open, and what is said holds of any", unless=OF_BYTES)
# By laws on runs: of a law that speaks of runs itself less is left to read.
PINNED_IN_RUNS = {
    (FRAMING, "message_of"): Pin(
        ((HEARD, "ReadLaw"), (HEARD, "HeardLaw")),
        "bytes are read only as the message whose frame they are, and what a correct validator releases is read, as is a transaction in range; "
        "which other bytes are read, and which fault is given of those that aren't, is open",
        unless=OF_BYTES,
    ),
    (FRAMING, "frame_spelling"): Pin(
        ((HEARD, "ReadLaw"), (HEARD, "HeardLaw")), "it is read as that message, and as no other; which bytes it gives is open, and what is said holds of any", unless=OF_BYTES
    ),
    ("Rattle.messages.specs.Grammar", "body_spelling"): APART,
    ("Rattle.transactions.specs.Grammar", "tx_body_spelling"): APART,
    ("Rattle.transactions.specs.Grammar", "value_spelling"): APART,
    ("Rattle.messages.specs.Equality", "content_eq"): SAME,
    ("Rattle.messages.specs.Equality", "round_eq"): SAME,
    ("Rattle.messages.specs.Equality", "vote_eq"): SAME,
    ("Rattle.messages.specs.Equality", "proposal_eq"): SAME,
    ("Rattle.transactions.specs.Equality", "value_eq"): SAME,
    (f"{PROTOCOL}.Messages", "step_eq"): SAME,
    (f"{PROTOCOL}.Refusals", "accepts"): Pin(
        (("Rattle.message_laws.specs.Taken", "TakenLaw"),), "it is so exactly for what is taken in; for which cause the others are refused is open"
    ),
}
# laws that reach what a pin leaves open, but say the same whatever it is
INDIFFERENT = {
    "RefusedLaw": "it says of every refusal alike that nothing changes",
}


class Definition(NamedTuple):
    module: str
    name: str
    first: int
    lines: tuple

    def count(self):
        """Returns how many lines it has, each wrapped."""
        return sum(map(wrapped, self.lines))


def wrapped(line):
    """Returns how many lines this one is where none has more than WIDTH characters, without a comment at its end."""
    text = re.sub(r"\s+(--|//) .*$", "", line)
    indent = " " * (len(text) - len(text.lstrip()))
    return len(textwrap.wrap(text.strip(), WIDTH, initial_indent=indent, subsequent_indent=f"{indent}    ", break_on_hyphens=False))


class Module:
    """A file of definitions: what it defines, and what each of its names means."""

    def __init__(self, path, name):
        self.path, self.name = path, name
        self.definitions, self.owners, self.imports, self.aliases = {}, {}, {}, {}
        # (what stands in a block of parameters needs its head, which counts as a definition of its own)
        self.blocks = {}
        with open(path, encoding="utf-8") as it:
            text = it.read()
        # (a use may go over several lines)
        self.read(re.sub(r"(?m)^((?:pub\s+)?use\s[^\n]*)\n[ \t}]+", r"\1 ", text).split("\n"))

    def read(self, lines):
        name, found, block = None, {}, None
        for number, line in enumerate(lines, 1):
            if line and not line[0].isspace():
                block = None
            if BLOCK.match(line):
                name = block = f"block {number}"
                found[name] = (number, [line])
                continue
            if block:
                line = line.removeprefix("  ")
            if re.match(r"(pub\s+)?use\s", line):
                self.read_use(line)
            elif not line.strip() or line.lstrip().startswith("--") or re.match(r"(pub )?mod |infix", line):
                continue
            else:
                head = HEAD.match(line)
                if head and not line[0].isspace():
                    name = head[2]
                    found[name] = (number, [])
                    self.blocks[name] = block
                found[name][1].append(line)
        for name, (first, own) in found.items():
            self.definitions[name] = Definition(self.name, name, first, tuple(own))
            is_data = re.search(r"\bdata\b", own[0])
            members = [re.match(r"\s+pub ([^\s:]+)\s*:", line) for line in own[1:]] if is_data else []
            for it in [name, *(m[1] for m in members if m)]:
                self.owners[it] = name

    def read_use(self, line):
        path = re.sub(r"^(pub\s+)?use\s+", "", line)
        names = re.match(r"(\S+?)\.\{(.*)\}", path)
        if names:
            for it in filter(None, map(str.strip, names[2].split(","))):
                theirs, _, ours = it.partition(" as ")
                self.imports[ours or theirs] = (names[1], theirs)
        elif alias := re.match(r"(\S+) as (\S+)", path):
            self.aliases[alias[2]] = alias[1]

    def uses(self, definition):
        """The places (module, name) of what the definition's text names."""
        text = "\n".join(definition.lines)
        if self.blocks.get(definition.name):
            yield self.name, self.blocks[definition.name]
        words = {word for clause in clauses(definition) for word in free_words(clause)}
        for it, place in [*((n, (self.name, n)) for n in self.owners), *self.imports.items()]:
            parts = [part for part in it.split("◌") if part]
            if it in words or len(parts) < len(it) and parts and all(part in words for part in parts):
                yield place
        # (a do block is read by this word)
        if "←" in words and "◌>>=◌" in self.imports:
            yield self.imports["◌>>=◌"]
        for alias, module in self.aliases.items():
            for it in re.findall(rf"(?<![\w.]){re.escape(alias)}\.([^\s(){{}}\[\],;.]+)", text):
                yield module, it


class Declared:
    """A file of code: the types that it declares, and what each of their names means."""

    def __init__(self, path, crate, inner):
        self.path, self.crate = path, crate
        with open(path, encoding="utf-8") as it:
            text = it.read()
        self.definitions = {}
        for found in TYPE.finditer(text):
            name, first = found[1], text[: found.start()].count("\n") + 1
            seen = re.search(rf"(?m)^impl.* Model for {name}\b.*\{{\n((?:    .*\n|\n)*)\}}", text)
            lines = [*found[0].split("\n"), *re.findall(r"(?m)^    ghost (?:Value|view) =.*", seen[1] if seen else "")]
            lines = [it for it in lines if it.strip() and not re.match(r"\s*(//|#\[)", it)]
            module = ".".join(filter(None, [f"Rattle.{crate}.specs.declared", inner, name]))
            self.definitions[name] = Definition(module, name, first, tuple(lines))
        # the crate that each imported name is of
        self.imports = {}
        for root, rest in re.findall(r"(?m)^(?:pub )?use (\w+)(::[^;]*);", text):
            self.imports.update(dict.fromkeys(re.findall(r"\b[A-Z]\w*", rest), crate if root in ("crate", "super", "self") else root))


class Types:
    """The types that the repository's code declares, by the modules that definitions import them from."""

    def __init__(self, files):
        self.files = {it.module: file for file in files for it in file.definitions.values()}
        self.modules = {(file.crate, it.name): it.module for file in files for it in file.definitions.values()}

    def place(self, module):
        """Returns the place of the type that this module declares, or None where it is no type of the repository."""
        module = re.sub(r"\.(TheVariants|TheInside)$", "", module)
        return (module, module.rpartition(".")[2]) if module in self.files else None

    def definition(self, place):
        return self.files[place[0]].definitions[place[1]]

    def uses(self, place, fields):
        """The places of the types that this one's text names, but for those of private fields other than these."""
        file = self.files[place[0]]
        private = [re.match(r" +(?:pub\(\w+\) )?([a-z]\w*):", line) for line in self.definition(place).lines]
        lines = [line for line, own in zip(self.definition(place).lines, private) if own is None or own[1] in fields]
        for name in {*re.findall(r"\b[A-Z]\w*", "\n".join(lines))} - {place[1]}:
            named = self.modules.get((file.crate if name in file.definitions else file.imports.get(name), name))
            if named:
                yield named, name


def clauses(definition):
    """Returns the texts of a definition's head and of its clauses."""
    found = []
    for line in definition.lines:
        if found and line[0].isspace():
            found[-1] += f"\n{line}"
        else:
            found.append(line)
    return found


def free_words(clause):
    """Returns the words of a clause that may name definitions: no fields, and no variables of its left side."""
    left, equals, right = clause.partition(" = ")
    if not equals or "\n" in left:
        return set(WORD.findall(fieldless(clause)))
    first, *others = WORD.findall(fieldless(left))
    bound = {it for it in others if it[0].islower()}
    return {first, *others, *WORD.findall(fieldless(right))} - bound


def fieldless(text):
    """Returns the text without the fields that it takes of a record, declares or sets."""
    text = re.sub(r"(?<=[\w)])\.[^\s(){}\[\],;.\"]+", "", text)
    text = re.sub(r"(?m)(^\s+pub )[a-z]\w*(?= :)", r"\1", text)
    return re.sub(r"(?m)((?:[{;]|^)\s*)[a-z]\w*(?= = )", r"\1", text)


def files_below(kind, suffix):
    """Returns each file of that suffix in the crates' folders of that kind: its path, its crate, and its module within."""
    for crate in sorted(os.listdir(CRATES)):
        folder = f"{CRATES}/{crate}/{kind}"
        for at, _, files in sorted(os.walk(folder)):
            for file in sorted(it for it in files if it.endswith(suffix)):
                yield f"{at}/{file}", crate, os.path.relpath(f"{at}/{file}", folder).removesuffix(suffix).replace("/", ".")


def modules():
    named = [(path, f"Rattle.{crate}.specs.{inner}") for path, crate, inner in files_below("specs", ".antt")]
    return {name: Module(path, name) for path, name in named}


def types():
    files = files_below("src", ".rt")
    return Types([Declared(path, crate, re.sub(r"(^|\.)(lib|main|mod)$", "", inner)) for path, crate, inner in files])


class Known(NamedTuple):
    """All definitions of the repository, and the types of its code."""

    modules: dict
    types: Types

    def resolved(self, place):
        """Returns the place of what this name means, or None where it is nothing of this repository."""
        module, name = place
        while module in self.modules:
            if name in self.modules[module].owners:
                return module, self.modules[module].owners[name]
            if name not in self.modules[module].imports:
                return None
            module, name = self.modules[module].imports[name]
        return self.types.place(module)

    def definition(self, place):
        return self.modules[place[0]].definitions[place[1]] if place[0] in self.modules else self.types.definition(place)

    def uses(self, place, fields):
        return self.modules[place[0]].uses(self.definition(place)) if place[0] in self.modules else self.types.uses(place, fields)

    def path(self, definition):
        source = self.modules.get(definition.module) or self.types.files[definition.module]
        return os.path.relpath(source.path, TOP)

    def law(self, name):
        """Returns the place of the law of that name, which may have its crate before it."""
        crate, _, own = name.rpartition(":")
        found = [(module, own) for module, it in self.modules.items() if own in it.definitions]
        found = [it for it in found if it[0].startswith(f"Rattle.{crate}.")] if crate else found
        ours = [it for it in found if it[0].startswith(f"{PROTOCOL}.")] or found
        if len(ours) != 1:
            raise Unknown(f"no law {name}" if not found else f"{name} is in {', '.join(sorted(it[0] for it in found))}: say CRATE:{own}")
        return ours[0]


class Unknown(Exception):
    """A law that isn't there, or that several crates have."""


def follow(known, start, pins):
    """Returns the places of what is reached from there, where the bodies of these pinned definitions aren't read."""
    fields, seen = None, set()
    while True:
        found = {field for place in seen for line in known.definition(place).lines for field in FIELD.findall(line)}
        if found == fields:
            return seen
        fields, seen = found, follow_once(known, start, pins, found)


def follow_once(known, start, pins, fields):
    """Returns what is reached from there, where of types of code only these private fields are read."""
    left, seen = [start], set()
    while left:
        place = known.resolved(left.pop())
        if place is None or place in seen:
            continue
        seen.add(place)
        left += pins[place].laws if place in pins else known.uses(place, fields)
    return seen


def reached_by(known, laws, pinned):
    """Returns the definitions that these laws reach, themselves among them, and of these pinned ones those whose bodies no law needs."""
    needed, spared = set(), {}
    for law in laws:
        pins = pinned
        seen = follow(known, law, pins)
        if law[1] not in INDIFFERENT:
            pins = {place: pin for place, pin in pinned.items() if not seen & {*pin.unless}}
            seen = follow(known, law, pins)
        needed |= seen - {*pins}
        spared |= {place: pins[place] for place in seen & {*pins}}
    return [known.definition(it) for it in sorted(needed)], {place: pin for place, pin in sorted(spared.items()) if place not in needed}


def reached(known, laws):
    """Returns the same, with those pins by which less is to be read."""
    both = [reached_by(known, laws, it) for it in (PINNED, {**PINNED, **PINNED_IN_RUNS})]
    return min(both, key=lambda it: sum(found.count() for found in it[0]))


def show_files(known, found):
    """Prints the lines that have to be read of each file, the files with the most first."""
    each = {}
    for it in found:
        count, definitions = each.get(known.path(it), (0, 0))
        each[known.path(it)] = count + it.count(), definitions + 1
    for path, (count, definitions) in sorted(each.items(), key=lambda it: (-it[1][0], it[0])):
        print(f"{count:4} {path}: {definitions} definitions")


def main(words):
    names = [it for it in words if not it.startswith("-")]
    shown = {*words} - {*names}
    if shown - {"--list", "--files"} or len(shown) > 1:
        print(__doc__, file=sys.stderr)
        return 2
    known = Known(modules(), types())
    all_laws = [name for module in (LAWS, ORDER) for name in known.modules[module].definitions if name.endswith("Law")]
    each = {it: [it] for it in ("BeginsLaw", "all laws", "StoppedHeadlineLaw", "HeadlineLaw", "EndsLaw", "OutcomeLaw")} | {"all laws": all_laws}
    try:
        asked = {label: [known.law(it) for it in chosen] for label, chosen in ({" ".join(names): names} if names else each).items()}
    except Unknown as fault:
        print(fault, file=sys.stderr)
        return 2
    for label, laws in asked.items():
        found, pinned = reached(known, laws)
        if "--list" in shown:
            for it in found:
                print(f"{it.count():4} {known.path(it)}:{it.first} {it.name}")
        elif shown:
            show_files(known, found)
        for place, pin in pinned.items() if shown else []:
            print(f"pinned: {place[1]} by {' and '.join(name for _, name in pin.laws)}: {pin.why}")
        in_code = [it for it in found if it.module not in known.modules]
        lines, lines_in_code = (sum(it.count() for it in each) for each in (found, in_code))
        print(f"{label}: {lines} lines of {len(found)} definitions, {lines_in_code} of them in {len(in_code)} types of code")
    return 0


if __name__ == "__main__":
    # (a reader may stop early, as head does)
    signal.signal(signal.SIGPIPE, signal.SIG_DFL)
    sys.exit(main(sys.argv[1:]))
