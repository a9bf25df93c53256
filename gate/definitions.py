"""Edits of definitions that stand in one check.

An edit of a definition has to make a law refuse. A check of its own takes some ten seconds to begin and one or two for what the edit
reaches, so several stand in one: each in copies of the modules that it changes and of those on the way from them to its law, under names
that end in its mark, and with a copy of the law. So edits say nothing of one another, nor of what isn't copied. Beside them stands, for
each law, a copy over all of these modules in which nothing is edited: where it isn't proved the check tells nothing of that law's
edits. Since no code is copied, a law whose proof cites a contract stands in such a check only where the file of that contract rests
on nothing that is changed. What isn't told here is tried by itself (`gate/wrong_bodies.py`).

Where a function of code stands in the law's place, a copy of it stands in the check of the edits of code, with the copied modules' names in
its clauses (`OfFunction`), and beside it one over copies in which nothing is edited.
"""
import functools
import os
import re
from typing import NamedTuple

from functions import functions_of
from kit import rt

# The most lines of copies that stand in one check, so that a crate's edits fill several lanes, and memory lasts.
MOST_LINES = 30_000
# What a proof file says where it names what the edit took away: a refusal, but one that says little of the contract.
NAMES = re.compile(r"has no field|is not in scope|has no `")
LAW = re.compile(r"(?m)^pub fn (\w+)(?:<\w+: \w+>)?\(\)\n(?: +[^\n]*\n)*\{(?:\n    (?P<cites>\w+)\(\);\n)?\}$")
HEADER = re.compile(r"(?m)^(?:ghost )?use [^;]*;\n")
# The same within a block of a type too.
GHOST_USE = re.compile(r"(?m)^ *ghost use [^;]*;\n")
# A function that a trait declares, with its clauses, and what an `impl` of a trait says of its ghost members.
DECLARED = re.compile(r"(?m)^    fn (\w+)[^{}]*(?:\n +(?:requires|ensures)[^\n]*| *//[^\n]*|\n[^\n{}]*)*;$")
IMPL = re.compile(r"(?ms)^impl(?:<[^\n]*?>)? (?:\w+::)*(\w+)[^\n]*?\bfor (?:\w+::)*(\w+)[^\n]*\{\n(.*?)^\}$")
# How a body calls std's traits; what others say of a type may be read wherever the type is named.
CALLED = {"From": r"\?|\b(?:into|from)\(", "Display": r"!\("}


class Module(NamedTuple):
    """A file of specs/ or of proofs/: its side and its path there, as a whole name has it."""

    side: str
    path: str

    @property
    def file(self):
        return f"{self.side}/{self.path.replace('.', '/')}.antt"

    @property
    def node(self):
        """The file that declares it."""
        above = self.path.rpartition(".")[0].replace(".", "/") or "Lib"
        return f"{self.side}/{above}.antt"

    @property
    def name(self):
        return self.path.rpartition(".")[2]

    def marked(self, mark):
        return Module(self.side, self.path + mark)


class Law(NamedTuple):
    """A function that does nothing and whose contract is a law: the file where it stands, its modules' path, and its text."""

    file: str
    path: str
    text: str

    @property
    def name(self):
        return self.path.rpartition(".")[2]


class Sources:
    """A crate's modules, what each names of the others, and its laws."""

    def __init__(self, crate):
        self.crate = crate
        self.names = re.compile(rf"\bRattle\.{crate.name}\.(specs|proofs)\.([^\s{{}}(),;]*[^\s{{}}(),;.])")
        files = [it for it in self.files_of("specs", "proofs") if it.endswith(".antt") and not it.endswith("/Lib.antt")]
        self.modules = {Module(side, rest.removesuffix(".antt").replace("/", ".")) for side, _, rest in (it.partition("/") for it in files)}
        self.named = functools.cache(lambda module: self.named_in(self.text_of(module.file)))

    def files_of(self, *parts):
        top = self.crate.folder
        walked = (it for part in parts for it in os.walk(f"{top}/{part}"))
        return sorted(os.path.relpath(f"{above}/{name}", top) for above, _, names in walked for name in names)

    @functools.cache
    def text_of(self, file):
        with open(f"{self.crate.folder}/{file}", encoding="utf-8") as it:
            return it.read()

    def module_of(self, side, path):
        """Returns the module that a whole name leads into, or None."""
        while path and Module(side, path) not in self.modules:
            path = path.rpartition(".")[0]
        return Module(side, path) if path else None

    def named_in(self, text):
        found = {self.module_of(*it) for it in self.names.findall(text)}
        return found - {None}

    def law(self, path):
        """Returns the law of this path below the crate, or None where the function isn't one that only states a law."""
        *above, name = path.split("::")
        file = f"src/{'/'.join(above) or 'lib'}.rt"
        if not os.path.isfile(f"{self.crate.folder}/{file}"):
            return None
        text = self.text_of(file)
        found = [it[0] for it in LAW.finditer(text) if it[1] == name and (not it["cites"] or self.is_of_another(it["cites"], text))]
        return Law(file, ".".join([*above, name]), found[0]) if len(found) == 1 else None

    def is_of_another(self, name, text):
        """Whether a file has this name from another crate."""
        return any(uses(it, name) and not it.startswith(("use crate::", "use super::", "ghost")) for it in HEADER.findall(text))

    def proof_of(self, law):
        """Returns the modules of a law's own proof."""
        return {it for it in self.modules if it.side == "proofs" and it.path.startswith(f"{law.path}.")}

    def first_of(self, law):
        """Returns the modules from which a law is reached: those that its statement names, and those of its proof."""
        stated = [it for it in HEADER.findall(self.text_of(law.file)) if uses(it, law.text)]
        return {*self.named_in("".join(stated)), *self.proof_of(law)}

    @functools.cache
    def reached(self, law):
        """Returns the modules that a law rests on."""
        return self.below(self.first_of(law))

    def below(self, first):
        """Returns these modules, and those that they rest on."""
        found, left = set(), [*first]
        while left:
            it = left.pop()
            if it not in found:
                found.add(it)
                left += self.named(it)
        return found

    @functools.cache
    def contracts_of(self, law):
        """Returns what a law's proof names that the check makes of code, other than types and the law's own."""
        own = (f"{law.path}.", f"contracts.{law.path}.", "declared.")
        texts = (self.text_of(it.file) for it in self.reached(law))
        found = {path for text in texts for side, path in self.names.findall(text) if not self.module_of(side, path)}
        return {it for it in found if not f"{it}.".startswith(own)}

    def lines_of(self, function):
        return "\n".join(self.text_of(function.file).split("\n")[function.first : function.last + 1])

    def stated_by(self, file, text):
        """Returns the modules on which a text of a file of code rests."""
        return self.below(self.named_in("".join(it for it in GHOST_USE.findall(self.text_of(file)) if uses(it, text))))

    def stated_of(self, function):
        """Returns the modules on which a function's clauses rest."""
        return self.stated_by(function.file, "\n".join(self.text_of(function.file).split("\n")[function.first : function.body + 1]))

    def stated_beside(self, function):
        """Returns the modules on which rests what else a function's proof may read: the clauses of what has the name of something that it calls, of a
        trait too, what an `impl` says of a type that it names, what stands in its body, and the lemmas of its proof."""
        lines = self.lines_of(function)
        body = "\n".join(lines.split("\n")[function.body - function.first + 1 :])
        found = self.stated_by(function.file, body) | self.below(self.named_in("".join(self.lemmas_of(function, lines))))
        for file in (it for it in self.files_of("src") if it.endswith(".rt")):
            for it in functions_of(file, self.text_of(file)):
                if it.key != function.key and re.search(rf"\b{it.name}(::<|\()", body):
                    found |= self.stated_of(it)
            for it in DECLARED.finditer(self.text_of(file)):
                if re.search(rf"\b{it[1]}(::<|\()", body):
                    found |= self.stated_by(file, it[0])
            for trait, owner, members in members_of(self.text_of(file)):
                is_named = owner == function.owner or re.search(rf"\b{owner}\b", lines)
                if is_named and re.search(CALLED.get(trait, ""), body):
                    found |= self.stated_by(file, members)
        return found

    def lemmas_of(self, function, lines):
        """Returns the texts of a function's proof files, and what its attributes name of proofs, as proof files name it."""
        files = (it for it in self.files_of("proofs") if function.has_proof_folder(os.path.dirname(it).partition("/")[2]))
        named = re.findall(r"\bcrate::proofs::([\w:]+)", lines)
        return [*map(self.text_of, files), *(f"Rattle.{self.crate.name}.proofs.{it.replace('::', '.')} " for it in named)]

    def rests_on_code(self, law, changed):
        """Whether a law's proof names a contract that may speak of what is changed: the contract isn't copied, and so would speak of what was there before."""
        return any(self.of_code(it) is None or self.of_code(it) & changed for it in self.contracts_of(law))

    @functools.cache
    def of_code(self, path):
        """Returns the modules that the file of a contract rests on, or None where the file isn't known."""
        front, _, rest = path.partition(".")
        names = rest.split(".")
        files = [f"src/{'/'.join(names[:it])}.rt" for it in range(len(names), 0, -1)]
        file = next((it for it in files if os.path.isfile(f"{self.crate.folder}/{it}")), None)
        if front != "contracts" or not file or "crate::" in self.text_of(file):
            return None
        return self.below(self.named_in(self.text_of(file)))

    def way(self, reached, changed):
        """Returns the modules on the way from these to what reaches those, with those of them that it reaches."""
        found, more = set(), reached & changed
        while more:
            found |= more
            more = {it for it in reached - found if self.named(it) & found}
        return found


def members_of(text):
    """Yields, for each `impl` of a trait in a file of code, the trait, the type and what is said of ghost members."""
    for it in IMPL.finditer(text):
        yield it[1], it[2], "".join(re.findall(r"(?m)^ +ghost (?!use )[^\n]*\n", it[3]))


def errors_of(lines):
    """Returns the lines that tell why a proof doesn't stand, for more than what an edit took away."""
    return [it for it in lines if ": error: " in it and "was not admitted" not in it and not NAMES.search(it)]


def uses(header, text):
    """Whether a `use` line brings a name that stands in the text."""
    return any(re.search(rf"(?<!\w){re.escape(it)}(?!\w)", text) for it in re.findall(r"[\w-]+", header.rpartition("::")[2].rpartition(".{")[2]))


class Copy:
    """A law over copies of modules, in some of which an edit may be made."""

    def __init__(self, sources, law, modules, mark, pairs=()):
        self.sources, self.law, self.mark, self.pairs = sources, law, mark, pairs
        # (a law's own proof stands at its copy, whatever of it names what was changed)
        self.modules = modules - sources.proof_of(law)
        self.above = f"edited{mark}"

    def lines(self):
        return sum(self.sources.text_of(it.file).count("\n") for it in self.modules)

    def texts(self):
        """Returns the texts of the copies by their files."""
        found = {it.marked(self.mark).file: self.renamed(self.edited(it.file)) for it in self.modules}
        header = [it for it in HEADER.findall(self.sources.text_of(self.law.file)) if uses(it, self.law.text)]
        found[f"src/{self.above}.rt"] = self.renamed(f"//! A law over copies.\n\n{''.join(header)}\n{self.law.text}\n")
        for it in self.sources.proof_of(self.law):
            file = f"proofs/{self.above}/{self.law.name}/{it.name}.antt"
            found[file] = self.renamed(self.sources.text_of(it.file))
        return found

    def edited(self, file):
        """Returns the text of a file with what the edit changes there, and without what it declares."""
        text = self.sources.text_of(file)
        for changed, old, new in self.pairs:
            text = text.replace(old, new) if changed == file else text
        return re.sub(r"(?m)^(pub )?mod .*\n", "", text)

    def renamed(self, text):
        """Returns a text that names the copies in the place of what was copied."""
        crate = self.sources.crate.name

        def one(at):
            side, path = at[1], at[2]
            module = self.sources.module_of(side, path)
            if module in self.modules:
                return f"Rattle.{crate}.{side}.{module.path}{self.mark}{path[len(module.path):]}"
            for front in ("", "contracts."):
                if f"{path}.".startswith(f"{front}{self.law.path}."):
                    return f"Rattle.{crate}.{side}.{front}{self.above}.{self.law.name}{path[len(front + self.law.path):]}"
            return at[0]

        return self.sources.names.sub(one, text)

    def has(self, line):
        """Whether a line of a check speaks of this copy."""
        return f"{self.mark}.antt:" in line or f"/{self.above}/" in line or f"src/{self.above}.rt:" in line

    def plain(self, line):
        return line.replace(f"{self.mark}.", ".").replace(f"/{self.above}/", "/").removeprefix("./")

    def said(self, lines):
        """Returns what the check says of the law."""
        start = f"fn {self.sources.crate.name}::{self.above}::{self.law.name}: "
        found = [it.removeprefix(start) for it in lines if it.startswith(start)]
        return found[0] if len(found) == 1 else ""


class OfFunction(Copy):
    """A function of code over copies of modules, in some of which an edit may be made."""

    def texts(self):
        return {it.marked(self.mark).file: self.renamed(self.edited(it.file)) for it in self.modules}

    def nodes(self, text_of):
        """Returns the texts of the files that declare the copied modules, and the copies too."""
        found = {}
        for it in self.modules:
            found[it.node] = with_modules(found.get(it.node) or text_of(it.node), [(it.name, f"{it.name}{self.mark}")])
        return found

    def names(self):
        """Returns what the function's file brings from the copied modules, each as its module, its own name, and the name that it has there."""
        crate = self.sources.crate.name
        found = []
        for path, names in re.findall(rf"(?m)^ *ghost use Rattle\.{crate}\.specs\.(\S+)\.\{{([^}}]*)\}};$", self.sources.text_of(self.law.file)):
            module = self.sources.module_of("specs", path)
            if module in self.modules:
                rest = path[len(module.path) :]
                pairs = (it.partition(" as ") for it in names.split(", "))
                found += [(f"{crate}.specs.{module.path}{self.mark}{rest}", own, local or own) for own, _, local in pairs]
        return found

    def restated(self, text, body):
        """Returns the function's text, whose body begins at this line, with the copies' names in its clauses, and what it brings for that; None where
        an operator is one of them."""
        lines, uses = text.split("\n"), []
        first = next((at for at, it in enumerate(lines) if re.match(r" +(ensures|requires) ", it)), body)
        clauses = "\n".join(lines[first:body])
        attributes = "\n".join(lines[:first])
        for it in self.modules:
            attributes = attributes.replace(f"crate::specs::{it.path.replace('.', '::')}::", f"crate::specs::{it.path.replace('.', '::')}{self.mark}::")
        for module, own, local in self.names():
            if "◌" in own:
                return None
            here = rf"(?<![\w.◌'-]){re.escape(local)}(?![\w◌'-])"
            if re.search(here, clauses):
                clauses = re.sub(here, f"{local}{self.mark}", clauses)
                uses.append(f"ghost use Rattle.{module}.{{{own} as {local}{self.mark}}};")
        return "\n".join([*attributes.split("\n"), *clauses.split("\n"), *lines[body:]]), uses


def of_function(sources, function, mark, pairs, files):
    """Returns a function of code over copies of what lies between its clauses and these changed files, or None where nothing does, or where something
    else in its proof speaks of these: that isn't copied, so it would speak of what was there before."""
    changed = {it for it in sources.modules if it.file in files}
    modules = sources.way(sources.stated_of(function), changed)
    is_stated = modules and len(changed) == len(files) and all(it.side == "specs" for it in modules)
    if not is_stated or sources.stated_beside(function) & modules:
        return None
    return OfFunction(sources, Law(function.file, "", sources.lines_of(function)), modules, mark, pairs)


class Batch:
    """Edits of a crate's definitions that stand in one check."""

    def __init__(self, sources):
        self.sources, self.edits, self.controls = sources, {}, {}

    def lines(self):
        return sum(it.lines() for it in self.edits.values())

    def add(self, edit, law, modules):
        self.edits[edit] = Copy(self.sources, law, modules, f"_e{len(self.edits)}", edit.pairs)
        control = self.controls.get(law)
        union = modules | (control.modules if control else set())
        self.controls[law] = Copy(self.sources, law, union, control.mark if control else f"_c{len(self.controls)}")

    def copies(self):
        return [*self.edits.values(), *self.controls.values()]

    def texts(self, text_of=None):
        """Returns the texts that the check reads in the place of the crate's own, or beside them, where its files have these texts."""
        text_of = text_of or self.sources.text_of
        found, declared = {}, {}
        for it in self.copies():
            found.update(it.texts())
            for module in it.modules:
                declared.setdefault(module.node, []).append((module.name, f"{module.name}{it.mark}"))
        for node, names in declared.items():
            found[node] = with_modules(text_of(node), names)
        found["src/lib.rt"] = with_lines(text_of("src/lib.rt"), [f"mod {it.above};" for it in self.copies()])
        return found

    def only(self):
        return [f"{it.above}::{it.law.name}" for it in self.copies()]

    def verdict(self, edit, lines):
        """Returns what to say of an edit with which all is well, or None where the check doesn't tell."""
        copy = self.edits[edit]
        said, mine = copy.said(lines), [copy.plain(it) for it in lines if copy.has(it)]
        if self.controls[copy.law].said(lines) != "proved" or any(rt.unread(it, {}) for it in mine):
            return None
        if edit.is_equal:
            return "proved, as it must be" if said == "proved" else None
        told = errors_of(mine)
        # (a law that stands with a wrong definition is tried once more by itself)
        return f"refused, as it must be, by {edit.law}: {told[0][:120]}" if said == "not proved" and told else None


def with_lines(text, lines):
    """Returns the text of a file of code with these lines behind what it says of itself."""
    at = re.search(r"(?m)^(?!//!|#!|\n)", text).start()
    return text[:at] + "".join(f"{it}\n" for it in lines) + text[at:]


def with_modules(text, names):
    """Returns the text of a file that declares modules, with further ones declared just as those that they copy."""
    for name, new in names:
        text = re.sub(rf"(?m)^((?:pub )?mod ){re.escape(name)}$", rf"\g<0>\n\g<1>{new}", text, count=1)
    return text


def batches(crate, edits):
    """Returns batches of those of the edits that can stand with others in a check, those of one law together."""
    sources, found = Sources(crate), []
    for edit in sorted(edits, key=lambda it: it.law):
        law = sources.law(edit.law)
        files = {it[0] for it in edit.pairs}
        changed = {it for it in sources.modules if it.file in files}
        if not law or sources.rests_on_code(law, changed) or len(changed) < len(files) or any(it.side != "specs" for it in changed):
            continue
        modules = sources.way(sources.reached(law), changed)
        if not modules:
            continue
        if not found or found[-1].lines() > MOST_LINES:
            found.append(Batch(sources))
        found[-1].add(edit, law, modules)
    return [it for it in found if len(it.edits) > 1]
