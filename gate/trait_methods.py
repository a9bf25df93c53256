"""A method of a trait as a function of its type, with the same contract.

No copy of a method of a trait can stand beside it under another name, so its edit would be made in place: then nothing that calls it has a
verdict in that check, nor a second edit of it. Where the trait's clauses can be written for this type, the copy is a function of the type
itself: with the clauses that the method states, those of the trait in its crate, or those of `From` and `Display`, each with what the `impl`
says of the trait's ghost members in their place. One more copy, in which nothing is edited, has to be proved beside them.
"""
import os
import re
from typing import NamedTuple

from definitions import with_lines
from functions import modules_of_types

BROUGHT = re.compile(r"(?m)^ *ghost use (\S+)\.\{([^}]*)\};$")
MEMBER = re.compile(r"^ +ghost (\w+) = \{ (.*) \};$")
# The clauses of std's traits, and the modules of what they name.
OF_STD = {
    ("From", "from"): ([], "ensures { from_gives {argument} result }"),
    ("Display", "fmt"): (
        [("Rattle.std.specs.Fmt", "DisplaysOnOk")],
        "ensures { DisplaysOnOk W.Write.write_str_gives f.old result (output self.now) f.new }",
    ),
}


class Place(NamedTuple):
    """Where a function of a type may stand for a method of a trait: the head of its `impl`, its clauses, if the method doesn't state them
    itself, and the names that they want, each with its module."""

    head: str
    clauses: str
    names: list

    def function(self, text):
        """Returns the text of a method, with its clauses."""
        head, _, body = text.partition(" {")
        return f"{head}\n        {self.clauses}\n    {{{body}" if self.clauses else text


def place_of(crate, function, source):
    """Returns where a function may stand for a method of a trait in a file with this text, or None where its clauses can't be written so."""
    lines = source.split("\n")
    first = next(it for it in range(function.first, -1, -1) if lines[it].startswith(("impl", "unsafe impl")))
    block = lines[first : lines.index("}", function.last)]
    head = re.fullmatch(r"impl (?:\w+::)*(\w+)(?:<\w+>)? for (\w+(?:<'_>)?) \{", lines[first])
    # (of `Display` the clause on `styled_output` isn't written)
    if not head or function.owner not in modules_of_types(crate.folder) or any("ghost styled_output" in it for it in block):
        return None
    text = "\n".join(lines[function.first : function.last + 1])
    if re.search(r"(?m)^ +(ensures|requires) ", text):
        return Place(f"impl {head[2]} {{", "", names_of("\n".join(block)))
    uses, declared, clauses = clauses_of(crate, head[1], function.name, text)
    clauses = clauses and written(clauses, {it[1]: it[2] for it in map(MEMBER.match, block) if it}, declared)
    wanted = [*uses, *names_of("\n".join(block)), *names_of(source_of(crate, head[1]) or "")]
    return Place(f"impl {head[2]} {{", clauses, [it for it in wanted if is_named(it[1], clauses)]) if clauses else None


def clauses_of(crate, trait, method, text):
    """Returns what the clauses of a trait's method name, the ghost members that the trait declares, and the clauses, or None."""
    if (trait, method) in OF_STD:
        uses, clauses = OF_STD[trait, method]
        # (of a reference a clause says more than its value)
        argument = re.search(r"\((\w+): ([\w:]+)\)", text)
        if "{argument}" in clauses and not argument:
            return [], [], None
        return uses, ["from_gives", "output"], clauses.replace("{argument}", argument[1] if argument else "")
    source = re.search(rf"(?ms)^pub trait {trait}\b.*?^\}}$", source_of(crate, trait) or "")
    source = source[0] if source else ""
    found = re.search(rf"(?ms)^    fn {method}\b(?:(?!\n    fn ).)*?\n((?: +(?:requires|ensures) [^\n]*\n| +//[^\n]*\n)+)", source)
    clauses = [it.strip().rstrip(";") for it in found[1].split("\n") if re.match(" +(requires|ensures) ", it)] if found else []
    return [], re.findall(r"(?m)^ +ghost (\w+):", source), "\n        ".join(clauses) or None


def source_of(crate, trait):
    """Returns the text of the file in which the crate, or one below it, declares a trait."""
    for folder in (it.folder for it in (crate, *crate.below())):
        for above, _, names in os.walk(f"{folder}/src"):
            for name in (it for it in names if it.endswith(".rt")):
                with open(f"{above}/{name}", encoding="utf-8") as it:
                    text = it.read()
                if re.search(rf"(?m)^pub trait {trait}\b", text):
                    return text
    return None


def written(clauses, members, declared):
    """Returns clauses with what an `impl` says of the trait's ghost members, or None where one of those that the trait declares still stands there."""
    for name, value in members.items():
        given = re.fullmatch(r"λ ((?:\w+ )*\w+)\. (.*)", value)
        if not given:
            continue
        (first, *more), body = given[1].split(" "), given[2]
        if name == "from_gives":
            if len(more) != 1:
                return None
            clauses = re.sub(r"from_gives (\S+) result", lambda it: named(named(body, more[0], "result"), first, it[1]), clauses)
        else:
            rest = f"λ {' '.join(more)}. " if more else ""
            clauses = re.sub(rf"(\()?\b{name} (self\.\w+)(?(1)\))", lambda it: f"({rest}{named(body, first, it[2])})", clauses)
    stand = (it for it in declared if re.search(rf"(?<![.\w]){it}(?!\w)", clauses))
    return None if next(stand, None) else clauses


def named(text, old, new):
    """Returns a term with another name in a variable's place."""
    return re.sub(rf"(?<![\w.]){re.escape(old)}(?!\w)", new, text)


def names_of(text):
    """Returns what a text's `ghost use` lines bring, each as its module and its name."""
    return [(module, name) for module, names in BROUGHT.findall(text) for name in names.split(", ")]


def is_named(name, text):
    """Whether a text has a name, or all parts of an operator."""
    parts = [it for it in name.split("◌") if it]
    return all(re.search(rf"(?<!\w){re.escape(it)}(?!\w)", text) for it in parts)


def with_names(text, names):
    """Returns a file's text that brings these names too."""
    top = {name for _, name in names_of("\n".join(it for it in text.split("\n") if it.startswith("ghost use")))}
    found = {}
    for module, name in names:
        if name not in top:
            found.setdefault(name, module)
    return with_lines(text, [f"ghost use {module}.{{{name}}};" for name, module in found.items()])
