"""The functions of a crate, as its files in the layout of `rt fmt` show them."""
import os
import re
from typing import NamedTuple


def modules_of(file):
    """The names of the modules that lead to a file."""
    path = file[len("src/") : -len(".rt")].split("/")
    return [it for it in path if it not in ("lib", "main", "mod")]


def modules_of_types(folder):
    """Returns where the types of each name stand in a crate."""
    found = {}
    for above, _, names in os.walk(f"{folder}/src"):
        for path in (f"{above}/{name}" for name in names if name.endswith(".rt")):
            with open(path, encoding="utf-8") as it:
                types = re.findall(r"(?m)^(?:pub(?:\(\w+\))? )?(?:struct|enum) (\w+)", it.read())
            for name in types:
                found.setdefault(name, []).append(modules_of(os.path.relpath(path, folder)))
    return found


class Function(NamedTuple):
    """A function of a file in the layout of `rt fmt`: its lines, from 0 and from its attributes on, and where its body begins.
    `owner` is the type or trait that it belongs to, and `block` what the check calls its `impl` or trait."""

    file: str
    owner: str
    block: str
    name: str
    first: int
    body: int
    last: int

    @property
    def key(self):
        return self.file, self.block, self.name

    def path(self, modules):
        """Its path below the crate, as the check prints it: a type's own function stands where the type does."""
        where = modules.get(self.block, [self.modules()])
        return "::".join(filter(None, [*(self.modules() if self.modules() in where else where[0]), self.block, self.name]))

    def modules(self):
        return modules_of(self.file)

    def is_of_trait(self):
        """Whether it is a method that its type has by a trait: none can stand beside it under another name."""
        return self.block.partition("+")[0] != self.owner

    def has_proof_folder(self, folder):
        """Whether the proof files of this folder below proofs/ are the function's: a method's stand at its type."""
        *above, name = folder.split("/")
        if self.owner:
            is_block = above and (above[-1] == self.block or re.fullmatch(rf"{self.owner}([A-Z]\w*)?", above[-1]))
            return name == self.name and bool(is_block)
        return name == self.name and above == self.modules()

    def is_named(self, crate, path):
        """Whether the check's line of this path is the function's."""
        first, *above, name = path.split("::")
        return first == crate and self.has_proof_folder("/".join([*above, name]))


def without_arguments(head):
    """Returns the head of a block without what stands between angle brackets."""
    while re.search(r"<[^<>]*>", head):
        head = re.sub(r"<[^<>]*>", "", head)
    return head


def owner_of(head):
    """Returns the type that an `impl` is of, or the trait that a `trait` declares, and what the check calls the block: an
    `impl` of a trait by its type, the trait, and the type that the trait is given; another of a type that is given one by
    both."""
    given = re.findall(r"\bFrom<(\w+).* for ", head) or [f"+{it}" for it in re.findall(r"^impl \w+<([A-Z]\w+)> *$", head)]
    parts = re.sub(r"^(unsafe )?(impl|trait)\b", "", without_arguments(head)).split(" for ")
    names = [re.match(r"\W*(?:\w+::)*(\w+)", it)[1] for it in parts]
    return names[-1], "".join([*reversed(names), *given])


def functions_of(file, text):
    """Returns the functions of a file, by its layout: a body ends at the line that closes it at the head's indent."""
    lines, found, owner = text.split("\n"), [], ("", "")
    for at, line in enumerate(lines):
        head = re.match(r"(unsafe )?(impl\b|(pub )?trait ).*", line)
        if head:
            owner = owner_of(" ".join(lines[at : at + 4]).split("{")[0].replace("pub ", "", 1))
        elif line == "}":
            owner = ("", "")
        head = re.match(r"( *)(pub(\([a-z]+\))? )?(const )?(unsafe )?fn (\w+)", line)
        if not head:
            continue
        indent, name, first = head[1], head[6], at
        while re.match(r"\s*(#\[|[^/{}\s][^{}]*$)", lines[first - 1]):
            first -= 1
        opened = (it for it in range(at, len(lines)) if opens_body(lines[it], indent))
        body = next(opened, None)
        if body is None or any(it.endswith(";") for it in lines[at:body]):
            continue
        ended = (it for it in range(body + 1, len(lines)) if lines[it] == indent + "}")
        last = body if lines[body].endswith("{}") else next(ended, len(lines) - 1)
        found.append(Function(file, *(owner if indent else ("", "")), name, first, body, last))
    return found


def opens_body(line, indent):
    """Whether a function's body opens on this line: its brace stands alone, or ends the line of its result."""
    if line.startswith((indent + "{", indent + "{}")):
        return True
    is_clause = line.strip().startswith(("ensures", "requires", "ghost", "//"))
    return not is_clause and line.endswith((" {", " {}"))


# What begins an item that is no function, and its name.
ITEM = re.compile(r"(?:pub(?:\(\w+\))? )?(?:const|static|enum|struct|type) (\w+)\b(?! fn)")


def items_of(text):
    """Returns the text of each item of a file that is no function and stands in no block, by its name: it ends at the line that closes it."""
    lines, found = text.split("\n"), {}
    for at, line in enumerate(lines):
        head = ITEM.match(line)
        if head:
            last = next((it for it in range(at, len(lines)) if lines[it].endswith(";") and not lines[it].startswith(" ") or lines[it] == "}"), at)
            found[head[1]] = "\n".join(lines[at : last + 1])
    return found
