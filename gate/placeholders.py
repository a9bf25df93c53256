"""Placeholders for the functions that a check of edits doesn't try.

A check of a function proves what it calls too, though `rt ci` has proved that: a third of all that edits took. So in the copy of the
crate that the check reads, each function that isn't tried has one call in the place of its body, of a foreign function whose assumed
contract is false. It meets any contract in one step, and what calls it is proved over its contract, as ever. An assumption can only
prove more, so what is refused beside it would be refused without it. What goes with a body are its closures and its proof files; where a
copy could miss those, since it has proof files of its own, one in which nothing is edited has to be proved beside it.
"""
import os
import re

from functions import functions_of

MODULE = "not_tried"
DECLARED = """ghost use Rattle.std.specs.Prelude.{◌≡◌, false, true};

unsafe extern "C" {
    pub(crate) safe fn here() -> bool
        ensures { true ≡ false };
}
"""
# What has to be known of a function beside its contract: its value, the type of its result, or that it begins the program.
NEEDED = re.compile(r"\bconst (?:unsafe )?fn\b|-> impl\b|\bfn main\b|#\[(?:test|cycle|lang)\b")


def files_of(crate, part):
    walked = os.walk(f"{crate.folder}/{part}")
    return [os.path.relpath(f"{above}/{name}", crate.folder) for above, _, names in walked for name in names]


def needs_its_body(function, lines):
    text = "\n".join(lines[function.first : function.last + 1])
    calls_itself = re.search(rf"\b{function.name}\(", "\n".join(lines[function.body + 1 : function.last]))
    return function.body == function.last or calls_itself or NEEDED.search(text)


def is_proof_of(function, file):
    """Whether a proof file is this function's, or that of a closure in it."""
    folder = os.path.dirname(file).partition("/")[2]
    above = os.path.dirname(folder).split("/")
    return function.has_proof_folder(folder) or ("fn" in above and above[-1] == function.name)


def with_placeholders(crate, text_of, tried):
    """Returns the crate's texts by file, with placeholders but where a function is tried, and None for a proof file of one that has a placeholder."""
    found, gone = {}, []
    for file in (it for it in files_of(crate, "src") if it.endswith(".rt")):
        lines = text_of(file).split("\n")
        for it in reversed(functions_of(file, text_of(file))):
            if it.key in tried or needs_its_body(it, lines):
                continue
            indent = re.match(" *", lines[it.last])[0]
            lines[it.body + 1 : it.last] = [f"{indent}    crate::{MODULE}::here();", f"{indent}    unreachable!()"]
            gone.append(it)
        found[file] = "\n".join(lines)
    root = "src/main.rt" if crate.is_program else "src/lib.rt"
    found[root] += f"\nmod {MODULE};\n"
    found[f"src/{MODULE}.rt"] = DECLARED
    proofs = (it for it in files_of(crate, "proofs") if os.path.basename(it) in ("Answers.antt", "Invariants.antt", "Proof.antt"))
    return {**found, **{file: None for file in proofs if any(is_proof_of(it, file) for it in gone)}}


def linked(crate, words):
    """Returns the words of a check of the crate, which says that it links what defines the foreign function."""
    return [f"{crate.name}={MODULE}" if it == f"{crate.name}=" else it for it in words]
