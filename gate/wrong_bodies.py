#!/usr/bin/env python3
"""Tries the wrong bodies and definitions: the prover has to refuse each edit of crates/NAME/wrong/ and crates/NAME/must-fail/.

usage: gate/wrong_bodies.py [--built] [--anew] [CRATE [EDIT..]]

Edits of functions' bodies stand in one check together: each in a copy of its function beside it, with the same contract and
the same proof files. Every other function has a placeholder for its body there (`gate/placeholders.py`). Of a function whose
proof rests on its name, for its proof files or a call of itself, one more copy, in which nothing is edited, has to be proved
there, or its copies tell nothing. Of a method of a trait no copy can be made: its edit is made in place, in the same check,
where no copy is likely to call it and no other edit of it stands there, or else in a copy as a function of its type
(`gate/trait_methods.py`), or else in a further check. An edit counts as refused where the prover names a goal of its copy, or
of its function; what its check didn't name goes into a further one, then into one without placeholders, and in the end is tried
alone, as is an edit of a constant or a type. An edit of a definition has a line 'by: LAW', and that law has to be refused with
it. So may an edit of code have, with a function in the law's place: where the whole check of its crate is dear, that function
alone is checked, together with others that rest on nothing that its edit changes. Edits of definitions stand in one check too
(`gate/definitions.py`), which is that of the edits of code where there are few of either; so do those that a function refuses,
with a copy of it over copies of what they change, where nothing else in its proof speaks of that.
Beside them stand the edits of crates/NAME/equal/, which say the same in other words: each has to be proved, so that a
run can't call everything refused.

What a run told of an edit is kept on this machine (`gate/kept.py`), so that a later one tries only what changed; --anew tries all.

All is tried on copies. --built takes the libraries as `rt ci` left them in out/; without it this works in a copy of the
checkout, over the libraries that `rt ci` keeps on this machine, and proves first what it lacks. The last line is 'N passed, M
failed', and the status 0 where nothing failed.
"""
import copy
import os
import re
import shutil
import sys
import tempfile
import threading

sys.dont_write_bytecode = True
from definitions import NAMES, Sources, batches, errors_of, of_function, with_lines
from functions import functions_of, items_of, modules_of_types
from kept import Kept
from kit import ONE_JOB, PARTS, TOP, crates as crates_below, guard, is_refused, rt
from libraries import where_built
from placeholders import MODULE, files_of, is_proof_of, linked, with_placeholders
from trait_methods import place_of, with_names

printing = threading.Lock()
# What checks take of the memory that is planned for a proof of their whole crate: of one edit of definitions, which proves one function, of several
# of them, and of all edits of code.
LAW_SHARE = 0.4
BATCH_SHARE = 0.8
CODE_SHARE = 0.75
# What a check says of a function that is proved.
PROVED = r"proved(, may .*)?"
# What is said of a refusal that says little of the contract.
LITTLE = " (only because a proof file names what the edit took away)"
# Of up to this many edits of code, or of a batch of definitions, no check of their own is made where the crate has both: more of them fill a lane.
MOST_BESIDE = 50


def say(text):
    with printing:
        print(text, flush=True)


class BadEdit(Exception):
    """An edit that can't be tried: a fault of its own text."""


class Edit:
    """An edit of a crate's text: pairs of an old text that stands once in its file, and the new one."""

    def __init__(self, crate, folder, name):
        self.crate, self.is_equal = crate, folder == "equal"
        self.path = f"{crate.folder}/{folder}/{name}"
        self.label = f"{crate.name}/{folder}/{name.removesuffix('.edit')}"
        with open(self.path, encoding="utf-8") as it:
            self.text = it.read()
        law = re.search(r"(?m)^by: (\S+)$", self.text)
        self.law = law and law[1]
        self.pairs = self.read_pairs()
        self.functions = [] if self.law else self.find_functions()

    @property
    def is_of_definitions(self):
        return all(file.startswith("specs/") for file, _, _ in self.pairs)

    def read_pairs(self):
        why = rt.edited(self.text, self.crate.folder)[1]
        if why:
            raise BadEdit(f"{self.label}: BAD EDIT: {why}")
        pairs, file, old = [], "", ""
        for line in self.text.split("\n"):
            if line.startswith("file: "):
                file = line[len("file: ") :].strip()
            elif line.startswith("old: "):
                old = line[len("old: ") :]
            elif line.startswith("new:"):
                pairs.append((file, old, line[len("new:") :].removeprefix(" ")))
        return pairs

    def find_functions(self):
        """Returns the functions in whose bodies the old texts stand: none for an edit of what several rest on."""
        texts, found = Texts(self.crate), {}
        for file, old, new in self.pairs:
            if not file.startswith("src/"):
                raise BadEdit(f"{self.label}: BAD EDIT: it changes no code, and no line 'by: LAW' names what refuses it")
            text = texts.of(file)
            at = text.count("\n", 0, text.index(old))
            around = [it.key for it in functions_of(file, text) if it.body <= at <= it.last]
            if not around:
                return []
            found[around[-1]] = None
            texts.replace(file, old, new)
        return [*found]


class Texts:
    """The files of a crate with edits made in them."""

    def __init__(self, crate):
        self.crate, self.changed = crate, {}

    def of(self, file):
        if file not in self.changed:
            with open(f"{self.crate.folder}/{file}", encoding="utf-8") as it:
                self.changed[file] = it.read()
        return self.changed[file]

    def replace(self, file, old, new):
        """Whether the old text stood once, and is replaced."""
        text = self.of(file)
        self.changed[file] = text.replace(old, new)
        return text.count(old) == 1


def texts_with(crate, edits):
    """Returns the crate's texts with these edits, or None where one takes away what another wants."""
    texts = Texts(crate)
    return texts if all(texts.replace(*pair) for edit in edits for pair in edit.pairs) else None


# How code calls a method of a trait, other than by its name.
PRINTS = r"\b(?:\w*print\w*|write\w*|format\w*|info|warn|error|debug|trace)!\("
CALLS = {"from": r"\?|\binto\(", "fmt": PRINTS, "eq": r"[=!]=", "next": r"\bfor\b", "drop": r"\bfn\b"}


def calls(function, owner, text):
    """Whether a text of a function of this type may call another function."""
    text = re.sub(r"\bfn \w+", "fn", text, count=1)
    is_near = function.owner == owner or re.search(rf"\b{function.owner}\b", text)
    return is_near and re.search("|".join([rf"\b{function.name}\b", *filter(None, [CALLS.get(function.name)])]), text)


class Together:
    """Edits of a crate's functions that stand in one check, in copies beside the functions or in place."""

    def __init__(self, crate):
        self.crate, self.texts, self.original = crate, Texts(crate), Texts(crate)
        # Where each edit stands, the copy without an edit of each function that has copies and proof files, and of each copy the type that it belongs
        # to, and its text.
        self.places, self.controls, self.copies = {}, {}, []

    def may_call(self, edit):
        """Whether a copy may call what an edit changes: it has to do with its type, and has its name or another word for a call of it. (A copy that
        calls it all the same has no verdict here, and is tried once more.)"""
        return any(calls(it, owner, text) for it in self.functions_changed(edit) for owner, text in self.copies)

    def functions_changed(self, edit):
        return [it for file, _, _ in edit.functions for it in functions_of(file, self.original.of(file)) if it.key in edit.functions]

    def add_in_place(self, edit):
        taken = {key for places in self.places.values() for key in places}
        trial = Texts(self.crate)
        trial.changed = {**self.texts.changed}
        if taken & {*edit.functions} or not all(trial.replace(*pair) for pair in edit.pairs):
            return False
        self.texts, self.places[edit] = trial, edit.functions
        return True

    def add_copy(self, edit):
        key = edit.functions[0]
        found = [it for it in functions_of(key[0], self.original.of(key[0])) if it.key == key]
        if len(edit.functions) > 1 or len(found) > 1 or found[0].is_of_trait():
            return False
        function, text = found[0], self.text_of(found[0])
        for file, old, new in edit.pairs:
            if file != function.file or text.count(old) != 1:
                return False
            text = text.replace(old, new)
        if key not in self.controls and self.rests_on_its_name(function):
            self.controls[key] = self.copied(function, self.text_of(function), "unedited")
        self.places[edit] = [self.copied(function, text, f"edit_{len(self.places)}")]
        return True

    def add_over_definitions(self, edit):
        """Puts a copy of the function that has to be refused with an edit of definitions, over copies of these."""
        function, copies = over_definitions(self.crate, edit, f"_d{len(self.places)}")
        keys = []
        for it, changed, uses in copies:
            self.texts.changed.update({**it.texts(), **it.nodes(self.texts.of)})
            before = {*self.texts.changed}
            keys.append(self.copied(function, changed, it.mark.lstrip("_")))
            proofs = [file for file in self.texts.changed if file.startswith("proofs/") and file not in before]
            self.texts.changed.update({file: it.renamed(self.texts.of(file)) for file in proofs})
            self.texts.changed[function.file] = with_lines(self.texts.of(function.file), uses)
        self.places[edit], self.controls[edit] = keys[:1], keys[1]

    def add_as_function(self, edit):
        """Puts a copy of a method of a trait beside its `impl`, as a function of its type."""
        key = edit.functions[0]
        found = [it for it in functions_of(key[0], self.original.of(key[0])) if it.key == key]
        place = place_of(self.crate, found[0], self.original.of(key[0])) if len(edit.functions) == len(found) == 1 else None
        text = self.text_of(found[0])
        if not place or self.proofs_of(found[0]) or any(file != key[0] or text.count(old) != 1 for file, old, _ in edit.pairs):
            return False
        edited = text
        for _, old, new in edit.pairs:
            edited = edited.replace(old, new)
        if self.in_place_called(found[0], edited):
            return False
        if key not in self.controls:
            # (a type may have several `from`s)
            self.controls[key] = self.copied_as_function(found[0], place, text, f"unedited_{len(self.controls)}")
        self.places[edit] = [self.copied_as_function(found[0], place, edited, f"edit_{len(self.places)}")]
        return True

    def in_place(self):
        """Returns the functions in which an edit is made in place."""
        return [it for edit, places in self.places.items() if places == edit.functions for it in self.functions_changed(edit)]

    def in_place_called(self, function, text):
        """Whether a text in the function's place is likely to call another one in which an edit is made in place."""
        return any(calls(it, function.owner, text) for it in self.in_place() if it.key != function.key)

    def copied_as_function(self, function, place, text, ending):
        """Puts a function with a method's text behind the method's `impl`, and returns its key."""
        name = f"{function.name}_{ending}"
        self.copies.append((function.owner, text))
        lines = self.texts.of(function.file).split("\n")
        here = next(it.last for it in functions_of(function.file, "\n".join(lines)) if it.key == function.key)
        at = lines.index("}", here)
        renamed = re.sub(rf"\bfn {function.name}\b", f"fn {name}", place.function(text), count=1)
        lines[at + 1 : at + 1] = ["", place.head, *renamed.split("\n"), "}"]
        self.texts.changed[function.file] = with_names("\n".join(lines), place.names)
        return function._replace(name=name, block=function.owner).key

    def text_of(self, function):
        return "\n".join(self.original.of(function.file).split("\n")[function.first : function.last + 1])

    def copied(self, function, text, ending):
        """Puts a copy with this text behind the function, with the function's proof files, and returns its key."""
        name = f"{function.name}_{ending}"
        self.copies.append((function.owner, text))
        lines = self.texts.of(function.file).split("\n")
        at = next(it.last for it in functions_of(function.file, "\n".join(lines)) if it.key == function.key)
        lines[at + 1 : at + 1] = ["", *re.sub(rf"\bfn {function.name}\b", f"fn {name}", text, count=1).split("\n")]
        self.texts.changed[function.file] = "\n".join(lines)
        for folder, file in self.proofs_of(function):
            self.copy_proof(folder, file, f"{os.path.dirname(folder)}/{name}".lstrip("/"))
        return function._replace(name=name).key

    def proof_files(self):
        """Returns the crate's proof files, each as its folder below proofs/ and its name."""
        walked = os.walk(f"{self.crate.folder}/proofs")
        return [(os.path.relpath(above, f"{self.crate.folder}/proofs"), file) for above, _, files in walked for file in files]

    def proofs_of(self, function):
        return [it for it in self.proof_files() if function.has_proof_folder(it[0])]

    def rests_on_its_name(self, function):
        """Whether the proof of a copy may fail for its name alone: the function, or a closure of it, has proof files, or it calls itself."""
        of_closure = any({"fn", function.name} <= {*folder.split("/")} for folder, _ in self.proof_files())
        before = rf"(?:\bself\s*\.|\bSelf::|\b{function.owner}::)" if function.owner else r"(?<![.\w:])"
        body = self.text_of(function).partition(f"fn {function.name}")[2]
        return bool(self.proofs_of(function)) or of_closure or re.search(rf"{before}{function.name}\(", body) is not None

    def copy_proof(self, folder, file, to):
        with open(f"{self.crate.folder}/proofs/{folder}/{file}", encoding="utf-8") as it:
            text = it.read()
        path, named = re.escape(folder.replace("/", ".")), rf"\bRattle\.{self.crate.name}\.(proofs|specs\.contracts)\."
        self.texts.changed[f"proofs/{to}/{file}"] = re.sub(rf"({named}){path}(?![\w-])", rf"\1{to.replace('/', '.')}", text)


def grouped(crate, edits, has_copies, of_definitions=()):
    """Returns the edits in groups, each of which stands in one check: first those in copies, which say nothing of one another, with those
    in place that no copy calls, and then others in place, where what calls an edited function isn't told. Edits of definitions stand with the copies."""
    copies, groups, left = Together(crate), [], edits
    for edit in of_definitions:
        copies.add_over_definitions(edit)
    if has_copies:
        left = [it for it in left if not copies.add_copy(it)]
        # (of a method that has several edits one could stand in place)
        keys = [key for it in left for key in it.functions]
        left = [it for it in left if keys.count(it.functions[0]) == 1 or not copies.add_as_function(it)]
        left = [it for it in left if copies.may_call(it) or not copies.add_in_place(it)]
        left = [it for it in left if not copies.add_as_function(it)]
    for edit in left:
        if not any(it.add_in_place(edit) for it in groups):
            groups.append(Together(crate))
            groups[-1].add_in_place(edit)
    return [it for it in (copies, *groups) if it.places]


def goals_of(function, text, lines):
    """Returns the lines that say that a goal of the function itself isn't met."""
    spans = [it for it in functions_of(function[0], text) if it.key == function]
    found = []
    for line in lines:
        at = re.match(r"note: (src/\S+?\.rt):(\d+):\d+: (?:it is not proved|`search` found no proof)", line)
        if at and any(it.file == at[1] and it.first < int(at[2]) <= it.last + 1 for it in spans):
            found.append(line)
        # (a proof that rests on another, which was refused, says nothing of its own)
        at = re.match(r"(?:\./)?proofs/(\S+)/\w+\.antt:\d+:\d+: error: ", line)
        if at and "was not admitted" not in line and any(it.has_proof_folder(at[1]) for it in spans):
            found.append(line)
    return found


def is_proved(crate, function, text, lines):
    """Whether the check says that the function is proved."""
    spans = [it for it in functions_of(function[0], text) if it.key == function]
    said = [re.match(r"fn (\S+): (.*)", line) for line in lines]
    own = [it[2] for it in said if it and any(span.is_named(crate.name, it[1]) for span in spans)]
    return bool(own) and all(re.fullmatch(PROVED, it) for it in own)


def checked(crate, texts, flags, kept):
    """Checks a copy of the crate with these texts, some of files that it lacks, and without those of which there is no text."""
    with tempfile.TemporaryDirectory(prefix="edits-") as room:
        for part in PARTS:
            if os.path.isdir(f"{crate.folder}/{part}"):
                shutil.copytree(f"{crate.folder}/{part}", f"{room}/{part}")
        for path, text in texts.items():
            if text is None:
                os.remove(f"{room}/{path}")
                continue
            os.makedirs(os.path.dirname(f"{room}/{path}"), exist_ok=True)
            with open(f"{room}/{path}", "w", encoding="utf-8") as it:
                it.write(text)
        edited = copy.copy(crate)
        edited.folder = room
        if f"src/{MODULE}.rt" in texts:
            edited.words = lambda *given, **named: linked(crate, crate.words(*given, **named))
        return rt.checked(edited, {}, flags, kept)


class Group:
    """The check of edits that stand together: of the functions that they change, and of what those call or placeholders for it. A batch of edits of
    definitions may stand in it too."""

    def __init__(self, together, kept, has_placeholders, batch=None):
        self.crate, self.together, self.texts, self.batch = together.crate, together, Texts(together.crate), batch
        self.has_placeholders = has_placeholders
        where = modules_of_types(self.crate.folder)
        keys = [*together.controls.values(), *(key for places in together.places.values() for key in places)]
        self.texts.changed = {**together.texts.changed}
        if has_placeholders:
            self.texts.changed.update(with_placeholders(self.crate, together.texts.of, keys))
        if batch:
            self.texts.changed.update(batch.texts(self.texts.of))
        paths = {it.path(where) for key in keys for it in self.spans_of(key)} | {*(batch.only() if batch else ())}
        only = [word for it in sorted(paths) for word in ("--only", it)]
        ran = checked(self.crate, self.texts.changed, [*ONE_JOB, *only], kept)
        if ran.returncode == 2 and paths:
            # (a function that the check calls otherwise)
            ran = checked(self.crate, self.texts.changed, ONE_JOB, kept)
        self.lines = ran.stdout.rstrip("\n").split("\n")
        self.reached = ran.returncode in (0, 1) and self.lines[-1].startswith(("logic=", "only="))
        # (what a copy of definitions says is its own)
        own = (it for it in self.lines if not any(copy.has(it) for copy in (batch.copies() if batch else ())))
        self.is_read = self.reached and not any(rt.unread(it, {}) for it in own)

    def spans_of(self, key):
        return [it for it in functions_of(key[0], self.texts.of(key[0])) if it.key == key]

    def has_proved(self, key):
        return is_proved(self.crate, key, self.texts.of(key[0]), self.lines)

    def verdict(self, edit):
        """Returns whether all is well with the edit and what to say, or None where this check can't tell."""
        if self.batch and edit in self.batch.edits:
            said = self.batch.verdict(edit, self.lines) if self.reached else None
            return (True, f"{edit.label}: {said}") if said else None
        places, control = self.together.places[edit], self.together.controls.get(next(iter(edit.functions), edit))
        if not self.is_read or control and not self.has_proved(control):
            return None
        if edit.is_equal:
            return (True, f"{edit.label}: proved, as it must be") if all(map(self.has_proved, places)) else None
        goals = [goal for key in places for goal in goals_of(key, self.texts.of(key[0]), self.lines)]
        told = [it for it in goals if not (it.startswith(("proofs/", "./proofs/")) and NAMES.search(it))]
        # (a proof may name what went with a placeholder, where no unedited one stands beside it)
        if not goals or not told and self.has_placeholders and not control:
            return None
        return True, f"{edit.label}: refused, as it must be{'' if told else LITTLE}: {(told or goals)[0][:120]}"


def tried_alone(crate, edit, kept):
    """Tries one edit of code by itself."""
    if not edit.is_equal:
        is_well, text = is_refused(crate, edit.path, kept)
        return is_well, f"{edit.label}: {text.partition(': ')[2]}"
    together = Together(crate)
    together.add_in_place(edit)
    return Group(together, kept, False).verdict(edit) or (False, f"{edit.label}: NOT PROVED, though it does the same")


def code_of(crate, law, has_proofs=False):
    """Returns the function that stands in a law's place, or None where that is a law or, unless such a one is wanted too, has proof files."""
    files = [it for it in files_of(crate, "src") if it.endswith(".rt")]
    found = [it for file in files for it in functions_of(file, Texts(crate).of(file)) if it.is_named(crate.name, f"{crate.name}::{law}")]
    has_files = not has_proofs and any(is_proof_of(it, file) for it in found for file in files_of(crate, "proofs"))
    return found[0] if len(found) == 1 and found[0].body < found[0].last and not has_files else None


def over_definitions(crate, edit, mark="_d"):
    """Returns the function that has to be refused with an edit of definitions, and its copies over copies of these, with the edit and without it: each
    with the function's text there, and what that brings. Without copies it is tried by itself."""
    function = code_of(crate, edit.law, has_proofs=True)
    if not function or function.is_of_trait() or not edit.is_of_definitions:
        return function, []
    sources, files = Sources(crate), {it[0] for it in edit.pairs}
    copies = [of_function(sources, function, *it, files) for it in ((mark, edit.pairs), (f"{mark}c", ()))]
    restated = [it and it.restated(it.law.text, function.body - function.first) for it in copies]
    return function, [(it, *given) for it, given in zip(copies, restated)] if all(restated) else []


class Items:
    """The constants and types of a crate, and which of them a text rests on."""

    def __init__(self, crate):
        self.found = {}
        for file in (it for it in files_of(crate, "src") if it.endswith(".rt")):
            for name, text in items_of(Texts(crate).of(file)).items():
                # (of items of one name in several files each counts as all)
                self.found[name] = self.found.get(name, "") + text

    def rested_on(self, text):
        names, left = set(), [text]
        while left:
            new = {*re.findall(r"\w+", left.pop())} & {*self.found} - names
            names |= new
            left += [self.found[it] for it in new]
        return names

    def changed(self, edit):
        """Returns the items in which the edit's old texts stand, or None where one of them stands elsewhere."""
        around = [[name for name, text in self.found.items() if old in text] for _, old, _ in edit.pairs]
        return {it[0] for it in around} if all(len(it) == 1 for it in around) else None


def shared(crate, edits):
    """Returns the edits of constants and types that functions in the place of laws refuse, those together that may stand in one check: no
    function rests on what an edit of another one changes."""
    items, groups = Items(crate), []
    for edit in edits:
        code, changed = code_of(crate, edit.law), items.changed(edit)
        if not code or not changed:
            continue
        rests = items.rested_on(code.owner + "\n" + "\n".join(Texts(crate).of(code.file).split("\n")[code.first : code.last + 1]))
        fits = (it for it in groups if all(not (changed & other[2] or rests & other[1]) for other in it))
        group = next(fits, None)
        if group is None:
            groups.append(group := [])
        group.append((edit, changed, rests))
    return [[it[0] for it in group] for group in groups if len(group) > 1]


def tried_by_functions(crate, edits, note):
    """Tries edits that may stand in one check, and by itself what it doesn't tell."""
    together = Together(crate)
    together.texts = texts_with(crate, edits)
    if not together.texts:
        return tried_by_law(crate, edits, note)
    together.places = {it: [code_of(crate, it.law).key] for it in edits}
    group = Group(together, None, True)
    for edit in edits:
        note(edit, *(group.verdict(edit) or verdict_by_law(crate, edit)))
    return None


def beside_placeholders(crate, edit, code, texts):
    """Returns the check of one function in the crate's files with these texts, where every other function has a placeholder."""
    alone = Together(crate)
    alone.texts, alone.places[edit] = texts, [code.key]
    return Group(alone, None, True)


def verdict_beside_placeholders(crate, edit, code, edited):
    """Returns what such a check tells of an edit, or None. Of a function with proof files, which may rest on lemmas, any refusal counts that says more than
    what went with a placeholder, where it is proved so unedited."""
    if code_of(crate, edit.law):
        return beside_placeholders(crate, edit, code, edited).verdict(edit)
    if not beside_placeholders(crate, edit, code, Texts(crate)).has_proved(code.key):
        return None
    group = beside_placeholders(crate, edit, code, edited)
    told = reasons_in(group.lines)
    if group.is_read and group.has_proved(code.key) and edit.is_equal:
        return True, f"{edit.label}: proved, as it must be"
    if not group.is_read or group.has_proved(code.key) or edit.is_equal or not told:
        return None
    return True, f"{edit.label}: refused, as it must be, by {edit.law}: {told[0][:120]}"


def reasons_in(lines):
    """Returns the lines that tell why something isn't proved, for more than what an edit took away."""
    return errors_of(lines) + [it for it in lines if re.match(r"note: src/\S+: it is not proved", it)]


def verdict_by_law(crate, edit):
    """Returns whether all is well with an edit, as the check of its law or function tells, and what to say."""
    edited, code = texts_with(crate, [edit]), code_of(crate, edit.law, has_proofs=True)
    verdict = code and verdict_beside_placeholders(crate, edit, code, edited)
    if verdict:
        return verdict
    texts = edited.changed
    ran = rt.checked(crate, texts, [*ONE_JOB, "--only", edit.law], None)
    lines = ran.stdout.rstrip("\n").split("\n")
    unread = next((it for it in lines if rt.unread(it, texts)), "")
    said = [it.rpartition(": ")[2] for it in lines if it.startswith(f"fn {crate.name}::{edit.law}: ")]
    if unread or len(said) != 1:
        return False, f"{edit.label}: BAD EDIT: {unread[:200] or f'the check says nothing of {edit.law}'}"
    is_proved = bool(said and re.fullmatch(PROVED, said[0]))
    if edit.is_equal:
        return is_proved, f"{edit.label}: {'proved, as it must be' if is_proved else 'NOT PROVED, though it says the same'}"
    if is_proved:
        return False, f"{edit.label}: NOT REFUSED: {edit.law} is still proved with this edit"
    told = reasons_in(lines)
    return True, f"{edit.label}: refused, as it must be{'' if told else LITTLE}, by {edit.law}: {(told or [''])[0][:120]}"


def tried_by_law(crate, edits, note):
    """Tries edits of definitions one by one, and notes what each comes to."""
    for edit in edits:
        note(edit, *verdict_by_law(crate, edit))


def tried_in_batches(crate, edits, note):
    """Tries edits of definitions, several in a check, and by itself what such a check doesn't tell."""
    told = set()
    for batch in batches(crate, edits):
        only = [word for it in batch.only() for word in ("--only", it)]
        lines = checked(crate, batch.texts(), [*ONE_JOB, *only], None).stdout.rstrip("\n").split("\n")
        for edit in batch.edits:
            verdict = batch.verdict(edit, lines)
            if verdict:
                note(edit, True, f"{edit.label}: {verdict}")
                told.add(edit)
    tried_by_law(crate, [it for it in edits if it not in told], note)


def tried(crate, edits, note):
    """Tries a crate's edits of code, and of definitions those of a batch that stands in the first check with them. Each verdict is noted as it is known."""
    left, alone = [it for it in edits if it.functions], [it for it in edits if not it.functions and not it.law]
    is_first = has_copies = True
    by_law, told = [it for it in edits if it.law], set()
    batch = next(iter(batches(crate, by_law)), None)
    of_definitions = [it for it in by_law if not (batch and it in batch.edits) and over_definitions(crate, it)[1]]

    def verdicts(group):
        """Notes what a check tells, and returns the edits of code of which it tells nothing."""
        untold = []
        for edit in [*group.together.places, *(group.batch.edits if group.batch else ())]:
            verdict = group.verdict(edit)
            if verdict:
                told.add(edit)
                note(edit, *verdict)
            elif not edit.law:
                untold.append(edit)
        return untold

    with tempfile.TemporaryDirectory(prefix="wrong-bodies-") as kept:
        while len(left) > (0 if has_copies else 1):
            groups = grouped(crate, left, has_copies, of_definitions if is_first else ())
            untold = [it for at, together in enumerate(groups) for it in verdicts(Group(together, kept, has_copies, batch if is_first and not at else None))]
            is_stuck = len(untold) == len(left)
            if is_stuck and not has_copies:
                break
            # (what a copy doesn't tell it may tell where what it calls isn't edited in place)
            has_copies = has_copies and not is_stuck and any(it.in_place() for it in groups)
            left, is_first = untold, False
        for edit in [*left, *alone]:
            note(edit, *tried_alone(crate, edit, kept))
    tried_in_batches(crate, [it for it in by_law if it not in told], note)


def edits_of(crate, names):
    """Returns the crate's edits, or those that are named, with the equal bodies, and what is wrong with the others."""
    found, bad = [], []
    for folder in ("wrong", "must-fail", "equal"):
        path = f"{crate.folder}/{folder}"
        for name in sorted(os.listdir(path)) if os.path.isdir(path) else []:
            if folder != "equal" and names and name.removesuffix(".edit") not in names:
                continue
            try:
                found.append(Edit(crate, folder, name))
            except (BadEdit, OSError, UnicodeDecodeError) as fault:
                bad.append(str(fault))
    for kind in (False, True):
        of_kind = [it.is_equal for it in found if it.is_of_definitions is kind]
        if of_kind and not any(of_kind):
            what = "definitions" if kind else "code"
            bad.append(f"{crate.name}: no edit of {what} in equal/, so nothing shows that its checks can say yes")
    return found, bad


def tasks_of(crate, edits, kept):
    """Returns the checks of a crate's edits, which may run side by side: one for each edit of definitions, and one for all others."""
    code, size, memory = [it for it in edits if not it.law], crate.count(rb"\n"), rt.need(crate)
    tasks = {}
    by_law = [it for it in edits if it.law]
    together = [[*it.edits] for it in batches(crate, by_law)]
    if code and together and min(len(code), len(together[0])) <= MOST_BESIDE:
        beside, *rest = together
        code += beside
    else:
        rest = together
    for group in rest:
        call = lambda given, jobs, group=group: kept.told(crate, group, tried_in_batches, say)
        tasks[crate.name, "edits", group[0].label] = [], size * len(group), BATCH_SHARE * memory, call
    left = [it for it in by_law if not any(it in group for group in together)]
    sharing = shared(crate, left)
    for group in sharing:
        call = lambda given, jobs, group=group: kept.told(crate, group, tried_by_functions, say)
        tasks[crate.name, "edits", group[0].label] = [], size * len(group), LAW_SHARE * memory, call
    left = [it for it in left if not any(it in group for group in sharing)]
    over = [it for it in left if code and over_definitions(crate, it)[1]]
    code += over
    for edit in (it for it in left if it not in over):
        call = lambda given, jobs, edit=edit: kept.told(crate, [edit], tried_by_law, say)
        tasks[crate.name, "edits", edit.label] = [], size, LAW_SHARE * memory, call
    if code:
        tasks[crate.name, "edits"] = [], size * len(code), CODE_SHARE * memory, lambda given, jobs: kept.told(crate, code, tried, say)
    return tasks


def tell(crates, names, kept):
    """Tries the edits of these crates, or those that are named, and returns how much passed and failed."""
    each = {it: edits_of(it, names) for it in crates}
    asked = {*names} - {os.path.basename(e.path).removesuffix(".edit") for found, _ in each.values() for e in found}
    bad = [text for _, faults in each.values() for text in faults] + [f"no edit {it}" for it in sorted(asked)]
    for text in bad:
        say(text)
    tasks = {key: task for crate, (found, _) in each.items() if found for key, task in tasks_of(crate, found, kept).items()}
    wells = [well for it in rt.in_lanes(tasks).values() for well in it]
    return wells.count(True), len(bad) + wells.count(False)


def main(words):
    is_built, kept = "--built" in words, Kept("--anew" in words)
    words = [it for it in words if it not in ("--built", "--anew")]
    if any(it.startswith("-") for it in words):
        print(__doc__, file=sys.stderr)
        return 2
    os.chdir(TOP)
    guard()
    crates = [it for it in crates_below() if not words or it.name == words[0]]
    if not crates:
        say(f"no crate {words[0]}")
    with where_built(crates, is_built) as built:
        passed, failed = tell(built, words[1:], kept) if built else (0, 1)
    kept.shrink()
    if kept.given:
        say(f"{kept.given} of these were tried by an earlier run on this machine, and nothing that their checks read has changed")
    print(f"{passed} passed, {failed} failed")
    return 1 if failed else 0


if __name__ == "__main__":
    sys.exit(main(sys.argv[1:]))
