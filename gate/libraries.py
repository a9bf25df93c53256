"""Proved libraries for the scripts that try edits: in a copy of the checkout, as `rt ci` keeps them on this machine, or, with a kit that
keeps none, in the out/ of this checkout, as `rt check` does."""
import contextlib
import os
import shutil
import tempfile
from glob import glob

from kit import KEEPS, TOP, copy_crates, crates, rt


def put_with_wrong_bodies(top):
    """Moves the edits that `rt ci` tries, in a copy of a checkout, to the other wrong bodies of their crates, so that it tries none."""
    for folder in glob(f"{top}/crates/*/must-fail"):
        beside = f"{os.path.dirname(folder)}/wrong"
        os.makedirs(beside, exist_ok=True)
        for name in os.listdir(folder):
            if os.path.exists(f"{beside}/{name}"):
                raise FileExistsError(f"{beside}/{name} stands in must-fail/ too")
            shutil.move(f"{folder}/{name}", f"{beside}/{name}")
        os.rmdir(folder)


def keep_only(names, top):
    """Leaves only these crates and those below them in a copy of a checkout."""
    wanted = {below.name for it in crates(top) if it.name in names for below in [it, *it.below()]}
    for name in os.listdir(f"{top}/crates"):
        if name not in wanted:
            path = f"{top}/crates/{name}"
            shutil.rmtree(path) if os.path.isdir(path) else os.remove(path)
    with open(f"{top}/crates.txt", encoding="utf-8") as it:
        lines = [line for line in it if line.partition(":")[0] in wanted]
    with open(f"{top}/crates.txt", "w", encoding="utf-8") as it:
        it.writelines(lines)


def prove(names, top, room):
    """Proves these crates and those below them in a copy of a checkout, and returns whether all went well. What an earlier run of `rt ci` proved
    of the same files is taken from it, and what this proves is kept for the next, where the kit keeps anything. No edit is tried."""
    copy_crates(top, f"{room}/repo")
    put_with_wrong_bodies(f"{room}/repo")
    if not KEEPS:
        keep_only(names, f"{room}/repo")
    # (so it is the top of a repository)
    os.mkdir(f"{room}/repo/.git")
    os.mkdir(f"{room}/aside")
    os.chdir(f"{room}/repo")
    try:
        return (rt.ci_over(f"{room}/aside", False, names, top) if KEEPS else rt.ci_from_nothing(f"{room}/aside")) == 0
    finally:
        os.chdir(top)


def build_here(wanted):
    """Builds the libraries below these crates in this checkout, as far as they aren't, and returns whether all are proved."""
    below, tasks = {it.name: it for crate in wanted for it in crate.below()}, {}
    for it in below.values():
        waits = [(dep.name, "proof") for dep in it.below()]
        tasks[it.name, "proof"] = waits, it.count(rb"\n"), rt.need(it), lambda given, jobs, it=it: it.build_rlib(["--jobs", str(jobs)], anew=False) == 0
    # (as long as these are held no other rt works in the crates' folders)
    held = rt.rtlib.lock([*below.values()])
    try:
        return all(rt.in_lanes(tasks).values()) if tasks else True
    finally:
        for it in held:
            os.close(it)


@contextlib.contextmanager
def where_built(wanted, is_built):
    """Gives these crates where the libraries below them are built: here, where `rt ci` has left them, or else in a copy, in which they are
    proved first. It gives none where a library isn't proved."""
    if is_built or not wanted:
        yield wanted
        return
    if not KEEPS:
        yield wanted if build_here(wanted) else []
        return
    below = sorted({it.name for crate in wanted for it in crate.below()})
    with tempfile.TemporaryDirectory(prefix="gate-edits-") as room:
        if below and not prove(below, TOP, room):
            yield []
            return
        if not below:
            copy_crates(TOP, f"{room}/repo")
            put_with_wrong_bodies(f"{room}/repo")
        os.chdir(f"{room}/repo")
        try:
            names = {it.name for it in wanted}
            yield [it for it in crates(os.getcwd()) if it.name in names]
        finally:
            os.chdir(TOP)
