"""The toolchain's own command `rt` as a library: crates, and checks over kept work."""
import importlib.machinery
import importlib.util
import os
import shutil
import sys
import tempfile
from pathlib import Path

ROOT = Path(__file__).resolve().parent.parent.parent
JOBS = ["--jobs", "1"]


def load(name):
    """A module of the toolchain's command `rt`."""
    found = shutil.which("rt") or sys.exit("edits: no rt on PATH")
    loader = importlib.machinery.SourceFileLoader(name, str(Path(os.path.realpath(found)).parent / name))
    module = importlib.util.module_from_spec(importlib.util.spec_from_loader(name, loader))
    sys.modules[name.removesuffix(".py")] = module
    loader.exec_module(module)
    return module


sys.dont_write_bytecode = True
rtlib = load("rtlib.py")
rt = load("rt")


def crates():
    """The repository's crates by name, as rt knows them."""
    os.chdir(ROOT)
    # (its guard has to begin before any thread)
    rtlib.guarded()
    if hasattr(rt, "share_work"):
        rt.share_work(False)
    found = {crate.name: crate for crate in rtlib.crates_below(str(ROOT))}
    for crate in found.values():
        crate.out = sys.stderr
    return found


def edits_of(crate):
    """The files of a crate's edits, in their order."""
    return sorted(Path(crate.folder).glob("must-fail/*.edit"))


def build_below(crate):
    """Builds the libraries that a crate stands on, over what is kept of them, here or in another copy of the repository;
    likewise takes up what is kept of the crate."""
    if hasattr(rt, "adopt"):
        rt.adopt(crate, is_alone=False)
    for below in crate.below():
        if below.build_rlib(JOBS, anew=False):
            sys.exit(f"edits: the library {below.name} did not build, so nothing above it was tried")


# Older kits lack what follows.


def linked(old, new):
    """Makes a copy of a folder of kept work, over which another check may go on."""
    if hasattr(rt, "linked"):
        rt.linked(old, new)
    else:
        shutil.copytree(old, new)


def seeded(crate, kept):
    """A new folder, in whose folder `seed` stands what a check of the crate as it stands keeps, begun with what is kept there, or
    with nothing; None where that check fails."""
    if hasattr(rt, "seeded"):
        return rt.seeded(crate, JOBS, kept)
    room = tempfile.mkdtemp(prefix="edits-")
    if kept:
        linked(kept, f"{room}/seed")
    if not rt.checked(crate, {}, JOBS, f"{room}/seed").returncode:
        return room
    shutil.rmtree(room)
    return None
