"""The words of `rattle check`, as the toolchain's command `rt` has them for a crate."""
import importlib.machinery
import importlib.util
import os
import shutil
import subprocess
import sys
from pathlib import Path


def load(name):
    """A module of the toolchain's command `rt`."""
    found = shutil.which("rt") or sys.exit("no rt on PATH")
    loader = importlib.machinery.SourceFileLoader(name, str(Path(os.path.realpath(found)).parent / name))
    module = importlib.util.module_from_spec(importlib.util.spec_from_loader(name, loader))
    sys.modules[name.removesuffix(".py")] = module
    loader.exec_module(module)
    return module


def crate_folder(name):
    """The folder of a crate of the repository."""
    root = subprocess.run(["git", "rev-parse", "--show-toplevel"], capture_output=True, text=True).stdout.strip()
    folder = Path(root) / "crates" / name
    if not (folder / "src").is_dir():
        sys.exit(f"there is no crate {name}")
    return folder


def words_of(crate, jobs, tests=False):
    """The words that check the crate of a folder."""
    library = load("rtlib.py")
    library.Crate.out = sys.stderr
    os.chdir(crate.parent.parent)
    found = {it.name: it for it in library.crates_below(os.getcwd())}
    for it in [found[crate.name], *found[crate.name].below()]:
        it.out = sys.stderr
    return found[crate.name].words(["--jobs", jobs], tests=tests, keeps=False)


def copy_of(crate, to):
    """Copies what a check reads of a crate."""
    for part in ("src", "specs", "proofs"):
        if (crate / part).is_dir():
            shutil.copytree(crate / part, to / part)
