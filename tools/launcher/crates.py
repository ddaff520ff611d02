"""The crates that a program stands on, their sources and weights."""
import os

from .places import ROOT, WEIGHTS
from .plan import find_ways

PARTS = ("src", "specs", "proofs")
# What a crate is taken to weigh that `tools/weights` doesn't name.
USUAL = 60
# What it is to read again a crate that is kept as it is, in seconds; and to prove it over what is kept of an earlier
# state, as a part of its weight.
AS_KEPT, OVER_KEPT = 1, 0.3


class Crate:
    """A crate of the repository: its line in crates.txt, its folder, and the crates that it uses."""

    def __init__(self, name, line, uses):
        self.name, self.line, self.uses = name, line, uses
        self.folder = f"{ROOT}/crates/{name}"
        self.below = list(dict.fromkeys(crate for used in uses for crate in [*used.below, used]))
        # Seconds of its own check; with those of the longest way from it to the program.
        self.weight = self.way = USUAL
        # Whether something is kept of it, which makes its check shorter by an unknown part.
        self.has_kept = False

    def kept(self):
        """When its library was kept, by the file system's clock; 0 where none is."""
        try:
            return os.stat(f"{self.folder}/out/rlib/stamp").st_mtime_ns
        except OSError:
            return 0

    def is_kept(self):
        """Whether its library is younger than each source that it is made from."""
        kept = self.kept()
        return bool(kept) and all(told.st_mtime_ns < kept for it in [*self.below, self] for _, told in it.sources())

    def sources(self):
        """Its sources, each with what the file system says of it."""
        folders = [f"{self.folder}/{part}" for part in PARTS]
        while folders:
            try:
                entries = list(os.scandir(folders.pop()))
            except (FileNotFoundError, NotADirectoryError):
                continue
            folders += [entry.path for entry in entries if entry.is_dir()]
            yield from ((entry.path, entry.stat()) for entry in entries
                        if entry.name.endswith((".rt", ".antt")) and entry.is_file())


def listed():
    """Each crate's line of crates.txt, and the libraries that it uses, by its name."""
    found = {}
    with open(f"{ROOT}/crates.txt", encoding="utf-8") as file:
        for line in file.read().splitlines():
            head, colon, uses = line.partition("#")[0].partition(":")
            if colon and head.split():
                found[head.split()[0]] = line, uses.split()
    return found


def crates_of(program, also=()):
    """The crates that the program stands on, each after those that it uses, and then its own; none where crates.txt
    doesn't list it. `also`: crates that come before its own, as if it used them."""
    lines, found = listed(), {}

    def visit(name, more=()):
        if name in lines and name not in found:
            line, uses = lines[name]
            below = [visit(used) for used in [*uses, *more]]
            found[name] = Crate(name, line, [crate for crate in below if crate])
        return found.get(name)

    visit(program.name, also)
    return list(found.values())


def weight_of(crate, seconds):
    """What a crate's check takes that takes so many seconds where nothing is kept of it."""
    crate.has_kept = os.path.isdir(f"{crate.folder}/out/incremental")
    if crate.is_kept():
        return AS_KEPT
    return seconds * (OVER_KEPT if crate.has_kept else 1)


def weights():
    """What the check of each crate takes, in seconds, as tools/weights says."""
    if not os.path.isfile(WEIGHTS):
        return {}
    with open(WEIGHTS, encoding="utf-8") as file:
        rows = [line.partition("#")[0].split() for line in file]
    return {row[0]: float(row[1]) for row in rows if len(row) == 2}


def weigh(crates, cores):
    """Gives the crates their weights, and the longest way from each to the program."""
    known = weights()
    for crate in crates:
        crate.weight = weight_of(crate, known.get(crate.name, USUAL))
    find_ways(crates, cores)
