"""Whether a program is built from the sources as they are, by the toolchain as it is.

The stamp beside the program says from what it was built: the toolchain's files and version, a sum of all sources, and
a list of the sources with their times and sizes. Only where something of the list has changed is the sum taken.
"""
import os
import time

from .places import ROOT

# A file that is younger than this when the list is made may change once more without another time, in nanoseconds.
YOUNG = 2_000_000_000


class Stamp:
    """What a program was built from, as its file says: empty where there is none."""

    def __init__(self, program):
        """Reads the file."""
        self.file = program.stamp
        self.toolchain = self.version = self.sum = self.sources = ""
        try:
            with open(self.file, encoding="utf-8", errors="surrogateescape") as file:
                rows, _, self.sources = file.read().partition("\n\n")
            self.toolchain, self.version, self.sum = rows.split("\n")
        except (OSError, ValueError):
            pass

    def keep(self):
        """Writes the file, whole or not at all."""
        with open(f"{self.file}.new", "w", encoding="utf-8", errors="surrogateescape") as file:
            file.write(f"{self.toolchain}\n{self.version}\n{self.sum}\n\n{self.sources}")
        os.replace(f"{self.file}.new", self.file)


def toolchain_of(rt):
    """The toolchain's own files, with their times and sizes: its command, and the prover beside it."""
    rt = os.path.realpath(rt)
    files = [file for file in (rt, f"{os.path.dirname(rt)}/rattle") if os.path.isfile(file)]
    return " ".join(f"{file} {os.stat(file).st_mtime_ns} {os.stat(file).st_size}" for file in files)


def list_of_sources(crates):
    """The crates' lines and their sources with times and sizes; nothing where one is too young to tell by that."""
    now, rows = time.time_ns(), [crate.line for crate in crates]
    for crate in crates:
        for path, told in crate.sources():
            if told.st_mtime_ns > now - YOUNG:
                return ""
            rows.append(f"{path} {told.st_mtime_ns} {told.st_size}")
    return "\n".join(sorted(rows)) + "\n"


def sum_of_sources(version, crates):
    """A sum of all that the program is made from: the toolchain, and each crate's line and sources."""
    import hashlib

    made = hashlib.sha256(version.encode())
    for crate in crates:
        made.update(f"\n{crate.line}\n".encode())
        for path, _ in sorted(crate.sources(), key=lambda source: source[0]):
            with open(path, "rb") as file:
                text = file.read()
            made.update(f"\n{os.path.relpath(path, ROOT)}\n".encode() + hashlib.sha256(text).digest())
    return made.hexdigest()


def taken(program, toolchain, version, crates):
    """The program's stamp of the sources as they are now."""
    stamp = Stamp(program)
    stamp.toolchain, stamp.version = toolchain, version
    stamp.sources, stamp.sum = list_of_sources(crates), sum_of_sources(version, crates)
    return stamp


def is_unchanged(program, toolchain, crates):
    """Whether the program is there, and neither the toolchain nor a source has another time or size."""
    if not program.is_there():
        return False
    stamp = Stamp(program)
    is_same = stamp.sources and stamp.toolchain == toolchain and stamp.sources == list_of_sources(crates)
    return bool(is_same)


def is_built(program, toolchain, version, crates):
    """Whether the program is built from the same sources, whatever their times. Then their times are noted."""
    if not program.is_there():
        return False
    stamp, now = Stamp(program), taken(program, toolchain, version, crates)
    if stamp.sum != now.sum:
        return False
    try:
        now.keep()
    except OSError:
        pass
    return True


def is_of_sources(program, crates):
    """Whether the program was built from the sources as they are, by the toolchain that its stamp names, whether that
    is the one here or not."""
    if not program.is_there():
        return False
    stamp = Stamp(program)
    if stamp.sources and stamp.sources == list_of_sources(crates):
        return True
    return bool(stamp.sum) and stamp.sum == sum_of_sources(stamp.version, crates)
