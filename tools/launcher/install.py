"""Puts the proved program into a folder, with what it was proved from."""
import os
import shutil
import subprocess

from .built import Stamp
from .places import ROOT, Failed, say

HEAD = "./lrc install [--verdict] DIR"
# What is judged of the repository beside the crates.
PARTS = ("crates", "crates.txt", "HANDLES")
# A program of its own name, so that its help says that name; what it was proved from; and what runs it.
FOLDER, FROM = "lrc-proved", "from"
RUNNER = """#!/bin/sh
# lrc, as `./lrc install` put it here. It runs the proved program in lrc-proved; --version tells what that was proved from.
own=$(dirname "$(readlink -f "$0")")/lrc-proved
case "${1-}" in
    --version | -V) "$own/lrc" "$@" && exec cat "$own/from" ;;
    *) exec "$own/lrc" "$@" ;;
esac
"""


def git(*words):
    """What git says of the repository; None where it says nothing."""
    try:
        ran = subprocess.run(["git", "-C", ROOT, *words], stdin=subprocess.DEVNULL, capture_output=True, text=True)
    except OSError:
        return None
    return ran.stdout.strip() if ran.returncode == 0 else None


def commit():
    """The commit that the sources are of."""
    found = git("rev-parse", "HEAD")
    if found is None:
        return "no commit is known"
    return f"commit {found}{', with changes that are in no commit' if git('status', '--porcelain', '--', *PARTS) else ''}"


def last_line(text):
    """The toolchain's last line on a crate, which says what its answer rests on; None where there is none."""
    return next((line for line in reversed(text.splitlines()) if line.startswith("logic=")), None)


def verdict(rt, program):
    """The line of `rt verdict` on the program, which is proved from nothing for that, with all crates below it."""
    if rt is None:
        raise OSError("the Rattle toolchain (its command rt) is missing")
    say("rt verdict proves the program and all crates below it from nothing: that takes longer than to build it")
    ran = subprocess.run([rt, "verdict"], cwd=program.home, stdin=subprocess.DEVNULL, stdout=subprocess.PIPE,
                         stderr=subprocess.STDOUT, text=True)
    line = last_line(ran.stdout)
    if ran.returncode or line is None:
        raise Failed(f"rt verdict ended with status {ran.returncode}: {(ran.stdout.strip().splitlines() or [''])[-1][:300]}")
    return f"rt verdict: {line}"


def line_of_build(program):
    """What the toolchain said when it proved and built the program."""
    try:
        with open(program.proved, encoding="utf-8") as file:
            return f"proved and built: {file.read().strip()}"
    except OSError:
        return "proved and built by ./lrc"


def proved_from(program, line):
    """What the program was proved from, a line each."""
    stamp = Stamp(program)
    return f"{commit()}\nsources, sha256 {stamp.sum}\n{stamp.version}\n{line}\n"


def place(folder, name, text):
    """Writes a file, whole or not at all."""
    with open(f"{folder}/{name}.new", "w", encoding="utf-8") as file:
        file.write(text)
    os.replace(f"{folder}/{name}.new", f"{folder}/{name}")


def usage(words):
    """The folder, and whether a verdict is wanted; None where the words are others."""
    rest = [word for word in words if word != "--verdict"]
    if len(rest) != 1 or rest[0].startswith("-") or len(words) > 2:
        return None
    return os.path.abspath(rest[0]), len(words) == 2


def install(rt, program, to, with_verdict):
    """Installs the program into a folder, and says so."""
    line = verdict(rt, program) if with_verdict else line_of_build(program)
    own = f"{to}/{FOLDER}"
    os.makedirs(own, exist_ok=True)
    shutil.copy2(program.file, f"{own}/lrc.new")
    os.replace(f"{own}/lrc.new", f"{own}/lrc")
    place(own, FROM, proved_from(program, line))
    place(to, "lrc", RUNNER)
    os.chmod(f"{to}/lrc", 0o755)
    say(f"{to}/lrc is installed; its --version tells what it was proved from")
