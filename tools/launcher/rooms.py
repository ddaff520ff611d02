"""Rooms: the folders that crates are proved in.

The toolchain keeps a crate and all that is below it to one run at a time, so two crates over one library could not be
proved side by side. So each is proved in a room of its own: its sources, the sources and libraries of the crates below,
and what was kept of it, all by links to the files. The crate's own folder keeps what it has until its room is left, so
a death between loses nothing, and a room that a death left is taken up by the next build.
"""
import os
import shutil
import subprocess

from .crates import PARTS
from .places import ROOMS

# The removals that go on.
removals = []
# What of a crate's folder out/ a room begins with, and gives back.
KEPT = ("incremental", "rlib")


def link_or_copy(old, new):
    """Makes a link to a file, or a copy where the file system has no links."""
    try:
        os.link(old, new)
    except OSError:
        shutil.copy2(old, new)


def room_of(crate):
    """A crate's room."""
    return f"{ROOMS}/{crate.name}"


def folder_in(room, crate):
    """A crate's folder in a room."""
    return f"{room}/crates/{crate.name}"


def bring(crate, room, parts):
    """Brings these folders of a crate into a room."""
    try:
        for part in parts:
            if os.path.isdir(f"{crate.folder}/{part}"):
                to = f"{folder_in(room, crate)}/{part}"
                shutil.copytree(f"{crate.folder}/{part}", to, copy_function=link_or_copy)
    except shutil.Error as errors:
        # Of thousands of files that it couldn't bring, the first one tells why.
        raise OSError(f"{room}: {errors.args[0][0][2]}") from None


def enter(crate):
    """Makes a crate's room. It gets its name when it is whole: what has one may be taken up."""
    room, new = room_of(crate), f"{room_of(crate)}.new"
    for folder in (room, new):
        shutil.rmtree(folder, ignore_errors=True)
    os.makedirs(new)
    with open(f"{new}/crates.txt", "w", encoding="utf-8") as file:
        file.write("".join(f"{it.line}\n" for it in [*crate.below, crate]))
    bring(crate, new, [*PARTS, *(f"out/{part}" for part in KEPT)])
    for below in crate.below:
        bring(below, new, [*PARTS, "out/rlib"])
    os.rename(new, room)
    return folder_in(room, crate)


def leave(crate):
    """Gives a crate's folder what its room has kept, and removes the room."""
    room = room_of(crate)
    os.makedirs(f"{crate.folder}/out", exist_ok=True)
    for part in KEPT:
        kept, own = f"{folder_in(room, crate)}/out/{part}", f"{crate.folder}/out/{part}"
        if os.path.isdir(kept):
            if os.path.lexists(own):
                os.rename(own, f"{room}/{part}.old")
            os.rename(kept, own)
    drop(room)


def drop(folder):
    """Removes a folder, which the build needn't wait for: it has thousands of links."""
    away = f"{ROOMS}/scratch/{os.path.basename(folder)}.{len(removals)}"
    try:
        os.rename(folder, away)
        removals.append(subprocess.Popen(["rm", "-rf", away], stderr=subprocess.DEVNULL))
    except OSError:
        shutil.rmtree(folder, ignore_errors=True)


def wait_for_removals():
    """Waits until what was dropped is gone. The last run is in its crate's own folder, so it looks at all that is below that."""
    for removal in removals:
        removal.wait()


def age_of(out):
    """When something came into a folder out/ last; 0 where there is none."""
    folders = [f"{out}/{part}" for part in KEPT if os.path.isdir(f"{out}/{part}")]
    folders += [entry.path for folder in folders for entry in os.scandir(folder) if entry.is_dir()]
    return max((os.stat(folder).st_mtime_ns for folder in folders), default=0)


def leave_all(crates):
    """Leaves all rooms, but for those that have nothing newer than the crate itself."""
    for crate in crates:
        try:
            kept = age_of(f"{folder_in(room_of(crate), crate)}/out")
            if kept and kept >= age_of(f"{crate.folder}/out"):
                leave(crate)
        except OSError:
            # The room stays, and the next build takes it up.
            continue
        shutil.rmtree(room_of(crate), ignore_errors=True)
        shutil.rmtree(f"{room_of(crate)}.new", ignore_errors=True)


def begin(crates):
    """Takes up the rooms that a death left, and makes the folder for new ones. No run of the toolchain looks for crates
    in a folder with a file MODULE.bazel."""
    found = os.path.isdir(ROOMS) and any(os.path.isdir(room_of(crate)) for crate in crates)
    leave_all(crates)
    shutil.rmtree(f"{ROOMS}/scratch", ignore_errors=True)
    os.makedirs(f"{ROOMS}/scratch")
    with open(f"{ROOMS}/MODULE.bazel", "w", encoding="utf-8"):
        pass
    return found


def end(crates):
    """Leaves all rooms, and removes their folder where all could be left."""
    leave_all(crates)
    wait_for_removals()
    shutil.rmtree(f"{ROOMS}/scratch", ignore_errors=True)
    if not any(os.path.isdir(room_of(crate)) for crate in crates):
        shutil.rmtree(ROOMS, ignore_errors=True)
