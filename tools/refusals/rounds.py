"""Edits that turn different functions, tried together: in one check, over what a check of the crate as it stands kept."""
import difflib
import itertools
import os
import shutil
import signal
import tempfile
from pathlib import Path, PurePosixPath

from .functions import around, functions_of
from .told import Told
from .toolchain import JOBS, edits_of, linked, rt, rtlib

REFUSED, AMISS = "refused", "amiss"


class Result:
    """What an edit's try came to: whether the contract refuses it, the function and the goal, or what is amiss."""

    def __init__(self, edit, kind, function="-", goal="-", why=""):
        self.name, self.kind, self.function, self.goal, self.why = edit.name, kind, function, goal, why

    def __str__(self):
        if self.kind == REFUSED:
            return f"{self.name}: refused by {self.goal} of {self.function}"
        return f"{self.name}: AMISS: {self.why}"


def files_named(path):
    """The files that an edit names."""
    lines = path.read_text(encoding="utf-8", errors="replace").splitlines()
    return [line[len("file: "):].strip() for line in lines if line.startswith("file: ")]


def texts_of(paths, folder):
    """The sources after these edits, one after the other, by their path, and why that can't be; nothing where it can."""
    with tempfile.TemporaryDirectory(prefix="edits-") as room:
        for file in {file for path in paths for file in files_named(path)}:
            if Path(folder, file).is_file():
                Path(room, file).parent.mkdir(parents=True, exist_ok=True)
                shutil.copyfile(Path(folder, file), Path(room, file))
        texts = {}
        for path in paths:
            more, why = rt.read_edit(str(path), room)
            if why:
                return {}, why
            for file, text in more.items():
                Path(room, file).write_text(text, encoding="utf-8")
            texts.update(more)
    return texts, None


def changes(old, new):
    """The parts of a text that another one changes, each by the places of its first and last character."""
    found, before = [], old.splitlines(keepends=True)
    starts = [0, *itertools.accumulate(map(len, before))]
    for kind, first, last, begin, end in difflib.SequenceMatcher(None, before, new.splitlines(keepends=True)).get_opcodes():
        if kind == "equal":
            continue
        was, becomes = "".join(before[first:last]), "".join(new.splitlines(keepends=True)[begin:end])
        same = len(os.path.commonprefix([was, becomes]))
        found.append((starts[first] + min(same, max(len(was) - 1, 0)), starts[last] - 1))
    return found


class Edit:
    """An edit: its file, the functions that it turns, and why it can't be tried."""

    def __init__(self, crate, path):
        self.crate, self.path, self.name = crate, path, f"{crate.name}/{path.stem}"
        self.texts, self.why = texts_of([path], crate.folder)
        self.turned, self.is_alone = set(), False
        for file, text in self.texts.items():
            self.find(file, text)

    def find(self, file, new):
        """Finds what the edit turns in a file."""
        old = Path(self.crate.folder, file).read_text(encoding="utf-8")
        functions = functions_of(old) if file.endswith(".rt") else []
        for begin, end in changes(old, new):
            # (the outermost, where one lies in another)
            found = [it for it in functions if it.begin <= end and begin <= it.end]
            found = [it for it in found if around(functions, it.begin)[0] == it]
            self.is_alone |= not found
            self.turned |= {(file, it) for it in found}
            for it in found:
                if begin < it.body or it.body == it.end:
                    self.why = self.why or f"it turns the contract or the head of {it.name}, and no body"

    def paths(self, told):
        """How the check calls the functions that it turns; all that it knows where it turns what functions share."""
        if self.is_alone:
            return list(told.status)
        return [path for file, it in self.turned for path in told.paths(it, PurePosixPath(file).stem)]


def rounds(edits):
    """Groups edits so that no two of a group turn the same function. One that turns what functions share is alone."""
    groups = []
    for edit in edits:
        fits = [group for group in groups if not edit.is_alone and not any(it.is_alone for it in group)
                and all(not edit.turned & it.turned for it in group)]
        if fits:
            fits[0].append(edit)
        else:
            groups.append([edit])
    return groups


def check(crate, texts, seed, adds=False):
    """What a check of the crate with these texts says, over a copy of what is kept; and adds to that what it kept itself, if it
    is to."""
    room = tempfile.mkdtemp(prefix="edits-")
    try:
        for _ in range(2):
            shutil.rmtree(f"{room}/kept", ignore_errors=True)
            linked(seed, f"{room}/kept")
            ran = rt.checked(crate, texts, JOBS, f"{room}/kept")
            # (most likely for memory: once more)
            if ran.returncode != -signal.SIGKILL:
                break
        if adds:
            shutil.rmtree(seed)
            shutil.move(f"{room}/kept", seed)
        return ran
    finally:
        shutil.rmtree(room, ignore_errors=True)


def fault_of(ran, told, texts):
    """Why a check says nothing of its edits; None where it does."""
    bad = next((line for line in told.lines if rt.unread(line, texts)), None)
    if ran.returncode == 0:
        return "NOT REFUSED: the crate is still proved"
    if bad:
        return f"the prover cannot read the edited text: {bad[:160]}"
    if rtlib.STALE.search(ran.stdout):
        return "the kept work of a library could not be used"
    if ran.returncode == 1 and told.lines[-1].startswith("logic=not-proved"):
        return None
    first = next((line for line in told.lines if "error" in line), told.lines[-1])
    return f"no verdict (status {ran.returncode}): {first[:160]}"


def result(edit, told):
    """What a check says of one of its edits."""
    paths = edit.paths(told)
    if not paths:
        return Result(edit, AMISS, why="the check doesn't name the function that it turns")
    if not any(path in told.unproved() for path in paths):
        return Result(edit, AMISS, why=f"NOT REFUSED: {', '.join(paths)}: proved")
    refusal = told.refusal(paths)
    if refusal:
        return Result(edit, REFUSED, refusal.function, refusal.goal)
    others = "; ".join(told.others(paths)) or "no goal is named"
    return Result(edit, AMISS, why=f"{', '.join(paths)} is refused, but by no goal of a contract: {others[:300]}")


def try_round(crate, group, seed, adds=False):
    """What the edits of a group come to. What its check doesn't show of them, smaller groups do. Where it adds to what is kept,
    that is what the group's own check keeps."""
    texts, why = texts_of([edit.path for edit in group], crate.folder)
    if not why:
        ran = check(crate, texts, seed, adds)
        told = Told(crate, ran.stdout, texts)
        why = fault_of(ran, told, texts)
    if why and len(group) == 1:
        return [Result(group[0], AMISS, why=why)]
    if why:
        return halves(crate, group, seed)
    results = [result(edit, told) for edit in group]
    if len(group) == 1:
        return results
    # (what is open beside the turned functions may be another edit's doing)
    turned = {path for edit in group for path in edit.paths(told)}
    if not set(told.unproved()) <= turned:
        return halves(crate, group, seed)
    left = [edit for edit, it in zip(group, results) if it.kind != REFUSED]
    again = try_round(crate, left, seed) if 0 < len(left) < len(group) else halves(crate, left, seed) if left else []
    return [it for it in results if it.kind == REFUSED] + again


def halves(crate, group, seed):
    """The same of each half of a group of several."""
    middle = len(group) // 2
    return [it for half in (group[:middle], group[middle:]) for it in try_round(crate, half, seed)]


def edits_to_try(crate, names=()):
    """The edits of a crate, or those of these names, and the results of those that can't be tried."""
    edits = [Edit(crate, path) for path in edits_of(crate) if not names or path.stem in names]
    bad = [Result(edit, AMISS, why=edit.why) for edit in edits if edit.why]
    return [edit for edit in edits if not edit.why], bad
