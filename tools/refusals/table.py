"""tests/edits.tsv: what the refusals of each crate rest on, and what it was when it landed.

A row `CRATE KIT SUM` has the toolchain, and the sum of all else that a crate's refusals rest on; a row `CRATE/EDIT FUNCTION
GOAL` the goal that refused an edit. The parts are parted by tabs. A crate's refusals rest on all of its own files, and of
the crates below on what can be seen above them: neither a function's body nor the proof of its goals.
"""
import datetime
import hashlib
import subprocess
import zlib
from pathlib import Path

from .functions import outline
from .toolchain import ROOT, rt

FILE = "tests/edits.tsv"
# What is committed within so many hours before a commit belongs to the same change: nothing of it had landed.
CHANGE = 12
# One crate in so many is tried whatever changed.
SHARE = 8
PARTS = ("src", "specs", "proofs")
# The files that have the proof of one function's goals.
OF_GOALS = ("Answers.antt", "Invariants.antt", "Proof.antt")
# The tool decides what counts as a refusal.
TOOL = [Path("tools/edits"), *sorted(it.relative_to(ROOT) for it in (ROOT / "tools/refusals").glob("*.py"))]


def line_of(name):
    """A crate's line of crates.txt."""
    lines = (ROOT / "crates.txt").read_text(encoding="utf-8").splitlines()
    return next(line.partition("#")[0].strip() for line in lines if line.partition(":")[0].split()[:1] == [name])


def add_files(made, files):
    """Adds files to a sum, each with its path."""
    for path in sorted(files):
        made.update(repr((str(path.relative_to(ROOT)), path.read_bytes())).encode())


def files_of(crate):
    """A crate's files."""
    return [path for part in PARTS for path in Path(crate.folder, part).rglob("*") if path.is_file()]


def add_seen_above(made, crate):
    """Adds what a crate above can see of a crate."""
    files = [path for path in files_of(crate) if path.name not in OF_GOALS]
    add_files(made, [path for path in files if path.suffix != ".rt"])
    for path in sorted(path for path in files if path.suffix == ".rt"):
        made.update(repr((str(path.relative_to(ROOT)), outline(path.read_text(encoding="utf-8")))).encode())


def kit():
    """The toolchain: its name, and a sum of what it was made of."""
    folder = Path(rt.KIT)
    name = (folder / "KIT-ID").read_text(encoding="utf-8").split()[0]
    return f"{name}-{hashlib.sha256((folder / 'WHAT').read_bytes()).hexdigest()[:8]}"


def sum_of(crate):
    """A sum of all that the refusals of a crate's edits rest on, besides the toolchain."""
    made = hashlib.sha256()
    add_files(made, [ROOT / "HANDLES", *(ROOT / it for it in TOOL)])
    for it in [*crate.below(), crate]:
        made.update(line_of(it.name).encode())
    for it in crate.below():
        add_seen_above(made, it)
    add_files(made, [*files_of(crate), *Path(crate.folder, "must-fail").glob("*.edit")])
    return made.hexdigest()[:32]


def rows_of(text):
    """The rows by their first part."""
    rows = [line.split("\t") for line in text.splitlines() if line and not line.startswith("#")]
    return {row[0]: tuple(row[1:]) for row in rows if len(row) == 3}


def rows():
    """The rows of the file as it stands; none where there is none."""
    path = ROOT / FILE
    return rows_of(path.read_text(encoding="utf-8")) if path.is_file() else {}


def git(*words):
    ran = subprocess.run(["git", "-C", str(ROOT), *words], capture_output=True, text=True)
    return ran.stdout if ran.returncode == 0 else ""


def landed_commit():
    """The newest commit on the way of first parents that is older than the change that HEAD ends. Neither a later date of
    HEAD nor a later day of the gate makes it newer than that. Empty where there is none, as in a clone without history."""
    told = git("show", "-s", "--format=%ct", "HEAD").strip()
    if not told:
        return ""
    end = min(int(told), int(datetime.datetime.now().timestamp())) - CHANGE * 3600
    return git("rev-list", "-1", "--first-parent", f"--before={end}", "HEAD").strip()


def landed_rows():
    """The rows as they stood before the change that HEAD ends; none where that is not known."""
    commit = landed_commit()
    return rows_of(git("show", f"{commit}:{FILE}")) if commit else {}


def is_in_turn(name, today=None):
    """Whether this is a crate's day."""
    day = (today or datetime.datetime.now(datetime.timezone.utc).date()).toordinal()
    return zlib.crc32(name.encode()) % SHARE == day % SHARE


def rows_of_crate(all_rows, name):
    """A crate's rows."""
    return {key: row for key, row in all_rows.items() if key == name or key.startswith(f"{name}/")}


def changed(sums, landed, now, today=None):
    """The crates that the gate tries, by the file's rows as they had landed, each with no names of edits, which stands for
    all; and the faults of the others' rows now. `sums`: each crate with the toolchain and its sum."""
    tried, faults, names = {}, [], {crate.name for crate in sums}
    for crate, rest in sums.items():
        name = crate.name
        if landed.get(name) != rest or is_in_turn(name, today):
            tried[crate] = []
        elif rows_of_crate(landed, name) != rows_of_crate(now, name):
            faults.append(f"{name}: its rows in {FILE} are no longer what they were, though nothing else changed")
    gone = sorted(key for key in now if key.partition("/")[0] not in names)
    return tried, faults + [f"{FILE} has a row of {key}, which has no edits" for key in gone]


def is_of_today(seen, said):
    """Whether the file's rows of a crate were written with this toolchain, and of the crate as it stands."""
    name = next(iter(seen)).partition("/")[0]
    return said.get(name) == seen[name]


def differences(seen, said, is_whole):
    """How what was seen of a crate differs from what the file says. Where that was written with another toolchain or of another
    state of the crate, which may name another goal, each edit has only to have a row. `is_whole`: whether all of its edits were
    tried."""
    name = next(iter(seen)).partition("/")[0]
    if not said:
        return [f"{FILE} has no row of {name}: tools/edits --write {name} adds them"]
    if not is_of_today(seen, said):
        said = {key: seen.get(key, row) for key, row in said.items()}
    if not is_whole:
        said = {key: row for key, row in said.items() if key in seen}
    return [f"{key}: {FILE} says {' '.join(said.get(key, ['nothing']))}, and not {' '.join(seen.get(key, ['nothing']))}"
            for key in sorted(seen.keys() | said.keys()) if seen.get(key) != said.get(key)]


def write(known, seen):
    """Writes the file: what was seen in place of what it said of these crates."""
    kept = {key: row for key, row in known.items() if key.partition("/")[0] not in seen}
    for more in seen.values():
        kept.update(more)
    head = "# Which goal refused each edit, and a sum of what that rests on, crate by crate. `tools/edits --write` writes it.\n"
    text = "".join("\t".join([key, *row]) + "\n" for key, row in sorted(kept.items()))
    (ROOT / FILE).write_text(head + text, encoding="utf-8")
