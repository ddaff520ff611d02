"""What a check says of each function: whether it is proved, and by which goals it isn't."""
import re
from pathlib import Path, PurePosixPath
from typing import NamedTuple

from .functions import around, functions_of

STATUS = re.compile(r"(?:fn|impl|struct|enum|const|trait|type) (\S+): (proved|not proved|no proof|.+?)(?:: .*)?")
# What is said of a function that was not tried, since another one is open.
WAITS = re.compile(r"(?:fn|impl|struct|enum|const|trait|type) (\S+): (?:no proof: it (?:calls|passes|uses)|not proved; it waits for) .*")
ERROR = re.compile(r"(?:\./)?(proofs/\S+?)\.antt:\d+:\d+: error: (?:`([^`]*)`: )?(.*)")
NOTE = re.compile(r"note: (src/\S+):(\d+):\d+: .*\(`([^`]*)`\)")
UNPROVED = re.compile(r"did not prove (.*)")
# What is said of a proof file that cites what is gone: the goal itself was not tried.
UNREAD = re.compile(r"has no field|is not in scope|has no `|was not admitted|is no name|operand is missing|expected the end"
                    r"|cannot continue")
# The goals that a contract makes: what it promises at a return, what a callee asks for at a call, what a loop or a type
# keeps. The dearest to a reader come first.
CONTRACT = [re.compile(it) for it in (r"returns(-|$)", r"invariant", r"loop(-|$)", r".*-requires(-|$)")]


class Found(NamedTuple):
    """A goal of a function that is not proved."""

    function: str
    goal: str


def rank(goal):
    """How plainly a goal speaks of the contract: the less, the plainer; none where it speaks of something else."""
    return next((place for place, it in enumerate(CONTRACT) if it.match(goal)), None)


class Told:
    """What a check said."""

    def __init__(self, crate, said, texts):
        """`texts`: the sources that were checked in place of the crate's own, by their path."""
        self.crate, self.lines, self.texts = crate, said.rstrip("\n").split("\n"), texts
        self.goals, self.unread = [], []
        statuses = [found for line in self.lines if (found := STATUS.fullmatch(line))]
        self.status = {found[1]: found[2] for found in statuses}
        self.waiting = {found[1] for line in self.lines if (found := WAITS.fullmatch(line))}
        for line in self.lines:
            self.read(line)

    def read(self, line):
        """Reads a line."""
        if found := STATUS.fullmatch(line):
            if names := UNPROVED.search(line):
                self.goals += [Found(found[1], goal) for goal in re.findall(r"`([^`]*)`", names[1])]
        elif found := ERROR.match(line):
            self.read_error(*found.groups())
        elif found := NOTE.match(line):
            self.read_note(found[1], int(found[2]), found[3])

    def read_error(self, file, name, text):
        function = "::".join([self.crate.name, *PurePosixPath(file).parts[1:-1]])
        if UNREAD.search(re.sub(r"`[^`]*`", "", text)) or not name:
            self.unread.append(f"{file}.antt: {name or text[:80]}")
        else:
            self.goals.append(Found(function, name))

    def read_note(self, file, row, goal):
        text = self.texts.get(file)
        if text is None:
            try:
                text = Path(self.crate.folder, file).read_text(encoding="utf-8")
            except OSError:
                return
        at = sum(len(line) + 1 for line in text.split("\n")[:row - 1])
        stem = PurePosixPath(file).stem
        for function in around(functions_of(text), at + 1)[:1]:
            self.goals += [Found(path, goal) for path in self.paths(function, stem)]

    def paths(self, function, stem):
        """How the check calls a function of a source file."""
        return [path for path in self.status if function.is_told_as(path, stem)]

    def unproved(self):
        """The functions and types that are not proved, but for those that were not tried. One may be proved with a remark:
        that it may wait, or that its callers give what it asks."""
        return [path for path, status in self.status.items() if not status.startswith("proved") and path not in self.waiting]

    def refusal(self, paths):
        """The goal of a contract of these functions that refuses them, the plainest; None where none does."""
        found = [it for it in self.goals if it.function in paths and rank(it.goal) is not None]
        return min(found, key=lambda it: (rank(it.goal), it.goal, it.function), default=None)

    def others(self, paths):
        """Goals of these functions that no contract makes, and what could not be read of their proofs."""
        inside = [path.replace("::", "/").partition("/")[2] for path in paths]
        goals = sorted({it.goal for it in self.goals if it.function in paths})
        return goals + [it for it in self.unread if any(f"proofs/{part}/" in it for part in inside)]
