"""Scripts: their text, the calls that they say, and small ones drawn by a seed."""
import random
from dataclasses import dataclass

MOST_INSTRUCTIONS = 6
# Methods of `Drawing`; what stands here more than once is drawn as often.
STYLES = ("anything",) * 4 + ("guarded",) * 4 + ("nested", "nested", "apart", "signalled", "chained")
# How many locks and flags a style needs.
LEAST = {"guarded": (1, 0), "nested": (2, 0), "signalled": (0, 1), "chained": (0, 2)}


@dataclass(frozen=True)
class Script:
    processors: int
    pages: int
    words: int
    locks: int
    flags: int
    sections: tuple  # of each processor its instructions: ("load", A), ("store", A, V), ("barrier",), ..
    shown: tuple

    @property
    def addresses(self):
        return self.pages * self.words

    @property
    def cuts(self):
        """Whether some section cuts."""
        return any(("cut",) in section for section in self.sections)

    def text(self):
        sizes = [self.processors, self.pages, self.words, self.locks] + ([self.flags] if self.flags else [])
        lines = ["cluster " + " ".join(map(str, sizes))]
        for processor, section in enumerate(self.sections):
            lines.append(f"p {processor}")
            lines += [" ".join(map(str, instruction)) for instruction in section]
        lines.append("show " + " ".join(map(str, self.shown)))
        return "".join(line + "\n" for line in lines)

    def calls(self, processor):
        """What the processor calls. `add` is a load, and a store of its reply and V ("adds"). After the section come the
        closing barrier, and at processor 0 a load of each shown address."""
        calls = []
        for instruction in self.sections[processor]:
            calls += calls_of(*instruction)
        shown = self.shown if processor == 0 else ()
        return calls + [("arrive",), ("depart",)] + [("load", address) for address in shown]

    def is_lawful(self):
        """What the drawing doesn't keep by itself: each lock is acquired where it isn't held and released where it is,
        and all sections have as many barriers."""
        barriers = {sum(it == ("barrier",) for it in section) for section in self.sections}
        return len(barriers) == 1 and all(locks_are_lawful(section) for section in self.sections)


def calls_of(name, *numbers):
    """The calls of an instruction."""
    if name == "add":
        return [("load", numbers[0]), ("adds", *numbers)]
    two = {"acquire": ("ask", "acquire"), "barrier": ("arrive", "depart"), "await": ("watch", "await"), "cut": ()}
    return [(call, *numbers) for call in two.get(name, (name,))]


def locks_are_lawful(section):
    held = set()
    for name, *numbers in section:
        if name == "acquire":
            if numbers[0] in held:
                return False
            held.add(numbers[0])
        elif name == "release":
            if numbers[0] not in held:
                return False
            held.remove(numbers[0])
    return True


def locks_asked_within(section):
    """Each lock that is asked for with each that is held then; None where one is held at a wait for others, or at the end."""
    held, pairs = set(), set()
    for name, *numbers in [*section, ("barrier",)]:
        if name == "acquire":
            pairs |= {(outer, numbers[0]) for outer in held}
            held.add(numbers[0])
        elif name == "release":
            held.remove(numbers[0])
        elif name in ("barrier", "await") and held:
            return None
    return pairs


def has_circle(pairs):
    """Whether pairs of a lock that is held and one that is asked for lead from some lock back to it."""
    while pairs:
        lowest = {asked for _, asked in pairs} - {held for held, _ in pairs}
        if not lowest:
            return True
        pairs = {(held, asked) for held, asked in pairs if asked not in lowest}
    return False


def are_locks_ranked(script):
    """Whether locks are asked for in some order within each other, and none is held at a wait for others."""
    of_sections = [locks_asked_within(section) for section in script.sections]
    if None in of_sections:
        return False
    return not has_circle(set().union(*of_sections))


def draw_wrong_lock(seed):
    """A script as long as can be in which each word has a lock, but for one access: the script, that word, and the access's line."""
    random_ = random.Random(seed)
    groups = 3333
    wrong = (random_.randrange(16), random_.randrange(groups))
    sections, word, line = [], None, None
    for processor in range(16):
        section = []
        for group in range(groups):
            address = random_.randrange(16)
            lock = address % 8
            if (processor, group) == wrong:
                lock, word, line = (lock + 1) % 8, address, 1 + processor * (3 * groups + 1) + 3 * group + 3
            section += [("acquire", lock), ("add", address, 1), ("release", lock)]
        sections.append(tuple(section))
    return Script(16, 1, 16, 8, 0, tuple(sections), (0,)), word, line


def read(text):
    """The script of a lawful text."""
    lines = [line.split(" ") for line in text.splitlines()]
    sizes = [int(word) for word in lines[0][1:]]
    sections = []
    for word, *numbers in lines[1:-1]:
        if word == "p":
            sections.append([])
        else:
            sections[-1].append((word, *map(int, numbers)))
    flags = sizes[4] if len(sizes) == 5 else 0
    return Script(*sizes[:4], flags, tuple(map(tuple, sections)), tuple(int(word) for word in lines[-1][1:]))


class Drawing:
    """Draws a script's instructions, once its sizes are drawn."""

    def __init__(self, seed):
        self.draws = random.Random(seed)
        self.style = self.draws.choice(STYLES)
        self.processors = self.draws.choice((1, 2, 2, 2, 2, 3, 3, 3))
        self.pages, self.words = self.draws.choice((1, 1, 2)), self.draws.randint(1, 2)
        least_locks, least_flags = LEAST.get(self.style, (0, 0))
        self.locks, self.flags = self.draws.randint(least_locks, 2), self.draws.randint(least_flags, 2)

    def address(self):
        return self.draws.randrange(self.pages * self.words)

    def access(self, address=None):
        address = self.address() if address is None else address
        name = self.draws.choice(("load", "load", "store", "add"))
        return (name, address) if name == "load" else (name, address, self.draws.randint(1, 3))

    def anything(self, processor):
        """Any instructions, without order between the processors' accesses but by chance."""
        kinds = ["access"] * 4 + ["barrier", "cut"] + ["lock"] * (self.locks > 0) * 2 + ["flag"] * (self.flags > 0)
        section = []
        for _ in range(self.draws.randint(1, 4)):
            kind = self.draws.choice(kinds)
            if kind == "access":
                section.append(self.access())
            elif kind == "lock":
                lock = self.draws.randrange(self.locks)
                section += [("acquire", lock), self.access(), ("release", lock)]
            elif kind == "flag":
                section.append((self.draws.choice(("set", "await")), self.draws.randrange(self.flags)))
            elif kind == "barrier":
                section.append(("barrier",))
            else:
                section.append(("cut",))
        return section

    def guarded(self, processor):
        """Each access of an address under the address's lock."""
        section = []
        for _ in range(self.draws.choice((1, 1, 2))):
            address = self.address()
            lock = address % self.locks
            section += [("acquire", lock), self.access(address), ("release", lock)]
        return section

    def nested(self, processor):
        """Accesses under two locks, taken in the one order or in the other; some are kept."""
        first = self.draws.randrange(2)
        section = [("acquire", first), ("acquire", 1 - first), self.access()]
        return section + [("release", lock) for lock in (first, 1 - first) if self.draws.random() < 0.8]

    def apart(self, processor):
        """Each processor has addresses of its own up to a barrier, and loads any after it."""
        mine = [it for it in range(self.pages * self.words) if it % self.processors == processor]
        before = [self.access(self.draws.choice(mine)) for _ in range(self.draws.randint(0, 3)) if mine]
        after = [("load", self.address()) for _ in range(self.draws.randint(0, 2))]
        return before + [("barrier",)] + after

    def signalled(self, processor):
        """Processor 0 stores and sets; the others await and load. Some await what nobody sets."""
        flag = 0 if self.draws.random() < 0.8 else self.draws.randrange(self.flags)
        accesses = [self.access() for _ in range(self.draws.randint(1, 2))]
        if processor == 0:
            return accesses + [("set", flag)]
        return [("await", flag)] + [("load", it[1]) if self.draws.random() < 0.8 else it for it in accesses]

    def chained(self, processor):
        """An order by way of flags: each processor awaits one and sets the next."""
        section = [("await", (processor - 1) % 2)] if processor else []
        section += [self.access() for _ in range(self.draws.randint(1, 2))]
        return section + [("set", processor % 2)]

    def section_of(self, style, processor):
        section = getattr(self, style)(processor)
        if section and self.draws.random() < 0.1:
            section.pop(self.draws.randrange(len(section)))
        if self.draws.random() < 0.15:
            section.insert(self.draws.randint(0, len(section)), self.access())
        return section[:MOST_INSTRUCTIONS]

    def sections(self):
        """Sections, with barriers put at the end of those that have too few."""
        sections = [self.section_of(self.style, processor) for processor in range(self.processors)]
        most = max(section.count(("barrier",)) for section in sections)
        return [section + [("barrier",)] * (most - section.count(("barrier",))) for section in sections]

    def script(self):
        sections = self.sections()
        shown = [self.address() for _ in range(self.draws.randint(1, 2))]
        return Script(self.processors, self.pages, self.words, self.locks, self.flags,
                      tuple(map(tuple, sections)), tuple(shown))


def draw(seed):
    """A small lawful script: the first that comes by this seed."""
    drawing = Drawing(seed)
    while True:
        script = drawing.script()
        if script.is_lawful() and max(map(len, script.sections)) <= MOST_INSTRUCTIONS:
            return script
