"""Lawful scripts, each drawn by its number: guarded, free, mixed and of any sizes; and with cuts in them.

No schedule of a mixed script is stuck. In each phase between two barriers
- the flags come first, by rising number, before any lock is asked for. Each flag has a phase and a processor that
  sets it first, and nobody awaits it in an earlier phase. So who is to set a flag waits only for lesser ones before;
- locks are asked for by rising number, so who holds one waits only for greater ones;
- a lock that is kept over the phase's end has one keeper, and nobody else asks for it in that phase.
"""
import random
from dataclasses import replace
from typing import NamedTuple

from scripts import Script

WORD = 1 << 32


def one_in(draws, count):
    """One of so many draws says yes."""
    return draws.randrange(count) == 0


class Shape(NamedTuple):
    """The sizes of a guarded or free script, and how many barriers each section has."""
    processors: int
    pages: int
    words: int
    locks: int
    barriers: int


def group(draws, shape):
    """An addition under the lock of its address."""
    address = draws.randrange(shape.pages * shape.words)
    lock = address % shape.locks
    return [("acquire", lock), ("add", address, draws.randrange(8)), ("release", lock)]


def item(draws, shape):
    """A load, a store, an addition, or one under the lock of its address."""
    kind = draws.choice(("load", "load", "store", "store", "add", "group"))
    if kind == "group":
        return group(draws, shape)
    address = draws.randrange(shape.pages * shape.words)
    return [(kind, address) if kind == "load" else (kind, address, draws.randrange(8))]


def simple(draws, piece, most):
    """A script whose phases have up to so many pieces."""
    sizes = [draws.randint(1, most) for most in (4, 3, 4, 3)]
    shape = Shape(*sizes, draws.randrange(3))
    sections = []
    for _ in range(shape.processors):
        phases = [[it for _ in range(draws.randint(0, most)) for it in piece(draws, shape)]
                  for _ in range(shape.barriers + 1)]
        sections.append(tuple(it for phase in phases for it in [*phase, ("barrier",)])[:-1])
    shown = tuple(range(shape.pages * shape.words))
    return Script(shape.processors, shape.pages, shape.words, shape.locks, 0, tuple(sections), shown)


def guarded(number):
    """Additions, each under the lock of its address."""
    return simple(random.Random(f"guarded {number}"), group, 4)


def free(number):
    """Loads, stores and additions, few of them under a lock."""
    return simple(random.Random(f"free {number}"), item, 8)


class Plan:
    """What all phases of a mixed script have in common."""

    def __init__(self, draws, is_guarded):
        self.pages, self.words = draws.randint(1, 3), draws.randint(1, 4)
        self.addresses = self.pages * self.words
        self.processors = draws.randint(1, 16 if one_in(draws, 4) else 4)
        self.locks = draws.randint(1, 4)
        self.phases = draws.randint(1, 3)
        # Of each flag the phase in which it is first set, and the processor that sets it then.
        self.setters = [(draws.randrange(self.phases), draws.randrange(self.processors))
                        for _ in range(draws.randrange(4))]
        # Whether each address is accessed only by who holds its lock or has awaited its flag.
        self.is_guarded = is_guarded

    def allows(self, held, address):
        """Whether who holds these locks may access the address."""
        return not self.is_guarded or address >= len(self.setters) and address % self.locks in held


class Section:
    """A processor's section of a mixed script, and the locks that it holds, by rising number."""

    def __init__(self, draws, plan, processor):
        self.draws, self.plan, self.processor = draws, plan, processor
        self.instructions, self.held = [], []

    def accesses(self, bound):
        """Some accesses to drawn addresses, fewer than the bound, where they may be accessed."""
        for _ in range(self.draws.randrange(bound)):
            address, value = self.draws.randrange(self.plan.addresses), self.draws.randrange(8)
            kind = self.draws.choice(("load", "add" if self.plan.is_guarded else "store", "add", "add"))
            if self.plan.allows(self.held, address):
                self.instructions.append((kind, address) if kind == "load" else (kind, address, value))

    def acquire(self, lock):
        self.held.append(lock)
        self.instructions.append(("acquire", lock))

    def release_all(self):
        """Gives all locks back, in a drawn order."""
        self.draws.shuffle(self.held)
        self.instructions += [("release", lock) for lock in self.held]
        self.held = []

    def await_flag(self, flag):
        """Awaits the flag, and loads the address that it guards, if there is such an address."""
        self.instructions.append(("await", flag))
        if flag < self.plan.addresses:
            self.instructions.append(("load", flag))

    def set_first(self, flag):
        """Adds to the address that the flag guards, if there is such an address, and sets the flag."""
        if flag < self.plan.addresses:
            self.instructions.append(("add", flag, self.draws.randrange(8)))
        self.instructions.append(("set", flag))

    def flags(self, number):
        """What is done with the flags in a phase, before a lock is asked for."""
        for flag, (phase, setter) in enumerate(self.plan.setters):
            if (number, self.processor) == (phase, setter):
                self.set_first(flag)
            elif number > phase and one_in(self.draws, 6):
                self.instructions.append(("set", flag))
            elif number >= phase and one_in(self.draws, 3):
                self.await_flag(flag)
            self.accesses(2)

    def nest(self, keepers):
        """Asks by rising number for some locks that nobody keeps over the phase's end, with accesses between. What is
        held from an earlier phase has to be lesser."""
        for lock, keeper in enumerate(keepers):
            if keeper is None and all(it < lock for it in self.held) and one_in(self.draws, 2):
                self.acquire(lock)
                self.accesses(3)

    def await_one(self, number):
        """Awaits a flag that is set by this phase's end, now and then, whatever is held."""
        set_by_now = [flag for flag, (phase, _) in enumerate(self.plan.setters) if phase <= number]
        if set_by_now and one_in(self.draws, 3):
            self.await_flag(self.draws.choice(set_by_now))

    def phase(self, number, keepers):
        """What is done in a phase. It begins with a barrier, if it isn't the first."""
        if number > 0:
            self.instructions.append(("barrier",))
        self.accesses(2)
        self.flags(number)
        self.nest(keepers)
        self.await_one(number)
        self.release_all()
        for lock, keeper in enumerate(keepers):
            if keeper == self.processor:
                self.acquire(lock)
        self.accesses(3)


def mixed(number):
    """Up to sixteen processors, flags, several locks at once, and locks held over barriers. Of an even number each
    address is accessed only by who holds its lock or has awaited its flag, and only added to and loaded."""
    draws = random.Random(f"mixed {number}")
    plan = Plan(draws, number % 2 == 0)
    sections = [Section(draws, plan, processor) for processor in range(plan.processors)]
    for phase in range(plan.phases):
        keepers = [draws.randrange(plan.processors) if one_in(draws, 4) else None for _ in range(plan.locks)]
        for section in sections:
            section.phase(phase, keepers)
    return Script(plan.processors, plan.pages, plan.words, plan.locks, len(plan.setters),
                  tuple(tuple(section.instructions) for section in sections), tuple(range(plan.addresses)))


# How scripts are drawn for schedules and traces.
DRAWINGS = {"guarded": guarded, "free": free, "mixed": mixed}


def is_guarded(drawing, number):
    """Whether such a script orders all its accesses, and only loads and adds."""
    return drawing == "guarded" or drawing == "mixed" and number % 2 == 0


def size(draws, least, greatest):
    """A number of the range; the least and the greatest come more often than others."""
    return draws.choice((least, greatest, *[min(least + draws.randrange(4), greatest)] * 2))


def any_instruction(draws, sizes, held):
    """An instruction of a drawn kind; a load where it can't stand in a section that holds these locks."""
    processors, pages, words, locks, flags = sizes
    kind = draws.choice(("lock", "lock", "set", "await", "store", "store", "add", "cut", "load"))
    if kind == "lock" and locks:
        lock = draws.randrange(locks)
        return ("release" if lock in held else "acquire", lock)
    if kind in ("set", "await") and flags:
        return (kind, draws.randrange(flags))
    if kind == "cut":
        return (kind,)
    address = draws.randrange(pages * words)
    return (kind, address, draws.randrange(WORD)) if kind in ("store", "add") else ("load", address)


def any_section(draws, sizes, barriers):
    """Some instructions, with so many barriers among them."""
    section, held = [], set()
    for place in range(8):
        kind, *numbers = instruction = any_instruction(draws, sizes, held)
        section.append(instruction)
        if kind in ("acquire", "release"):
            held ^= {numbers[0]}
        if place < barriers:
            section.append(("barrier",))
    return tuple(section)


def of_any_sizes(number):
    """A script of any sizes, with instructions of every kind. It may be stuck."""
    draws = random.Random(f"any sizes {number}")
    sizes = (size(draws, 1, 16), size(draws, 1, 64), size(draws, 1, 64), size(draws, 0, 32), size(draws, 0, 32))
    barriers = draws.randrange(3)
    sections = tuple(any_section(draws, sizes, barriers) for _ in range(sizes[0]))
    return Script(*sizes, sections, tuple(draws.randrange(sizes[1] * sizes[2]) for _ in range(size(draws, 1, 64))))


def marked(script, number, mark):
    """The script with one page more, which nobody stores to, and with marks at drawn places: after some of its
    barriers, and now and then before another instruction."""
    draws = random.Random(f"marks {number}")
    sections = []
    for section in script.sections:
        marks = [([mark] if one_in(draws, 16) else [], [mark] if one_in(draws, 2) and it == ("barrier",) else [])
                 for it in section]
        sections.append(tuple(it for (before, after), own in zip(marks, section) for it in [*before, own, *after]))
    return replace(script, pages=script.pages + 1, sections=tuple(sections))


def with_cuts(script, number):
    """The script with cuts at drawn places."""
    return marked(script, number, ("cut",))


def with_idle_loads(script, number):
    """The script with a load of the page that nobody stores to in the place of each cut. A load takes a turn as a cut
    does, costs nothing and orders nothing. So under each schedule of `step` its journal is the history of the script
    with the cuts, but for these loads."""
    return marked(script, number, ("load", script.addresses))


def is_idle(whole, event):
    """Whether the event is one of those loads, of a script that has them."""
    return event.kind == "load" and event.numbers[0] >= (whole.pages - 1) * whole.words
