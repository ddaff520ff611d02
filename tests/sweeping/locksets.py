"""Words that need a lock and have none, by the definition: of a trace each pair of accesses is looked at.

Two accesses of a word need a lock if they race in the trace in which locks order nothing, and two processors have stored
to the word up to the first of them. The word is told if some such accesses hold no lock in common: as one of which somebody
forgot the lock if others do, else as one that is handed over, which is told by `--locksets all` alone.
"""
import re
from collections import defaultdict

from flaw import expect
from rules import awaited
from schedules import Event
from table import Table, places_of

LOCKING = ("ask", "acquire", "release")
LABEL = r"(?: \([^()]*\))?"
FORGOTTEN, ALL = "forgotten", "all"
NAMES = ("unprotected ", "handed over ")
BARE = rf"(\d+): event (\d+){LABEL} by p(\d+) and event (\d+){LABEL} by p(\d+) hold no lock in common"
LINE = re.compile(rf"unprotected {BARE}; events (\d+){LABEL} and (\d+){LABEL} hold lock (\d+)")
HANDED = re.compile(rf"handed over {BARE}")


def without_locks(events):
    """The trace in which locks order nothing: their events become ones that nobody else hears of."""
    return [Event(it.processor, "fetch", (0, 0, 0, 0)) if it.kind in LOCKING else it for it in events]


def held_at(events, place):
    """The locks that the processor of the event at a place holds there."""
    held = set()
    for event in events[:place]:
        if event.processor == events[place].processor and event.kind in ("acquire", "release"):
            (held.add if event.kind == "acquire" else held.discard)(event.numbers[0])
    return held


def is_watched(events, place):
    """Whether two processors have stored to the word that is accessed at a place, up to and with that."""
    address = events[place].numbers[0]
    return len({it.processor for it in events[:place + 1] if it.kind == "store" and it.numbers[0] == address}) > 1


class Pairs:
    """Of each word the pairs of accesses that need a lock: those with locks in common, with these, and those without."""

    def __init__(self, events):
        self.guarded, self.unguarded = defaultdict(dict), defaultdict(set)
        firm = Table(without_locks(events))
        for later in range(len(events)):
            for earlier in places_of(firm.rivals(later)):
                if is_watched(events, earlier):
                    self.add(events, earlier, later)

    def add(self, events, earlier, later):
        address, common = events[earlier].numbers[0], held_at(events, earlier) & held_at(events, later)
        if common:
            self.guarded[address][earlier, later] = common
        else:
            self.unguarded[address].add((earlier, later))

    def words(self, which):
        """The words of which somebody forgot the lock; or all that need one and have none at times."""
        return sorted(set(self.guarded) & set(self.unguarded) if which == FORGOTTEN else set(self.unguarded))


def check_line(events, pairs, line):
    """That a line tells two accesses that hold no lock, and two that do, with it, if there are such; the word."""
    told = LINE.fullmatch(line) or HANDED.fullmatch(line)
    expect(told, f"that tells a word: {line}")
    address, first, maker, second, other, *guard = map(int, told.groups())
    expect((first, second) in pairs.unguarded[address], f"these need a lock and hold none in common: {line}")
    expect((events[first].processor, events[second].processor) == (maker, other), f"their processors made them: {line}")
    if guard:
        one, two, lock = guard
        expect(lock in pairs.guarded[address].get((one, two), ()), f"those need the lock and hold it: {line}")
    else:
        expect(address not in pairs.guarded, f"no two of its accesses hold a lock in common: {line}")
    return address


def check_answer(events, plain, which, answer):
    """That an answer with --locksets is the one without, and of a trace without a race the lines on words besides; the words."""
    lines = [it for it in answer.output.splitlines() if it.startswith(NAMES)]
    rest = "".join(f"{it}\n" for it in answer.output.splitlines() if it not in lines)
    expect((answer.status, rest, answer.errors) == plain, f"but for its words it is {plain}where it is {answer}")
    if "verdict race-free" not in plain.output:
        return expect(not lines, f"no word is told of such a trace: {answer}")
    pairs = Pairs(events)
    told = [check_line(events, pairs, line) for line in lines]
    expect(told == pairs.words(which), f"the words {pairs.words(which)} need a lock and have none: {answer}")
    return told


def sections(events):
    """The places of each ask of a lock, of its grant and of the release that follows."""
    for place, event in enumerate(events):
        if event.kind == "ask":
            own = [it for it in range(place + 1, len(events)) if events[it].processor == event.processor
                   and events[it].kind in LOCKING and events[it].numbers == event.numbers]
            if len(own) > 1:
                yield place, own[0], own[1]


def passes(before, lock, processors):
    """The events by which those of the processors that wait for nothing pass a lock in turn."""
    free = [it for it in processors if awaited(before, it) is None]
    return [Event(it, kind, (lock,)) for it in free for kind in LOCKING]


def forgetful(draws, events, lock=None, processors=0, always=False):
    """The trace without the lock's events of one section, or of all sections of its lock; None where it has no section. With
    another lock, which nobody holds, the processors pass that before what was the section and behind it: so they are ordered
    by accident."""
    found = list(sections(events))
    if not found:
        return None
    drawn = draws.choice(found)
    chosen = [it for it in found if always and events[it[0]].numbers == events[drawn[0]].numbers] or [drawn]
    dropped = {place for section in chosen for place in section}
    grants, releases = ({it[part] for it in chosen} for part in (1, 2))
    trace = []
    for place, event in enumerate(events):
        others = [it for it in range(processors) if it != event.processor]
        if lock is not None and place in grants:
            trace += passes(trace, lock, [*others, event.processor])
        elif lock is not None and place in releases:
            trace += passes(trace, lock, [event.processor, *others])
        if place not in dropped:
            trace.append(event)
    return tuple(trace)
