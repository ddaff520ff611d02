"""Drawn journals with the first race of each, by a plain table of what happens before what; and a long one without a race."""
import random
import sys
from pathlib import Path

TESTS = Path(__file__).resolve().parent.parent
sys.path[:0] = [str(TESTS / "sweeping"), str(TESTS / "exploring")]
from schedules import Event  # noqa: E402
from table import Table  # noqa: E402

COUNT = 1200
# How many of the drawn journals have to have a race, at least, and at most.
LEAST_RACY, MOST_RACY = 300, 900
LONGEST = 1 << 20


def access(draws):
    """A load or a store."""
    return (draws.choice(["load", "store"]), (draws.randrange(3), 1))


def any_event(draws, processors):
    """An event of any kind."""
    numbers = (draws.randrange(2),)
    kind, numbers = draws.choice([access(draws), access(draws), ("ask", numbers), *[("acquire", numbers)] * 2,
                                  *[("release", numbers)] * 2, ("arrive", ()), ("depart", ()), ("set", numbers),
                                  *[("await", numbers)] * 2])
    return Event(draws.randrange(processors), kind, numbers)


def free(draws, processors):
    """Up to 60 events in no order that a cluster need keep."""
    return [any_event(draws, processors) for _ in range(draws.randrange(61))]


def guarded(draws, processors):
    """Accesses under a lock."""
    events = []
    for _ in range(draws.randrange(16)):
        processor = draws.randrange(processors)
        events += [Event(processor, *deed) for deed in (("acquire", (0,)), access(draws), access(draws), ("release", (0,)))]
    return events


def drawn():
    """The calls that make each drawn journal, and ask for its first race, with what each answers."""
    racy = 0
    for number in range(COUNT):
        draws = random.Random(number)
        processors = draws.randint(1, 16)
        events = (guarded if number % 2 else free)(draws, processors)
        race = Table(events).first_race()
        racy += race is not None
        yield f"journal {processors} 3", "ok"
        for place, event in enumerate(events):
            yield event.line(place), "ok"
        yield "race", "none" if race is None else "{} {}".format(*race)
    if not LEAST_RACY < racy < MOST_RACY:
        sys.exit(f"calls: {racy} of the drawn journals have a race")


def turn(round_):
    """What a processor does in its turn of a lock."""
    lock = round_ // 8 % 32
    address = 128 * lock + round_ // 256 % 128
    accesses = (f"{kind} {address} 0" for kind in ("load", "store", "store", "load", "load"))
    return [f"ask {lock}", f"acquire {lock}", *accesses, f"release {lock}"]


def longest():
    """The calls that make a journal of 2^20 events of eight processors under locks, without a race."""
    yield "journal 8 4096", "ok"
    for place in range(LONGEST):
        round_ = place // 8
        yield f"event {place} {round_ % 8} {turn(round_)[place % 8]}", "ok"
    yield "count", str(LONGEST)
    yield "race", "none"
    yield f"at {LONGEST - 1}", f"event {LONGEST - 1} 7 release 31"
