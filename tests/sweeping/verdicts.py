"""What `check` is to say of a trace, by the plain rules and the plain table."""
from textwrap import wrap
from typing import NamedTuple

from checks import cost_of
from gaps import Gaps
from rules import first_refused, out_of_range, wait_lines
from running import Answer
from table import Table, places_of

MODELS = RACE_FREE, HAPPENS_BEFORE, LAZY_RELEASE, SEQUENTIAL = (
    "race-free", "happens-before", "lazy-release", "sequential")
# How many stores are told that a load may answer, at most.
MOST_TOLD = 64
# How many columns a line of the sentences on a race has at most, and how far it is indented.
WIDTH, INDENT = 100, "  "
# What stands between an access's address and its word.
ARROWS = {"load": "->", "store": "<-"}


class Rules(NamedTuple):
    """By what a trace is judged."""
    model: str = LAZY_RELEASE
    is_lax: bool = False
    ends_at_race: bool = False

    @property
    def counts(self):
        """Whether what fetches count is judged."""
        return self.model == LAZY_RELEASE and not self.is_lax

    def words(self):
        """The program's words for them."""
        default = [] if self.model == RACE_FREE else ["--model", self.model]
        strict = [] if self.model == LAZY_RELEASE else ["--strict"]
        return [*default, *(["--lax"] if self.is_lax else strict), *["--race-is-error"] * self.ends_at_race]


class Found(NamedTuple):
    """What is found of a trace: its kind, the place of the first wrong event, how many events were judged, and what is told
    of it, as lines."""
    kind: str
    place: int
    count: int
    lines: tuple


class Wrong(NamedTuple):
    """A wrong event: its kind, its place, and why, as lines."""
    kind: str
    place: int
    why: tuple


def last_store(table, place):
    """The last store before the load at a place, to its address, in the trace's order."""
    stores = list(places_of(table.stores[table.events[place].numbers[0]] & (1 << place) - 1))
    return stores[-1:]


def unordered_stores(table, place):
    """The stores before the load at a place, to its address, that its past doesn't have, by processor."""
    stores = places_of(table.stores[table.events[place].numbers[0]] & (1 << place) - 1 & ~table.rows[place])
    return sorted(stores, key=lambda it: (table.events[it].processor, it))


def told_stores(events, stores):
    """The stores that are told: of each processor and value the first."""
    told = {}
    for store in stores:
        told.setdefault((events[store].processor, events[store].numbers[1]), store)
    return list(told.values())[:MOST_TOLD]


def permitted(table, place, model):
    """What the load at a place may answer under a model: whether 0 where no store says so, and stores."""
    if model == SEQUENTIAL:
        last = last_store(table, place)
        return not last, last
    latest = sorted(table.latest_stores(table.events[place].numbers[0], place),
                    key=lambda it: table.events[it].processor)
    if model == HAPPENS_BEFORE:
        return not latest, [*latest, *unordered_stores(table, place)]
    return not latest, latest


def wrong_load(table, place, model):
    """What is wrong with the load at a place."""
    events, reply = table.events, table.events[place].numbers[1]
    is_free, stores = permitted(table, place, model)
    if is_free and reply == 0 or any(events[store].numbers[1] == reply for store in stores):
        return None
    if not stores:
        return Wrong("unexplained", place, ("because it may answer 0 alone",))
    zero = "0, or " if is_free else ""
    told = told_stores(events, stores) if model == HAPPENS_BEFORE else stores
    return Wrong("unexplained", place, (f"because it may answer {zero}only what was stored by",
                                        *[events[store].line(store) for store in told]))


def wrong_fetch(gaps, place):
    """What is wrong with the fetch at a place."""
    due = gaps.due(place)
    if gaps.table.events[place].numbers[1:] == due:
        return None
    why = "because the fetch has to count {} writers, {} records and {} words".format(*due)
    return Wrong("miscounted", place, (why,))


def nearest_race(table):
    """The race with the least later place, and of these the one with the greatest earlier place."""
    for place in range(len(table.events)):
        rivals = list(places_of(table.rivals(place)))
        if rivals:
            return rivals[-1], place
    return None


def first_wrong(table, words, rules):
    """The first wrong load or fetch of events each of which may follow what stands before it, in pages of so many
    words."""
    gaps, race = Gaps(table, words), nearest_race(table)
    for place, event in enumerate(table.events):
        wrong = None
        is_owed = rules.model != RACE_FREE or race is None or place < race[1]
        if event.kind == "load" and is_owed:
            wrong = wrong_load(table, place, rules.model)
        elif event.kind == "fetch" and rules.counts:
            wrong = wrong_fetch(gaps, place)
        if wrong is not None:
            return wrong
    return None


def deed(event):
    """What an event did, in the words of the sentences."""
    first, *others = map(str, event.numbers) if event.numbers else ("",)
    if event.kind in ARROWS:
        return " ".join([event.kind, first, ARROWS[event.kind], *others])
    return f"fetch page {first}" if event.kind == "fetch" else f"{event.kind} {first}".rstrip()


def locks_at(events, place):
    """Which locks the processor of the event at a place holds there, in words."""
    held = set()
    for event in events[:place]:
        if event.processor == events[place].processor and event.kind in ("acquire", "release"):
            (held.add if event.kind == "acquire" else held.remove)(event.numbers[0])
    return ", ".join(map(str, sorted(held))) or "none"


def awaited_by(events, place):
    """Which flag the processor of the event at a place has awaited last before it, in words."""
    own = [(it.numbers[0], at) for at, it in enumerate(events[:place]) if it.kind == "await" and it.processor == events[place].processor]
    return "had last awaited flag {} (event {})".format(*own[-1]) if own else "had awaited none"


def reasons(table, race):
    """The sentences on a race: what the later access's processor knew of the other, what it missed, the locks, the remedy."""
    (place, first), (later, second) = ((it, table.events[it]) for it in race)
    one, other = f"p{first.processor}", f"p{second.processor}"
    heard = list(places_of(table.rows[later] & table.own[first.processor]))
    yield "Neither happens before the other."
    if heard:
        yield f"{other} had last heard of {one}'s event {heard[-1]} ({deed(table.events[heard[-1]])})."
    else:
        yield f"{other} had heard nothing of {one}."
    if (first.kind, second.kind) == ("store", "load") and first.numbers[1] != second.numbers[1]:
        yield f"Stale: {deed(second)}, though event {place} had stored {first.numbers[1]}."
    yield f"No lock in common: {one} held {locks_at(table.events, place)}, {other} held {locks_at(table.events, later)}."
    if any(it.kind in ("set", "watch", "await") for it in table.events[:later]):
        yield f"Flags aren't among these locks: {one} {awaited_by(table.events, place)}, {other} {awaited_by(table.events, later)}."
    yield ("What would order them: one lock round both, a barrier between them, or a flag that "
           f"{one} sets after event {place} and {other} awaits before event {later}.")


def race_lines(table, race):
    lines = ["verdict racy", *[table.events[place].line(place) for place in race]]
    for sentence in reasons(table, race):
        lines += wrap(sentence, WIDTH, initial_indent=INDENT, subsequent_indent=INDENT, break_on_hyphens=False)
    return lines


def faithful(sizes, table, rules):
    """What is found of a trace without a wrong event."""
    race, events = nearest_race(table), table.events
    loads = sum(event.kind == "load" for event in events[race[1]:]) if race else 0
    is_told = race is not None and rules.model == RACE_FREE
    return Found("faithful", None, len(events), (
        "faithful", *["unjudged counts order"] * (rules.is_lax and rules.model == LAZY_RELEASE), *[f"unjudged {loads} loads"] * is_told,
        *(race_lines(table, race) if race else ["verdict race-free"]), *wait_lines(sizes, events),
        "traffic {} {} {}".format(*cost_of(events))))


def lie(events, wrong):
    """What is found of a trace with a wrong event. One that may not follow is not looked at for a race."""
    table = Table(events[:wrong.place + (wrong.kind != "ill formed")])
    race = nearest_race(table)
    return Found(wrong.kind, wrong.place, wrong.place + 1, (
        *(race_lines(table, race) if race else ()),
        f"unfaithful {wrong.place}", events[wrong.place].line(wrong.place), *wrong.why))


def judged(sizes, events, rules):
    """What is found of events each of which names what the cluster has got."""
    refused = first_refused(sizes, events, rules.is_lax)
    table = Table(events if refused is None else events[:refused[0]])
    race, wrong = nearest_race(table), first_wrong(table, sizes.words, rules)
    if rules.ends_at_race and race is not None and (wrong is None or race[1] <= wrong.place):
        return Found("racy", race[1], race[1] + 1, tuple(race_lines(table, race)))
    if wrong is None and refused is not None:
        wrong = Wrong("ill formed", refused[0], (f"because {refused[1]}",))
    return faithful(sizes, table, rules) if wrong is None else lie(events, wrong)


def find(sizes, events, rules, reads_all=False):
    """What is to be found of a trace. It is judged as it is read, so what is found wrong hides each bad line behind it; not
    where a command reads all first."""
    for place, event in enumerate(events):
        fault = out_of_range(sizes, event)
        if fault is not None:
            before = None if reads_all else judged(sizes, events[:place], rules)
            if before is not None and before.kind != "faithful":
                return before
            return Found("no trace", place, 0, (f"lrc: line {place + 2}: {fault}",))
    return judged(sizes, events, rules)


STATUSES = {"faithful": 0, "no trace": 2, "racy": 8}


def answer_to(found, rules):
    """What the program has to answer, where this is found of a trace."""
    status = STATUSES.get(found.kind, 6)
    if found.kind == "no trace":
        return Answer(status, "", found.lines[0] + "\n")
    head = [f"events {found.count}", *[f"model {rules.model}"] * (rules.model != LAZY_RELEASE)]
    return Answer(status, "".join(line + "\n" for line in [*head, *found.lines]), "")


def text_of(sizes, events):
    """The text of a trace."""
    lines = [sizes.text().split("\n")[0], *[event.line(place) for place, event in enumerate(events)]]
    return "".join(line + "\n" for line in lines)
