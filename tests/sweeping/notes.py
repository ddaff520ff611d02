"""Why each event went as it did, by the table; and what `explain` says of it at its right.

The rules are written over docs/MEMORY.md and docs/SCRIPTS.md, and share no code with the program.
"""
import re
from collections import defaultdict

from flaw import expect
from gaps import CLOSING
from states import TAKING, States
from table import EDGES, episodes_of, places_of

# How many pages that go stale by an event, and how many crossings of a way, are told.
MOST_PAGES = 3
MOST_CROSSINGS = 3
CROSSING = re.compile(r"(\w+) at (\d+) and (\w+) at (\d+)")
BETWEEN = re.compile(r"(\d+) more between")


def counted(number, what):
    """So many of that."""
    return f"{number} {what}" + "s" * (number != 1)


def named(processors):
    """The processors, with commas between."""
    return ", ".join(f"p{it}" for it in processors)


def label(event):
    """What stands in the event's lane."""
    arrow = {"load": "->", "store": "<-"}.get(event.kind)
    if arrow:
        return f"{event.kind} {event.numbers[0]} {arrow} {event.numbers[1]}"
    if event.kind == "fetch":
        return f"fetch page {event.numbers[0]}"
    return " ".join([event.kind, *map(str, event.numbers)])


class Notes:
    """What is to be said of the events of a journal of which nothing was cut off."""

    def __init__(self, script, events):
        self.script, self.events = script, events
        self.states = States(script, events)
        self.table = self.states.table
        self.episodes = episodes_of(events, False)
        self.closed = self.closings()
        self.stale, self.origins = set(), defaultdict(dict)

    def closings(self):
        """Of each event where its interval is closed; behind all where it isn't."""
        closed, after = [], defaultdict(lambda: len(self.events))
        for place in reversed(range(len(self.events))):
            event = self.events[place]
            closed.append(after[event.processor])
            if event.kind in CLOSING:
                after[event.processor] = place
        return closed[::-1]

    def heard(self, place):
        """What the event's processor had heard of before it: its own earlier events and what happened before them."""
        past = 0
        for own in places_of(self.states.gaps.own_before(place)):
            past |= self.table.rows[own] | 1 << own
        return past

    def others(self, place, kind, *numbers):
        """The earlier events of others of this kind and these numbers, of which the event's processor had not heard."""
        heard, event = self.heard(place), self.events[place]
        return [it for it, other in enumerate(self.events[:place]) if other.kind == kind and other.processor != event.processor
                and not heard >> it & 1 and (other.numbers if numbers else self.episodes[it]) == (numbers or self.episodes[place])]

    def past_events(self, place, kind, *numbers):
        """The earlier events of this kind and these numbers, by whomever."""
        return [it for it, other in enumerate(self.events[:place]) if (other.kind, other.numbers) == (kind, numbers)]

    def by(self, place, name):
        """Whose event of this name that is."""
        return f"p{self.events[place].processor}'s {name}, event {place}"

    def store(self, place):
        """Whose store that is."""
        return f"event {place}'s store by p{self.events[place].processor}"

    # What is said of a load.

    def origin(self, place):
        """From which store the word of the copy is that the load reads, and by which event of its processor it came there."""
        return self.origins[self.events[place].processor].get(self.events[place].numbers[0])

    def keep_origin(self, place):
        """What a store or a fetch leaves in its processor's copy. A fetch applies intervals in the order in which they were
        closed."""
        event = self.events[place]
        words = self.origins[event.processor]
        if event.kind == "store":
            words[event.numbers[0]] = (place, place)
        elif event.kind == "fetch":
            for store in sorted(places_of(self.states.gaps.lacked(place)), key=lambda it: (self.closed[it], it)):
                words[self.events[store].numbers[0]] = (store, place)

    def fetch_of(self, store, place):
        """Which fetch before the load brought its processor the store: the first of the page that has it in its past."""
        page = self.events[store].numbers[0] // self.script.words
        return next((it for it in places_of(self.states.gaps.own_before(place)) if self.events[it].kind == "fetch"
                     and self.events[it].numbers[0] == page and self.table.rows[it] >> store & 1), None)

    def why_not(self, rival, place, write):
        """Why the copy has another word than the rival's, where that came by a fetch."""
        if self.events[write].kind != "fetch":
            return ""
        if self.events[rival].processor == self.events[place].processor:
            return f": the fetch at {write} overwrote it"
        fetch = self.fetch_of(rival, place)
        if fetch is None:
            return ""
        return f": the fetch at {fetch} applied it first" if fetch == write else f": the fetch at {fetch} had brought it before"

    def before(self, place):
        """The last store to the access's address that stands before it, by whomever; None where there is none."""
        stores = self.table.stores[self.events[place].numbers[0]] & (1 << place) - 1
        return stores.bit_length() - 1 if stores else None

    def last(self, place, source, rivals):
        """What is said of a store that the load might seem to answer."""
        last = self.before(place)
        if last is None:
            return []
        if last != source:
            is_ordered = self.table.rows[place] >> last & 1
            return [] if is_ordered else [f"{self.store(last)} is not ordered before it"]
        earlier = self.before(last)
        if earlier is None or earlier in rivals:
            return []
        is_ordered = self.table.rows[last] >> earlier & 1
        return [f"{self.store(earlier)} is {'overwritten by' if is_ordered else 'not ordered before'} event {last}"]

    def of_load(self, place):
        """The store that it answers, and of each other store that it might answer why it doesn't."""
        address, _ = self.events[place].numbers
        latest = self.table.latest_stores(address, place)
        if not latest:
            return [f"no store to {address} happens before it", *self.last(place, None, [])]
        source, write = self.origin(place)
        expect(source in latest, f"the copy's word at event {place} is that of a latest store")
        rivals = [it for it in latest if it != source]
        # They are told by rising processor.
        rivals.sort(key=lambda it: self.events[it].processor)
        return [f"event {source}: p{self.events[source].processor} stored it",
                *(f"{self.store(it)} is as late{self.why_not(it, place, write)}" for it in rivals),
                *self.last(place, source, rivals)]

    def check_way(self, text, source, place):
        """The words behind the store tell a way from it to the load: where it goes from one processor to another, and of many
        only the first and the last."""
        crossings = [(it[1], int(it[2]), it[3], int(it[4])) for it in CROSSING.finditer(text)]
        more = BETWEEN.search(text)
        told = [f"{a} at {i} and {b} at {j}" for a, i, b, j in crossings]
        wanted = told if not more else [told[0], more[0], told[-1]]
        expect(text == "".join(", by " * (n == 0) + ", " * (n > 0) + it for n, it in enumerate(wanted)), f"that is a way: {text}")
        if not crossings:
            expect(self.events[source].processor == self.events[place].processor, "a way that crosses nothing stays there")
            return
        if more:
            expect(len(crossings) == 2 and int(more[1]) > MOST_CROSSINGS - 2, f"of many crossings two are told: {text}")
        at = source
        for number, (name, start, other, end) in enumerate(crossings):
            expect((self.events[start].kind, self.events[end].kind) == (name, other), f"these are events {start} and {end}")
            expect(self.is_edge(start, end), f"an edge leads from event {start} to {end}")
            is_next = self.events[at].processor == self.events[start].processor and at <= start
            expect(is_next or more and number == 1 and self.table.rows[start] >> at & 1, f"event {at} leads to event {start}")
            at = end
        expect(self.events[at].processor == self.events[place].processor and at <= place, "the way leads to the load")

    def is_edge(self, start, end):
        """Whether an edge leads from the one processor's event to the other's."""
        first, second = self.events[start], self.events[end]
        if first.processor == second.processor or start >= end:
            return False
        if second.kind == "depart":
            return first.kind == "arrive" and self.episodes[start] == self.episodes[end]
        return EDGES.get(second.kind) == first.kind and first.numbers == second.numbers

    # What is said of the others.

    def of_fetch(self, place):
        _, _, records, words = self.events[place].numbers
        stores = places_of(self.states.gaps.lacked(place))
        writers = [f"p{it}" for it in sorted({self.events[store].processor for store in stores})]
        front = ", ".join(writers[:-1]) + " and " * (len(writers) > 1)
        return [f"{counted(records, 'record')}, {counted(words, 'word')}, of {front}{writers[-1]}"]

    def of_ask(self, place):
        lock = self.events[place].numbers[0]
        holder, queue = None, []
        for event in self.events[:place]:
            if event.numbers == (lock,) and event.kind == "ask":
                queue.append(event.processor)
            elif event.numbers == (lock,) and event.kind == "acquire":
                queue.remove(event.processor)
                holder = event.processor
            elif event.numbers == (lock,) and event.kind == "release":
                holder = None
        if queue:
            return [f"waits: p{queue[-1]} asked for lock {lock} before it"]
        return [f"waits: p{holder} holds lock {lock}"] if holder is not None else []

    def of_acquire(self, place):
        released = self.past_events(place, "release", *self.events[place].numbers)
        return [f"after {self.by(released[-1], 'release')}" if released else "nobody held it before"]

    def of_watch(self, place):
        flag = self.events[place].numbers[0]
        return [] if self.past_events(place, "set", flag) else [f"waits: nobody has set flag {flag}"]

    def of_await(self, place):
        flag = self.events[place].numbers[0]
        news = self.others(place, "set", flag)
        if not news:
            return [f"after {self.by(self.past_events(place, 'set', flag)[0], 'set')}"]
        told = [self.by(it, "set") for it in news]
        return ["after " + ", ".join(told[:-1]) + ", and " * (len(told) > 1) + told[-1]]

    def of_arrive(self, place):
        arrived = {event.processor for it, event in enumerate(self.events[:place])
                   if event.kind == "arrive" and self.episodes[it] == self.episodes[place]}
        missing = [it for it in range(self.script.processors) if it not in arrived and it != self.events[place].processor]
        return [f"waits: {named(missing)} {'has' if len(missing) == 1 else 'have'} not arrived"] if missing else []

    def of_depart(self, place):
        arrived = sorted(self.events[it].processor for it in self.others(place, "arrive"))
        return [f"after the arrival{'s' * (len(arrived) > 1)} of {named(arrived)}"] if arrived else []

    def gone_stale(self, place):
        """Which pages the copies lack more of by an event that takes, by rising number."""
        counts = defaultdict(lambda: defaultdict(int))
        for page, writer, _ in self.states.notices(place):
            counts[page][writer] += 1
        told = []
        for page, writers in sorted(counts.items()):
            is_stale = (page, self.events[place].processor) in self.stale
            (first, records), *more = sorted(writers.items())
            told.append(f"page {page} " + (f"lacks {counted(records, 'record')} more" if is_stale else
                                           f"goes stale: {counted(records, 'record')}")
                        + f" of p{first}" + "".join(f", {number} of p{writer}" for writer, number in more))
        left_out = len(told) - MOST_PAGES
        return told[:MOST_PAGES] + ([counted(left_out, "more page")] if left_out > 0 else [])

    def keep_stale(self, place):
        """Which copies are stale behind the event."""
        event = self.events[place]
        if event.kind == "fetch":
            self.stale.discard((event.numbers[0], event.processor))
        elif event.kind in TAKING:
            self.stale.update((page, event.processor) for page, _, _ in self.states.notices(place))

    def note(self, place):
        """What is said of the event, in parts; the events are gone through in order."""
        event = self.events[place]
        of_kind = getattr(self, f"of_{event.kind}", None)
        said = of_kind(place) if of_kind else []
        if event.kind in TAKING:
            said = said + self.gone_stale(place)
        self.keep_origin(place)
        self.keep_stale(place)
        return said

    def all(self):
        """What is said of each event."""
        return [self.note(place) for place in range(len(self.events))]

    def check(self, place, wanted, told):
        """What is told of the event is this, and besides by which way a store came to the load that answers it."""
        event = self.events[place]
        expect(re.match(rf"(p{event.processor} +)?{re.escape(label(event))}(  |$)", told), f"event {place} stands in its lane: {told}")
        said = told.partition(label(event))[2].strip()
        if wanted and wanted[0].startswith("event "):
            source = int(wanted[0].split()[1].rstrip(":"))
            way = said.removeprefix(wanted[0]).partition("; ")[0]
            self.check_way(way, source, place)
            said = said.replace(way, "", 1) if way else said
        expect(said == "; ".join(wanted), f"of event {place} is said: {'; '.join(wanted)}\nwhere it is told: {said}")


def told_notes(text):
    """The numbers of the events that `explain --state` tells, with what is told of each behind its number, in order. The lines
    below an event that tell its state are left out."""
    told, width = [], 0
    for line in text.split("\n\n")[0].splitlines():
        numbered = re.match(" *([0-9]+)  ", line)
        if numbered:
            width = len(numbered[0]) - 2
            told.append((int(numbered[1]), [line[width:].strip()]))
        elif told and not re.match(f" {{{width + 4}}}[^ ]", line):
            told[-1][1].append(line.strip())
    return [(number, " ".join(lines)) for number, lines in told]
