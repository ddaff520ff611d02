"""What a run's picture and page have to show, by plain slow rules over its journal.

The rules are written over docs/MEMORY.md and docs/SCRIPTS.md, and share no code with the program.
"""
from gaps import CLOSING
from table import Table, places_of

# From where news come to an event that takes.
SOURCES = {"acquire": "release", "await": "set"}
SHAPES = {"store": "disc", "load": "ring", "fetch": "dash", "ask": "frame", "watch": "frame", "release": "block",
          "set": "block", "arrive": "block", "acquire": "wedge", "await": "wedge", "depart": "wedge"}


def label(event):
    """What stands beside an event's mark."""
    numbers = event.numbers
    if event.kind == "load":
        return "load {} -> {}".format(*numbers)
    if event.kind == "store":
        return "store {} <- {}".format(*numbers)
    if event.kind == "fetch":
        return "fetch {} ({}, {}, {})".format(*numbers)
    return " ".join([event.kind, *map(str, numbers)])


class Story:
    """What follows from a journal of which nothing was cut off, of pages of so many words."""

    def __init__(self, processors, words, events):
        self.processors, self.words, self.events = processors, words, events
        self.table = Table(events)
        self.closed = [self.closing_of(place) for place in range(len(events))]

    def own(self, processor, count=None):
        """The places of the processor's events among the first ones, in order."""
        return [place for place, event in enumerate(self.events[:count]) if event.processor == processor]

    def closing_of(self, place):
        """Where the interval of an event is closed; None where it isn't."""
        return next((it for it in range(place + 1, len(self.events)) if self.events[it].kind in CLOSING
                     and self.events[it].processor == self.events[place].processor), None)

    def past(self, processor, count):
        """What the processor's next event comes behind, after so many events."""
        own = self.own(processor, count)
        return (self.table.rows[own[-1]] if own else 0) | sum(1 << place for place in own)

    def news(self, place):
        """The other processors' events with an edge to this one of which its processor had not heard."""
        event = self.events[place]
        if event.kind not in SOURCES:
            return []
        heard = self.past(event.processor, place)
        wanted = (SOURCES[event.kind], event.numbers)
        return [it for it, other in enumerate(self.events[:place])
                if (other.kind, other.numbers) == wanted and other.processor != event.processor and not heard >> it & 1]

    def hand_overs(self, place):
        """Those of the news which happen before no other one."""
        news = self.news(place)
        return [it for it in news if not any(self.table.rows[other] >> it & 1 for other in news)]

    def episodes(self):
        """The arrivals with which all have arrived."""
        arrivals = [place for place, event in enumerate(self.events) if event.kind == "arrive"]
        return arrivals[self.processors - 1::self.processors]

    def is_stale(self, place):
        """Whether the event is a load, and the last store to its address before it neither happens before it nor is what
        it answers."""
        event = self.events[place]
        if event.kind != "load":
            return False
        stores = [it for it in places_of(self.table.stores[event.numbers[0]]) if it < place]
        if not stores or self.table.rows[place] >> stores[-1] & 1:
            return False
        return stores[-1] != self.source(place)

    def source(self, place):
        """The store that a load answers: where that is a latest one with its word, the one from which its copy's word is;
        else the first such one. None where it answers none."""
        address, word = self.events[place].numbers
        latest = [it for it in self.table.latest_stores(address, place) if self.events[it].numbers[1] == word]
        origin = self.origins(self.events[place].processor, place).get(address)
        return origin if origin in latest else next(iter(latest), None)

    def page_of(self, place):
        event = self.events[place]
        return event.numbers[0] if event.kind == "fetch" else event.numbers[0] // self.words

    def gap(self, processor, page, count):
        """The stores to the page that the processor's copy lacks after so many events."""
        fetched = 0
        for place in self.own(processor, count):
            if self.events[place].kind == "fetch" and self.events[place].numbers[0] == page:
                fetched |= self.table.rows[place]
        return [place for place in places_of(self.past(processor, count) & ~fetched)
                if self.events[place].kind == "store" and self.events[place].processor != processor
                and self.page_of(place) == page]

    def origins(self, processor, count):
        """Of each address the store from which the processor's copy has its word after so many events."""
        origins = {}
        for place in self.own(processor, count):
            event = self.events[place]
            if event.kind == "store":
                origins[event.numbers[0]] = place
            elif event.kind == "fetch":
                brought = self.gap(processor, event.numbers[0], place)
                for store in sorted(brought, key=lambda it: (self.closed[it], it)):
                    origins[self.events[store].numbers[0]] = store
        return origins

    def dirty(self, processor, count):
        """The addresses that the processor has stored to since it last closed an interval."""
        dirty = set()
        for place in self.own(processor, count):
            event = self.events[place]
            if event.kind == "store":
                dirty.add(event.numbers[0])
            elif event.kind in CLOSING:
                dirty = set()
        return dirty

    def time(self, processor, count):
        """The processor's vector timestamp after so many events: of each processor, how many intervals it has closed in
        its past."""
        past = self.past(processor, count)
        closing = [event.processor for place, event in enumerate(self.events[:count])
                   if past >> place & 1 and event.kind in CLOSING]
        return [closing.count(it) for it in range(self.processors)]

    def count_of(self, kind, processor, count):
        return sum(self.events[place].kind == kind for place in self.own(processor, count))

    def last(self, processor, count):
        """The processor's last event among the first ones."""
        own = self.own(processor, count)
        return self.events[own[-1]] if own else None

    def lock(self, lock, count):
        """Who holds the lock after so many events, and who has asked for it and not got it, in order."""
        holder, queue = None, []
        for event in self.events[:count]:
            if event.numbers[:1] == (lock,):
                if event.kind == "ask":
                    queue.append(event.processor)
                elif event.kind == "acquire":
                    queue.remove(event.processor)
                    holder = event.processor
                elif event.kind == "release":
                    holder = None
        return holder, queue

    def is_set(self, flag, count):
        return any((event.kind, event.numbers) == ("set", (flag,)) for event in self.events[:count])

    def standing(self, processor, count):
        """For what the processor waits, in words, or what it may take; nothing where it goes on."""
        last = self.last(processor, count)
        if last is None or last.kind not in ("ask", "arrive", "watch"):
            return ""
        if last.kind == "ask":
            holder, queue = self.lock(last.numbers[0], count)
            is_sent, what, message = holder is None and queue[0] == processor, "lock", "grant of lock"
        elif last.kind == "watch":
            is_sent, what, message = self.is_set(last.numbers[0], count), "flag", "signal of flag"
        else:
            due = self.count_of("depart", processor, count) + 1
            is_sent = all(self.count_of("arrive", it, count) >= due for it in range(self.processors))
            what, message = "barrier", "departure"
        number = "".join(f" {it}" for it in last.numbers)
        return f"{message}{number} in transit" if is_sent else f"waits: {what}{number}"
