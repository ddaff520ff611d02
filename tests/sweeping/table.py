"""What happens before what, as a plain table by the definition; and races and loads by it.

A set of places is a number whose bits are the places.
"""
from collections import Counter, defaultdict

ACCESSES = ("load", "store")
# From an event of the one kind an edge leads to each later one of the other, of one lock or flag.
EDGES = {"acquire": "release", "await": "set"}


def places_of(bits):
    """The places of a set, in rising order."""
    while bits:
        least = bits & -bits
        yield least.bit_length() - 1
        bits ^= least


def episodes_of(events, has_base):
    """Of each arrival and departure how often its processor has done so, this time included. Where events were cut
    off, each processor's last arrival among those counts, as the first."""
    counts, episodes = Counter(), []
    for event in events:
        counts[event.processor, event.kind] += 1
        cut_off = has_base and event.kind == "arrive"
        episodes.append(counts[event.processor, event.kind] + cut_off)
    return episodes


def sources_of(event, episode, noted):
    """The earlier events from which an edge leads to an event."""
    sources = noted["processor", event.processor]
    if event.kind in EDGES:
        sources |= noted[(EDGES[event.kind], *event.numbers)]
    if event.kind == "depart":
        sources |= noted["arrive", episode]
    return sources


def with_past(sources, rows):
    """Some places and what happens before them. One that is there already has brought what happens before it."""
    row = 0
    while sources & ~row:
        last = (sources & ~row).bit_length() - 1
        row |= rows[last] | 1 << last
    return row


def rows_of(events, has_base):
    """Of each place the set of those that happen before it."""
    noted, rows = defaultdict(int), []
    for place, (event, episode) in enumerate(zip(events, episodes_of(events, has_base))):
        rows.append(with_past(sources_of(event, episode, noted), rows))
        noted["processor", event.processor] |= 1 << place
        if event.kind in ("release", "set", "arrive"):
            noted[(event.kind, *(event.numbers or (episode,)))] |= 1 << place
    return rows


class Table:
    """Some events, and of each what happens before it. With a base, events were cut off before them, up to the last
    arrival of an episode."""

    def __init__(self, events, has_base=False):
        self.events = events
        self.rows = rows_of(events, has_base)
        # The places of each processor's events, of the stores to an address, and of all accesses to it.
        self.own, self.stores, self.accesses = defaultdict(int), defaultdict(int), defaultdict(int)
        for place, event in enumerate(events):
            self.own[event.processor] |= 1 << place
            if event.kind in ACCESSES:
                self.accesses[event.numbers[0]] |= 1 << place
            if event.kind == "store":
                self.stores[event.numbers[0]] |= 1 << place

    def rivals(self, place):
        """The earlier accesses that race with the event at a place."""
        event = self.events[place]
        if event.kind not in ACCESSES:
            return 0
        conflicting = self.accesses if event.kind == "store" else self.stores
        earlier = (1 << place) - 1
        return conflicting[event.numbers[0]] & earlier & ~self.own[event.processor] & ~self.rows[place]

    def first_race(self):
        """The race with the least later place, and of these the one with the least earlier place."""
        for place in range(len(self.events)):
            rivals = self.rivals(place)
            if rivals:
                return next(places_of(rivals)), place
        return None

    def latest_stores(self, address, place):
        """The stores to an address in the past of a place after which no other one of them happens."""
        past = self.stores[address] & self.rows[place]
        followed = 0
        for store in places_of(past):
            followed |= self.rows[store]
        return list(places_of(past & ~followed))

    def is_explained(self, place, base):
        """Whether the load at a place answers a latest store of its past, or the base's word where there is none."""
        address, reply = self.events[place].numbers
        latest = self.latest_stores(address, place)
        if not latest:
            return reply == base[address]
        return any(self.events[store].numbers[1] == reply for store in latest)

    def unexplained(self, base):
        """The first load that isn't explained."""
        loads = (place for place, event in enumerate(self.events) if event.kind == "load")
        return next((place for place in loads if not self.is_explained(place, base)), None)
