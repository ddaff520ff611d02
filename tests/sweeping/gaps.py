"""What a processor's copy of a page lacks, by the table; and what a fetch brings."""
from typing import NamedTuple

from table import places_of

CLOSING = ("ask", "release", "arrive", "set", "watch")


class Counts(NamedTuple):
    writers: int
    records: int
    words: int


class Gaps:
    """What copies lack among the events of a table, where a page has so many words."""

    def __init__(self, table, words):
        self.table, self.words = table, words
        self.closing = sum(1 << place for place, event in enumerate(table.events) if event.kind in CLOSING)

    def own_before(self, place):
        """The events of the event's processor before it."""
        return self.table.own[self.table.events[place].processor] & (1 << place) - 1

    def interval_of(self, place):
        """How many intervals the event's processor has closed before it."""
        return bin(self.own_before(place) & self.closing).count("1")

    def page_of(self, place):
        """The page that an access or a fetch is of."""
        event = self.table.events[place]
        return event.numbers[0] if event.kind == "fetch" else event.numbers[0] // self.words

    def past_of_last_fetch(self, place):
        """What happens before the processor's last fetch of the page before a place."""
        events, page = self.table.events, self.page_of(place)
        for earlier in reversed(list(places_of(self.own_before(place)))):
            if events[earlier].kind == "fetch" and events[earlier].numbers[0] == page:
                return self.table.rows[earlier]
        return 0

    def lacked(self, place):
        """The stores that the copy of the page lacks just before an access or a fetch: those of others in its past,
        but not in the past of its processor's last fetch of the page."""
        table, page = self.table, self.page_of(place)
        stores = 0
        for address in range(page * self.words, (page + 1) * self.words):
            stores |= table.stores[address]
        others = stores & table.rows[place] & ~table.own[table.events[place].processor]
        return others & ~self.past_of_last_fetch(place)

    def due(self, place):
        """What a fetch at a place has to count: a record is of an interval, and has each word once."""
        stores = [(self.table.events[store], self.interval_of(store)) for store in places_of(self.lacked(place))]
        return Counts(len({event.processor for event, _ in stores}),
                      len({(event.processor, interval) for event, interval in stores}),
                      len({(event.processor, interval, event.numbers[0]) for event, interval in stores}))

    def is_right(self, place):
        """Whether the event accesses a copy that lacks nothing, or fetches what its copy lacks and counts it, or does
        neither."""
        event = self.table.events[place]
        if event.kind == "fetch":
            return event.numbers[3] > 0 and event.numbers[1:] == self.due(place)
        return event.kind not in ("load", "store") or not self.lacked(place)

    def wrong_place(self):
        """The first place at which a copy is accessed that lacks something, or a fetch brings nothing or counts
        something else than what is missing."""
        return next((place for place in range(len(self.table.events)) if not self.is_right(place)), None)
