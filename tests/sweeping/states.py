"""The protocol's state at each event, by the table; and what `explain --state` says of it."""
import re
from collections import defaultdict

from gaps import CLOSING, Gaps
from table import Table, places_of

TAKING = ("acquire", "depart", "await")


def listed(pages, what):
    """Pages, and what they are."""
    return f"page{'s' if len(pages) > 1 else ''} {', '.join(map(str, pages))} {what}"


class States:
    """The states of a journal of which nothing was cut off."""

    def __init__(self, script, events):
        self.script, self.table = script, Table(events)
        self.gaps = Gaps(self.table, script.words)

    def past_after(self, place):
        """What has happened for the event's processor after it: the event, and what happens before it."""
        return self.table.rows[place] | 1 << place

    def own(self, place):
        """The events of the event's processor up to it, the last one first."""
        bits = self.table.own[self.table.events[place].processor] & (1 << place + 1) - 1
        return list(places_of(bits))[::-1]

    def timestamp(self, place):
        """How many intervals of each processor are closed in that past."""
        closed = self.past_after(place) & self.gaps.closing
        return [bin(closed & self.table.own[processor]).count("1") for processor in range(self.script.processors)]

    def open_stores(self, place):
        """The stores of the event's processor since it last closed an interval, but for the event itself if it closes
        one: of each page the addresses with their last values."""
        pages = defaultdict(dict)
        own = self.own(place)
        if self.table.events[place].kind in CLOSING:
            own = own[1:]
        stores = []
        for earlier in own:
            if self.table.events[earlier].kind in CLOSING:
                break
            if self.table.events[earlier].kind == "store":
                stores.append(self.table.events[earlier].numbers)
        for address, value in reversed(stores):
            pages[address // self.script.words][address] = value
        return pages

    def others_stores(self, place, places):
        """Those of these places that are stores of others than the event's processor."""
        stores = 0
        for bits in self.table.stores.values():
            stores |= bits
        return stores & places & ~self.table.own[self.table.events[place].processor]

    def notice_of(self, store):
        """Which page, whose interval and which one."""
        event = self.table.events[store]
        return event.numbers[0] // self.script.words, event.processor, self.gaps.interval_of(store)

    def notices(self, place):
        """What the event's processor gets to know of by it: intervals by pages."""
        known = 0
        for earlier in self.own(place)[1:]:
            known |= self.past_after(earlier)
        news = self.others_stores(place, self.past_after(place) & ~known)
        return sorted({self.notice_of(store) for store in places_of(news)})

    def applied(self, place):
        """Whose intervals the fetch brings."""
        return sorted({self.notice_of(store)[1:] for store in places_of(self.gaps.lacked(place))})

    def stale(self, place):
        """The pages whose copy lacks a store of that past."""
        fetched = {}
        for earlier in self.own(place):
            event = self.table.events[earlier]
            if event.kind == "fetch" and event.numbers[0] not in fetched:
                fetched[event.numbers[0]] = self.table.rows[earlier]
        lacking = set()
        for store in places_of(self.others_stores(place, self.past_after(place))):
            page = self.table.events[store].numbers[0] // self.script.words
            if not fetched.get(page, 0) >> store & 1:
                lacking.add(page)
        return sorted(lacking)

    def interval_text(self, place):
        """What is said of the interval that the event lies in."""
        event = self.table.events[place]
        name = f"p{event.processor}:{self.gaps.interval_of(place)}"
        if event.kind not in CLOSING:
            return f"in interval {name}"
        records = [f"page {page} ({', '.join(f'{address}={value}' for address, value in sorted(words.items()))})"
                   for page, words in sorted(self.open_stores(place).items())]
        return f"closes interval {name}, " + (f"records: {', '.join(records)}" if records else "no records")

    def news_texts(self, place):
        """What is said of the intervals that the event brings."""
        event = self.table.events[place]
        if event.kind == "fetch":
            names = [f"p{writer}:{interval}" for writer, interval in self.applied(place)]
            yield from [f"applies {', '.join(names)}"] if names else []
        if event.kind in TAKING:
            pages = defaultdict(list)
            for page, writer, interval in self.notices(place):
                pages[page].append(f"p{writer}:{interval}")
            notices = [f"page {page} ({', '.join(names)})" for page, names in pages.items()]
            yield f"notices: {', '.join(notices)}" if notices else "no notices"

    def copies_text(self, place):
        """What is said of the copies of the event's processor."""
        stale = self.stale(place)
        dirty = [] if self.table.events[place].kind in CLOSING else sorted(self.open_stores(place))
        said = [listed(pages, what) for pages, what in ((stale, "stale"), (dirty, "dirty")) if pages]
        if not said:
            return "copies: all valid"
        others = ["others valid"] if len(stale) + len(dirty) < self.script.pages else []
        return f"copies: {', '.join(said + others)}"

    def text(self, place):
        """What is said of the state at the event."""
        return "; ".join([" ".join(map(str, ["timestamp", *self.timestamp(place)])), self.interval_text(place),
                          *self.news_texts(place), self.copies_text(place)])


def told_states(text):
    """The numbers of the events that `explain --state` tells, with their states, in order. A state's line is indented by four
    columns more than the numbers are wide, and so are those that continue it; other lines that continue one, further."""
    told, width = [], 0
    for line in text.split("\n\n")[0].splitlines():
        numbered = re.match(" *([0-9]+)  ", line)
        if numbered:
            width = len(numbered[0]) - 2
            told.append((int(numbered[1]), []))
        elif told and re.match(f" {{{width + 4}}}[^ ]", line):
            told[-1][1].append(line.strip())
    return [(number, " ".join(lines)) for number, lines in told]
