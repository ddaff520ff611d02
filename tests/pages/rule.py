"""What a trace costs on pages, by a plain slow rule: sets of stores that each processor has in its past and in its copies."""
from collections import Counter, defaultdict
from typing import NamedTuple

CLOSING = ("ask", "release", "arrive", "set", "watch")


class Row(NamedTuple):
    page_words: int
    messages: int
    locks: int
    flags: int
    barrier: int
    fetch: int
    fetches: int
    records: int
    words: int
    pages: int


class Page(NamedTuple):
    """What is told of a page that is fetched."""
    page: int
    fetches: int
    useless: int
    words: int
    writers: tuple
    readers: tuple


class Eager(NamedTuple):
    """What eager release consistency costs."""
    messages: int
    locks: int
    flags: int
    barrier: int
    notices: int
    fetch: int
    fetches: int
    words: int


class Event(NamedTuple):
    by: int
    kind: str
    numbers: list
    label: str


class Fetch(NamedTuple):
    """A fetch that stands right before the event at this place."""
    place: int
    by: int
    page: int
    lacked: set


class Store(NamedTuple):
    by: int
    interval: int
    address: int
    place: int


class Memory:
    """The stores that each processor knows of, event by event."""

    def __init__(self):
        self.past = defaultdict(set)
        self.closed = defaultdict(int)
        self.by_lock, self.by_flag, self.by_episode = (defaultdict(set) for _ in range(3))
        self.arrived, self.departed = defaultdict(int), defaultdict(int)

    def note(self, place, by, kind, numbers):
        """What the event changes of what its processor knows."""
        past = self.past[by]
        if kind == "store":
            past.add(Store(by, self.closed[by], numbers[0], place))
        elif kind == "release":
            self.by_lock[numbers[0]] |= past
        elif kind == "acquire":
            past |= self.by_lock[numbers[0]]
        elif kind == "set":
            self.by_flag[numbers[0]] |= past
        elif kind == "await":
            past |= self.by_flag[numbers[0]]
        elif kind == "arrive":
            self.by_episode[self.arrived[by]] |= past
            self.arrived[by] += 1
        elif kind == "depart":
            past |= self.by_episode[self.departed[by]]
            self.departed[by] += 1
        self.closed[by] += kind in CLOSING


def event_of(line):
    """The event that a line tells, with its label."""
    bare, _, label = line.partition("  ")
    _, _, by, kind, *numbers = bare.split()
    return Event(int(by), kind, [int(number) for number in numbers], label)


def events_of(text):
    """The events of a trace without its fetches."""
    events = [event_of(line) for line in text.splitlines() if line.startswith("event ")]
    return [event for event in events if event.kind != "fetch"]


def fetches_of(events, page_words):
    """The fetches that are due on pages of so many words."""
    memory, brought = Memory(), defaultdict(set)
    for place, (by, kind, numbers, _) in enumerate(events):
        if kind in ("load", "store"):
            page = numbers[0] // page_words
            lacked = {store for store in memory.past[by] if store.by != by and store.address // page_words == page}
            lacked -= brought[by, page]
            if lacked:
                brought[by, page] |= lacked
                yield Fetch(place, by, page, lacked)
        memory.note(place, by, kind, numbers)


def is_useless(fetch, fetches, events, page_words):
    """Whether its processor accesses none of the words that it brings before it fetches the page again."""
    again = [other.place for other in fetches if (other.by, other.page) == (fetch.by, fetch.page) and other.place > fetch.place]
    words = {store.address for store in fetch.lacked}
    accessed = {event.numbers[0] for event in events[fetch.place:min(again, default=len(events))]
                if event.by == fetch.by and event.kind in ("load", "store")}
    return not words & accessed


def messages_of(events):
    """The messages for locks, for flags and for the barrier."""
    kinds = Counter(event.kind for event in events)
    return 2 * kinds["acquire"], 2 * kinds["await"], kinds["arrive"] + kinds["depart"]


def accessors(events, kind, page, page_words):
    """The processors that have an event of this kind on the page."""
    return tuple(sorted({event.by for event in events if event.kind == kind and event.numbers[0] // page_words == page}))


def words_of(fetch):
    """How many words it brings: one for each processor, interval and address."""
    return len({(store.by, store.interval, store.address) for store in fetch.lacked})


def row_of(events, page_words):
    """What these events cost on pages of so many words."""
    fetches = list(fetches_of(events, page_words))
    locks, flags, barrier = messages_of(events)
    fetch = sum(2 * len({store.by for store in fetch.lacked}) for fetch in fetches)
    records = sum(len({(store.by, store.interval) for store in fetch.lacked}) for fetch in fetches)
    pages = {event.numbers[0] // page_words for event in events if event.kind in ("load", "store")}
    return Row(page_words, locks + flags + barrier + fetch, locks, flags, barrier, fetch, len(fetches), records,
               sum(map(words_of, fetches)), len(pages))


def top_of(events, page_words, most):
    """The pages that are fetched most."""
    fetches = list(fetches_of(events, page_words))
    pages = []
    for page in {fetch.page for fetch in fetches}:
        own = [fetch for fetch in fetches if fetch.page == page]
        useless = sum(is_useless(fetch, fetches, events, page_words) for fetch in own)
        pages.append(Page(page, len(own), useless, sum(map(words_of, own)),
                          accessors(events, "store", page, page_words), accessors(events, "load", page, page_words)))
    return sorted(pages, key=lambda told: (-told.fetches, told.page))[:most]


def labels_of(events, page_words, most):
    """The labels whose accesses wait for most messages, with how many."""
    waits = Counter()
    for fetch in fetches_of(events, page_words):
        waits[events[fetch.place].label] += 2 * len({store.by for store in fetch.lacked})
    waits.pop("", None)
    first = [event.label for event in events]
    return sorted(((messages, label) for label, messages in waits.items()), key=lambda told: (-told[0], first.index(told[1])))[:most]


class EagerMemory:
    """The copies of pages under eager release consistency."""

    def __init__(self, page_words):
        self.page_words = page_words
        self.holders, self.dirty, self.released = defaultdict(set), defaultdict(set), set()
        self.fetches = self.notices = 0

    def fetch_unless_held(self, by, page):
        """Fetches the page if the processor has no copy, and some release told of it."""
        self.fetches += by not in self.holders[page] and page in self.released
        self.holders[page].add(by)

    def note(self, by, kind, numbers):
        """What the event does to the copies."""
        if kind in ("load", "store"):
            page = numbers[0] // self.page_words
            self.fetch_unless_held(by, page)
            if kind == "store":
                self.dirty[by].add(page)
        elif kind in ("release", "arrive", "set"):
            told = set()
            for page in self.dirty.pop(by, ()):
                self.fetch_unless_held(by, page)
                told |= self.holders[page] - {by}
                self.holders[page] = {by}
                self.released.add(page)
            self.notices += len(told)


def eager_of(events, page_words):
    """What these events cost under eager release consistency."""
    memory = EagerMemory(page_words)
    for by, kind, numbers, _ in events:
        memory.note(by, kind, numbers)
    locks, flags, barrier = messages_of(events)
    notices, fetch = 2 * memory.notices, 2 * memory.fetches
    return Eager(locks + flags + barrier + notices + fetch, locks, flags, barrier, notices, fetch, memory.fetches,
                 memory.fetches * page_words)
