"""All schedules of a script on one flat memory, by plain enumeration; and what happens before what, by the definition.

`Memory` has the rules, an event at a time; `happens_before` and `first_race` are the definitions, of a list of events.
`enumerate_all` goes through all schedules. It has happens-before as bits: a bit for each processor, address and kind of
access (loads, stores), which is set in what somebody knows where all such accesses so far are in his past. That is what a
vector timestamp tells of the last such access. So states that can only go on alike are the same, and each is met once.
"""
from dataclasses import dataclass, field
from typing import NamedTuple

WORD = 1 << 32


@dataclass(frozen=True)
class Event:
    processor: int
    kind: str
    numbers: tuple = ()  # what stands behind the kind in an event's line

    def line(self, place):
        return " ".join(map(str, ("event", place, self.processor, self.kind, *self.numbers)))


class Memory:
    """A flat memory, with what the processors of a script have done on it."""

    def __init__(self, script):
        self.script = script
        self.calls = [script.calls(processor) for processor in range(script.processors)]
        self.done = [0] * script.processors
        self.replies = [[] for _ in range(script.processors)]
        self.words = [0] * script.addresses
        self.holders = [None] * script.locks
        self.asked = [[] for _ in range(script.locks)]
        self.set = [False] * script.flags
        self.arrivals = [0] * script.processors
        self.departures = [0] * script.processors

    def may(self, processor):
        """The processor's next event, if it may come now."""
        if self.done[processor] == len(self.calls[processor]):
            return None
        kind, *numbers = self.calls[processor][self.done[processor]]
        if kind == "acquire" and not (self.holders[numbers[0]] is None and self.asked[numbers[0]][0] == processor):
            return None
        if kind == "depart" and min(self.arrivals) <= self.departures[processor]:
            return None
        if kind == "await" and not self.set[numbers[0]]:
            return None
        if kind == "load":
            return Event(processor, kind, (numbers[0], self.words[numbers[0]]))
        if kind == "adds":
            return Event(processor, "store", (numbers[0], (self.replies[processor][-1] + numbers[1]) % WORD))
        return Event(processor, kind, tuple(numbers))

    def do(self, event):
        """Does the next event of a processor."""
        processor, numbers = event.processor, event.numbers
        self.done[processor] += 1
        if event.kind == "load":
            self.replies[processor].append(numbers[1])
        elif event.kind == "store":
            self.words[numbers[0]] = numbers[1]
        elif event.kind == "ask":
            self.asked[numbers[0]].append(processor)
        elif event.kind == "acquire":
            self.asked[numbers[0]].remove(processor)
            self.holders[numbers[0]] = processor
        elif event.kind == "release":
            self.holders[numbers[0]] = None
        elif event.kind == "set":
            self.set[numbers[0]] = True
        elif event.kind == "arrive":
            self.arrivals[processor] += 1
        elif event.kind == "depart":
            self.departures[processor] += 1

    def is_whole(self):
        return all(done == len(calls) for done, calls in zip(self.done, self.calls))

    def is_stuck(self):
        return not self.is_whole() and all(self.may(p) is None for p in range(self.script.processors))

    def waits(self, processor):
        """For what a processor waits that can't go on, in the program's words; None where it is done."""
        if self.done[processor] == len(self.calls[processor]):
            return None
        kind, *numbers = self.calls[processor][self.done[processor]]
        if kind == "acquire":
            return f"for lock {numbers[0]}, held by processor {self.holders[numbers[0]]}"
        if kind == "await":
            return f"for flag {numbers[0]}, which nobody has set"
        here = self.departures[processor]
        missing = [f"processor {other}" for other, arrivals in enumerate(self.arrivals) if arrivals <= here]
        return "at the barrier for " + ", ".join(missing)


def edges(events):
    """The places to which an edge leads from each place, by the definition."""
    counts = {}
    numbered = []  # each event, with which arrival or departure of its processor it is
    for event in events:
        counts[event.processor, event.kind] = counts.get((event.processor, event.kind), 0) + 1
        numbered.append((event, counts[event.processor, event.kind]))
    return [[later for later in range(place + 1, len(events)) if is_edge(numbered[place], numbered[later])]
            for place in range(len(events))]


def is_edge(earlier, later):
    (first, number), (second, other) = earlier, later
    kinds = (first.kind, second.kind)
    return (first.processor == second.processor
            or kinds in (("release", "acquire"), ("set", "await")) and first.numbers == second.numbers
            or kinds == ("arrive", "depart") and number == other)


def happens_before(events):
    """Of each place the places that happen before it."""
    past = [set() for _ in events]
    for place, targets in enumerate(edges(events)):
        for target in targets:
            past[target] |= past[place] | {place}
    return past


def conflict(first, second):
    accesses = ("load", "store")
    return (first.kind in accesses and second.kind in accesses and first.processor != second.processor
            and first.numbers[0] == second.numbers[0] and "store" in (first.kind, second.kind))


def first_race(events):
    """The race with the least later place, and of these the one with the least earlier place."""
    past = happens_before(events)
    for later in range(len(events)):
        for earlier in range(later):
            if conflict(events[earlier], events[later]) and earlier not in past[later]:
                return earlier, later
    return None


@dataclass
class Enumerated:
    """What all schedules come to."""
    race: list = None  # events of which the last one races; None where no schedule races
    hang: list = None  # events after which nothing can come; None where no schedule hangs
    outcomes: set = field(default_factory=set)  # of each whole run its processors' replies
    allowed: set = None  # the same of each run that the rules allow (allowed.py); None where that isn't known
    shown: set = None  # the same of each run on this memory (memory.py); None where that isn't known
    states: int = 0


class State(NamedTuple):
    """All that matters of what was done. What somebody knows is in bits."""
    done: tuple
    replies: tuple
    words: tuple
    holders: tuple
    asked: tuple
    flags: tuple  # of each flag what its setters knew; None where it is unset
    known: tuple  # of each processor what it knows
    released: tuple  # of each lock what its releasers knew
    met: tuple  # of each barrier episode what those who have arrived knew; 0 before the first and after the last leaves


class Section:
    """What a processor calls, and what is known of each number of calls done."""

    def __init__(self, script, processor):
        self.calls = script.calls(processor)
        self.closing = max(place for place, call in enumerate(self.calls) if call == ("arrive",))
        self.arrivals = self.counts("arrive")
        self.departures = self.counts("depart")
        # The bits that the call at each place asks for, and those that the calls from each place on ask for. The loads
        # after the closing barrier ask for none: everything happens before them.
        self.asks = [0] * (len(self.calls) + 1)
        for place, (kind, *numbers) in enumerate(self.calls[:self.closing]):
            if kind in ("load", "store", "adds"):
                self.asks[place] = conflicting(script, processor, numbers[0], kind != "load")
        self.needs = self.from_each(lambda place: self.asks[place])
        self.locks = self.from_each(lambda place: self.named(place, "acquire"))
        self.flags = self.from_each(lambda place: self.named(place, "await"))

    def counts(self, kind):
        """How many calls of this kind are among the first of each number."""
        return [sum(call == (kind,) for call in self.calls[:place]) for place in range(len(self.calls) + 1)]

    def named(self, place, kind):
        call = self.calls[place]
        return 1 << call[1] if call[0] == kind else 0

    def from_each(self, bits_at):
        """The bits of the places from each one on."""
        bits = [0] * (len(self.calls) + 1)
        for place in reversed(range(len(self.calls))):
            bits[place] = bits[place + 1] | bits_at(place)
        return bits


def bit(script, processor, address, stores):
    """The bit of the processor's loads or stores of an address."""
    return 1 << ((processor * script.addresses + address) * 2 + stores)


def conflicting(script, processor, address, stores):
    """The bits of the others' accesses that conflict with such an access."""
    others = [other for other in range(script.processors) if other != processor]
    bits = sum(bit(script, other, address, True) for other in others)
    return bits + (sum(bit(script, other, address, False) for other in others) if stores else 0)


def answers_reached(start, nexts_of, answer_of, most, key_of=lambda it: it):
    """What those answer that can be reached from the start and are whole (the others answer None); None if more than so many can be."""
    found, pending, answers = {key_of(start)}, [start], set()
    while pending:
        here = pending.pop()
        answers.add(answer_of(here))
        for later in nexts_of(here):
            key = key_of(later)
            if key not in found:
                found.add(key)
                pending.append(later)
        if len(found) > most:
            return None
    return answers - {None}


def put(items, place, item):
    return items[:place] + (item,) + items[place + 1:]


class Enumeration:
    """Goes through all schedules of a script."""

    def __init__(self, script):
        self.script = script
        self.sections = [Section(script, processor) for processor in range(script.processors)]
        self.all = (1 << (script.processors * script.addresses * 2)) - 1

    def start(self):
        script, count = self.script, self.script.processors
        episodes = self.sections[0].arrivals[-1]
        return self.canonical(State(
            done=(0,) * count, replies=((),) * count, words=(0,) * script.addresses, holders=(None,) * script.locks,
            asked=((),) * script.locks, flags=(None,) * script.flags, known=(self.all,) * count,
            released=(self.all,) * script.locks, met=(0,) * episodes))

    def may(self, state, processor):
        """The processor's next event, if it may come."""
        section, done = self.sections[processor], state.done[processor]
        if done == len(section.calls):
            return None
        kind, *numbers = section.calls[done]
        if kind == "load":
            return Event(processor, kind, (numbers[0], state.words[numbers[0]]))
        if kind == "adds":
            return Event(processor, "store", (numbers[0], (state.replies[processor][-1] + numbers[1]) % WORD))
        if kind == "acquire":
            is_due = state.holders[numbers[0]] is None and state.asked[numbers[0]][0] == processor
        elif kind == "depart":
            episode = section.departures[done]
            is_due = all(it.arrivals[here] > episode for it, here in zip(self.sections, state.done))
        else:
            is_due = kind != "await" or state.flags[numbers[0]] is not None
        return Event(processor, kind, tuple(numbers)) if is_due else None

    def races(self, state, processor):
        """Whether the processor's next access races with an earlier one."""
        return self.sections[processor].asks[state.done[processor]] & ~state.known[processor] != 0

    def after(self, state, event):
        """The state after the event, which may come."""
        processor, numbers = event.processor, event.numbers
        number = numbers[0] if numbers else None
        known = state.known[processor]
        episode = self.sections[processor].departures[state.done[processor]]
        if event.kind in ("load", "store"):
            state = self.accessed(state, event)
        elif event.kind == "ask":
            state = state._replace(asked=put(state.asked, number, state.asked[number] + (processor,)))
        elif event.kind == "acquire":
            state = state._replace(asked=put(state.asked, number, state.asked[number][1:]),
                                   holders=put(state.holders, number, processor),
                                   known=put(state.known, processor, known | state.released[number]))
        elif event.kind == "release":
            state = state._replace(holders=put(state.holders, number, None),
                                   released=put(state.released, number, known))
        elif event.kind == "set":
            state = state._replace(flags=put(state.flags, number, (state.flags[number] or 0) | known))
        elif event.kind == "await":
            state = state._replace(known=put(state.known, processor, known | state.flags[number]))
        elif event.kind == "arrive":
            state = state._replace(met=put(state.met, episode, state.met[episode] | known))
        elif event.kind == "depart":
            state = state._replace(known=put(state.known, processor, known | state.met[episode]))
        return self.canonical(state._replace(done=put(state.done, processor, state.done[processor] + 1)))

    def accessed(self, state, event):
        """After an access nobody else knows all such accesses."""
        processor, (address, word) = event.processor, event.numbers
        mine = bit(self.script, processor, address, event.kind == "store")
        if event.kind == "load":
            state = state._replace(replies=put(state.replies, processor, state.replies[processor] + (word,)))
        else:
            state = state._replace(words=put(state.words, address, word))
        without = [tuple(bits and bits & ~mine for bits in masks)
                   for masks in (state.flags, state.known, state.released, state.met)]
        flags, known, released, met = without
        return state._replace(flags=flags, known=put(known, processor, known[processor] | mine), released=released, met=met)

    def canonical(self, state):
        """The state with all bits set that nobody will ask for."""
        pairs = list(zip(self.sections, state.done))
        needed = locks = flags = 0
        for section, done in pairs:
            needed |= section.needs[done]
            locks |= section.locks[done]
            flags |= section.flags[done]
        rest = self.all & ~needed
        episodes = (min(it.departures[done] for it, done in pairs), max(it.arrivals[done] for it, done in pairs))
        last = len(state.met) - 1
        return state._replace(
            known=tuple(self.all if done > section.closing else bits | rest
                        for (section, done), bits in zip(pairs, state.known)),
            released=tuple(bits | rest if locks >> lock & 1 else self.all for lock, bits in enumerate(state.released)),
            flags=tuple(self.all if not flags >> flag & 1 else bits if bits is None else bits | rest
                        for flag, bits in enumerate(state.flags)),
            met=tuple(bits | rest if episodes[0] <= episode < episodes[1] and episode < last else 0
                      for episode, bits in enumerate(state.met)))

    def all_schedules(self):
        """What all schedules come to. Where one races, nothing more is looked for."""
        found = Enumerated()
        start = self.start()
        origins, pending = {start: None}, [start]
        while pending:
            state = pending.pop()
            events = [event for processor in range(self.script.processors)
                      if (event := self.may(state, processor)) is not None]
            for event in events:
                if self.races(state, event.processor):
                    found.race = schedule_to(origins, state) + [event]
                    found.states = len(origins)
                    return found
                later = self.after(state, event)
                if later not in origins:
                    origins[later] = (state, event)
                    pending.append(later)
            if not events:
                self.ended(found, origins, state)
        found.states = len(origins)
        return found

    def ended(self, found, origins, state):
        """Keeps what a state shows after which nothing can come."""
        if all(done == len(section.calls) for section, done in zip(self.sections, state.done)):
            found.outcomes.add(state.replies)
        elif found.hang is None:
            found.hang = schedule_to(origins, state)


def schedule_to(origins, state):
    """The events by which the state was found."""
    events = []
    while origins[state] is not None:
        state, event = origins[state]
        events.append(event)
    return events[::-1]


def enumerate_all(script):
    return Enumeration(script).all_schedules()
