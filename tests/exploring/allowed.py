"""All that runs of a script may show by the rules of the memory alone, by plain enumeration.

Each order of the events is gone through, and at each load each value that it may answer by the definition: that of a store of its past
which no other store of its past follows, or 0 if its past has none. Beginnings in which each processor has done the same events, with the
same past before each, and in which the locks and flags stand alike, go on alike, so one of them is followed.
"""
from schedules import Event, Memory, answers_reached, is_edge


class Beginning:
    """Events, and what happens before each."""

    def __init__(self, script, events=(), pasts=()):
        self.script, self.events, self.pasts = script, events, pasts
        self.memory = Memory(script)
        for event in events:
            self.memory.do(event)

    def numbered(self):
        """Each event, with which one of its kind it is of its processor."""
        counts = {}
        for event in self.events:
            counts[event.processor, event.kind] = counts.get((event.processor, event.kind), 0) + 1
            yield event, counts[event.processor, event.kind]

    def past_of(self, event):
        """The places that happen before the event if it comes next."""
        number = 1 + sum((it.processor, it.kind) == (event.processor, event.kind) for it in self.events)
        past = frozenset()
        for place, earlier in enumerate(self.numbered()):
            if is_edge(earlier, (event, number)):
                past |= self.pasts[place] | {place}
        return past

    def answers(self, load, past):
        """What a load of this past may answer."""
        stores = [place for place in past
                  if self.events[place].kind == "store" and self.events[place].numbers[0] == load.numbers[0]]
        latest = [place for place in stores if not any(place in self.pasts[other] for other in stores)]
        return {self.events[place].numbers[1] for place in latest} or {0}

    def nexts(self):
        """Each beginning with one event more."""
        for processor in range(self.script.processors):
            event = self.memory.may(processor)
            if event is None:
                continue
            past = self.past_of(event)
            kinds = [event] if event.kind != "load" else [
                Event(processor, "load", (event.numbers[0], word)) for word in self.answers(event, past)]
            for it in kinds:
                yield Beginning(self.script, self.events + (it,), self.pasts + (past,))

    def key(self):
        """What says how it goes on: places are named by processors and counts, since they differ by the order."""
        names, rows = [], [[] for _ in range(self.script.processors)]
        for event in self.events:
            names.append((event.processor, len(rows[event.processor])))
            rows[event.processor].append(event)
        pasts = {names[place]: frozenset(names[it] for it in past) for place, past in enumerate(self.pasts)}
        state = (self.memory.holders, map(tuple, self.memory.asked), self.memory.set)
        return tuple(map(tuple, rows)), frozenset(pasts.items()), tuple(map(tuple, state))


def after(script, events):
    """The beginning with these events; None if the rules don't allow it."""
    beginning = Beginning(script)
    for event in events:
        beginning = next((it for it in beginning.nexts() if it.events[-1] == event), None)
        if beginning is None:
            return None
    return beginning


def all_allowed(script, most):
    """What the loads of each processor answer, of each whole run; None if there are more than so many beginnings."""
    def answer(beginning):
        return tuple(map(tuple, beginning.memory.replies)) if beginning.memory.is_whole() else None

    return answers_reached(Beginning(script), Beginning.nexts, answer, most, Beginning.key)
