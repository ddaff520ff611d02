"""All that this memory shows of a script under schedules of `step`, by plain enumeration.

A processor has its own copy of each page. Its stores since its interval began are closed with it: at an ask, a release, an arrival, a set or a
watch. A take makes known what the releaser, the setters or those who arrived knew. An access to a page that others have stored to, as far as is known,
and that wasn't fetched since, fetches it first: these stores are written into the copy, in the order in which their intervals were closed.

A turn of `step` is an instruction, with the take if that may come at once, or the take alone of a processor that waited. All orders of turns are
gone through; what goes on alike is followed once.
"""
from typing import NamedTuple

from schedules import WORD, answers_reached, put

CLOSING = ("ask", "release", "arrive", "set", "watch")
TAKES = ("acquire", "depart", "await")


class State(NamedTuple):
    """All that matters of what was done. A time says of each processor how many of its intervals are known."""
    done: tuple
    replies: tuple
    copies: tuple  # of each processor the words of its copies
    open: tuple  # of each processor the addresses and last values that it stored since it closed an interval last
    closed: tuple  # (processor, which one of its intervals, addresses with last values), in closing order
    known: tuple  # of each processor what it knows
    fetched: tuple  # of each processor and page what it knew when it fetched that last
    holders: tuple
    asked: tuple
    released: tuple  # of each lock what its releasers knew
    flags: tuple  # of each flag what its setters knew; None where it is unset
    arrived: tuple  # of each processor how often
    met: tuple  # of each episode what those who have arrived knew


def join(first, second):
    return tuple(map(max, first, second))


class Cluster:
    """Goes through all orders of turns of a script. A cut calls nothing, and changes nothing that is shown."""

    def __init__(self, script):
        self.script = script
        self.calls = [script.calls(processor) for processor in range(script.processors)]

    def start(self):
        script, count = self.script, self.script.processors
        none = (0,) * count
        episodes = sum(call == ("arrive",) for call in self.calls[0])
        return State(done=none, replies=((),) * count, copies=((0,) * script.addresses,) * count, open=((),) * count, closed=(),
                     known=(none,) * count, fetched=((none,) * script.pages,) * count, holders=(None,) * script.locks,
                     asked=((),) * script.locks, released=(none,) * script.locks, flags=(None,) * script.flags,
                     arrived=none, met=(none,) * episodes)

    def call(self, state, processor):
        """What the processor calls next; None if it has ended."""
        calls = self.calls[processor]
        return calls[state.done[processor]] if state.done[processor] < len(calls) else None

    def may(self, state, processor):
        call = self.call(state, processor)
        if call is None:
            return False
        kind, *numbers = call
        if kind == "acquire":
            return state.holders[numbers[0]] is None and state.asked[numbers[0]][0] == processor
        if kind == "depart":
            return min(state.arrived) >= state.arrived[processor]
        return kind != "await" or state.flags[numbers[0]] is not None

    def turn(self, state, processor):
        """The state after the processor's turn."""
        kind, *_ = self.call(state, processor)
        state = self.do(state, processor)
        is_done = kind not in CLOSING
        while self.may(state, processor):
            following, *_ = self.call(state, processor)
            is_shown = following == "load" and state.done[processor] >= len(self.calls[processor]) - len(self.script.shown)
            if following == "adds" or (following in TAKES and not is_done) or (processor == 0 and is_shown):
                state = self.do(state, processor)
            else:
                break
        return state

    def do(self, state, processor):
        """The state after the processor's next call."""
        kind, *numbers = self.call(state, processor)
        number = numbers[0] if numbers else None
        if kind in ("load", "store", "adds"):
            state = self.accessed(state, processor, kind, *numbers)
        if kind in CLOSING:
            state = self.closed(state, processor)
        known = state.known[processor]
        if kind == "ask":
            state = state._replace(asked=put(state.asked, number, state.asked[number] + (processor,)))
        elif kind == "acquire":
            state = state._replace(asked=put(state.asked, number, state.asked[number][1:]), holders=put(state.holders, number, processor),
                                   known=put(state.known, processor, join(known, state.released[number])))
        elif kind == "release":
            state = state._replace(holders=put(state.holders, number, None), released=put(state.released, number, known))
        elif kind == "set":
            state = state._replace(flags=put(state.flags, number, join(state.flags[number] or known, known)))
        elif kind == "await":
            state = state._replace(known=put(state.known, processor, join(known, state.flags[number])))
        elif kind == "arrive":
            episode = state.arrived[processor]
            state = state._replace(met=put(state.met, episode, join(state.met[episode], known)),
                                   arrived=put(state.arrived, processor, episode + 1))
        elif kind == "depart":
            state = state._replace(known=put(state.known, processor, join(known, state.met[state.arrived[processor] - 1])))
        return state._replace(done=put(state.done, processor, state.done[processor] + 1))

    def closed(self, state, processor):
        """After the processor closes its interval."""
        number = state.known[processor][processor]
        if state.open[processor]:
            state = state._replace(closed=state.closed + ((processor, number, state.open[processor]),),
                                   open=put(state.open, processor, ()))
        return state._replace(known=put(state.known, processor, put(state.known[processor], processor, number + 1)))

    def fetch(self, state, processor, page):
        """After the processor fetches the page, if it lacks something of it."""
        known, fetched, copy = state.known[processor], state.fetched[processor][page], list(state.copies[processor])
        for by, number, words in state.closed:
            if by != processor and fetched[by] <= number < known[by]:
                for address, value in words:
                    if address // self.script.words == page:
                        copy[address] = value
        return state._replace(copies=put(state.copies, processor, tuple(copy)),
                              fetched=put(state.fetched, processor, put(state.fetched[processor], page, known)))

    def accessed(self, state, processor, kind, address, value=0):
        state = self.fetch(state, processor, address // self.script.words)
        copy, replies = state.copies[processor], state.replies[processor]
        if kind == "load":
            return state._replace(replies=put(state.replies, processor, replies + (copy[address],)))
        value = (replies[-1] + value) % WORD if kind == "adds" else value
        stored = tuple(it for it in state.open[processor] if it[0] != address) + ((address, value),)
        return state._replace(copies=put(state.copies, processor, put(copy, address, value)),
                              open=put(state.open, processor, stored))

    def all_shown(self, most):
        """What the loads of each processor answer, of each whole run; None if there are more than so many states."""
        def answer(state):
            is_whole = all(done == len(calls) for done, calls in zip(state.done, self.calls))
            return state.replies if is_whole else None

        return answers_reached(self.start(), self.nexts, answer, most)

    def nexts(self, state):
        """The states after each turn that may come next."""
        return [self.turn(state, processor) for processor in range(self.script.processors) if self.may(state, processor)]


def all_shown(script, most):
    return Cluster(script).all_shown(most)
