"""What is checked of a report: by the table of what happens before what, one flat memory, and the sections."""
from flaw import expect, expect_nowhere
from drawing import WORD, is_idle
from gaps import Gaps
from rules import first_refused, out_of_range
from schedules import Event
from table import Table


def cost_of(events):
    """What the events cost: messages, records, words."""
    messages = {"acquire": 2, "await": 2, "arrive": 1, "depart": 1}
    fetches = [event.numbers for event in events if event.kind == "fetch"]
    return (sum(messages.get(event.kind, 0) for event in events) + sum(2 * writers for _, writers, _, _ in fetches),
            sum(records for _, _, records, _ in fetches), sum(words for _, _, _, words in fetches))


def flat_run(memory, events):
    """The memory after the events in their order; None where a load didn't answer its word at that place."""
    memory = list(memory)
    for event in events:
        if event.kind == "load" and memory[event.numbers[0]] != event.numbers[1]:
            return None
        if event.kind == "store":
            memory[event.numbers[0]] = event.numbers[1]
    return memory


class Way:
    """A processor on its way through what its section calls, of which some events are the last part."""

    def __init__(self, calls, done):
        self.calls, self.next = calls, done
        # What its last load answered, and what it would have answered on one flat memory.
        self.reply = self.flat_reply = 0

    def advance(self, memory, event):
        """The event with what it would read or write on this memory; None where it isn't what is called next."""
        if event.kind == "fetch":
            return event
        if self.next == len(self.calls):
            return None
        kind, *numbers = self.calls[self.next]
        self.next += 1
        if kind == "load":
            return self.load(memory, event, *numbers)
        if kind == "adds":
            address, value = numbers
            return store(memory, event, address, (self.reply + value) % WORD, (self.flat_reply + value) % WORD)
        if kind == "store":
            return store(memory, event, *numbers, numbers[1])
        return event if (event.kind, event.numbers) == (kind, tuple(numbers)) else None

    def load(self, memory, event, address):
        if event.kind != "load" or event.numbers[0] != address:
            return None
        self.reply, self.flat_reply = event.numbers[1], memory[address]
        return Event(event.processor, "load", (address, self.flat_reply))


def store(memory, event, address, value, flat_value):
    """The store of the flat value, if the event is one of the value."""
    memory[address] = flat_value
    is_it = event.kind == "store" and event.numbers == (address, value)
    return Event(event.processor, "store", (address, flat_value)) if is_it else None


def ways(script, events, is_cut):
    """Each processor's way, of which these events are the last part; the whole where nothing was cut off."""
    counts = [0] * script.processors
    for event in events:
        if event.kind != "fetch":
            counts[event.processor] += 1
    calls = [script.calls(processor) for processor in range(script.processors)]
    done = [len(it) - count for it, count in zip(calls, counts)]
    expect(min(done) >= 0 and (is_cut or max(done) == 0), "each processor has an event for each call of its section")
    return [Way(*it) for it in zip(calls, done)]


def recomputed(script, base, events, is_cut=False):
    """The events with the replies and sums that they would have on one flat memory that begins with the base's
    words. A flaw where an event isn't what its section does next."""
    own, memory, flat = ways(script, events, is_cut), list(base), []
    for place, event in enumerate(events):
        other = own[event.processor].advance(memory, event)
        expect_nowhere(place if other is None else None, events, "the event is what its section does next")
        flat.append(other)
    return flat


def check_calls(script, report, base, race):
    """The events are what the sections do. Up to the first race they have the replies of one flat memory."""
    flat = recomputed(script, base, report.events, report.cut > 0)
    count = len(flat) if race is None else race[1]
    wrong = next((place for place in range(count) if flat[place] != report.events[place]), None)
    expect_nowhere(wrong, report.events, "up to the first race the replies are those of one flat memory")


def check_shown(script, report):
    """The shown words are the replies of processor 0's last loads."""
    expect([address for address, _ in report.words] == list(script.shown), "the shown addresses are the script's")
    loads = [event.numbers for event in report.events if event.kind == "load" and event.processor == 0]
    expect(tuple(loads[-len(report.words):]) == report.words, "the shown words are those of processor 0's last loads")


def check_uncut(script, report, table):
    """Each event may follow, what was fetched is what was missing, and the traffic adds up."""
    refused = first_refused(script, report.events)
    expect_nowhere(refused and refused[0], report.events, "the event may follow what stands before it")
    expect_nowhere(Gaps(table, script.words).wrong_place(), report.events,
                   "a copy that is accessed lacks nothing, and a fetch counts what is missing")
    expect(report.traffic == cost_of(report.events), "the traffic is that of the events")


def check_report(script, report, base):
    """All that holds of each report, from the base's words."""
    outside = next((place for place, event in enumerate(report.events) if out_of_range(script, event)), None)
    expect_nowhere(outside, report.events, "what the event names is within the sizes")
    table = Table(report.events, report.cut > 0)
    race = table.first_race()
    expect(report.racy == (race is not None), f"the verdict is what the table finds, which is the race {race}")
    expect_nowhere(table.unexplained(base), report.events, "a load answers a latest store of its past")
    if not report.cut:
        check_uncut(script, report, table)
    expect(race is not None or flat_run(base, report.events) is not None, "a journal without a race replays")
    check_calls(script, report, base, race)
    check_shown(script, report)


def sum_at(script, address):
    """What the script adds to the address in all."""
    return sum(it[2] for section in script.sections for it in section if it[0] == "add" and it[1] == address) % WORD


def check_guarded(script, report):
    """A script whose accesses are all ordered has no race, and shows of each address the sum of what was added."""
    sums = all(word == sum_at(script, address) for address, word in report.words)
    expect(not report.racy and sums, "a script that orders all its accesses has no race and shows the sums")


def ends_episode(processors, events):
    """Whether an episode of the barrier is complete just after these events, or there are none."""
    arrivals = [sum(event.kind == "arrive" and event.processor == it for event in events) for it in range(processors)]
    return not events or events[-1].kind == "arrive" and min(arrivals) == max(arrivals)


def base_of(whole, history, report):
    """The base of a report whose script has cuts: what the events cut off leave of a memory of zeros. The history is
    that of the same script with idle loads in the place of its cuts."""
    others = tuple(event for event in history.events if not is_idle(whole, event))
    taken, left = others[:report.cut], others[report.cut:]
    expect(left == report.events, "the events that are left are the last ones of the history")
    expect(ends_episode(whole.processors, taken), "what is left goes on where a complete episode ended")
    memory = flat_run([0] * whole.addresses, taken)
    expect(memory is not None and Table(taken).first_race() is None, "the events cut off have no race, and replay")
    return memory


def check_same(history, report):
    """The words, the verdict and the traffic are those of the same script without cuts."""
    expect((report.words, report.racy, report.traffic) == (history.words, history.racy, history.traffic),
           "the words, the verdict and the traffic are those of the same script without cuts")


def inferred_base(script, report):
    """The base that the loads tell of, where it isn't known: of each address what the first load answers that has no
    store in its past. Each other load has to answer by it."""
    table, base = Table(report.events, report.cut > 0), {}
    for place, event in enumerate(report.events):
        if event.kind == "load" and not table.latest_stores(event.numbers[0], place):
            base.setdefault(*event.numbers)
    return [base.get(address, 0) if report.cut else 0 for address in range(script.addresses)]
