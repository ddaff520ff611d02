"""The text of `lrc explore`: read, written by the enumeration's own findings, and judged by them."""
import re
from dataclasses import dataclass

from allowed import after
from schedules import Event, Memory, first_race

NUMBERS = {"load": 2, "store": 2, "ask": 1, "acquire": 1, "release": 1, "arrive": 0, "depart": 0,
           "set": 1, "watch": 1, "await": 1}

# Processors that have turns, each with how many in a row; `-` for none.
TURNS = "(?:0|[1-9][0-9]*)(?::[1-9][0-9]*)?"
SCHEDULE = f"-|{TURNS}(?:,{TURNS})*"
# What a text by the enumeration has in the place of a schedule.
SOME = "schedule -"
# What a load answers, and the store.
LOAD = "event ([0-9]+) ([0-9]+) load ([0-9]+) ([0-9]+)"
STORE = LOAD.replace("load", "store")


class Wrong(Exception):
    """What is wrong with a text."""


@dataclass
class Answer:
    """What a text says."""
    verdict: str  # "race-free", "racy", "undecided"
    outcomes: list = None  # (words, replies) of each, as `shown_of` has them
    schedules: list = None  # that of each outcome
    are_all: bool = False  # there are no other outcomes
    never_hangs: bool = False
    hang: list = None  # events
    waits: list = None  # lines
    hang_schedule: str = None
    race: list = None  # events
    racing: list = None  # the two lines
    race_schedule: str = None
    allowed: list = None  # (words, replies) of each outcome by the rules
    allowed_all: bool = False  # the rules allow no others
    allowed_schedules: list = None  # that of each; "undecided", or None for one by the rules alone


class Lines:
    """A text's lines, one after the other."""

    def __init__(self, text):
        if not text.endswith("\n"):
            raise Wrong("the text doesn't end with a line feed")
        self.lines = text[:-1].split("\n")

    def next(self, pattern):
        """The next line's parts; it has to be of this pattern."""
        line = self.lines.pop(0) if self.lines else "the end"
        parts = re.fullmatch(pattern, line)
        if parts is None:
            raise Wrong(f"{line!r} where {pattern!r} has to stand")
        return parts

    def while_begins(self, front):
        lines = []
        while self.lines and self.lines[0].startswith(front):
            lines.append(self.lines.pop(0))
        return lines

    def end(self):
        if self.lines:
            raise Wrong(f"{self.lines[0]!r} behind the end")


def read(text, by_rules=True):
    """What the text says; of a racy script also what the rules allow, unless that isn't asked for. Wrong where it isn't of the form that
    docs/SCRIPTS.md has."""
    lines = Lines(text)
    verdict = lines.next(r"verdict (race-free) under every schedule|verdict (racy|undecided)")
    answer = Answer(next(part for part in verdict.groups() if part))
    if answer.verdict == "racy":
        answer.race = read_events(lines)
        lines.next("race")
        answer.racing = [lines.next("event .*")[0], lines.next("event .*")[0]]
        answer.race_schedule = read_schedule(lines)
        read_hang(lines, answer, r"hangs" if lines.lines[:1] == ["hangs"] else None)
    else:
        count = lines.next(r"outcomes (0|[1-9][0-9]*)( so far)?")
        answer.are_all = count[2] is None
        read = [lines.next(f"  (words .*) schedule ({SCHEDULE})") for _ in range(int(count[1]))]
        answer.outcomes = [read_outcome(line[1]) for line in read]
        answer.schedules = [line[2] for line in read]
        read_hang(lines, answer, "hangs never|hangs undecided|hangs")
    lines.next(r"states [1-9][0-9]*")
    if answer.verdict == "racy" and by_rules:
        read_allowed(lines, answer)
    lines.end()
    return answer


def read_allowed(lines, answer):
    """What the rules allow."""
    count = lines.next(r"outcomes (0|[1-9][0-9]*) by the rules( so far)?")
    answer.allowed_all = count[2] is None
    answer.allowed, answer.allowed_schedules = [], []
    for _ in range(int(count[1])):
        line = lines.next(f"  (words .*?)(?: by the rules alone| schedule ({SCHEDULE}|undecided))")
        answer.allowed.append(read_outcome(line[1]))
        answer.allowed_schedules.append(line[2])
        if line[2] is None:
            read_answers(lines, answer.allowed[-1])
    lines.next(r"beginnings [1-9][0-9]*")


def read_answers(lines, outcome):
    """What the loads of a run by the rules alone answer. The words that the outcome shows have to be those of the last loads."""
    words = []
    while lines.lines[:1] and lines.lines[0].startswith("    "):
        parts = lines.next(f"    {LOAD} answers (?:{STORE}|no store)")
        _, _, address, value, store, _, stored_at, stored = parts.groups()
        if (address, value) != (stored_at, stored) if store else value != "0":
            raise Wrong(f"{parts[0]!r} answers something else")
        words.append((int(address), int(value)))
    if tuple(words[len(words) - len(outcome[0]):]) != outcome[0]:
        raise Wrong(f"the loads {words} where {outcome} is shown")


@dataclass
class Until:
    """What the rules say of a run that ends with some words."""
    answer: str  # "shown", "alone", "by the rules", "never", "undecided"
    outcome: tuple = None  # (words, replies) of the run
    events: list = None  # its events, unless this memory shows it
    schedule: str = None  # if it does


def read_until_by_rules(text):
    """What the text on a racy script's race says, and what stands behind that of a run by the rules."""
    front, states, rest = text.partition("\nstates ")
    number, _, behind = rest.partition("\n")
    lines = Lines(behind)
    first = lines.next("until (?:(shown)|(never|undecided) by the rules|by the rules( alone)?)")
    until = Until(first[1] or first[2] or (first[3] or "by the rules").strip())
    if until.answer in ("shown", "alone", "by the rules"):
        until.outcome = read_outcome(lines.next("  (words .*)")[1])
    if until.answer == "shown":
        until.schedule = read_schedule(lines)
    if until.answer in ("alone", "by the rules"):
        until.events = read_events(lines)
    if until.answer == "alone":
        read_answers(lines, until.outcome)
    lines.next(r"beginnings (0|[1-9][0-9]*)")
    lines.end()
    return read(front + states + number + "\n", by_rules=False), until


def read_hang(lines, answer, pattern):
    """Whether a schedule hangs: a line of this pattern, if there is one, and behind `hangs` the schedule."""
    if pattern is None:
        answer.never_hangs = False
        return
    line = lines.next(pattern)[0]
    answer.never_hangs = line == "hangs never"
    if line == "hangs":
        answer.hang = read_events(lines)
        answer.waits = lines.while_begins("processor ")
        answer.hang_schedule = read_schedule(lines)


def read_schedule(lines):
    return lines.next(f"  schedule ({SCHEDULE})")[1]


def read_events(lines):
    events = []
    for place, line in enumerate(lines.while_begins("event ")):
        word, number, processor, kind, *numbers = line.split(" ")
        event = Event(int(processor), kind, tuple(map(int, numbers)))
        if NUMBERS.get(kind) != len(numbers) or event.line(place) != line:
            raise Wrong(f"{line!r} is no event's line at place {place}")
        events.append(event)
    return events


def read_outcome(line):
    """The shown words of an outcome's line, and what the loads answered."""
    words, _, replies = line.partition(" replies p")
    numbers = list(map(int, words.split(" ")[1:]))
    shown = list(zip(numbers[::2], numbers[1::2]))
    answered = []
    for part in replies.split(" p") if replies else []:
        processor, *rest = map(int, part.split(" "))
        answered.append((processor, tuple(rest)))
    if outcome_line((tuple(shown), tuple(answered))) != "  " + line:
        raise Wrong(f"{line!r} is no outcome's line")
    return tuple(shown), tuple(answered)


DETAILS = ("words", "loads", "all")


def are_told(script, processor, detail):
    """Of each load of the processor, whether a result tells its reply: those of shown words, of each `load`, or of all."""
    calls = script.calls(processor)
    loads = [place for place, call in enumerate(calls) if call[0] == "load"]
    last = loads[len(loads) - len(script.shown):] if processor == 0 else []
    by_add = [place for place in loads if calls[place + 1:][:1] and calls[place + 1][0] == "adds"]
    return [place in last or detail == "all" or (detail == "loads" and place not in by_add) for place in loads]


def told_of(script, replies, detail):
    """Of each processor the replies that a result tells."""
    return tuple(tuple(reply for reply, told in zip(row, are_told(script, processor, detail)) if told)
                 for processor, row in enumerate(replies))


def shown_of(script, replies):
    """The shown addresses with their words, and for each processor that loads what its own loads answered."""
    count = len(replies[0]) - len(script.shown)
    words = tuple(zip(script.shown, replies[0][count:]))
    own = [replies[0][:count], *replies[1:]]
    return words, tuple((processor, answers) for processor, answers in enumerate(own) if answers)


def outcome_line(outcome):
    words, replies = outcome
    parts = ["{} {}".format(*it) for it in words]
    own = [f"p{processor} " + " ".join(map(str, answers)) for processor, answers in replies]
    return "  " + " ".join(["words", *parts, *(["replies", *own] if own else [])])


def ran(script, events):
    """The memory after the events. Wrong where they are no schedule of the script."""
    memory = Memory(script)
    for place, event in enumerate(events):
        if not event.processor < script.processors or memory.may(event.processor) != event:
            raise Wrong(f"{event.line(place)!r} can't come there")
        memory.do(event)
    return memory


def wait_lines(memory):
    """What each processor waits for in a memory where nothing can come."""
    waits = [(processor, memory.waits(processor)) for processor in range(memory.script.processors)]
    return [f"processor {processor} waits {wait}" for processor, wait in waits if wait is not None]


def results_of(script, outcomes, detail):
    """What the outcomes show, each once, told by this detail, in the order of the text."""
    return [shown_of(script, told) for told in sorted({told_of(script, replies, detail) for replies in outcomes})]


def write(script, found, detail):
    """The text of what the enumeration found, told by this detail."""
    if found.race is not None:
        places = first_race(found.race)
        ends = ["race"] + [found.race[place].line(place) for place in places]
        front = ["verdict racy", *event_lines(found.race), *ends, f"  {SOME}", f"states {found.states}"]
        lines = [*front, *allowed_lines(script, found, detail)]
    else:
        results = results_of(script, found.outcomes, detail)
        outcomes = [f"{outcome_line(result)} {SOME}" for result in results]
        lines = ["verdict race-free under every schedule", f"outcomes {len(results)}", *outcomes]
        if found.hang is None:
            lines.append("hangs never")
        else:
            lines += ["hangs", *event_lines(found.hang), *wait_lines(ran(script, found.hang)), f"  {SOME}"]
        lines.append(f"states {found.states}")
    return "".join(line + "\n" for line in lines)


def shown_results(script, found, detail):
    """The results that this memory shows; None if no schedules are looked for: a script that cuts has no whole journal, so its words alone are told."""
    if found.shown is None or script.cuts and detail != "words":
        return None
    return results_of(script, found.shown, detail)


def allowed_lines(script, found, detail):
    """The lines of what the rules allow; none of them if there are too many beginnings."""
    results = results_of(script, found.allowed or [], detail)
    count = f"outcomes {len(results)} by the rules" + " so far" * (found.allowed is None)
    shown = shown_results(script, found, detail)
    return [count, *(line for it in results for line in allowed_outcome_lines(it, shown)), "beginnings 1"]


def allowed_outcome_lines(outcome, shown):
    """The lines of an outcome by the rules where this memory shows these; where that isn't known they are None. What loads answer is told of the
    last ones."""
    if shown is None or outcome in shown:
        return [f"{outcome_line(outcome)} {'schedule undecided' if shown is None else SOME}"]
    return [f"{outcome_line(outcome)} by the rules alone",
            *(f"    event 9 0 load {address} {word} answers {f'event 0 0 store {address} {word}' if word else 'no store'}"
              for address, word in outcome[0])]


def event_lines(events):
    return [event.line(place) for place, event in enumerate(events)]


def judge(script, found, text, detail):
    """Wrong where the text says anything else of the script than the enumeration found, told by this detail."""
    answer = read(text)
    verdict = "race-free" if found.race is None else "racy"
    if answer.verdict != verdict:
        raise Wrong(f"{answer.verdict} where {verdict} is found")
    if verdict == "racy":
        judge_race(script, answer)
        judge_allowed(script, found, answer, detail)
    else:
        judge_outcomes(script, found, answer, detail)
        if answer.never_hangs != (found.hang is None) or (answer.hang is None) != (found.hang is None):
            raise Wrong("a hang" if found.hang is None else "no hang")
    if answer.hang is not None:
        judge_hang(script, answer)


def judge_race(script, answer):
    """The events have to be a schedule whose last event is the first that races, with the named one."""
    ran(script, answer.race)
    race = first_race(answer.race)
    if race is None or race[1] != len(answer.race) - 1:
        raise Wrong(f"the schedule's first race is {race}")
    if answer.racing != [answer.race[place].line(place) for place in race]:
        raise Wrong(f"{answer.racing} are no race's events")


def judge_outcomes(script, found, answer, detail):
    expect_all(answer.outcomes, answer.are_all, results_of(script, found.outcomes, detail))


def judge_allowed(script, found, answer, detail):
    """What the rules allow has to be what the enumeration by them finds, unless that has too many beginnings."""
    if found.allowed is not None:
        expect_all(answer.allowed, answer.allowed_all, results_of(script, found.allowed, detail))
    shown = shown_results(script, found, detail)
    if shown is not None:
        for outcome, schedule in zip(answer.allowed, answer.allowed_schedules):
            if (schedule is not None) != (outcome in shown) or schedule == "undecided":
                raise Wrong(f"schedule {schedule} of {outcome} where this memory shows {shown}")


def ends_with(words, asked):
    """Whether these words, of each shown address in turn, have what is asked for, wherever its address is shown."""
    return all(asked.get(address, word) == word for address, word in words)


def judge_until_by_rules(script, found, until, asked):
    """A run has to be one that the rules allow, with what it shows, and end with what is asked for; and none may be missed. Whether this memory
    shows one has to be as the enumeration of its schedules says, where all replies are told."""
    if until.outcome is not None and not ends_with(until.outcome[0], asked):
        raise Wrong(f"{until.outcome} where {asked} is asked for")
    if until.outcome is not None and shown_results(script, found, "all") is not None:
        is_shown = any(ends_with(shown_of(script, replies)[0], asked) for replies in found.shown)
        if until.answer != ("shown" if is_shown else "alone"):
            raise Wrong(f"{until.answer} where this memory {'shows' if is_shown else 'does not show'} {asked}")
    if until.events is not None:
        run = after(script, until.events)
        if run is None or not run.memory.is_whole():
            raise Wrong(f"{event_lines(until.events)} is no run that the rules allow")
        if shown_of(script, tuple(map(tuple, run.memory.replies))) != until.outcome:
            raise Wrong(f"{until.outcome} isn't what the run shows")
    elif until.outcome is None and found.allowed is not None:
        if until.answer == "undecided":
            raise Wrong("undecided by the rules")
        if any(ends_with(shown_of(script, replies)[0], asked) for replies in found.allowed):
            raise Wrong(f"never by the rules, which allow a run that ends with {asked}")


def expect_all(outcomes, are_all, wanted):
    """These have to be all outcomes, in their order."""
    if not are_all:
        raise Wrong("outcomes so far")
    if sorted(outcomes) != sorted(wanted):
        raise Wrong(f"outcomes {outcomes} where {wanted} are found")
    if outcomes != wanted:
        raise Wrong(f"outcomes in another order than {wanted}")


def judge_hang(script, answer):
    """The events have to be a schedule after which nothing may come, and the waits those of its processors."""
    memory = ran(script, answer.hang)
    if not memory.is_stuck():
        raise Wrong("the schedule that hangs can go on")
    if answer.waits != wait_lines(memory):
        raise Wrong(f"{answer.waits} where {wait_lines(memory)} are found")
