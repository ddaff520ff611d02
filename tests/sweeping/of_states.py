"""The sweep of states: what `explain --state` says of each event of drawn scripts, and of the state at it; and of parts."""
import random
from functools import partial

import drawing
import reports
import turns
from flaw import expect
from found import Found
from notes import Notes, told_notes
from of_schedules import by_turns
from states import States, told_states

# By which seeds turns are taken, beside those by rising number.
SEEDS = (None, 0)
WIDTH = 100
# What has to be said of some event, and by which words that is known.
SAID = {"stores": " stored it", "no stores": "no store to", "as late": " is as late", "applied first": " applied it first",
        "brought before": " had brought it before", "overwritten": " overwrote it", "later stores": " is overwritten by ",
        "unordered": " is not ordered before ", "releases": "'s release, ", "sets": "'s set, ", "more sets": ", and p",
        "arrivals": "after the arrival", "fetches": ", of p", "stale": " goes stale: ", "waits": "waits: "}


def explained(program, script, seed, *words):
    """What the program answers to `explain --state`."""
    seeds = () if seed is None else ("--seed", str(seed))
    return program.call(script.text(), "explain", "--state", *seeds, *words)


def check_notes(notes, wanted, answer):
    """The answer says this of these events."""
    told = told_notes(answer.output)
    expect([number for number, _ in told] == [number for number, _ in wanted], "of just these events something is told")
    for (number, note), (_, want) in zip(told, wanted):
        notes.check(number, want, note)


def check_states(wanted, answer):
    """The answer tells these events with these states, in lines that aren't too long."""
    expect(answer.status == 0 and not answer.errors, f"a run is told: {answer}")
    for line in answer.output.splitlines():
        expect(len(line) <= WIDTH, f"no line has more than {WIDTH} columns: {line}")
    told = told_states(answer.output)
    expect([number for number, _ in told] == [number for number, _ in wanted], "just these events are told")
    for (number, state), (_, want) in zip(told, wanted):
        expect(state == want, f"the state at event {number} is: {want}\nwhere it is told: {state}")


def draw_part(draws, script, count):
    """A part of so many events: the words that give it, and whether it has an event of a number and a processor."""
    first = draws.randrange(count)
    last = draws.randrange(first, count)
    processors = sorted(draws.sample(range(script.processors), draws.randint(1, script.processors)))
    text = draws.choice((f"{first}..{last}", f"{first}..", f"..{last}"))
    least, most = (first if text[0] != "." else 0), (last if text[-1] != "." else count)
    words = ("--events", text, "--processors", ",".join(map(str, processors)))
    return words, lambda number, processor: least <= number <= most and processor in processors


class Case:
    """A script whose states are told."""

    def __init__(self, program, name, number, is_turning):
        self.program, self.is_turning, self.found = program, is_turning, Found()
        self.draws, self.script = random.Random(number), drawing.DRAWINGS[name](number)

    def try_seed(self, seed):
        """Checks what is told of a run, and of a part of it."""
        events = reports.read(by_turns(self.program, self.script, seed)).events
        states = States(self.script, events)
        wanted = [(place, states.text(place)) for place in range(len(events))]
        notes = Notes(self.script, events)
        said = list(enumerate(notes.all()))
        answer = explained(self.program, self.script, seed)
        check, check_said = partial(check_states, wanted), partial(check_notes, notes, said)
        check(answer)
        check_said(answer)
        words, has = draw_part(self.draws, self.script, len(events))
        part = [(place, text) for place, text in wanted if has(place, events[place].processor)]
        part_answer = explained(self.program, self.script, seed, *words)
        check_states(part, part_answer)
        check_notes(notes, [(place, note) for place, note in said if has(place, events[place].processor)], part_answer)
        self.note(wanted, part)
        self.note_said([it for _, note in said for it in note])
        if self.is_turning:
            self.found.turn("states", turns.STATES, answer, check)
            self.found.turn("notes", turns.NOTES, answer, check_said)

    def note_said(self, said):
        """Takes note of what is said of the events."""
        for name, words in SAID.items():
            self.found.seen["notes", name] += sum(words in it for it in said)

    def note(self, wanted, part):
        """Takes note of what the states have."""
        seen = self.found.seen
        for name, count in (("runs", 1), ("events", len(wanted)), ("in parts", len(part)),
                            ("records", sum("records: " in text for _, text in wanted)),
                            ("notices", sum("notices: " in text for _, text in wanted)),
                            ("stale", sum(" stale" in text for _, text in wanted)),
                            ("dirty", sum(" dirty" in text for _, text in wanted))):
            seen["states", name] += count


def sweep(program, name, number, is_turning):
    """Checks what is told of the runs of the script of a number."""
    case = Case(program, name, number, is_turning)
    case.found.seen["states", "scripts"] += 1
    for seed in SEEDS:
        case.found.trial(f"states of {name} script {number}, seed {seed}", case.script.text(), case.try_seed, seed)
    return case.found
