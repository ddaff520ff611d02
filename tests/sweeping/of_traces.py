"""The sweep of traces: journals of drawn scripts, as they are and falsified."""
import random
import re
from dataclasses import replace
from functools import partial

import checks
import drawing
import locksets
import reports
import turns
import verdicts
import ways
from flaw import expect
from found import Found
from of_schedules import by_turns, note, on_threads, seeds_of

# How many schedules a script has whose journals are falsified.
SCHEDULES = 3
# Pages, and words of a page: as many addresses as a trace has at most. Locks, and flags: as many as it has at most.
WIDE, MANY = 1 << 10, 1 << 16
FLAGGING = ("set", "watch", "await")
# How many processors a trace of many has: from the first of these up to the second.
PROCESSORS = 17, 25
# What a journal is called that isn't falsified, and one with other replies all along.
AS_IT_IS, FLAT = "journals", "all replies of one flat memory"


def without_hint(answer):
    """The answer, of a trace that is refused without what stands below the fault, each line of which is indented."""
    first, _, hint = answer.errors.partition("\n")
    if answer.status != 2 or not all(line.startswith("  ") for line in hint.splitlines()):
        return answer
    return answer._replace(errors=first + "\n")


def check_verdict(wanted, answer):
    answer = without_hint(answer)
    expect(answer == wanted, f"the program answers {wanted}where it answers {answer}")


# An event's line of `explain`: its number, and two spaces before what it did.
TOLD = re.compile(r" *([0-9]+)  ")


def check_told(answer, told):
    """A trace told has a line for each event that `check` judged, and behind them what that prints."""
    told, answer = without_hint(told), without_hint(answer)
    ends = (told.status, told.errors) == (answer.status, answer.errors)
    expect(ends, f"it is told with {answer}where it is with {told}")
    if not answer.output:
        return expect(not told.output, f"nothing is told where it is {told}")
    expect(told.output.endswith("\n\n" + answer.output), f"what is told ends with {answer}where it is {told}")
    lines = told.output[:-len(answer.output)].split("\n")
    numbers = [int(it[1]) for it in map(TOLD.match, lines) if it]
    count = int(answer.output.split()[1])
    expect(numbers == list(range(count)), f"{count} events are told, where it is {numbers}")


def events_of(answer):
    """What `explain` says of the events: what stands before the first empty line."""
    return answer.output.split("\n\n")[0]


def falsified_ways(draws, script, events):
    """Of each way its name and the trace that it makes of a journal, where it makes one; and the journal with the
    replies and sums of one flat memory, where that is another one."""
    for name, places, falsify in ways.WAYS:
        trace = ways.falsified(draws, script, events, places, falsify)
        if trace is not None:
            yield name, trace
    flat = tuple(checks.recomputed(script, [0] * script.addresses, events))
    if flat != events:
        yield FLAT, flat


def with_many(script, events):
    """The script with as many locks and flags as a trace has at most, and its trace with these moved apart: the last lock and
    the last flag are the last there can be."""
    apart = {**dict.fromkeys(locksets.LOCKING, script.locks), **dict.fromkeys(FLAGGING, script.flags)}

    def moved(event):
        if event.kind not in apart:
            return event
        count = apart[event.kind]
        return replace(event, numbers=(MANY - 1 - (count - 1 - event.numbers[0]) * (MANY // max(count, 1)),))

    return replace(script, locks=MANY, flags=MANY), tuple(map(moved, events))


def widened(script, events):
    """The same with as many pages and words as a trace has at most, also moved apart."""
    of_page, of_word = WIDE // script.pages, WIDE // script.words

    def moved(event):
        first, *rest = event.numbers or (None,)
        if event.kind in ("load", "store"):
            first = first // script.words * of_page * WIDE + first % script.words * of_word
        elif event.kind == "fetch":
            first *= of_page
        return event if first is None else replace(event, numbers=(first, *rest))

    many, trace = with_many(script, events)
    return replace(many, pages=WIDE, words=WIDE), tuple(map(moved, trace))


def with_processors(draws, script, events):
    """The script with more processors than a cluster has, and its trace with these moved apart: the others arrive and depart
    beside processor 0."""
    count = draws.randrange(*PROCESSORS)
    names = draws.sample(range(count), script.processors)
    idle = [it for it in range(count) if it not in names]
    names += [count] * count
    trace = []
    for event in events:
        trace.append(replace(event, processor=names[event.processor]))
        if event.kind in ("arrive", "depart") and event.processor == 0:
            trace += [replace(event, processor=it) for it in idle]
    return replace(script, processors=count), tuple(trace)


class Case:
    """A script whose journals are judged."""

    def __init__(self, program, name, number, is_turning):
        self.program, self.is_turning, self.found, self.number = program, is_turning, Found(), number
        self.name, self.script = f"{name} script {number}", drawing.DRAWINGS[name](number)

    def try_trace(self, way, events, rules, change=None):
        """Compares what the program says of a trace. The change is the place where it was falsified."""
        verdict = verdicts.find(self.script, events, rules)
        answer = self.program.call(verdicts.text_of(self.script, events), "check", *rules.words())
        check = partial(check_verdict, verdicts.answer_to(verdict, rules))
        check(answer)
        if rules.model != verdicts.LAZY_RELEASE or rules.ends_at_race:
            self.found.seen["model", rules.model, verdict.kind] += 1
            return
        self.found.seen["lax traces" if rules.is_lax else "traces", way, verdict.kind] += 1
        if not rules.is_lax and change is not None:
            self.found.seen["traces", way, "at the change"] += verdict.place == change
        if self.is_turning:
            self.found.turn("traces", turns.TRACES, answer, check)

    def try_wide(self, events, rules):
        """Compares what the program says of the trace with its pages, words, locks and flags moved apart."""
        script, moved = widened(self.script, events)
        verdict = verdicts.find(script, moved, rules)
        answer = self.program.call(verdicts.text_of(script, moved), "check", *rules.words())
        check_verdict(verdicts.answer_to(verdict, rules), answer)
        self.found.seen["wide", verdict.kind] += 1

    def try_many(self, events, draws):
        """Compares what the program says of the trace with its processors moved apart, under the models that look at earlier
        stores."""
        script, moved = with_processors(draws, self.script, events)
        for rules in (verdicts.Rules(verdicts.HAPPENS_BEFORE), verdicts.Rules(verdicts.LAZY_RELEASE)):
            verdict = verdicts.find(script, moved, rules)
            answer = self.program.call(verdicts.text_of(script, moved), "check", *rules.words())
            check_verdict(verdicts.answer_to(verdict, rules), answer)
            self.found.seen["many", rules.model, verdict.kind] += 1

    def try_told(self, events, rules):
        """Compares what `explain --trace`, which reads all first, says of a trace with what `check` does."""
        text = verdicts.text_of(self.script, events)
        whole = verdicts.find(self.script, events, rules, reads_all=True)
        is_read = whole.kind != "no trace"
        answer = self.program.call(text, "check", *rules.words()) if is_read else verdicts.answer_to(whole, rules)
        check_told(answer, self.program.call(text, "explain", "--trace", *rules.words()))
        self.found.seen["told", {0: "faithful", 2: "no trace", 6: "a lie"}[answer.status]] += 1

    def try_as_run(self, seed, events):
        """A journal by turns is told as a trace as the run itself is."""
        words = () if seed is None else ("--seed", str(seed))
        run = self.program.call(self.script.text(), "explain", *words)
        text = verdicts.text_of(self.script, events)
        trace = self.program.call(text, "explain", "--trace", "--model", verdicts.LAZY_RELEASE)
        expect(events_of(trace) == events_of(run), f"the events are told as {run}where they are as {trace}")

    def try_locksets(self, sort, text, events):
        """With --locksets the words are told that need a lock and have none, and without it the same is printed but them."""
        plain = self.program.call(text, "check", "--lax")
        self.try_words(sort, text, events, plain, locksets.FORGOTTEN)
        self.try_words(f"{sort}, all words", text, events, plain, locksets.ALL)

    def try_words(self, sort, text, events, plain, which):
        """The words of this sort alone are told."""
        answer = self.program.call(text, "check", "--lax", "--locksets", which)
        check = partial(locksets.check_answer, events, plain, which)
        told = check(answer)
        self.found.seen["locksets", sort, "no race-free trace" if told is None else "told" if told else "nothing told"] += 1
        self.found.seen["locksets", sort, "handed over"] += "\nhanded over " in answer.output
        if self.is_turning and told:
            self.found.turn("locksets", turns.LOCKSETS if which == locksets.FORGOTTEN else turns.HANDED, answer, check)

    def sweep_locksets(self, name, events, draws):
        """The words of a journal, and of what is left where one section forgets its lock."""
        script, spare = self.script, self.script.locks
        traces = [("journals", script, events), ("a lock forgotten", script, locksets.forgetful(draws, events)),
                  ("and ordered by accident", replace(script, locks=spare + 1),
                   locksets.forgetful(draws, events, spare, script.processors)),
                  ("a lock never taken", replace(script, locks=spare + 1),
                   locksets.forgetful(draws, events, spare, script.processors, always=True))]
        traces += [(f"{sort}, of many", *with_many(sizes, trace)) for sort, sizes, trace in traces if trace is not None]
        for sort, sizes, trace in traces:
            if trace is not None:
                text = verdicts.text_of(sizes, trace)
                self.found.trial(f"{name}, {sort}, locksets", text, self.try_locksets, sort, text, trace)

    def other_rules(self):
        """Another model at each call, each second one lax, and each third one to end with a race."""
        self.number += 1
        return verdicts.Rules(verdicts.MODELS[self.number % 4], self.number // 4 % 2 == 0, self.number % 3 == 0)

    def try_both(self, name, way, events, change=None):
        """The same, lax and not, and by other rules."""
        for rules in (verdicts.Rules(), verdicts.Rules(is_lax=True), self.other_rules()):
            shown = verdicts.text_of(self.script, events)
            self.found.trial(f"{name}, {way}", shown, self.try_trace, way, events, rules, change)
        if not rules.ends_at_race:
            self.found.trial(f"{name}, {way}, told", shown, self.try_told, events, rules)
        self.found.trial(f"{name}, {way}, wide", shown, self.try_wide, events, rules)
        if self.number % 3 == 0:
            draws = random.Random(f"{name}, {way}, many")
            self.found.trial(f"{name}, {way}, of many processors", shown, self.try_many, events, draws)

    def faithful(self, call, *arguments):
        """The report of a run, whose journal is faithful, and has the report's verdict and traffic."""
        report = reports.read(call(self.program, self.script, *arguments))
        verdict = verdicts.find(self.script, report.events, verdicts.Rules())
        expect(verdict.kind == "faithful", f"the journal is faithful, where it is {verdict}")
        expect(f"verdict {'racy' if report.racy else 'race-free'}" in verdict.lines, "the verdict is the report's")
        expect(verdict.lines[-1] == "traffic {} {} {}".format(*report.traffic), "the traffic is the report's")
        return report

    def sweep_turns(self, seed):
        """Judges a journal by turns, and what is made of it."""
        name = f"{self.name}, seed {seed}"
        report = self.found.trial(name, self.script.text(), self.faithful, by_turns, seed)
        if report is not None:
            note(self.found, "traces", report)
            self.found.trial(f"{name}, told", self.script.text(), self.try_as_run, seed, report.events)
            self.try_both(name, AS_IT_IS, report.events)
            draws = random.Random(f"{name}, falsified")
            self.sweep_locksets(name, report.events, random.Random(f"{name}, forgotten"))
            for way, trace in falsified_ways(draws, self.script, report.events):
                self.try_both(name, way, trace, ways.first_difference(report.events, trace))

    def sweep_threads(self):
        """Judges a journal of threads."""
        name = f"{self.name} on threads"
        report = self.found.trial(name, self.script.text(), self.faithful, on_threads)
        if report is not None:
            self.found.seen["traces", "on threads"] += 1
            self.try_both(name, AS_IT_IS, report.events)


def sweep(program, name, number, is_threaded, is_turning):
    """Judges the journals of the script of a number, under some schedules."""
    case = Case(program, name, number, is_turning)
    case.found.seen["traces", "scripts"] += 1
    for seed in seeds_of(case.script)[:SCHEDULES]:
        case.sweep_turns(seed)
    if is_threaded:
        case.sweep_threads()
    return case.found
