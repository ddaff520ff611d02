"""The sweep of schedules: the reports of drawn scripts, by turns and on threads."""
from functools import partial

import checks
import drawing
import reports
import turns
from flaw import expect
from found import Found

# By which seeds turns are taken, beside those by rising number.
SEEDS = (0, 1, 2, 3)
# More looks in vain than a thread of a run that gets on ever needs.
TRIES = "1000000000"


def seeds_of(script):
    """The seeds of a script's schedules; None stands for turns by rising number. A single processor has each turn."""
    return (None, *SEEDS) if script.processors > 1 else (None, SEEDS[0])


def by_turns(program, script, seed, lock="array"):
    """What the program answers to `step`."""
    words = () if seed is None else ("--seed", str(seed))
    return program.call(script.text(), "step", "--journal", "--lock", lock, *words)


def on_threads(program, script, lock="array"):
    """What the program answers to `run`."""
    return program.call(script.text(), "run", "--journal", "--tries", TRIES, "--lock", lock)


def name_of(sort):
    """What a sort of scripts is called: a drawing's name, and whether there are cuts."""
    return sort[0] + (" with cuts" if sort[1] else "")


def note(found, sort, report):
    """Takes note of what a report has."""
    fetches = [event for event in report.events if event.kind == "fetch"]
    for name, count in (("reports", 1), ("racy", report.racy), ("cut", report.cut > 0),
                        ("events", len(report.events)), ("fetches", len(fetches))):
        found.seen[sort, name] += count


class Case:
    """A script of a sort, and how its answers are checked."""

    def __init__(self, program, sort, number, is_turning):
        name, has_cuts = sort
        plain = drawing.DRAWINGS[name](number)
        self.program, self.sort, self.is_turning, self.found = program, sort, is_turning, Found()
        self.is_guarded = drawing.is_guarded(name, number)
        self.script = drawing.with_cuts(plain, number) if has_cuts else plain
        self.whole = drawing.with_idle_loads(plain, number) if has_cuts else None

    def check_guarded(self, report):
        if self.is_guarded:
            checks.check_guarded(self.script, report)

    def check_uncut(self, script, answer):
        """The answer is a report of the script, of which nothing was cut off. Answers the report."""
        report = reports.read(answer)
        expect(report.cut == 0, "nothing is cut off where there is no cut")
        checks.check_report(script, report, [0] * script.addresses)
        return report

    def check(self, history, answer):
        """The answer is a report of the script. The history is that of the same script with loads in the place of its
        cuts; None where it has none. Answers the report."""
        if history is None:
            report = self.check_uncut(self.script, answer)
        else:
            report = reports.read(answer)
            base = checks.base_of(self.whole, history, report)
            checks.check_report(self.script, report, base)
            checks.check_same(history, report)
        self.check_guarded(report)
        return report

    def try_turns(self, seed):
        """Makes all checks of the report by turns, with both locks."""
        history = None
        if self.whole is not None:
            history = self.check_uncut(self.whole, by_turns(self.program, self.whole, seed))
        answer = by_turns(self.program, self.script, seed)
        check = partial(self.check, history)
        note(self.found, self.sort, check(answer))
        other = by_turns(self.program, self.script, seed, "ticket")
        expect(other == answer, "the ticket lock gives the same report")
        if self.is_turning and seed in (None, 0):
            self.found.turn("reports" if history is None else "cut reports", turns.REPORTS, answer, check)

    def try_threads(self, lock):
        """Makes all checks of the report with a thread for each processor. Its history isn't known."""
        report = reports.read(on_threads(self.program, self.script, lock))
        checks.check_report(self.script, report, checks.inferred_base(self.script, report))
        self.check_guarded(report)
        self.found.seen[self.sort, "on threads"] += 1


def sweep(program, sort, number, is_threaded, is_turning):
    """Checks the reports of the script of a number, under some schedules."""
    case = Case(program, sort, number, is_turning)
    shown, found, name = case.script.text(), case.found, f"{name_of(sort)}, script {number}"
    found.seen[sort, "scripts"] += 1
    for seed in seeds_of(case.script):
        found.trial(f"{name}, seed {seed}", shown, case.try_turns, seed)
    for lock in ("array", "ticket") if is_threaded else ():
        found.trial(f"{name}, on threads, {lock} lock", shown, case.try_threads, lock)
    return found
