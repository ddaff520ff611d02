"""The sweep of JSON: what `sample`, `explore` and `check` print with --json, beside the text that they print without."""
import random

import drawing
import json_lines
import reports
import verdicts
import ways
from flaw import expect
from found import Found
from of_schedules import by_turns
from table import Table, places_of

SEEDS, MOST = "12", "300"
# How many columns a sentence on a race is indented.
INDENT = "  "


class Case:
    """A script whose answers are asked for twice."""

    def __init__(self, program, name, number):
        self.program, self.number, self.found = program, number, Found()
        self.name, self.script = f"{name} script {number}", drawing.DRAWINGS[name](number)

    def both(self, text, *words):
        """What is printed as JSON, as objects, and as text; with the same status, and nothing on standard error."""
        told, printed = self.program.call(text, *words, "--json"), self.program.call(text, *words)
        expect((told.status, told.errors) == (printed.status, printed.errors), f"{words}: {told} beside {printed}")
        return json_lines.objects_of(told.output), printed.output

    def sample(self):
        objects, printed = self.both(self.script.text(), "sample", "--seeds", SEEDS, "--outcomes", "all")
        json_lines.expect_same(json_lines.sample_text(objects), printed)
        self.sample_by_jobs(printed)
        for it in objects[:-1]:
            self.found.seen["json", "result", it["verdict"]] += 1

    def sample_by_jobs(self, printed):
        """Three jobs print what one prints, byte for byte."""
        told = self.program.call(self.script.text(), "sample", "--seeds", SEEDS, "--outcomes", "all", "--jobs", "3")
        expect((told.status, told.errors, told.output) == (0, "", printed), f"by three jobs: {told} beside {printed}")

    def explore(self):
        objects, printed = self.both(self.script.text(), "explore", "--most", MOST)
        json_lines.expect_same(json_lines.explore_text(objects), printed, begins=True)
        self.found.seen["json", "search", objects[-1]["verdict"]] += 1
        self.found.seen["json", "search", "hangs"] += any(it["told"] == "hang" for it in objects)

    def race(self, race, events):
        """What a race says of what was heard and held is what the plain rules say."""
        first, second = race["first"], race["second"]
        table = Table(events)
        heard = list(places_of(table.rows[second["place"]] & table.own[first["processor"]]))
        expect(race.get("heard") == (heard[-1] if heard else None), f"the last event heard of is one of {heard}")
        for access, locks in ((first, race["first_locks"]), (second, race["second_locks"])):
            held = verdicts.locks_at(events, access["place"])
            expect((", ".join(map(str, locks)) or "none") == held, f"{held} is held: {race}")

    def check(self, events, rules):
        text = verdicts.text_of(self.script, events)
        objects, printed = self.both(text, "check", "--locksets", "all", *rules.words())
        bare = "".join(line + "\n" for line in printed.splitlines() if not line.startswith(INDENT))
        json_lines.expect_same(json_lines.check_text(objects), bare)
        expect(objects[-1]["lax"] == rules.is_lax and objects[-1]["model"] == rules.model, f"{rules}: {objects[-1]}")
        for it in objects[:-1]:
            self.found.seen["json", "trace", it.get("reason", it["told"])] += 1
            if it["told"] == "race":
                self.race(it, events)

    def events(self, seed):
        """The journal of a run by turns."""
        return reports.read(by_turns(self.program, self.script, seed)).events

    def traces(self, seed):
        """A journal, and one falsified, under one model after the other."""
        events = self.found.trial(f"{self.name}, seed {seed}", self.script.text(), self.events, seed)
        if events is None:
            return
        draws = random.Random(f"{self.name}, JSON")
        name, places, falsify = ways.WAYS[self.number % len(ways.WAYS)]
        for number, trace in enumerate((events, ways.falsified(draws, self.script, events, places, falsify))):
            model = verdicts.MODELS[(self.number + number) % 4]
            rules = verdicts.Rules(model, self.number % 3 == 1, self.number % 5 == 0)
            if trace is not None and verdicts.find(self.script, trace, rules, reads_all=True).kind != "no trace":
                self.found.trial(f"{self.name}, {name}, JSON", verdicts.text_of(self.script, trace), self.check, trace, rules)


def sweep(program, name, number):
    """Asks for the answers on the script of a number, as JSON and as text."""
    case = Case(program, name, number)
    case.found.seen["json", "scripts"] += 1
    case.found.trial(f"{case.name}, sample", case.script.text(), case.sample)
    case.found.trial(f"{case.name}, explore", case.script.text(), case.explore)
    for seed in (None, 1):
        case.traces(seed)
    return case.found
