"""The sweep of pictures: what stands in their files beside what the journal says, whole and in part."""
import random

import diagram
import reports
from flaw import expect, Flaw, is_flaw
from found import Found
from story import SHAPES, Story, label


def part_words(part):
    """The options that ask for a part; none for the whole."""
    if part is None:
        return ()
    first, last, processors = part
    return ("--events", f"{first}..{last}", "--processors", ",".join(map(str, processors)))


def drawn_part(draws, story):
    """A part: from an event to a later one, and some processors."""
    first = draws.randrange(len(story.events))
    last = draws.randrange(first, len(story.events))
    processors = sorted(draws.sample(range(story.processors), draws.randint(1, story.processors)))
    return first, last, processors


def is_in(part, story, place):
    """Whether the event at the place is in the part."""
    if part is None:
        return True
    first, last, processors = part
    return first <= place <= last and story.events[place].processor in processors


def expect_same(found, wanted, what):
    if found != wanted:
        raise Flaw(f"it doesn't hold that {what}: {found}, not {wanted}")


class Reading:
    """A picture that was read back, beside its run's story."""

    def __init__(self, story, part, picture):
        self.story, self.part, self.picture = story, part, picture
        self.places = [place for place in range(len(story.events)) if is_in(part, story, place)]
        self.processors = part[2] if part else list(range(story.processors))

    def point(self, place):
        """Where the event's mark has to be: in its row, on its processor's lane."""
        across = next(x for x, processor in self.picture.lanes.items()
                      if processor == self.story.events[place].processor)
        return across, self.top + diagram.ROW * self.places.index(place)

    def check_lanes(self):
        lanes = sorted(self.picture.lanes)
        expect_same([self.picture.lanes[x] for x in lanes], self.processors, "the lanes are the processors'")
        steps = {right - left for left, right in zip(lanes, lanes[1:])}
        expect(len(steps) <= 1, "lanes are as far from each other")

    def check_marks(self):
        """Each event that is drawn has its mark, and nothing else has one."""
        self.top = min((y for _, y in self.picture.marks), default=0)
        wanted = {}
        for place in self.places:
            event = self.story.events[place]
            wanted[self.point(place)] = (place, event.processor, label(event), SHAPES[event.kind],
                                         self.story.is_stale(place))
        found = {at: (mark.number, mark.processor, mark.label, mark.shape, mark.is_stale)
                 for at, mark in self.picture.marks.items()}
        expect_same(found, wanted, "the marks are the events'")

    def check_arrows(self):
        kinds = {"acquire": "lock", "await": "flag"}
        wanted = sorted((kinds[self.story.events[place].kind], self.point(source), self.point(place))
                        for place in self.places if self.story.events[place].kind in kinds
                        for source in self.story.hand_overs(place) if source in self.places)
        expect_same(sorted(self.picture.arrows), wanted, "the arrows are the hand-overs")

    def check_edges(self):
        wanted = []
        for place in self.places:
            source = self.story.source(place) if self.story.events[place].kind == "load" else None
            if source in self.places:
                wanted.append((self.point(source), self.point(place), source, place))
        expect_same(sorted(self.picture.edges), sorted(wanted), "the edges lead from stores to their loads")

    def check_bars(self):
        """Where all have arrived there is a bar below the last event so far that is drawn."""
        lanes = sorted(self.picture.lanes)
        wanted = []
        for place in self.story.episodes():
            above = [it for it in self.places if it <= place]
            if above and (self.part is None or self.part[0] <= place <= self.part[1]):
                down = self.top + diagram.ROW * (len(above) - 1) + diagram.HALF
                wanted.append((down, lanes[0] - diagram.PAST, lanes[-1] + diagram.PAST))
        expect_same(sorted(self.picture.bars), wanted, "the bars are the barrier's episodes")

    def check_race(self):
        race = self.story.table.first_race()
        wanted = None
        if race and all(place in self.places for place in race):
            wanted = tuple(map(self.point, race))
        expect_same(self.picture.race, wanted, "the first race is drawn")
        expect(("racy" if race else "race-free") in self.picture.head, "the head says whether there is a race")

    def check(self):
        for check in (self.check_lanes, self.check_marks, self.check_arrows, self.check_edges, self.check_bars,
                      self.check_race):
            check()
        is_whole = len(self.places) == len(self.story.events) and len(self.processors) == self.story.processors
        expect(("part" in self.picture.head) != is_whole, "the head says whether a part is drawn")


def story_of(program, script, seed):
    """The story of the script's run, by its journal."""
    words = () if seed is None else ("--seed", str(seed))
    report = reports.read(program.call(script.text(), "step", "--journal", *words))
    return Story(script.processors, script.words, list(report.events))


def answer_of(program, script, seed, form, part):
    words = () if seed is None else ("--seed", str(seed))
    answer = program.call(script.text(), "explain", form, *words, *part_words(part))
    if answer.status != 0 or answer.errors:
        raise Flaw(f"it doesn't hold that the run is drawn: {answer}")
    return answer.output


def check(program, script, seed, part, story):
    """Reads the run's picture back."""
    reading = Reading(story, part, diagram.read(answer_of(program, script, seed, "--svg", part)))
    reading.check()
    return reading


class Turned(Story):
    """A story in which arrows come from the event before the right one."""

    def hand_overs(self, place):
        return [max(it - 1, 0) for it in super().hand_overs(place)]


def is_refused(story, reading):
    """Whether the picture is refused where arrows should come from other events."""
    return is_flaw(Reading(Turned(story.processors, story.words, story.events), reading.part, reading.picture).check)


def sweep(program, draw, number, has_parts):
    """Checks the pictures of the script of a number: whole, and two parts."""
    script, found, draws = draw(number), Found(), random.Random(f"parts {number}")
    name, seed = f"pictures of script {number}", number % 3 or None
    story = found.trial(name, script.text(), story_of, program, script, seed)
    if story is None or not story.events:
        return found
    for part in [None, *[drawn_part(draws, story) for _ in range(2 * has_parts)]]:
        shown = f"{name}, seed {seed}, part {part}"
        reading = found.trial(shown, script.text(), check, program, script, seed, part, story)
        if reading:
            found.seen["pictures"] += 1
            for what in ("marks", "arrows", "edges", "bars"):
                found.seen[what] += len(getattr(reading.picture, what))
            found.seen["races"] += reading.picture.race is not None
            found.seen["parts"] += part is not None
            found.seen["stale loads"] += sum(mark.is_stale for mark in reading.picture.marks.values())
        if reading and part is None and reading.picture.arrows:
            found.trial(f"{name}: turned", script.text(), expect, is_refused(story, reading),
                        "arrows from other events are refused")
    return found
