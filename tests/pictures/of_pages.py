"""The sweep of pages: what they show after each number of events beside what the definitions say of as many events."""
import random
import re
from pathlib import Path

import diagram
import of_diagrams
from flaw import expect, Flaw, is_flaw
from found import Found
from story import CLOSING

ROOT = Path(__file__).resolve().parent.parent.parent
SVG = re.compile(r"<svg .*?</svg>", re.S)
# The page that documents show, and after how many events.
SHOWN, SHOWN_AT = "lock", 7
# How wide and how high the window is in which slider and tables have to be in sight beside the picture.
WINDOW = 1400, 900
# Nothing that a file would fetch from elsewhere.
OUTSIDE = re.compile(r'(?:src|href)="(?!#)|@import|url\((?!#)|https?://(?!www\.w3\.org/2000/svg)')


def lock_text(story, lock, count):
    holder, queue = story.lock(lock, count)
    asked = "; asked: " + ", ".join(f"p{it}" for it in queue) if queue else ""
    return ("free" if holder is None else f"p{holder}") + asked


def touched(story):
    """The pages that some event accesses or fetches."""
    return sorted({story.page_of(place) for place, event in enumerate(story.events)
                   if event.kind in ("load", "store", "fetch")})


def cells_of(story, script, processors, count):
    """What has to be shown after so many events: of each cell its text and its looks."""
    cells = {}
    for processor in processors:
        cells[f"t{processor}"] = " ".join(map(str, story.time(processor, count))), "text"
        cells[f"s{processor}"] = story.standing(processor, count), "text"
        origins, dirty = story.origins(processor, count), story.dirty(processor, count)
        for page in touched(story):
            state = "stale" if story.gap(processor, page, count) else "valid"
            cells[f"c{processor}.{page}"] = state, state
            for address in range(page * story.words, (page + 1) * story.words):
                word = story.events[origins[address]].numbers[1] if address in origins else 0
                cells[f"w{processor}.{address}"] = str(word), "dirty" if address in dirty else ""
    for lock in range(script.locks):
        cells[f"l{lock}"] = lock_text(story, lock, count), "text"
    for flag in range(script.flags):
        cells[f"f{flag}"] = "set" if story.is_set(flag, count) else "", "text"
    return cells


def check_state(story, script, processors, state, late=0):
    """What is shown is so after as many events as it says."""
    wanted = cells_of(story, script, processors, max(state["at"] - late, 0))
    found = state["cells"]
    if sorted(found) != sorted(wanted):
        raise Flaw(f"it doesn't hold that the cells are {sorted(wanted)}: {sorted(found)}")
    for name, cell in wanted.items():
        if tuple(found[name]) != cell:
            raise Flaw(f"after {state['at']} events ({state['how']}) cell {name} shows {found[name]}, not {cell}")


def check_told(story, picture, state):
    """The page tells the last event as its mark does."""
    mark = next((it for it in picture.marks.values() if it.number == state["at"] - 1), None)
    if state["at"] == 0:
        expect(state["told"] == "before the first event", "it is told that nothing happened yet")
    elif mark:
        expect(state["told"].startswith(f"after event {mark.number} (p{mark.processor}: {mark.label})"),
               f"the last event is told: {state['told']}")


def check_steps(states, least, most):
    """The keys go to where they have to."""
    forth = list(range(least + 1, most + 1))
    wanted = [least, *forth, most, *reversed([least, *forth][:-1]), most, least]
    expect([state["at"] for state in states][:len(wanted)] == wanted, f"keys step so: {wanted}")


def check(program, browser, script, seed, part, story):
    """Reads the run's page, and steps through it. Answers its states."""
    page = of_diagrams.answer_of(program, script, seed, "--html", part)
    expect(not OUTSIDE.search(page), "the file wants no other")
    svg = SVG.search(page)
    expect(svg is not None, "the page has the picture")
    reading = of_diagrams.Reading(story, part, diagram.read(svg[0]))
    reading.check()
    if browser is None:
        return []
    states = browser.seen(page)
    if reading.places:
        check_steps(states, reading.places[0], reading.places[-1] + 1)
    for state in states:
        check_state(story, script, reading.processors, state)
        check_told(story, reading.picture, state)
    return states


def is_refused(story, script, processors, states):
    """Whether states one event late are refused, where an event changes something."""
    return any(is_flaw(check_state, story, script, processors, state, 1) for state in states)


def sweep(program, browser, draw, number):
    """Checks the page of the script of a number, whole and a part."""
    script, found, draws = draw(number), Found(), random.Random(f"pages {number}")
    name, seed = f"pages of script {number}", number % 3 or None
    story = found.trial(name, script.text(), of_diagrams.story_of, program, script, seed)
    if story is None or not story.events:
        return found
    for part in (None, of_diagrams.drawn_part(draws, story)):
        states = found.trial(f"{name}, seed {seed}, part {part}", script.text(), check, program, browser, script, seed,
                             part, story)
        if states is not None:
            found.seen["pages"] += 1
            found.seen["states"] += len(states)
        if part is None and states and any(event.kind in CLOSING for event in story.events):
            found.trial(f"{name}: turned", script.text(), expect,
                        is_refused(story, script, range(story.processors), states), "states one event late are refused")
    return found


def four_that_store(pages, words):
    """A script of four processors that store under a lock in each word of so many pages of so many words."""
    lines = [f"cluster 4 {pages} {words} 1"]
    for processor in range(4):
        lines.append(f"p {processor}")
        for address in range(processor, pages * words, 4):
            lines += ["acquire 0", f"store {address} {100 + address}", "release 0"]
    return "".join(f"{line}\n" for line in [*lines, "show 0"])


def check_in_sight(program, browser, text):
    """The state stands beside the picture at each step, with its slider and its tables in sight."""
    for step in browser.measured(program.call(text, "explain", "--html").output, WINDOW):
        state, picture, (width, height) = step["state"], step["picture"], step["window"]
        expect(state[2] <= width and state[3] <= height, f"at {step['at']} the state is in the window: {step}")
        expect(state[0] >= picture[2] and state[1] < picture[1] + 10, f"at {step['at']} the state stands beside the picture: {step}")
        for left, top, right, bottom in [step["slider"], *step["tables"]]:
            expect(state[0] <= left and right <= state[2] and state[1] <= top and bottom <= state[3],
                   f"at {step['at']} slider and tables are in sight: {step}")


def in_sight(program, browser):
    """Looks where the parts of pages of four processors and sixteen words are."""
    found = Found()
    for pages, words in ((1, 16), (4, 4)):
        text = four_that_store(pages, words)
        found.trial(f"in sight: {pages} pages of {words} words", text, check_in_sight, program, browser, text)
    return found


def write(program, browser):
    """Makes the page that documents show, and its picture."""
    if browser is None:
        raise Flaw("the page's picture wants chromium")
    answer = program.call("", "explain", "--html", str(ROOT / f"examples/{SHOWN}.lrc"))
    (ROOT / f"docs/pictures/{SHOWN}.html").write_text(answer.output)
    browser.shoot(answer.output, SHOWN_AT, ROOT / "docs/pictures/page.png")
