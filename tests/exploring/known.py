"""What can be told of scripts by hand; and the enumeration's parts, each tried against another one."""
import random

import scripts
import texts
from allowed import all_allowed
from memory import all_shown
from schedules import Enumerated, Enumeration, Memory, enumerate_all, first_race

MESSAGE = "cluster 2 1 2 0 1/p 0/store 0 5/set 0/p 1/await 0/load 0/show 0/"
COUNTER = "cluster 2 1 1 1/p 0/acquire 0/add 0 1/release 0/p 1/acquire 0/add 0 1/release 0/show 0/"
BUFFERING = "cluster 2 1 2 0/p 0/store 0 1/load 1/p 1/store 1 1/load 0/show 0/"
CROSSED = ("cluster 2 1 1 2/p 0/acquire 0/acquire 1/release 1/release 0/"
           "p 1/acquire 1/acquire 0/release 0/release 1/show 0/")
CHAIN = ("cluster 3 1 1 2/p 0/acquire 0/store 0 9/release 0/p 1/acquire 1/acquire 0/release 0/release 1/"
         "p 2/acquire 1/load 0/release 1/show 0/")

# `add` and `load` by processor 0, and a word that `load` tells and the words don't.
BOTH = "cluster 2 1 2 1/p 0/acquire 0/add 0 1/load 1/release 0/p 1/acquire 0/add 0 1/store 1 4/release 0/show 0/"

# A script, its verdict, its outcomes as the text has them, and whether it hangs; of a racy one None.
BY_HAND = [
    (MESSAGE, "race-free", ["words 0 5 replies p1 5"], False),
    (COUNTER, "race-free", ["words 0 2 replies p0 0 p1 1", "words 0 2 replies p0 1 p1 0"], False),
    (BUFFERING, "racy", None, None),
    # Each lock has one of two before the other, or both wait.
    (CROSSED, "race-free", ["words 0 0"], True),
    # Where processor 2 has lock 1 first, nothing orders its load after the store.
    (CHAIN, "racy", None, None),
    # Nobody sets the flag.
    ("cluster 1 1 1 0 1/p 0/await 0/show 0/", "race-free", [], True),
    # Whoever has the lock keeps it, and waits at the closing barrier.
    ("cluster 2 1 1 1/p 0/acquire 0/p 1/acquire 0/show 0/", "race-free", [], True),
    # It races before it hangs.
    ("cluster 2 1 1 0 1/p 0/store 0 1/await 0/p 1/load 0/await 0/show 0/", "racy", None, None),
    # The race comes only behind a wait that never ends.
    ("cluster 2 1 1 0 1/p 0/await 0/store 0 1/p 1/await 0/load 0/show 0/", "race-free", [], True),
    # One store first, or the other.
    ("cluster 2 1 1 1/p 0/acquire 0/store 0 1/release 0/p 1/acquire 0/store 0 2/release 0/show 0/", "race-free",
     ["words 0 1", "words 0 2"], False),
    # Two locks order nothing between each other.
    ("cluster 2 1 1 2/p 0/acquire 0/store 0 1/release 0/p 1/acquire 1/store 0 2/release 1/show 0/", "racy", None, None),
    # Before a barrier and after it; a flag that was set behind the barrier.
    ("cluster 2 1 2 0/p 0/store 0 5/barrier/load 1/p 1/store 1 6/barrier/load 0/show 1 0/", "race-free",
     ["words 1 6 0 5 replies p0 6 p1 5"], False),
    # Who has arrived early doesn't know what is stored behind its arrival.
    ("cluster 2 1 1 0/p 0/barrier/store 0 5/p 1/barrier/load 0/show 0/", "racy", None, None),
    # The same addresses, but one word each; loads alone.
    ("cluster 3 1 2 0/p 0/store 0 1/p 1/store 1 2/p 2/cut/show 0 1/", "race-free", ["words 0 1 1 2"], False),
    ("cluster 3 1 1 0/p 0/load 0/p 1/load 0/p 2/load 0/show 0/", "race-free",
     ["words 0 0 replies p0 0 p1 0 p2 0"], False),
    # By way of a third processor.
    ("cluster 3 1 1 0 2/p 0/store 0 3/set 0/p 1/await 0/set 1/p 2/await 1/add 0 4294967295/show 0/", "race-free",
     ["words 0 2 replies p2 3"], False),
    # A flag that two set: who awaits it may know the one alone.
    ("cluster 3 1 1 0 1/p 0/store 0 3/set 0/p 1/set 0/p 2/await 0/load 0/show 0/", "racy", None, None),
]


# What the outcomes of that script tell, by each detail.
TOLD = {
    "words": ["words 0 2"],
    "loads": ["words 0 2 replies p0 0", "words 0 2 replies p0 4"],
    "all": ["words 0 2 replies p0 0 0 p1 1", "words 0 2 replies p0 1 4 p1 0"],
}


def is_told_as_by_hand(detail):
    script = scripts.read(BOTH.replace("/", "\n"))
    results = texts.results_of(script, enumerate_all(script).outcomes, detail)
    return [texts.outcome_line(result).strip() for result in results] == TOLD[detail]


# What the rules allow of racy scripts, by each `load`.
ALLOWED = [
    (BUFFERING, ["words 0 1 replies p0 0 p1 0"]),
    # Two stores without order: each is a latest one.
    ("cluster 2 1 1 0/p 0/store 0 1/p 1/store 0 2/show 0/", ["words 0 1", "words 0 2"]),
    # Two loads with nothing between them may answer one each.
    ("cluster 3 1 1 0/p 0/store 0 1/barrier/p 1/store 0 2/barrier/p 2/barrier/load 0/load 0/show 0/",
     [f"words 0 {last} replies p2 {one} {two}" for one in (1, 2) for two in (1, 2) for last in (1, 2)]),
    # Whoever has lock 1 first: only if that is processor 1 has the other's load the store in its past.
    (CHAIN, ["words 0 9 replies p2 0", "words 0 9 replies p2 9"]),
]


# Racy scripts, and all that this memory shows of them.
RACE = "cluster 2 1 1 0/p 0/store 0 1/p 1/store 0 2/show 0"
SHOWN = [
    # Processor 0 fetches behind the barrier, and so what it stored itself is written over, whoever closes first.
    (RACE, ["words 0 2"]),
    # Both stores lie in the fetched records, in the order in which they were closed.
    ("cluster 3 1 1 0/p 0/p 1/store 0 1/p 2/store 0 2/show 0", ["words 0 1", "words 0 2"]),
    # On one flat memory one of the loads could answer the other's store.
    (BUFFERING, ["words 0 1 replies p0 0 p1 0"]),
    (CHAIN, ["words 0 9 replies p2 0", "words 0 9 replies p2 9"]),
]


def is_shown_as_by_hand(row):
    text, wanted = row
    script = scripts.read(text.replace("/", "\n"))
    results = texts.results_of(script, all_shown(script, 10000), "loads")
    return sorted(texts.outcome_line(it).strip() for it in results) == sorted(wanted)


def is_allowed_as_by_hand(row):
    text, wanted = row
    script = scripts.read(text.replace("/", "\n"))
    results = texts.results_of(script, all_allowed(script, 10000), "loads")
    return sorted(texts.outcome_line(it).strip() for it in results) == sorted(wanted)


# Events of a racy script, whether they are a run that the rules allow, and an address and a word that it is asked for.
RUNS = [
    (["event 0 0 store 0 1", "event 1 1 store 1 1", "event 2 0 load 1 0", "event 3 1 load 0 0"], True, {0: 1}),
    # On one flat memory the load answers the other's store; by the rules that isn't in its past.
    (["event 0 0 store 0 1", "event 1 1 store 1 1", "event 2 0 load 1 1", "event 3 1 load 0 0"], False, {0: 1}),
    # No run ends so.
    (["event 0 0 store 0 1", "event 1 1 store 1 1", "event 2 0 load 1 0", "event 3 1 load 0 0"], False, {0: 2}),
]
ENDS = ["event 4 0 arrive", "event 5 1 arrive", "event 6 0 depart", "event 7 1 depart", "event 8 0 load 0 1"]


def is_run_as_by_hand(row):
    """Whether the text that tells the run is let through exactly if it is one that ends so, and not without its last event."""
    lines, holds, asked = row
    script = scripts.read(BUFFERING.replace("/", "\n"))
    events = [*lines, *ENDS]
    replies = "p0 1 p1 0" if "event 2 0 load 1 1" in lines else "p0 0 p1 0"
    race = ["verdict racy", *events[:4], "race", *events[1:3], f"  {texts.SOME}", "states 9"]
    front = [*race, "until by the rules", f"  words 0 1 replies {replies}"]

    def is_let_through(told):
        text = "".join(line + "\n" for line in [*front, *told, "beginnings 9"])
        try:
            texts.judge_until_by_rules(script, Enumerated(), texts.read_until_by_rules(text)[1], asked)
        except texts.Wrong:
            return False
        return True

    return is_let_through(events) == holds and not is_let_through(events[:-1])


def is_never_as_by_hand(asked, holds):
    """Whether it is let through that no run ends so, exactly if none does."""
    script = scripts.read(BUFFERING.replace("/", "\n"))
    found = Enumerated(allowed=all_allowed(script, 10000))
    try:
        texts.judge_until_by_rules(script, found, texts.Until("never"), asked)
    except texts.Wrong:
        return not holds
    return holds


def is_allowed_as_flat(seed):
    """Of a script that doesn't race the rules have to allow what flat memory shows. None where there are too many beginnings."""
    script = scripts.draw(seed)
    found, allowed = enumerate_all(script), all_allowed(script, 500)
    return None if found.race is not None or allowed is None else allowed == found.outcomes


def is_as_by_hand(row):
    text, verdict, outcomes, hangs = row
    script = scripts.read(text.replace("/", "\n"))
    found = enumerate_all(script)
    if script.text() != text.replace("/", "\n") or (found.race is None) != (verdict == "race-free"):
        return False
    if found.race is not None:
        return True
    lines = [texts.outcome_line(texts.shown_of(script, replies)).strip() for replies in sorted(found.outcomes)]
    return lines == outcomes and (found.hang is not None) == hangs


def is_one_walk(seed):
    """A schedule by chance: the enumeration's rules let on whom the plain ones let on, with the same events, and its bits
    tell the first race where the definition does."""
    script, draws = scripts.draw(seed), random.Random(seed)
    memory, enumeration = Memory(script), Enumeration(script)
    state, events, racy = enumeration.start(), [], None
    while True:
        may = [memory.may(processor) for processor in range(script.processors)]
        if may != [enumeration.may(state, processor) for processor in range(script.processors)]:
            return False
        may = [event for event in may if event is not None]
        if not may:
            break
        event = draws.choice(may)
        if racy is None and enumeration.races(state, event.processor):
            racy = len(events)
        memory.do(event)
        state = enumeration.after(state, event)
        events.append(event)
    race = first_race(events)
    return racy == (None if race is None else race[1]) and list(map(tuple, memory.replies)) == list(state.replies)


def every_path(script, most):
    """What all schedules come to, without any state that is met once; None where there are more than so many events."""
    outcomes, racy, hangs, left = set(), False, False, [most]

    def go_on(events):
        nonlocal racy, hangs
        left[0] -= 1
        memory = Memory(script)
        for event in events:
            memory.do(event)
        may = [event for processor in range(script.processors) if (event := memory.may(processor)) is not None]
        if not may:
            racy = racy or first_race(events) is not None
            if memory.is_whole():
                outcomes.add(tuple(map(tuple, memory.replies)))
            else:
                hangs = True
        for event in may:
            if left[0] > 0:
                go_on(events + [event])

    go_on([])
    return (racy, hangs, outcomes) if left[0] > 0 else None


def is_every_path(seed, most):
    """Whether the enumeration finds what every path shows. None where there are too many paths."""
    script = scripts.draw(seed)
    wanted = every_path(script, most)
    if wanted is None:
        return None
    found = enumerate_all(script)
    racy, hangs, outcomes = wanted
    return racy if found.race is not None else (False, found.hang is not None, found.outcomes) == (racy, hangs, outcomes)


def damages(script, found, detail):
    """The text of what was found, damaged: what is wrong with it, and the text."""
    lines = texts.write(script, found, detail).splitlines()

    def without(place):
        return lines[:place] + lines[place + 1:]

    if found.race is not None:
        race = lines.index("race")
        yield "race-free", ["verdict race-free under every schedule", "outcomes 0", "hangs never", lines[-1]]
        yield "a hang without events", [*lines[:-1], "hangs", lines[-1]]
        yield "a schedule cut short", without(race - 1)
        yield "events missing at its beginning", lines[:1] + lines[2:]
        yield "a race without a schedule", without(race + 3)
        yield "one event for both", lines[:race + 1] + [lines[race + 2]] * 2 + lines[race + 3:]
        yield from allowed_damages(script, lines, found, detail)
        return
    yield "racy", ["verdict racy", *lines[2:]]
    yield "given up", ["verdict undecided", *lines[1:]]
    yield "outcomes so far", [lines[0], lines[1] + " so far", *lines[2:]]
    count = len(texts.results_of(script, found.outcomes, detail))
    for other in texts.DETAILS:
        if (told := texts.write(script, found, other).splitlines()) != lines:
            yield f"told by {other}", told
    if count:
        yield "an outcome left out", [lines[0], f"outcomes {count - 1}", *lines[3:]]
        yield "an outcome without a schedule", [*lines[:2], lines[2].removesuffix(f" {texts.SOME}"), *lines[3:]]
        yield "an outcome twice", [lines[0], f"outcomes {count + 1}", lines[2], *lines[2:]]
        yield "another word", [*lines[:2], lines[2].replace("words ", "words 1", 1), *lines[3:]]
    if count > 1:
        yield "another order", [*lines[:2], lines[3], lines[2], *lines[4:]]
    if found.hang is None:
        yield "a hang", [("hangs" if line == "hangs never" else line) for line in lines]
        yield "hangs given up", [("hangs undecided" if line == "hangs never" else line) for line in lines]
    else:
        place = lines.index("hangs")
        yield "no hang", lines[:place] + ["hangs never", lines[-1]]
        yield "hangs given up", lines[:place] + ["hangs undecided", lines[-1]]
        yield "a hang that can go on", without(len(lines) - 3 - len([it for it in lines if it.startswith("processor ")]))
        yield "a wait left out", without(len(lines) - 3)
        yield "a hang without a schedule", without(len(lines) - 2)


def allowed_damages(script, lines, found, detail):
    """The text of a racy script, damaged where it tells what the rules allow."""
    place = next(it for it, line in enumerate(lines) if line.endswith(" by the rules") or line.endswith(" so far"))
    front, told, last = lines[:place], lines[place + 1:-1], lines[-1]
    starts = [it for it, line in enumerate(told) if line.startswith("  words")]
    first, rest = told[:(*starts, len(told))[1]] if starts else [], told[(*starts, len(told))[1]:] if starts else []
    yield "the rules not told", front
    yield "no beginnings", front + [lines[place], *told]
    if found.allowed:
        yield "allowed so far", [*front, lines[place] + " so far", *told, last]
        yield "an allowed outcome left out", [*front, f"outcomes {len(starts) - 1} by the rules", *rest, last]
        yield "an allowed outcome twice", [*front, f"outcomes {len(starts) + 1} by the rules", *first, *told, last]
        yield "another allowed word", [*front, lines[place], first[0].replace("words ", "words 1", 1), *first[1:], *rest, last]
    if found.allowed and texts.shown_results(script, found, detail) is not None:
        is_shown = first[0].endswith(texts.SOME)
        other = first[0].removesuffix(texts.SOME if is_shown else "by the rules alone")
        answers = [] if is_shown else first[1:]
        yield "shown, or not", [*front, lines[place], other + ("by the rules alone" if is_shown else texts.SOME), *rest, last]
        yield "undecided", [*front, lines[place], other + "schedule undecided", *rest, last]
        if answers:
            yield "another answer", [*front, lines[place], first[0], answers[0] + "1", *answers[1:], *rest, last]


def is_refused(script, found, lines, detail):
    """Whether the damaged text is refused."""
    try:
        texts.judge(script, found, "".join(line + "\n" for line in lines), detail)
    except texts.Wrong:
        return True
    return False


def is_judged(seed):
    """Whether the right text of a drawn script is let through, by each detail, and each damaged one is refused."""
    script = scripts.draw(seed)
    found = enumerate_all(script)
    found.allowed = all_allowed(script, 500)
    found.shown = all_shown(script, 1000)
    for detail in texts.DETAILS:
        try:
            texts.judge(script, found, texts.write(script, found, detail), detail)
        except texts.Wrong:
            return False
        if not all(is_refused(script, found, lines, detail) for _, lines in damages(script, found, detail)):
            return False
    return True


def trials():
    """What is tried, and whether it held."""
    for row in BY_HAND:
        yield f"by hand: {row[0]}", is_as_by_hand(row)
    for detail in texts.DETAILS:
        yield f"{detail} by hand", is_told_as_by_hand(detail)
    for row in ALLOWED:
        yield f"allowed by hand: {row[0]}", is_allowed_as_by_hand(row)
    for row in SHOWN:
        yield f"shown by hand: {row[0]}", is_shown_as_by_hand(row)
    for row in RUNS:
        yield f"a run by the rules: {row}", is_run_as_by_hand(row)
    for word in (0, 1, 2):
        yield f"never {word} by the rules", is_never_as_by_hand({0: word}, word != 1)
    for seed in range(200):
        yield f"a walk of script {seed}", is_one_walk(seed)
    for seed in range(100):
        held = is_every_path(seed, 1000)
        if held is not None:
            yield f"every path of script {seed}", held
    for seed in range(100):
        held = is_allowed_as_flat(seed)
        if held is not None:
            yield f"allowed as flat of script {seed}", held
    for seed in range(100):
        yield f"texts of script {seed}", is_judged(seed)
