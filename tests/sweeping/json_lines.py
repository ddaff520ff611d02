"""The lines of JSON that the program prints with --json, and the text that they stand for."""
import json

from flaw import expect
from schedules import Event

# What an event's line has behind its kind, by name.
NAMES = {"load": ("address", "value"), "store": ("address", "value"),
         "fetch": ("page", "writers", "records", "words"), "ask": ("lock",), "acquire": ("lock",), "release": ("lock",),
         "arrive": (), "depart": (), "set": ("flag",), "watch": ("flag",), "await": ("flag",)}
# Of how many words that aren't guarded the text tells two lines.
WORDS = 8
NO_VERDICTS = {"race-free": "verdict race-free under every schedule", "undecided": "verdict undecided"}


def objects_of(output):
    """The objects, one a line, each with just one member of a name."""
    def once(members):
        expect(len(dict(members)) == len(members), f"no two members have one name: {members}")
        return dict(members)

    expect(output.endswith("\n"), "the last line ends")
    return [json.loads(line, object_pairs_hook=once) for line in output.splitlines()]


def event_of(told):
    """An event, of which nothing is left out and nothing else is said."""
    names = NAMES[told["kind"]]
    expect(set(told) - {"label"} == {"place", "processor", "kind", *names}, f"that is an event: {told}")
    return Event(told["processor"], told["kind"], tuple(told[name] for name in names))


def line_of(told):
    return event_of(told).line(told["place"]) + ("  " + told["label"] if "label" in told else "")


def results_of(told):
    """Shown words and replies, as `sample` and `explore` print them."""
    words = [f"{it['address']} {it['word']}" for it in told["words"]]
    replies = [" ".join(map(str, [f"p{it['processor']}", *it["words"]])) for it in told["replies"]]
    return " ".join(["words", *words, *["replies", *replies] * bool(replies)])


def sample_text(objects):
    """The text of `sample`."""
    *results, end = objects
    expect(end["told"] == "end" and end["results"] == len(results), f"that is the end: {end}")
    yield f"runs {end['runs']}"
    yield f"verdicts race-free {end['race_free']} racy {end['racy']} stuck {end['stuck']}"
    for it in results:
        expect(it["told"] == "result", f"that is a result: {it}")
        stuck = it["verdict"] == "stuck"
        shown = f"stuck {it['processor']}" if stuck else f"{it['verdict']} {results_of(it)}"
        yield f"result {it['runs']} {shown} schedule {it['schedule']}"


def wait_line(wait):
    """How the line on who waits begins."""
    what = f"for lock {wait['lock']}" if "lock" in wait else f"for flag {wait['flag']}" if "flag" in wait else "at the barrier"
    return f"processor {wait['processor']} waits {what}"


def step_line(step):
    """A line of the script, or a section's end, and the locks that are held there."""
    place = f"line {step['line']} p{step['processor']} {step['text']}" if "line" in step else f"end p{step['processor']}"
    return " ".join(["   ", place, *["holds", *map(str, step["holds"])] * bool(step["holds"])])


def open_text(unguarded, unranked):
    """What the text leaves open, as `explore` prints it: words, of which the first are told, and locks."""
    if unguarded:
        yield f"unguarded {len(unguarded)}"
        for it in unguarded[:WORDS]:
            yield from [f"  word {it['word']}", step_line(it["first"]), step_line(it["second"])]
        if len(unguarded) > WORDS:
            yield f"  and {len(unguarded) - WORDS} more"
    for it in unranked:
        yield "unranked"
        if "circle" in it:
            yield from ["  circle", *map(step_line, it["circle"])]
        if "wait" in it:
            yield from ["  wait", step_line(it["wait"])]


def explore_text(objects):
    """The text of `explore`, of lines on who waits only how they begin."""
    *others, end = objects
    by = {name: [it for it in others if it["told"] == name]
          for name in ("race", "outcome", "hang", "unguarded", "unranked", "allowed", "rules")}
    expect(end["told"] == "end" and sum(map(len, by.values())) == len(others), f"that is the end: {end}")
    hangs = [line for hang in by["hang"]
             for line in ["hangs", *map(line_of, hang["events"]), *map(wait_line, hang["waits"]), f"  schedule {hang['schedule']}"]]
    if end["verdict"] == "racy":
        [race] = by["race"]
        yield from ["verdict racy", *map(line_of, race["events"]), "race",
                    *(line_of(race["events"][race[name]]) for name in ("first", "second")), f"  schedule {race['schedule']}", *hangs]
        yield f"states {end['states']}"
        yield from allowed_text(by["allowed"], *by["rules"])
    else:
        expect(end["outcomes"] == len(by["outcome"]), f"each outcome is told: {end}")
        yield NO_VERDICTS[end["verdict"]]
        yield f"outcomes {end['outcomes']}" + " so far" * (not end["all"])
        yield from (f"  {results_of(it)} schedule {it['schedule']}" for it in by["outcome"])
        expect((end["hangs"] == "hangs") == bool(hangs), f"the hang is told: {end}")
        yield from hangs or [f"hangs {end['hangs']}"]
        yield f"states {end['states']}"
        yield from open_text(by["unguarded"], by["unranked"])


def allowed_lines(outcome):
    """The lines of an outcome that the rules allow."""
    alone = outcome.get("alone", False)
    expect(("answers" in outcome) == alone and not (alone and "schedule" in outcome), f"a schedule, or answers: {outcome}")
    end = "by the rules alone" if alone else f"schedule {outcome.get('schedule', 'undecided')}"
    yield f"  {results_of(outcome)} {end}"
    for it in outcome.get("answers", []):
        yield f"    {line_of(it['load'])} answers {line_of(it['store']) if 'store' in it else 'no store'}"


def allowed_text(allowed, rules):
    """What the rules allow of a racy script, as `explore` prints it."""
    expect(rules["outcomes"] == len(allowed), f"each allowed outcome is told: {rules}")
    yield f"outcomes {rules['outcomes']} by the rules" + " so far" * (not rules["all"])
    for it in allowed:
        yield from allowed_lines(it)
    yield f"beginnings {rules['beginnings']}"


def why(lie):
    """Why an event is a lie, as `check` prints it."""
    if lie["reason"] == "form":
        return [f"because {lie['because']}"]
    if lie["reason"] == "count":
        return ["because the fetch has to count {writers} writers, {records} records and {words} words".format(**lie)]
    stores = [line_of(it) for it in lie["stores"]]
    zero = "0, or " * lie["zero"]
    return [f"because it may answer {zero}only what was stored by", *stores] if stores else [
        "because it may answer 0 alone"]


def word_line(word):
    """The line of a word that needs a lock and has none: at times, or never."""
    def made(event):
        return f"event {event['place']} by p{event['processor']}"

    guarded = word.get("guarded", [])
    expect({event_of(it).numbers[0] for it in (word["first"], word["second"], *guarded)} == {word["address"]},
           f"all are accesses of the word: {word}")
    bare = f"{word['address']}: {made(word['first'])} and {made(word['second'])} hold no lock in common"
    if word["told"] == "handed":
        expect("guarded" not in word and "lock" not in word, f"no accesses of the word hold a lock: {word}")
        return f"handed over {bare}"
    one, other = guarded
    return f"unprotected {bare}; events {one['place']} and {other['place']} hold lock {word['lock']}"


def waiting_lines(end):
    """The lines on who waits in vain at the end."""
    for it in end.get("waits", []):
        absent = ", ".join(f"p{who}" for who in it.get("absent", []))
        yield f"waits p{it['processor']} " + (
            f"for lock {it['lock']}, held by p{it['holder']}" if "lock" in it
            else f"for flag {it['flag']}, which nobody has set" if "flag" in it else f"at the barrier for {absent}")
    for circle in end.get("circles", []):
        yield f"circle {', '.join(f'p{it}' for it in circle)}"


def check_text(objects):
    """The text of `check`, but for the sentences on a race."""
    *others, end = objects
    words = [it for it in others if it["told"] in ("unprotected", "handed")]
    others = [it for it in others if it not in words]
    by = {it["told"]: it for it in others}
    expect(end["told"] == "end" and list(by) == [it for it in ("race", "lie") if it in by] and len(by) == len(others),
           f"first comes the race, then the lie, then the end: {objects}")
    expect(end["racy"] == ("race" in by) and (end.get("faithful") is False) == ("lie" in by), f"that is the end: {end}")
    yield f"events {end['events']}"
    if end["model"] != "lazy-release":
        yield f"model {end['model']}"
    race = [f"verdict racy\n{line_of(by['race']['first'])}\n{line_of(by['race']['second'])}"] if "race" in by else []
    if end.get("faithful"):
        yield from ["faithful", *["unjudged counts order"] * (end["lax"] and end["model"] == "lazy-release"),
                    *[f"unjudged {end['unjudged']} loads"] * (end["model"] == "race-free" and end["racy"]),
                    *(race or ["verdict race-free"]), *map(word_line, words), *waiting_lines(end),
                    "traffic {messages} {records} {words}".format(**end["traffic"])]
        return
    yield from race
    if "lie" in by:
        yield from [f"unfaithful {by['lie']['event']['place']}", line_of(by["lie"]["event"]), *why(by["lie"])]


def expect_same(text, output, begins=False):
    """That the text is what was printed; of lines on who waits how they begin, where that is asked for."""
    told, printed = "\n".join(text).split("\n"), output.splitlines()
    same = len(told) == len(printed) and all(
        other.startswith(line) if begins and line.startswith("processor ") else other == line
        for line, other in zip(told, printed))
    expect(same, f"the JSON stands for\n{chr(10).join(told)}\nwhere this is printed:\n{output}")
