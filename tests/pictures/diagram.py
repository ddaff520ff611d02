"""What stands in a picture's file, read back from it: lanes, marks, arrows, edges, bars, the race, and words."""
import re
import xml.etree.ElementTree as xml
from dataclasses import dataclass

from flaw import Flaw

SPACE = "{http://www.w3.org/2000/svg}"
# How a picture is laid out, in pixels: from a row to the next; where bars and arrows are beside their marks.
ROW, HALF, CHANNEL, TIP, PAST = 24, 12, 18, 6, 10
ARROW = re.compile(r"M(\d+) (\d+)V(\d+)H(\d+)V(\d+)H(\d+)")
EDGE = re.compile(r"M(\d+) (\d+)(?:L|Q\d+ \d+ )(\d+) (\d+)")
TITLE = re.compile(r"event (\d+) \(p(\d+): (.*)\)")
READS = re.compile(r"event (\d+) answers event (\d+)")


@dataclass(frozen=True)
class Mark:
    """A mark, by the event that its file says it is of."""
    number: int
    processor: int
    label: str
    shape: str
    is_stale: bool
    note: str


@dataclass(frozen=True)
class Diagram:
    title: str
    head: str
    lanes: dict  # of each place across its processor
    marks: dict  # of each point its mark
    arrows: tuple  # of each its class, and the two points
    edges: tuple  # of each the two points, and the two numbers that it names
    bars: tuple  # of each how far down it is, and where it begins and ends
    race: tuple  # the two points, where it is drawn
    crosses: dict  # of each point its words


def classes(element):
    return (element.get("class") or "").split()


def point(element, x="x", y="y"):
    return int(element.get(x)), int(element.get(y))


def words(element):
    return "".join(element.itertext())


def expect_form(found, what):
    """What a pattern found; a flaw where it found nothing."""
    if not found:
        raise Flaw(f"it doesn't hold that the file has {what} as it should be")
    return found


def mark_of(group):
    """The point and the mark of an event's group."""
    title, _, note = words(group.find(f"{SPACE}title")).partition("\n")
    number, processor, label = expect_form(TITLE.fullmatch(title), f"a title, not {title!r},").groups()
    uses = group.findall(f"{SPACE}use")
    texts = group.findall(f"{SPACE}text")
    mark = next(use for use in uses if "mark" in classes(use))
    shown = [words(text) for text in texts if "number" in classes(text)]
    labels = [words(text) for text in texts if "number" not in classes(text)]
    if shown != [number] or labels not in ([label], [f"p{processor} {label}"]):
        raise Flaw(f"it doesn't hold that {title!r} is shown so: {shown}, {labels}")
    if any(point(use) != point(mark) for use in uses) or any(text.get("y") != mark.get("y") for text in texts):
        raise Flaw(f"it doesn't hold that all that is of {title!r} is at one place")
    return point(mark), Mark(int(number), int(processor), label, mark.get("href")[1:],
                             any("stale" in classes(use) for use in uses), note)


def arrow_of(path):
    """An arrow's class and its two points."""
    x, y, down, across, to_y, tip = map(int, expect_form(ARROW.fullmatch(path.get("d")), "an arrow's way").groups())
    if down != y + HALF or across + CHANNEL != tip + TIP:
        raise Flaw(f"it doesn't hold that an arrow goes so: {path.get('d')}")
    return path.get("class"), (x, y), (across + CHANNEL, to_y)


def edge_of(group):
    """The two points of an edge, and the two numbers that it names."""
    load, store = expect_form(READS.fullmatch(words(group.find(f"{SPACE}title"))), "an edge's title").groups()
    ends = {tuple(map(int, expect_form(EDGE.fullmatch(path.get("d")), "an edge's way").groups()))
            for path in group.findall(f"{SPACE}path")}
    if len(ends) != 1:
        raise Flaw("it doesn't hold that an edge goes one way")
    x, y, to_x, to_y = ends.pop()
    return (x, y), (to_x, to_y), int(store), int(load)


def cross_of(group):
    """The point and the words of a processor that waits."""
    cross = next(use for use in group.findall(f"{SPACE}use") if "waiting" in classes(use))
    return point(cross), words(group.find(f"{SPACE}text"))


def has_use(group, name):
    return any(name in classes(use) for use in group.findall(f"{SPACE}use"))


def parse(svg):
    """The diagram of an element `svg`."""
    groups = [group for group in svg.findall(f"{SPACE}g") if "legend" not in classes(group)]
    own = [(element, set(classes(element))) for element in svg]
    heads = [element for element, names in own if "head" in names]
    lanes = [element for element, names in own if "lane" in names]
    if [head.get("x") for head in heads] != [lane.get("x1") for lane in lanes]:
        raise Flaw("it doesn't hold that each lane has a head")
    marks = [mark_of(group) for group in groups if has_use(group, "mark")]
    race = [element for element, names in own if "race" in names]
    return Diagram(
        words(svg.find(f"{SPACE}title")),
        next(words(element) for element, names in own if "title" in names),
        {int(head.get("x")): int(words(head).removeprefix("processor ").removeprefix("p")) for head in heads},
        dict(marks),
        tuple(arrow_of(element) for element, names in own if names & {"lock", "flag"}),
        tuple(edge_of(group) for group in groups if "reads" in classes(group)),
        tuple((int(bar.get("y1")), int(bar.get("x1")), int(bar.get("x2"))) for bar, names in own if "barrier" in names),
        (point(race[0], "x1", "y1"), point(race[0], "x2", "y2")) if race else None,
        dict(cross_of(group) for group in groups if has_use(group, "waiting")),
    )


def read(text):
    """The diagram of a file's text."""
    try:
        return parse(xml.fromstring(text))
    except xml.ParseError as fault:
        raise Flaw(f"it doesn't hold that the file is one of XML: {fault}") from None
