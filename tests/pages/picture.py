"""What the picture of `pages --svg` tells, read back from its file, and what it has to tell by the plain rule."""
import re
import xml.etree.ElementTree as ElementTree
from collections import Counter
from typing import NamedTuple

from rule import eager_of, fetches_of, is_useless, row_of, top_of, words_of

SVG = "{http://www.w3.org/2000/svg}"
WIDTH = 900
# How long the longest bar of each unit is.
REACH = {"messages": 350, "words": 200}
BAR = re.compile(r"page words (\d+)(, eager)?, (messages|words), ([a-z ]+): (\d+)")
CELL = re.compile(r"page (\d+), processor (\d+): stores (\d+), loads (\d+)")
PAGE = re.compile(r"page (\d+): fetches (\d+), useless (\d+), words (\d+)")
STRENGTHS = (("few", 1), ("some", 10), ("many", 100), ("", 1000))


class Area(NamedTuple):
    """A rectangle, by its class."""
    looks: str
    x: int
    y: int
    width: int
    height: int


class Cell(NamedTuple):
    """What a processor does on a page."""
    page: int
    processor: int
    stores: int
    loads: int


class Drawn(NamedTuple):
    """What a picture tells: each part of a bar by page words, whether it is eager, unit and name; pages; and cells."""
    bars: dict
    pages: list
    cells: list


def areas_of(element):
    """The rectangles right in an element."""
    return [Area(rect.get("class"), *(int(rect.get(key)) for key in ("x", "y", "width", "height")))
            for rect in element.findall(f"{SVG}rect")]


def strength(count):
    """The word for so many accesses."""
    return [word for word, least in STRENGTHS if count >= least][-1]


def cell_of(match, areas):
    """The cell that a title tells; its rectangles have to show just that."""
    cell = Cell(*map(int, match.groups()))
    wanted = [f"{name} {strength(count)}".strip() for name, count in (("store", cell.stores), ("load", cell.loads)) if count]
    if [area.looks for area in areas] != wanted:
        raise ValueError(f"{cell} is drawn as {areas}")
    return cell


def bars_are_apart(areas):
    """Whether no part of a bar covers another one, and all lie within the picture."""
    by_row = {}
    for area in areas:
        by_row.setdefault((area.y, area.x >= 560), []).append(area)
    for row in by_row.values():
        row.sort(key=lambda area: area.x)
        if any(one.x + one.width > other.x for one, other in zip(row, row[1:])):
            return False
    return all(area.width > 0 and area.x + area.width < WIDTH for area in areas)


def bars_are_true(bars, areas):
    """Whether each part of a bar is as long as its count says, within two pixels; a short one is a pixel long at least."""
    sums = Counter()
    for (words, eager, unit, _), count in bars.items():
        sums[words, eager, unit] += count
    for key, count in bars.items():
        unit = key[2]
        wanted = count * REACH[unit] / max(total for other, total in sums.items() if other[2] == unit)
        if len(areas[key]) != 1 or abs(areas[key][0].width - max(wanted, 1)) > 2:
            return False
    return True


def drawn_in(text):
    """What the picture in this file tells."""
    root = ElementTree.fromstring(text)
    height = int(root.get("height"))
    if root.get("viewBox") != f"0 0 {WIDTH} {height}":
        raise ValueError("the picture's size and its view differ")
    bars, pages, cells, parts = {}, [], [], {}
    for group in root.findall(f"{SVG}g"):
        title = group.find(f"{SVG}title").text
        areas = areas_of(group)
        if match := BAR.fullmatch(title):
            words, eager, unit, name, count = match.groups()
            key = int(words), bool(eager), unit, name
            bars[key], parts[key] = int(count), areas
        elif match := CELL.fullmatch(title):
            cells.append(cell_of(match, areas))
        elif match := PAGE.fullmatch(title):
            page = tuple(map(int, match.groups()))
            marks = len(group.findall(f"{SVG}use"))
            if marks != (page[2] > 0):
                raise ValueError(f"page {page} has {marks} marks")
            pages.append(page)
        else:
            raise ValueError(f"what is {title}?")
        if any(area.y + area.height > height for area in areas):
            raise ValueError(f"{title} is out of the picture")
    if not bars_are_apart([area for areas in parts.values() for area in areas]):
        raise ValueError("parts of bars cover each other")
    if not bars_are_true(bars, parts):
        raise ValueError("parts of bars are longer or shorter than their counts")
    return Drawn(bars, pages, cells)


def useless_words(events, page_words):
    """How many words useless fetches bring."""
    fetches = list(fetches_of(events, page_words))
    return sum(words_of(fetch) for fetch in fetches if is_useless(fetch, fetches, events, page_words))


def bars_of(events, page_words, has_eager):
    """The parts of the bars of one page size."""
    row, useless = row_of(events, page_words), useless_words(events, page_words)
    parts = {(False, "messages", name): getattr(row, name) for name in ("locks", "flags", "barrier", "fetch")}
    parts |= {(False, "words", "useful"): row.words - useless, (False, "words", "useless"): useless}
    if has_eager:
        eager = eager_of(events, page_words)
        parts |= {(True, "messages", name): getattr(eager, name) for name in ("locks", "flags", "barrier", "notices", "fetch")}
        parts[True, "words", "whole pages"] = eager.words
    return {(page_words, *key): count for key, count in parts.items() if count}


def cells_of(events, page_words, pages):
    """What each processor does on these pages, in their order."""
    counts = Counter((event.numbers[0] // page_words, event.by, event.kind) for event in events if event.kind in ("load", "store"))
    processors = sorted({event.by for event in events})
    cells = [Cell(page, by, counts[page, by, "store"], counts[page, by, "load"]) for page in pages for by in processors]
    return [cell for cell in cells if cell.stores or cell.loads]


def wanted_of(events, sizes, most, has_eager):
    """What the picture has to tell."""
    bars = {}
    for size in sizes:
        bars |= bars_of(events, size, has_eager)
    pages = [page[:4] for page in top_of(events, sizes[0], most)]
    return Drawn(bars, pages, cells_of(events, sizes[0], [page[0] for page in pages]))


def sums(bars, page_words, unit):
    """What the parts of a bar of this size and unit come to, under lazy release consistency."""
    return sum(count for key, count in bars.items() if key[:3] == (page_words, False, unit))
