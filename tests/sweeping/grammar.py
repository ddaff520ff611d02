"""A plain slow reader of scripts, written over the grammar of docs/SCRIPTS.md: each line is looked at behind all
lines before it, as they stand there, by the rows of the faults' table one after the other."""
import functools
import re
from typing import NamedTuple

TRUNCATED, UNEVEN = "file ends too early", "number of barriers differs"
# How many numbers an instruction has.
NUMBERS = {b"load": 1, b"store": 2, b"add": 2, b"acquire": 1, b"release": 1, b"barrier": 0, b"set": 1, b"await": 1,
           b"cut": 0}


class Sizes(NamedTuple):
    processors: int
    pages: int
    words: int
    locks: int
    flags: int


class Front(NamedTuple):
    """The lines before a line, none of which has a fault, and the sizes in the first."""
    lines: list
    sizes: Sizes

    def sections(self):
        """How many sections have begun."""
        return sum(line[0] == b"p" for line in self.lines)

    def section(self):
        """The instructions of the last section, the last one first."""
        for line in reversed(self.lines):
            if line[0] == b"p":
                return
            yield line

    def holds(self, lock):
        """Whether the last section holds the lock of this word."""
        for keyword, *words in self.section():
            if words == [lock] and keyword in (b"acquire", b"release"):
                return keyword == b"acquire"
        return False


@functools.lru_cache(maxsize=None)
def number(word):
    """The number of a word; None where it is none."""
    if re.fullmatch(rb"0|[1-9][0-9]*", word) is None or int(word) > 4294967295:
        return None
    return int(word)


def sizes_of(line):
    """The sizes of a `cluster` line; None where one is out of range."""
    numbers = [number(word) for word in line[1:]]
    ranges = ((1, 16), (1, 64), (1, 64), (0, 32), (1, 32))
    if not all(it is not None and least <= it <= most for it, (least, most) in zip(numbers, ranges)):
        return None
    return Sizes(*numbers, *[0] * (5 - len(numbers)))


def has_wrong_words(front, line):
    """The first word, the number of words or the separation isn't one that is allowed at this point."""
    keyword, *words = line
    if b"" in line:
        return True
    if not front.lines:
        return keyword != b"cluster" or len(words) not in (4, 5)
    if front.lines[-1][0] == b"show":
        return True
    if keyword == b"p":
        return len(words) != 1
    if keyword == b"show":
        return front.sections() != front.sizes.processors or not words
    return len(front.lines) == 1 or NUMBERS.get(keyword) != len(words)


def has_no_number(front, line):
    return any(number(word) is None for word in line[1:])


def is_wrong_section(front, line):
    """The number of a `p` line isn't the next one, or there is no next one."""
    if line[0] != b"p":
        return False
    due = front.sections()
    return due == front.sizes.processors or number(line[1]) != due


def is_wrong_size(front, line):
    return not front.lines and sizes_of(line) is None


def names(front, line, keywords, limit):
    """Whether the line begins with one of the words, and its first number isn't below the limit."""
    return line[0] in keywords and number(line[1]) >= limit(front.sizes)


def is_out_of_range(front, line):
    if line[0] == b"show":
        return any(number(word) >= front.sizes.pages * front.sizes.words for word in line[1:])
    return names(front, line, (b"load", b"store", b"add"), lambda sizes: sizes.pages * sizes.words)


def is_no_lock(front, line):
    return names(front, line, (b"acquire", b"release"), lambda sizes: sizes.locks)


def is_no_flag(front, line):
    return names(front, line, (b"set", b"await"), lambda sizes: sizes.flags)


def is_already_held(front, line):
    return line[0] == b"acquire" and front.holds(line[1])


def is_not_held(front, line):
    return line[0] == b"release" and not front.holds(line[1])


def is_too_long(front, line):
    if line[0] == b"show":
        return len(line) > 65
    return line[0] in NUMBERS and sum(1 for _ in front.section()) >= 10000


# The faults that a whole line can have, in their order.
ROWS = (
    (has_wrong_words, "line not understood"),
    (has_no_number, "bad number"),
    (is_wrong_section, "line not understood"),
    (is_wrong_size, "size out of range"),
    (is_out_of_range, "address out of range"),
    (is_no_lock, "no such lock"),
    (is_no_flag, "no such flag"),
    (is_already_held, "lock already held"),
    (is_not_held, "lock not held"),
    (is_too_long, "too many"),
)
FAULTS = [TRUNCATED, *dict.fromkeys(fault for _, fault in ROWS), UNEVEN]


def fault_of(front, line):
    """The first fault of a line; None where it has none."""
    return next((fault for has, fault in ROWS if has(front, line)), None)


def barriers(lines):
    """How many barriers each section has, with the number of its first line."""
    counts = []
    for place, line in enumerate(lines):
        if line[0] == b"p":
            counts.append([place + 1, 0])
        elif line[0] == b"barrier":
            counts[-1][1] += 1
    return counts


def uneven(lines):
    """The line of the first section that has another number of barriers than the first one; None where none has."""
    counts = barriers(lines)
    return next((place for place, count in counts if count != counts[0][1]), None)


def read(text):
    """None where the bytes are a lawful script's text. Else the number of the first line with a fault, and that."""
    *whole, rest = text.split(b"\n")
    lines = [line.split(b" ") for line in whole]
    sizes = None
    for place, line in enumerate(lines):
        fault = fault_of(Front(lines[:place], sizes), line)
        if fault is not None:
            return place + 1, fault
        sizes = sizes or sizes_of(line)
    if rest or not lines or lines[-1][0] != b"show":
        return len(lines) + 1, TRUNCATED
    place = uneven(lines)
    return None if place is None else (place, UNEVEN)
