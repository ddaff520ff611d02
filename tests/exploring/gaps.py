"""What the text of a script leaves open, by plain slow rules, beside what `explore --most 0` tells of it."""
import re
from itertools import combinations, groupby

import scripts
import texts

LINE = re.compile(r"    line ([0-9]+) p([0-9]+) ([a-z 0-9]+?)(?: holds ([0-9 ]+))?")
END = re.compile(r"    end p([0-9]+) holds ([0-9]+)")
# How many words are told one by one.
TOLD = 8


class Access:
    """An access that a line of the script makes, with what the text says of where it stands."""

    def __init__(self, line, processor, place, instruction, phase, locks):
        self.line, self.processor, self.place, self.instruction = line, processor, place, instruction
        self.phase, self.locks, self.word, self.stores = phase, locks, instruction[1], instruction[0] != "load"

    def may_meet(self, other):
        """Whether neither a barrier nor a lock keeps them apart, and they conflict."""
        return (self.processor != other.processor and self.word == other.word and (self.stores or other.stores)
                and self.phase == other.phase and not self.locks & other.locks)


def walk(script):
    """Of each instruction its line, its processor, its place in the section, itself, the phase and the locks before it."""
    line = 1
    for processor, section in enumerate(script.sections):
        line += 1
        phase, locks = 0, set()
        for place, instruction in enumerate(section):
            line += 1
            yield line, processor, place, instruction, phase, frozenset(locks)
            if instruction[0] == "barrier":
                phase += 1
            elif instruction[0] == "acquire":
                locks.add(instruction[1])
            elif instruction[0] == "release":
                locks.discard(instruction[1])


def accesses(script):
    return [Access(*at) for at in walk(script) if at[3][0] in ("load", "store", "add")]


def comes_before(script, processor, place):
    """Of each processor the first place that comes after this one whatever the order: behind an await of a flag that is set only after it."""
    first = {it: len(section) for it, section in enumerate(script.sections)}
    first[processor] = place + 1
    sets = [(at[1], at[2], at[3][1]) for at in walk(script) if at[3][0] == "set"]
    known = None
    while known != first:
        known = dict(first)
        for _, waiter, stands, instruction, _, _ in walk(script):
            if instruction[0] == "await" and all(known[who] <= where for who, where, flag in sets if flag == instruction[1]):
                first[waiter] = min(first[waiter], stands + 1)
    return first


def are_ordered(script, one, other):
    return (comes_before(script, one.processor, one.place)[other.processor] <= other.place
            or comes_before(script, other.processor, other.place)[one.processor] <= one.place)


def open_pairs(script):
    """Of each word the pairs that neither a barrier nor a lock keeps apart."""
    pairs = {}
    for one, other in combinations(accesses(script), 2):
        if one.may_meet(other):
            pairs.setdefault(one.word, []).append((one, other))
    return pairs


def asks(script):
    """Of each acquire the locks held and the lock asked for, with its line."""
    return {(line, held, instruction[1]) for line, _, _, instruction, _, locks in walk(script) if instruction[0] == "acquire" for held in locks}


def has_circle(script):
    return scripts.has_circle({(held, asked) for _, held, asked in asks(script)})


def waits(script):
    """Lines of waits, and processors at whose end a lock is held, each with the locks that are held there."""
    found = {(line, None): locks for line, _, _, instruction, _, locks in walk(script) if instruction[0] in ("barrier", "await") and locks}
    for processor, section in enumerate(script.sections):
        locks = set()
        for instruction in section:
            if instruction[0] == "acquire":
                locks.add(instruction[1])
            elif instruction[0] == "release":
                locks.discard(instruction[1])
        if locks:
            found[(None, processor)] = locks
    return found


def read_line(script, line):
    """The line's number, processor and locks. Its text has to be the script's."""
    told = LINE.fullmatch(line)
    if not told or script.text().splitlines()[int(told[1]) - 1] != told[3]:
        raise texts.Wrong(f"{line!r} is no line of the script")
    return int(told[1]), int(told[2]), frozenset(map(int, (told[4] or "").split()))


def judge_words(script, lines):
    """The words that are told, each with two lines."""
    pairs = open_pairs(script)
    number = int(lines[0].removeprefix("unguarded "))
    told = {}
    for head, first, second in zip(lines[1::3], lines[2::3], lines[3::3]):
        told[int(head.removeprefix("  word "))] = (read_line(script, first), read_line(script, second))
    rest = f"  and {number - TOLD} more" if number > TOLD else None
    if len(told) != min(number, TOLD) or list(told) != sorted(told) or (lines[1 + 3 * len(told):] != ([rest] if rest else [])):
        raise texts.Wrong(f"{lines} of {number} words")
    for word, (first, second) in told.items():
        named = [(one, other) for one, other in pairs.get(word, []) if (one.line, other.line) == (first[0], second[0])]
        if not named or (named[0][0].locks, named[0][1].locks) != (first[2], second[2]):
            raise texts.Wrong(f"word {word} is told with {first} and {second}, where {len(pairs.get(word, []))} pairs are open")
        one, other = named[0]
        if are_ordered(script, one, other) and not all(are_ordered(script, *it) for it in pairs[word]):
            raise texts.Wrong(f"word {word} is told with {first} and {second}, which a flag keeps apart")
    unsure = {word for word, them in pairs.items() if all(are_ordered(script, *it) for it in them)}
    missed = set(pairs) - unsure - set(told)
    if number <= TOLD and missed:
        raise texts.Wrong(f"words {sorted(missed)} aren't told")
    return number


def judge_circle(script, lines):
    """The lines of asks that go in a circle."""
    known = asks(script)
    told = [(read_line(script, line), int(line.split(" holds ")[0].rsplit(" ", 1)[1])) for line in lines]
    steps = [(at[0], min(at[2]), asked) for at, asked in told]
    if not steps or not set(steps) <= known or any(after[1] != before[2] for before, after in zip(steps, steps[1:] + steps[:1])):
        raise texts.Wrong(f"{lines} is no circle")


def judge_wait(script, lines):
    """The line of a wait while a lock is held."""
    ended = END.fullmatch(lines[0])
    if ended:
        place, lock = (None, int(ended[1])), int(ended[2])
    else:
        at = read_line(script, lines[0])
        place, lock = (at[0], None), min(at[2])
    if len(lines) != 1 or lock not in waits(script).get(place, ()):
        raise texts.Wrong(f"{lines} is no wait with a lock held")


def judge(script, lines, count):
    """What is told after `states N` of a search that was given up before its first state."""
    verdict, hangs = lines[0], next((line for line in lines if line.startswith("hangs")), None)
    after = lines[next(place for place, line in enumerate(lines) if line.startswith("states ")) + 1:]
    words = [line for line in after if not line.startswith("unranked")] if "unranked" not in after else after[:after.index("unranked")]
    locks = after[after.index("unranked") + 1:] if "unranked" in after else []
    if (verdict == "verdict undecided") != bool(words) and (words or verdict == "verdict undecided"):
        raise texts.Wrong(f"{verdict} with {words}")
    if words:
        count.notes["words told that aren't guarded"] += judge_words(script, words)
    elif any(not are_ordered(script, *it) for them in open_pairs(script).values() for it in them) and verdict.startswith("verdict race-free"):
        raise texts.Wrong("the text is said to show that no accesses race")
    parts = {head: list(them) for head, them in parted(locks)}
    if hangs != "hangs undecided":
        if locks:
            raise texts.Wrong(f"{hangs} with {locks}")
        return
    if ("  circle" in parts) != has_circle(script) or ("  wait" in parts) != bool(waits(script)):
        raise texts.Wrong(f"{locks} where a circle is {has_circle(script)}, and waits are {waits(script)}")
    if "  circle" in parts:
        judge_circle(script, parts["  circle"])
        count.notes["circles of locks told"] += 1
    if "  wait" in parts:
        judge_wait(script, parts["  wait"])
        count.notes["waits with a lock held told"] += 1


def parted(lines):
    """The lines under each head."""
    head = None
    for is_head, them in groupby(lines, lambda line: not line.startswith("    ")):
        if is_head:
            head = list(them)[-1]
        else:
            yield head, them
