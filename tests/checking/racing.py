#!/usr/bin/env python3
"""tests/checking/racing.py PROGRAM [COUNT]: which words race, beside the definition.

Draws COUNT short traces of locks and flags (200 if it isn't given), and works out happens-before event by event. `PROGRAM check
--program` has to tell each word that races, once and with its first race: the pair whose second event comes first, and of these
the one whose first event comes last. No word has a label, so each is told alone.
The last line is `N passed, M failed`.
"""
import random
import re
import subprocess
import sys

ACCESSES = ("load", "store")
ADDRESSES, LOCKS, FLAGS = 6, 2, 2


def next_event(drawn, processor, held, flags):
    """What the processor does next, by a draw; None if it may not."""
    kind = drawn.choices(("acquire", "release", "set", "await", "store", "load"), (20, 20, 10, 10, 20, 20))[0]
    if kind == "acquire":
        free = [lock for lock in range(LOCKS) if lock not in held]
        if not free or processor in held.values():
            return None
        lock = drawn.choice(free)
        held[lock] = processor
        return processor, kind, lock
    if kind == "release":
        own = [lock for lock, holder in held.items() if holder == processor]
        if not own:
            return None
        del held[own[0]]
        return processor, kind, own[0]
    if kind == "set":
        flag = drawn.randrange(FLAGS)
        flags.add(flag)
        return processor, kind, flag
    if kind == "await":
        return (processor, kind, drawn.choice(sorted(flags))) if flags else None
    return processor, kind, drawn.randrange(ADDRESSES)


def drawn_trace(seed):
    """How many processors there are, and the events."""
    drawn = random.Random(seed)
    processors, held, flags = drawn.randint(2, 4), {}, set()
    events = (next_event(drawn, drawn.randrange(processors), held, flags) for _ in range(drawn.randint(5, 40)))
    return processors, [event for event in events if event]


def is_edge(first, second):
    """Whether the first event leads to the second one."""
    handed = (("release", "acquire"), ("set", "await"))
    return first[0] == second[0] or ((first[1], second[1]) in handed and first[2] == second[2])


def pasts_of(events):
    """Of each event those that happen before it."""
    pasts = []
    for place, event in enumerate(events):
        past = set()
        for earlier in range(place):
            if is_edge(events[earlier], event):
                past |= {earlier} | pasts[earlier]
        pasts.append(past)
    return pasts


def do_race(first, second):
    """Whether two accesses conflict that nothing orders."""
    conflict = first[2] == second[2] and "store" in (first[1], second[1])
    return conflict and first[0] != second[0] and first[1] in ACCESSES and second[1] in ACCESSES


def racing_words(events):
    """Each word that races, with the places of its first race."""
    pasts, words = pasts_of(events), {}
    for second, event in enumerate(events):
        races = [first for first in range(second) if do_race(events[first], event) and first not in pasts[second]]
        if races:
            words.setdefault(event[2], (races[-1], second))
    return words


def told_words(program, processors, events):
    """The same as the program tells it, and its status."""
    lines = [f"cluster {processors} {ADDRESSES} 1 {LOCKS} {FLAGS}"]
    for place, (processor, kind, number) in enumerate(events):
        lines.append(f"event {place} {processor} {kind} {number}{' 0' if kind in ACCESSES else ''}")
    ran = subprocess.run([program, "check", "--program"], input="\n".join(lines) + "\n", capture_output=True, text=True)
    told = re.findall(r"^race of word (\d+)\nevent (\d+) .*\nevent (\d+) ", ran.stdout, re.M)
    return {int(word): (int(first), int(second)) for word, first, second in told}, ran.returncode


def main():
    program, count = sys.argv[1], int(sys.argv[2]) if len(sys.argv) > 2 else 200
    failed = 0
    for seed in range(count):
        processors, events = drawn_trace(seed)
        told, status = told_words(program, processors, events)
        wanted = racing_words(events)
        if told != wanted or status != 0:
            failed += 1
            print(f"racing: trace {seed}: status {status}, {told} is told where {wanted} race")
    print(f"{count - failed} passed, {failed} failed")


main()
