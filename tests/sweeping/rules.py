"""Whether an event may come next, by the rules of docs/MEMORY.md: all is looked for among the events before it."""
from collections import Counter

# What ends the wait that an event begins.
ENDS = {"ask": "acquire", "arrive": "depart", "watch": "await"}


def out_of_range(sizes, event):
    """The fault of an event that names what the cluster hasn't got; None where it doesn't."""
    if event.processor >= sizes.processors:
        return "no such processor"
    if event.kind in ("load", "store") and event.numbers[0] >= sizes.addresses:
        return "address out of range"
    if event.kind == "fetch" and event.numbers[0] >= sizes.pages:
        return "address out of range"
    if event.kind in ("ask", "acquire", "release") and event.numbers[0] >= sizes.locks:
        return "no such lock"
    if event.kind in ("set", "watch", "await") and event.numbers[0] >= sizes.flags:
        return "no such flag"
    return None


def place_of_last(before, processor):
    """The place of the processor's last event; None where it has none."""
    return next((place for place in reversed(range(len(before))) if before[place].processor == processor), None)


def awaited(before, processor):
    """The kind and the numbers of what the processor waits for; None where it doesn't."""
    place = place_of_last(before, processor)
    if place is None or before[place].kind not in ENDS:
        return None
    return ENDS[before[place].kind], before[place].numbers


def holder_of(before, lock):
    """Who holds the lock; None where nobody does."""
    for event in reversed(before):
        if event.kind in ("acquire", "release") and event.numbers == (lock,):
            return event.processor if event.kind == "acquire" else None
    return None


def first_ask(before, lock):
    """The place of the first ask of the lock whose processor still waits for it."""
    for place, event in enumerate(before):
        if event.kind == "ask" and event.numbers == (lock,) and place_of_last(before, event.processor) == place:
            return place
    return None


def counts_of(before, kind):
    """How often each processor did this."""
    return Counter(event.processor for event in before if event.kind == kind)


def not_granted(before, event, lax):
    """Why the lock isn't granted to the processor, which has asked for it, or needs not."""
    lock = event.numbers[0]
    holder, first = holder_of(before, lock), first_ask(before, lock)
    if holder is not None:
        return f"processor {holder} holds the lock"
    if not lax and before[first].processor != event.processor:
        return f"processor {before[first].processor} asked for the lock earlier, by event {first}"
    return None


def not_let_on(sizes, before, event, lax):
    """Why the event may not come, for which its processor waits."""
    if event.kind == "acquire":
        return not_granted(before, event, lax)
    if event.kind == "depart":
        episode, arrivals = counts_of(before, "depart")[event.processor], counts_of(before, "arrive")
        late = [it for it in range(sizes.processors) if arrivals[it] <= episode]
        return f"processor {late[0]} has not arrived" if late else None
    is_set = any(it.kind == "set" and it.numbers == event.numbers for it in before)
    return None if is_set else "nobody has set the flag"


def not_called(sizes, before, event, lax):
    """Why the event may not come, whose processor waits for nothing. Lax, an acquire or an await stands for its ask or watch, too."""
    if lax and event.kind in ("acquire", "await"):
        return not_let_on(sizes, before, event, lax)
    if event.kind in ENDS.values():
        return "its processor has not just asked, arrived or watched for it"
    if event.kind == "ask" and holder_of(before, event.numbers[0]) == event.processor:
        return "its processor holds the lock"
    if event.kind == "release" and holder_of(before, event.numbers[0]) != event.processor:
        return "its processor does not hold the lock"
    return None


WAITS = {"acquire": "its processor waits for lock {}", "await": "its processor waits for flag {}",
         "depart": "its processor waits at the barrier"}


def why_not(sizes, before, event, lax=False):
    """Why the event may not come after these events, none of which is refused itself; None where it may. Lax, a lock
    may be granted to whoever waits for it, and its ask may be left out. What the event names is within the sizes."""
    wait = awaited(before, event.processor)
    if wait is None:
        return not_called(sizes, before, event, lax)
    kind, numbers = wait
    if (event.kind, event.numbers) == wait:
        return not_let_on(sizes, before, event, lax)
    return WAITS[kind].format(*numbers)


def first_refused(sizes, events, lax=False):
    """The place of the first event that may not follow what stands before it, and why; None where each may."""
    for place, event in enumerate(events):
        why = why_not(sizes, events[:place], event, lax)
        if why is not None:
            return place, why
    return None


def waits_for(sizes, events, processor):
    """What is told of what the processor waits for in vain at the end, and the one processor that it waits for; None for each that
    isn't there."""
    wait = awaited(events, processor)
    if wait is None:
        return None, None
    kind, numbers = wait
    if kind == "acquire":
        holder = holder_of(events, numbers[0])
        return (None if holder is None else f"for lock {numbers[0]}, held by p{holder}"), holder
    if kind == "await":
        is_set = any(it.kind == "set" and it.numbers == numbers for it in events)
        return (None if is_set else f"for flag {numbers[0]}, which nobody has set"), None
    episode, arrivals = counts_of(events, "depart")[processor], counts_of(events, "arrive")
    absent = [it for it in range(sizes.processors) if arrivals[it] <= episode]
    if not absent:
        return None, None
    return f"at the barrier for {', '.join(f'p{it}' for it in absent)}", absent[0] if len(absent) == 1 else None


def wait_lines(sizes, events):
    """What is told of who waits at the end, and of who wait for each other."""
    waits = [waits_for(sizes, events, it) for it in range(sizes.processors)]
    lines = [f"waits p{it} {said}" for it, (said, _) in enumerate(waits) if said is not None]
    for least in range(sizes.processors):
        circle = [least]
        while (on := waits[circle[-1]][1]) is not None and on > least and len(circle) <= sizes.processors:
            circle.append(on)
        if on == least:
            lines.append(f"circle {', '.join(f'p{it}' for it in circle)}")
    return lines
