"""Ways to falsify a trace at one event."""
from dataclasses import replace

from rules import ENDS, place_of_last


def other(draws, number, count):
    """Another number below the count; now and then, or where there is no other, the count, which is no such number."""
    if count == 1 or draws.randrange(4) == 0:
        return count
    return (number + draws.randint(1, count - 1)) % count


def other_word(draws, word):
    """Another word near by: a small one, as the scripts' words are."""
    return draws.choice([it for it in range(8) if it != word])


def with_number(event, place, number):
    """The event with another number at a place of its numbers."""
    numbers = list(event.numbers)
    numbers[place] = number
    return replace(event, numbers=tuple(numbers))


def are_of(*kinds):
    """The places of the events of these kinds."""
    return lambda events: [place for place, event in enumerate(events) if event.kind in kinds]


def all_places(events):
    return range(len(events))


def before_others(events):
    """The places before another event."""
    return [place for place in range(len(events) - 1) if events[place] != events[place + 1]]


def ends_behind_others(events):
    """The places of acquires, departures and awaits right behind another processor's event."""
    return [place for place in are_of(*ENDS.values())(events)
            if place > 0 and events[place - 1].processor != events[place].processor]


def in_place(change):
    """Falsifies an event, which stays at its place."""
    def falsify(draws, sizes, events, place):
        return events[:place] + (change(draws, sizes, events[place]),) + events[place + 1:]
    return falsify


def other_value(draws, _, event):
    return with_number(event, 1, other_word(draws, event.numbers[1]))


def other_count(draws, _, event):
    place = draws.randint(1, 3)
    return with_number(event, place, other_word(draws, event.numbers[place]))


def other_processor(draws, sizes, event):
    """Another processor's event, or one's that the cluster hasn't got."""
    return replace(event, processor=other(draws, event.processor, sizes.processors))


def other_lock(draws, sizes, event):
    """An event of another lock, or of one that the cluster hasn't got."""
    return with_number(event, 0, other(draws, event.numbers[0], sizes.locks))


def dropped(draws, sizes, events, place):
    return events[:place] + events[place + 1:]


def doubled(draws, sizes, events, place):
    return events[:place + 1] + events[place:]


def swapped(draws, sizes, events, place):
    return events[:place] + (events[place + 1], events[place]) + events[place + 2:]


def moved_forward(draws, sizes, events, place):
    """The event stands right behind the ask, arrival or watch that goes with it."""
    after = place_of_last(events[:place], events[place].processor) + 1
    return events[:after] + (events[place],) + events[after:place] + events[place + 1:]


# Of each way its name, the places where it can be gone, and what it makes of the events at one of these.
WAYS = (
    ("a reply changed", are_of("load"), in_place(other_value)),
    ("two neighbours swapped", before_others, swapped),
    ("a fetch dropped", are_of("fetch"), dropped),
    ("an ask dropped", are_of("ask"), dropped),
    ("a grant too early", ends_behind_others, moved_forward),
    ("a count changed", are_of("fetch"), in_place(other_count)),
    ("an event given to another processor", all_places, in_place(other_processor)),
    ("an event doubled", all_places, doubled),
    ("a store's value changed", are_of("store"), in_place(other_value)),
    ("a lock's number changed", are_of("ask", "acquire", "release"), in_place(other_lock)),
)


def falsified(draws, sizes, events, places, falsify):
    """The events, falsified at a drawn place; None where they can't be."""
    places = places(events)
    return falsify(draws, sizes, tuple(events), draws.choice(places)) if places else None


def first_difference(events, trace):
    """The first place at which the two differ."""
    return next((place for place, (event, it) in enumerate(zip(events, trace)) if event != it),
                min(len(events), len(trace)))
