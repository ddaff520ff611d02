"""What is wrong with an output."""


class Flaw(Exception):
    """What doesn't hold."""


def expect(holds, what):
    """Nothing where that holds."""
    if not holds:
        raise Flaw(f"it doesn't hold that {what}")


def expect_nowhere(place, events, what):
    """Nothing where there is no place of which this doesn't hold."""
    if place is not None:
        event = events[place].line(place) if place < len(events) else "the end"
        raise Flaw(f"at {event}: it doesn't hold that {what}")


def is_flaw(check, *arguments):
    """Whether the check finds a flaw."""
    try:
        check(*arguments)
    except Flaw:
        return True
    return False
