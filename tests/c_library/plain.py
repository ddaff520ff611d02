#!/usr/bin/env python3
"""plain.py DRAWN COUNT: compares what the library for C finds of drawn histories with the plain slow rules of tests/sweeping.

DRAWN is the program of drawn.c. The rules share no code with the library. The last line is `N passed, M failed`: a history each,
and each verdict that has to come, under each model.
"""
import subprocess
import sys
from collections import Counter
from pathlib import Path

TESTS = Path(__file__).resolve().parent.parent
sys.path += [str(TESTS / "sweeping"), str(TESTS / "exploring")]

import verdicts  # noqa: E402
from grammar import Sizes  # noqa: E402
from reports import event_of  # noqa: E402

# Those of drawn.c.
SIZES = Sizes(3, 2, 2, 1, 1)
KINDS = ("faithful", "ill formed", "unexplained", "racy")


class History(Sizes):
    """The sizes, with their addresses."""
    addresses = SIZES.pages * SIZES.words


def rules_of(seed):
    """Another model at each seed, each second four lax, and each third to end with a race."""
    return verdicts.Rules(verdicts.MODELS[seed % 4], seed // 4 % 2 == 1, seed % 3 == 0)


def said_by_rules(found):
    """What the plain rules find, in the lines of drawn.c."""
    lines, races = [f"events {found.count}"], []
    if found.kind != "racy":
        lines.append("faithful" if found.kind == "faithful" else f"{found.kind} {found.place}")
    told = list(found.lines)
    if "verdict racy" in told:
        place = told.index("verdict racy")
        races = [line.split(" ")[1] for line in told[place + 1:place + 3]]
    lines += [line for line in told if line.startswith("unjudged ") and line.endswith(" loads")]
    lines += [f"race {' '.join(races)}"] if races else []
    return lines + [line for line in told if line.startswith("traffic ")]


def compare(drawn, seed):
    """Whether the library finds what the rules find of the history of a seed; and what kind that is."""
    rules = rules_of(seed)
    words = [seed, verdicts.MODELS.index(rules.model), int(rules.is_lax), int(rules.ends_at_race)]
    ran = subprocess.run([drawn, *map(str, words)], stdout=subprocess.PIPE, text=True, timeout=60)
    lines = ran.stdout.splitlines()
    events = tuple(event_of(line) for line in lines if line.startswith("event "))
    found = verdicts.find(History(*SIZES), events, rules)
    said, wanted = [line for line in lines if not line.startswith("event ")], said_by_rules(found)
    if ran.returncode != 0 or said != wanted:
        print(f"c_library: history {seed} {rules}: {said} where {wanted} is right")
        return False, found.kind
    return True, found.kind


def main(drawn, count):
    passed = failed = 0
    seen = Counter()
    for seed in range(count):
        held, kind = compare(drawn, seed)
        seen[rules_of(seed).model, kind] += 1
        passed, failed = passed + held, failed + (not held)
    wanted = [(model, kind) for model in verdicts.MODELS for kind in KINDS] + [(verdicts.LAZY_RELEASE, "miscounted")]
    for model, kind in wanted:
        if not seen[model, kind]:
            print(f"c_library: no history was {kind} under {model}")
        passed, failed = passed + bool(seen[model, kind]), failed + (not seen[model, kind])
    print(f"{passed} passed, {failed} failed")
    return failed != 0


if __name__ == "__main__":
    sys.exit(main(sys.argv[1], int(sys.argv[2])))
