"""What a sweep sees."""
from collections import Counter

from flaw import Flaw, expect, is_flaw


class Found:
    """How often what was seen, how many trials passed, and what is wrong, with what shows it."""

    def __init__(self):
        self.seen, self.passed, self.flaws = Counter(), 0, []

    def add(self, other):
        self.seen += other.seen
        self.passed += other.passed
        self.flaws += other.flaws

    def trial(self, name, shown, trial, *arguments):
        """Does a trial, and answers what it does. Of a flaw it keeps the text that shows it, and answers None."""
        try:
            done = trial(*arguments)
        except Flaw as flaw:
            self.flaws.append(f"{name}: {flaw}\n{shown}")
            return None
        self.passed += 1
        return done

    def turn(self, kind, turns, answer, check):
        """By the check the answer is right. With one thing turned it has to be refused."""
        for name, turn in turns:
            other = turn(answer)
            if other is not None and other != answer:
                self.seen["turned", kind, name] += 1
                expect(is_flaw(check, other), f"with {name} turned this is refused: {other}")
