"""The text of a report: read, and written again."""
from dataclasses import dataclass

from flaw import Flaw
from schedules import Event

NUMBERS = {"load": 2, "store": 2, "fetch": 4, "ask": 1, "acquire": 1, "release": 1, "arrive": 0, "depart": 0,
           "set": 1, "watch": 1, "await": 1}


@dataclass(frozen=True)
class Report:
    words: tuple  # of each shown address the address and its word
    racy: bool
    traffic: tuple  # messages, records, words
    cut: int  # how many events were cut off
    events: tuple  # those that are left

    def text(self):
        lines = ["word {} {}".format(*it) for it in self.words]
        lines.append("verdict racy" if self.racy else "verdict race-free")
        lines.append("traffic {} {} {}".format(*self.traffic))
        lines += [f"cut {self.cut}"] if self.cut else []
        lines += [event.line(place) for place, event in enumerate(self.events, self.cut)]
        return "".join(line + "\n" for line in lines)


def event_of(line):
    _, _, processor, kind, *numbers = line.split(" ")
    if len(numbers) != NUMBERS[kind]:
        raise ValueError(line)
    return Event(int(processor), kind, tuple(map(int, numbers)))


def parse(text):
    """The report of a text that is of the form; an error or any report of another one."""
    lines = text.splitlines()
    own = [line for line in lines if line.startswith("word ")]
    verdict, traffic, *rest = lines[len(own):]
    cut = int(rest.pop(0).split(" ")[1]) if rest and rest[0].startswith("cut ") else 0
    words = tuple(tuple(map(int, line.split(" ")[1:])) for line in own)
    return Report(words, verdict == "verdict racy", tuple(map(int, traffic.split(" ")[1:])), cut,
                  tuple(map(event_of, rest)))


def read(answer):
    """The report that the program answers. A flaw where it answers none."""
    if answer.status != 0 or answer.errors:
        raise Flaw(f"it doesn't hold that a report is printed: {answer}")
    try:
        report = parse(answer.output)
        is_report = report.text() == answer.output
    except (ValueError, KeyError, IndexError):
        is_report = False
    if not is_report:
        raise Flaw("it doesn't hold that the text is a report's, byte for byte")
    return report
