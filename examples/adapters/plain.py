#!/usr/bin/env python3
"""plain.py: runs a script on plain words, and prints a trace: the model of an adapter in Python.

    ./lrc draw guarded --seed 1 | examples/adapters/plain.py | ./lrc check
"""
import sys
import threading
from pathlib import Path

sys.path.insert(0, str(Path(__file__).resolve().parent.parent / "checking"))
from logger import Trace  # noqa: E402


def read_script(file):
    """The sizes, each processor's instructions as lists of words, and the shown addresses."""
    lines = [line.split() for line in file]
    sizes = [int(word) for word in lines[0][1:]]
    sections, shown = [], []
    for words in lines[1:]:
        if words[0] == "p":
            sections.append([])
        elif words[0] == "show":
            shown = [int(word) for word in words[1:]]
        else:
            sections[-1].append([words[0], *map(int, words[1:])])
    return sizes, sections, shown


def do(memory, processor, name, number=None, value=None):
    """Does an instruction."""
    if name == "load":
        memory.load(processor, number)
    elif name == "store":
        memory.store(processor, number, value)
    elif name == "add":
        memory.store(processor, number, (memory.load(processor, number) + value) % 2**32)
    elif name == "barrier":
        memory.wait_for_all(processor)
    elif name == "await":
        memory.wait_for(processor, number)
    elif name in ("acquire", "release", "set"):
        getattr(memory, name)(processor, number)


def run(memory, processor, section, shown):
    """A section, the closing barrier, and what processor 0 shows."""
    for instruction in [*section, ["barrier"], *(["load", address] for address in shown if processor == 0)]:
        do(memory, processor, *instruction)


def main():
    (processors, pages, words, locks, *flags), sections, shown = read_script(sys.stdin)
    memory = Trace(sys.stdout, processors, pages * words, locks, sum(flags), pages)
    threads = [threading.Thread(target=run, args=(memory, processor, section, shown))
               for processor, section in enumerate(sections)]
    for thread in threads:
        thread.start()
    for thread in threads:
        thread.join()


if __name__ == "__main__":
    main()
