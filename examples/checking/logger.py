#!/usr/bin/env python3
"""logger.py: logs what threads do, as a trace for `lrc check`. The class Trace is for any program, which imports it.

    logger.py right    two threads add to a counter, each under the lock
    logger.py forgot   processor 1 forgets the lock once: the program races
    logger.py stale    processor 1 keeps a copy of the counter from before, and doesn't renew it at the lock

An access and its line are made together under one mutex, so the trace's order is the order in which it all happened, as
each model wants it. Each line ends with the place in the source as its label. A thread's start and end are hand-overs:
`start` and `join` log them as flags.
"""
import sys
import threading
from pathlib import Path


class Trace:
    """Shared words, locks, flags and one barrier, of which each use is logged."""

    def __init__(self, file, processors, words, locks=0, flags=0, pages=1):
        self.file, self.words, self.events = file, [0] * words, 0
        self.guard = threading.Lock()
        self.locks = [threading.Lock() for _ in range(locks)]
        self.flags = [threading.Event() for _ in range(flags)]
        self.barrier = threading.Barrier(processors)
        numbers = [processors, pages, words // pages, locks] + [flags] * (flags > 0)
        print("cluster", *numbers, file=file)

    @staticmethod
    def place():
        """The place in the source that called the class."""
        frame = sys._getframe(1)
        while frame.f_code.co_filename == __file__ and "self" in frame.f_locals:
            frame = frame.f_back
        return f"{Path(frame.f_code.co_filename).name}:{frame.f_lineno}"

    def line(self, processor, *words, label=None):
        """Prints an event's line, with the caller's place as its label, if no other is given. The guard is held."""
        print("event", self.events, processor, *words, f" {label or self.place()}", file=self.file)
        self.events += 1

    def note(self, processor, *words, label=None):
        """Logs an event that is no access."""
        with self.guard:
            self.line(processor, *words, label=label)

    def load(self, processor, address, cache=None):
        """The word at the address, or that of a cache that stands before it."""
        with self.guard:
            value = (self.words if cache is None else cache)[address]
            self.line(processor, "load", address, value)
            return value

    def store(self, processor, address, value):
        with self.guard:
            self.words[address] = value
            self.line(processor, "store", address, value)

    # What lets others on is logged before they are let on, and what takes that after it has come.
    def acquire(self, processor, lock):
        self.note(processor, "ask", lock)
        self.locks[lock].acquire()
        self.note(processor, "acquire", lock)

    def release(self, processor, lock):
        self.note(processor, "release", lock)
        self.locks[lock].release()

    def condition(self, lock):
        """A condition variable under this lock. To notify it needs no line."""
        return threading.Condition(self.locks[lock])

    def wait(self, processor, lock, condition, timeout=None):
        """Waits for a condition under the lock, which the wait frees and takes again: whether it came in time."""
        self.note(processor, "release", lock)
        came = condition.wait(timeout)
        with self.guard:
            self.line(processor, "ask", lock)
            self.line(processor, "acquire", lock)
        return came

    def wait_for_all(self, processor):
        self.note(processor, "arrive")
        self.barrier.wait()
        self.note(processor, "depart")

    def set(self, processor, flag, label=None):
        self.note(processor, "set", flag, label=label)
        self.flags[flag].set()

    def wait_for(self, processor, flag, label=None):
        self.note(processor, "watch", flag, label=label)
        self.flags[flag].wait()
        self.note(processor, "await", flag, label=label)

    def start(self, processor, child, flag, body, *words):
        """Starts a thread as processor `child`: body(*words). Flag `flag` hands its start on, and `flag + 1` its end."""
        label = self.place()
        self.set(processor, flag)

        def run():
            self.wait_for(child, flag, label)
            body(*words)
            self.set(child, flag + 1, label)

        thread = threading.Thread(target=run)
        thread.start()
        return thread, flag + 1

    def join(self, processor, started):
        """Waits for the end of what `start` answered."""
        thread, flag = started
        thread.join()
        self.wait_for(processor, flag)


COUNTER, RESULT = 0, 1


# The turns aren't logged: so each run gives one trace, and they order nothing for the judge.
def first(trace, one, other):
    trace.store(0, COUNTER, 10)
    trace.set(0, 0)
    trace.acquire(0, 0)
    trace.store(0, COUNTER, trace.load(0, COUNTER) + 5)
    trace.release(0, 0)
    one.set()
    other.wait()
    trace.wait_for_all(0)
    trace.store(0, RESULT, trace.load(0, COUNTER))


def second(trace, one, other, mode):
    one.wait()
    trace.wait_for(1, 0)
    cache = [10] if mode == "stale" else None
    if mode != "forgot":
        trace.acquire(1, 0)
    trace.store(1, COUNTER, trace.load(1, COUNTER, cache) + 7)
    if mode != "forgot":
        trace.release(1, 0)
    other.set()
    trace.wait_for_all(1)


def main(words):
    if len(words) != 1 or words[0] not in ("right", "forgot", "stale"):
        sys.exit(__doc__)
    trace = Trace(sys.stdout, 2, 2, locks=1, flags=1)
    one, other = threading.Event(), threading.Event()
    threads = [
        threading.Thread(target=first, args=(trace, one, other)),
        threading.Thread(target=second, args=(trace, one, other, words[0])),
    ]
    for thread in threads:
        thread.start()
    for thread in threads:
        thread.join()


if __name__ == "__main__":
    main(sys.argv[1:])
