#!/usr/bin/env python3
"""threads.py LOGGERS wait|start|unjoined: what logger.py, which is imported from the folder LOGGERS, has for threads.

wait: a thread waits for a condition that another one notifies. start: the main thread starts one, and joins it before it
reads what that stored. unjoined: the same, but joined without the logger: the two race.
"""
import sys

sys.path.insert(0, sys.argv[1])
from logger import Trace

COUNTER, RESULT = 0, 1


def wait(trace):
    filled = trace.condition(0)
    trace.acquire(0, 0)
    taker = trace.start(0, 1, 0, take, trace, filled)
    while not trace.load(0, COUNTER):
        trace.wait(0, 0, filled)
    trace.release(0, 0)
    trace.join(0, taker)


def take(trace, filled):
    trace.acquire(1, 0)
    trace.store(1, COUNTER, 7)
    filled.notify()
    trace.release(1, 0)


def double(trace):
    trace.store(1, RESULT, 2 * trace.load(1, COUNTER))


def start(trace, is_joined):
    trace.store(0, COUNTER, 5)
    child = trace.start(0, 1, 0, double, trace)
    if is_joined:
        trace.join(0, child)
    else:
        child[0].join()
    trace.load(0, RESULT)


made = Trace(sys.stdout, 2, 2, locks=1, flags=2)
if sys.argv[2] == "wait":
    wait(made)
else:
    start(made, sys.argv[2] == "start")
