#!/usr/bin/env python3
"""tests/checking/large.py [PROGRAM]: long traces of which `PROGRAM check` and `PROGRAM explain --trace` tell what is to be told within
a minute each, by crates/lrc/out/lrc where none is named.

Traces of 2^20 events: eight processors hand 32 locks round, each of which guards a page, and fetch what the turns before stored;
sixteen store and load in turns without any synchronisation, all over the memory and at one address; sixteen store to 2^20
addresses, each to its own ones; and sixteen hand the last lock round. Told is a trace of 2^17 events, in which a lock goes round
sixteen processors and each loads what the one fifteen turns before stored.
The last line is `N passed, M failed`.
"""
import subprocess
import sys
from pathlib import Path

PROGRAM = sys.argv[1] if len(sys.argv) > 1 else str(Path(__file__).resolve().parents[2] / "crates/lrc/out/lrc")
SECONDS = 60
EVENTS = 1 << 20
STRICT = ("--model", "lazy-release")
MOST, WIDEST = "16 64 64 32 32", "16 1024 1024 65536 65536"
passed = failed = 0


def count(name, held, *found):
    """Counts a trial by whether it held, and says what was found where it didn't."""
    global passed, failed
    if held:
        passed += 1
    else:
        failed += 1
        print(f"checking: {name}:", *found)


def trace(sizes, deeds):
    """The text of a trace with these events, each its processor and what it did."""
    lines = (f"event {place} {processor} {what}\n" for place, (processor, what) in enumerate(deeds))
    return f"cluster {sizes}\n{''.join(lines)}".encode()


def said(text, *words):
    """What the program says of the text, how it ends, and what it says of a fault."""
    try:
        run = subprocess.run([PROGRAM, *words], input=text, capture_output=True, timeout=SECONDS)
    except subprocess.TimeoutExpired:
        return "", None, f"no end after {SECONDS} seconds"
    return run.stdout.decode(), run.returncode, run.stderr.decode()


def judge(name, sizes, deeds, verdict):
    """The trace has 2^20 events, and is faithful with this verdict."""
    text = trace(sizes, deeds)
    found, status, errors = said(text, "check", *STRICT)
    is_right = status == 0 and found.startswith(f"events {EVENTS}\nfaithful\n{verdict}\n")
    count(name, is_right and text.count(b"\n") == EVENTS + 1, status, found[:300], errors)


def guarded():
    """Eight processors hand 32 locks round. Who has a lock fetches its page, loads what the turn before stored, stores, and loads
    that twice."""
    for turn in range(EVENTS // 8):
        processor, lock = turn % 8, turn // 8 % 32
        word, others = lock * 64 + turn // 256 % 63, turn % 8 if turn < 256 else 7
        before = f"load {lock * 64 + 63} 0" if processor == 0 else f"load {word} {turn}"
        for what in (f"ask {lock}", f"acquire {lock}", f"fetch {lock} {others} {others} {others}", before, f"store {word} {turn + 1}",
                     f"load {word} {turn + 1}", f"load {word} {turn + 1}", f"release {lock}"):
            yield processor, what


def unordered(addresses):
    """Sixteen processors in turns store to an address and load it: sixteen pairs at one address, and then at another."""
    for pair in range(EVENTS // 2):
        address = pair // 16 * 7 % addresses
        yield pair % 16, f"store {address} {pair}"
        yield pair % 16, f"load {address} {pair}"


def handed_round():
    """Sixteen processors hand the last lock round."""
    for turn in range(EVENTS // 3):
        for what in ("ask", "acquire", "release"):
            yield turn % 16, f"{what} 31"
    yield 15, "store 4095 1"


def heard_late():
    """A lock goes round sixteen processors, each of which loads what the one fifteen turns before stored, and stores."""
    for turn in range((1 << 17) // 5):
        processor = turn % 16
        yield processor, "ask 0"
        yield processor, "acquire 0"
        yield processor, f"load {(turn + 1) % 16} {max(turn - 14, 0)}"
        yield processor, f"store {processor} {turn + 1}"
        yield processor, "release 0"


race = "verdict racy\nevent 1 0 load 0 0\nevent 2 1 store 0 1"
judge("locks that guard pages", MOST, guarded(), "verdict race-free")
judge("accesses that all race", MOST, unordered(4096), race)
judge("accesses that all race at one address", MOST, unordered(1), race)
judge("stores to all addresses", WIDEST, ((it % 16, f"store {it} 1") for it in range(EVENTS)), "verdict race-free")
judge("a lock that goes round", MOST, handed_round(), "verdict race-free")

text = trace("16 1 16 1", heard_late())
found, status, errors = said(text, "explain", "--trace")
# A load's word comes by fifteen hand-overs, of which the first and the last are told.
turns = (1 << 17) // 5 - 15
ways = " ".join(found.split()).count(" 13 more between, ")
count("a trace told", status == 0 and ways == turns, status, ways, turns, errors)
print(f"{passed} passed, {failed} failed")
