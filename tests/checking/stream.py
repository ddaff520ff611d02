#!/usr/bin/env python3
"""tests/checking/stream.py [PROGRAM]: traces that `PROGRAM check` judges as they are read, by crates/lrc/out/lrc where none is
named.

A lie is told while the pipe is still open, and so is a race that is to end the judging; nothing behind either is read. Of a lie
and a bad line the one that comes first is told, however the text is cut into pieces. A long trace, and one of ten million
events, is judged in memory that doesn't grow with it: 16 processors that share 4,096 words, each under a lock, with labels; so is one that races at its end, or
lies there; and one whose locks go round, under the models that look at earlier stores. Nor does the memory grow with one whose
fetches count what they bring, of 16 processors that share 112 pages. What is told has its labels as long as it is at hand, and so has the race if more than a window comes behind it.
With --locksets the memory doesn't grow either. Accesses that were let go of are told with their labels, if they have one and a finder keeps
them, and so is the first one of a race; others are told by number and processor.
With --program all races of a long trace are told with their labels, those between the same two together.
`explain --trace` refuses a trace of more events than it has at hand.
The last line is `N passed, M failed`.
"""
import array
import fcntl
import re
import resource
import subprocess
import sys
import termios
import time
from pathlib import Path

PROGRAM = sys.argv[1] if len(sys.argv) > 1 else str(Path(__file__).resolve().parents[2] / "crates/lrc/out/lrc")
LONG = 1_500_000  # events; 2^19 are kept at hand, and those of one piece
LONGEST = 10_000_000
MEMORY = 64 << 20
STORED = 96 << 20  # where stores are kept that a load may still answer
passed = failed = 0


def count(name, held, *found):
    """Counts a trial by whether it held, and says what was found where it didn't."""
    global passed, failed
    if held:
        passed += 1
    else:
        failed += 1
        print(f"checking: {name}:", *found)


def while_open(text, *words):
    """What the program says and how it ends, while its standard input stays open behind the text."""
    run = subprocess.Popen([PROGRAM, "check", *words], stdin=subprocess.PIPE, stdout=subprocess.PIPE, stderr=subprocess.PIPE)
    try:
        run.stdin.write(text)
        run.stdin.flush()
        status = run.wait(timeout=20)
    except subprocess.TimeoutExpired:
        status = None
    run.kill()
    said, wrong = run.communicate()
    return status, said.decode(), wrong.decode()


def wait_until_read(run):
    """Waits until the program has read what was written, or has ended."""
    left = array.array("i", [1])
    while left[0] and run.poll() is None:
        fcntl.ioctl(run.stdin, termios.FIONREAD, left)
        time.sleep(0.0001)


def judged(*pieces):
    """What the program says of the text that comes in these pieces, each behind the other, and how it ends."""
    run = subprocess.Popen([PROGRAM, "check"], stdin=subprocess.PIPE, stdout=subprocess.PIPE, stderr=subprocess.PIPE)
    try:
        for piece in pieces:
            run.stdin.write(piece)
            run.stdin.flush()
            wait_until_read(run)
    except BrokenPipeError:
        pass
    said, wrong = run.communicate()
    return run.returncode, said.decode(), wrong.decode()


def cut(text, size):
    """The text in pieces of so many bytes; in one where that is None."""
    return [text[at : at + (size or len(text))] for at in range(0, len(text), size or len(text))]


LIE = b"cluster 2 1 1 0\nevent 0 0 store 0 5\nevent 1 0 load 0 6  here\n"
LIE_TOLD = "events 2\nmodel race-free\nunfaithful 1\nevent 1 0 load 0 6  here\nbecause it may answer only what was stored by\nevent 0 0 store 0 5\n"
RACE = b"cluster 2 1 1 0\nevent 0 0 store 0 5  a\nevent 1 1 store 0 6  b\n"
BAD = b"event 2 0 nothing\n"

status, said, wrong = while_open(LIE)
count("a lie is told while the pipe is open", (status, said) == (6, LIE_TOLD), status, said, wrong)
status, said, wrong = while_open(RACE, "--race-is-error")
count("a race ends the judging while the pipe is open", status == 8 and "event 1 1 store 0 6  b" in said, status, said, wrong)
status, said, wrong = while_open(RACE + BAD)
HINT = """lrc: line 4: line not understood
  standard input:4:11
  event 2 0 nothing
            ^
  expected event NUMBER PROCESSOR, and load, store, fetch, ask, acquire, release, arrive, depart, set, watch or await
"""
count("a bad line is told while the pipe is open", (status, wrong) == (2, HINT), status, said, wrong)
for size in (1, 7, 40, None):
    status, said, _ = judged(*cut(LIE + BAD, size))
    count(f"the lie comes before the bad line, in pieces of {size}", (status, said) == (6, LIE_TOLD), status, said)
    status, said, wrong = judged(*cut(RACE + BAD + LIE, size))
    count(f"the bad line comes before the lie, in pieces of {size}", (status, said) == (2, ""), status, said, wrong)
    count(f"the bad line is shown, in pieces of {size}", wrong == HINT, wrong)
    commented = b"# one\n\n" + RACE + b"\n# two\n\n" + BAD + LIE
    status, said, wrong = judged(*cut(commented, size))
    count(f"lines that are passed over are counted, in pieces of {size}", wrong == HINT.replace(" 4:", " 9:").replace(":4:", ":9:"), wrong)
whole = judged(RACE)
broken = [at for at in range(len(RACE)) if judged(RACE[:at], RACE[at:]) != whole]
count("a trace is the same, wherever it is cut", whole[0] == 0 and not broken, whole, broken)
STORING = (("--model", "happens-before"), ("--model", "lazy-release"), ("--model", "lazy-release", "--lax"))
for words in STORING:
    status, said, wrong = while_open(LIE, *words)
    count(f"a lie is told while the pipe is open, {words}", status == 6 and "unfaithful 1" in said, status, said, wrong)


def too_large():
    """The lines of a trace of an event more than is told."""
    yield b"cluster 1 1 1 0\n"
    for place in range((1 << 21) + 1):
        yield b"event %d 0 store 0 1\n" % place


told = subprocess.run([PROGRAM, "explain", "--trace"], input=b"".join(too_large()), capture_output=True)
count(
    "a trace of too many events isn't told",
    (told.returncode, told.stdout, told.stderr) == (4, b"", b"lrc: trace too large to hold\n  at most 2097152 events; check takes more\n"),
    told.returncode, told.stdout[:300], told.stderr,
)


def long_trace(events, locks=64):
    """The lines of a trace that is faithful and has no race: each access of a word under the word's lock. With 61 locks each goes
    round all processors, so that all hear of all."""
    last = {}
    place = 0
    turn = 0
    yield b"cluster 16 64 64 64\n"
    while place + 5 <= events:
        processor, lock = turn % 16, turn * 7 % locks
        word = lock * 64 + turn // 64 % 64
        value = turn % 1000
        for what in (f"ask {lock}", f"acquire {lock}", f"load {word} {last.get(word, 0)}", f"store {word} {value}", f"release {lock}"):
            yield f"event {place} {processor} {what}  queue.c:{turn % 900:03d}\n".encode()
            place += 1
        last[word] = value
        turn += 1


def long_judged(lines, *words, memory=MEMORY):
    """What the program says of the lines within a limit of memory, and how it ends."""
    def limited():
        resource.setrlimit(resource.RLIMIT_AS, (memory, memory))

    run = subprocess.Popen([PROGRAM, "check", *words], stdin=subprocess.PIPE, stdout=subprocess.PIPE, stderr=subprocess.PIPE, preexec_fn=limited)
    try:
        block = []
        for line in lines:
            block.append(line)
            if len(block) == 20_000:
                run.stdin.write(b"".join(block))
                block = []
        run.stdin.write(b"".join(block))
    except BrokenPipeError:
        pass
    said, wrong = run.communicate()
    return run.returncode, said.decode(), wrong.decode()


LINES = list(long_trace(LONG))
EVENTS = len(LINES) - 1
status, said, wrong = long_judged(LINES)
count("a long trace is faithful", (status, said) == (0, f"events {EVENTS}\nmodel race-free\nfaithful\nverdict race-free\ntraffic {EVENTS // 5 * 2} 0 0\n"), status, said[:300], wrong)
status, said, wrong = long_judged(long_trace(LONGEST))
count(f"a trace of {LONGEST} events is faithful", status == 0 and said.startswith(f"events {LONGEST}\nmodel race-free\nfaithful\n"), status, said[:300], wrong)
status, said, wrong = long_judged(LINES + [f"event {EVENTS} 3 load 0 77  end\n".encode()])
count("a long trace races at its end", status == 0 and "verdict racy" in said and f"event {EVENTS} 3 load 0 77  end" in said, status, said[:300], wrong)
asked = [f"event {EVENTS} 1 ask 0\n", f"event {EVENTS + 1} 1 acquire 0\n", f"event {EVENTS + 2} 1 load 0 77  end\n"]
status, said, wrong = long_judged(LINES + [line.encode() for line in asked])
count("a long trace lies at its end", status == 6 and f"unfaithful {EVENTS + 2}\nevent {EVENTS + 2} 1 load 0 77  end\nbecause it may answer only what was stored by\nevent " in said, status, said[:300], wrong)
early = [LINES[0], b"event 0 0 store 4095 1  first\n", b"event 1 1 store 4095 2  second\n"]
shifted = (b"event %d %s" % (int(line.split(b" ", 2)[1]) + 2, line.split(b" ", 2)[2]) for line in LINES[1:] if True)
status, said, wrong = long_judged([*early, *shifted])
count(
    "a race long ago is told with its labels",
    status == 0 and "verdict racy\nevent 0 0 store 4095 1  first\nevent 1 1 store 4095 2  second\n" in said,
    status, said[:300], wrong,
)

ROUND = list(long_trace(LONG, 61))
for words in STORING:
    status, said, wrong = long_judged(ROUND, *words, memory=STORED)
    count(f"a long trace is faithful, {words}", status == 0 and said.startswith(f"events {EVENTS}\n") and "verdict race-free" in said, status, said[:300], wrong)
    status, said, wrong = long_judged(ROUND + [line.encode() for line in asked], *words, memory=STORED)
    count(f"a long trace lies at its end, {words}", status == 6 and f"unfaithful {EVENTS + 2}\nevent {EVENTS + 2} 1 load 0 77  end\nbecause it may answer only what was stored by\nevent " in said, status, said[:300], wrong)


def counted_trace(events):
    """The lines of a faithful trace whose fetches count what they bring. Seven locks go round 16 processors. Under a lock each
    processor stores in all 16 pages of the lock, in the first one two words, and fetches one of them, each time the next one."""
    total = [0] * 7  # of each lock, how often it was had
    last = [[0] * 16 for _ in total]  # and the number of that, from 1 on, that each processor had it last
    own = [[0] * 16 for _ in total]  # and how often each had it
    fetched = {}  # of a page and a processor, what both counts were at its last fetch
    place = turn = 0
    yield b"cluster 16 112 64 8\n"
    while place + 40 <= events:
        processor, lock, fetch = turn % 16, turn % 7, turn // 112 % 16
        page = lock * 16 + fetch
        all_then, own_then = fetched.get((page, processor), (0, 0))
        records = total[lock] - all_then - own[lock][processor] + own_then
        writers = sum(number > all_then for other, number in enumerate(last[lock]) if other != processor)
        whats = [f"ask {lock}", f"acquire {lock}"]
        if records:
            whats.append(f"fetch {page} {writers} {records} {records * (1 if fetch else 2)}")
            fetched[page, processor] = total[lock], own[lock][processor]
        whats.append(f"store {lock * 1024 + 16 + processor} {turn % 1000}")
        whats.extend(f"store {(lock * 16 + page) * 64 + processor} {turn % 1000}" for page in range(16))
        whats.append(f"release {lock}")
        for what in whats:
            yield f"event {place} {processor} {what}\n".encode()
            place += 1
        total[lock] += 1
        own[lock][processor] += 1
        last[lock][processor] = total[lock]
        turn += 1


def memory_of(lines, *words):
    """What the program says of the lines, how it ends, and how many bytes of memory it had at most as it read them."""
    run = subprocess.Popen([PROGRAM, "check", *words], stdin=subprocess.PIPE, stdout=subprocess.PIPE, stderr=subprocess.PIPE)
    try:
        for begin in range(0, len(lines), 20_000):
            run.stdin.write(b"".join(lines[begin : begin + 20_000]))
        run.stdin.flush()
    except BrokenPipeError:
        pass
    used = re.search(r"VmHWM:\s+(\d+) kB", Path(f"/proc/{run.pid}/status").read_text())
    said, wrong = run.communicate()
    return run.returncode, said.decode(), wrong.decode(), int(used[1]) << 10 if used else 0


# The second half has some 570,000 more intervals that store in a page.
COUNTED = list(counted_trace(LONG))
SHORT = COUNTED[: len(COUNTED) // 2]
status, said, wrong, short = memory_of(SHORT, "--model", "lazy-release")
count("a trace that counts is faithful", status == 0 and f"events {len(SHORT) - 1}\n" in said and "verdict race-free" in said, status, said[:300], wrong)
status, said, wrong, long = memory_of(COUNTED, "--model", "lazy-release")
count("a long trace that counts is faithful", status == 0 and f"events {len(COUNTED) - 1}\n" in said, status, said[:300], wrong)
count("the memory for counts doesn't grow with the trace", 0 < long < short + (4 << 20), short, long)
wrongly = next(place for place in range(len(SHORT) - 1, 0, -1) if b" fetch " in SHORT[place])
head, number = SHORT[wrongly].rsplit(b" ", 1)
lied = [*SHORT[:wrongly], head + b" %d\n" % (int(number) + 1), *SHORT[wrongly + 1 :]]
status, said, wrong = long_judged(lied, "--model", "lazy-release", memory=STORED)
count("a wrong count at its end is told", status == 6 and f"unfaithful {wrongly - 1}\n" in said and "the fetch has to count 15 writers, 240 records and" in said, status, said[:300], wrong)


def section(processor, lock, *accesses):
    """The events of a processor's section under a lock."""
    return [f"{processor} {what}" for what in (f"ask {lock}", f"acquire {lock}", *accesses, f"release {lock}")]


def numbered(events, begin):
    """The events' lines, numbered from here on."""
    return [f"event {place} {event}\n".encode() for place, event in enumerate(events, begin)]


# Word 4096 is handed over by lock 0, and word 4097 is guarded by lock 1 but for the last store. Behind the long part
# word 4098 is handed over.
SIZES = b"cluster 16 65 64 64\n"
EARLY = ["0 store 4098 1", "0 store 4096 1", *section(0, 0), *section(1, 0), "1 store 4096 2  gone", *section(1, 0), *section(0, 0), "0 load 4096 2",
         *section(0, 1, "store 4097 1"), *section(1, 1, "store 4097 2"), *section(0, 1, "load 4097 2"), "0 store 4097 3  gone"]
LATE = [*section(0, 0), *section(2, 0), "2 store 4098 2  late", *section(2, 0), *section(3, 0), "3 load 4098 2"]
FIRST, SECOND = (EARLY.index(it) for it in ("1 store 4096 2  gone", "0 load 4096 2"))
STORE, LOAD, BARE = (EARLY.index(it) for it in ("1 store 4097 2", "0 load 4097 2", "0 store 4097 3  gone"))
MOVED = (b"event %d %s" % (int(line.split(b" ", 2)[1]) + len(EARLY), line.split(b" ", 2)[2]) for line in LINES[1:])
WORDS = [SIZES, *numbered(EARLY, 0), *MOVED, *numbered(LATE, EVENTS + len(EARLY))]
BEHIND = EVENTS + len(EARLY)
HANDED = f"handed over 4096: event {FIRST} (gone) by p1 and event {SECOND} by p0 hold no lock in common\n"
FORGOTTEN = f"unprotected 4097: event {STORE} by p1 and event {BARE} (gone) by p0 hold no lock in common; events {STORE} and {LOAD} hold lock 1\n"
LAST = (f"handed over 4098: event {BEHIND + LATE.index('2 store 4098 2  late')} (late) by p2 "
        f"and event {BEHIND + len(LATE) - 1} by p3 hold no lock in common\n")
for which, told in (("forgotten", FORGOTTEN), ("all", HANDED + FORGOTTEN + LAST)):
    for model in ("race-free", "sequential"):
        status, said, wrong = long_judged(WORDS, "--locksets", which, "--model", model)
        count(f"words of a long trace, {which}, {model}", status == 0 and f"verdict race-free\n{told}traffic " in said, status, said[:600], wrong)
status, said, wrong = long_judged(WORDS, "--locksets", "all", "--json")
count("an access that was let go of is an object, too", f'"guarded":[{{"place":{STORE},"processor":1}},' in said and '"label":"late"' in said
      and f'"first":{{"address":4096,"kind":"store","label":"gone","place":{FIRST},"processor":1,"value":2}}' in said, status, said[:900], wrong)

# Of word 4099 two processors' accesses hold no lock in common, the second one long behind the first; before that one comes an access
# with another lock and another label, and behind it one with its own lock and label by another processor. Word 4100 races, long behind
# its first access; word 4101 is told though its first access is followed by others of its sort. Two accesses of word 4102 hold lock 1, and others of their
# sort follow them; that somebody forgot the lock shows long behind them.
FAR = [*section(1, 1, "store 4099 1  other.c:1"), *section(0, 1), *section(0, 0, "store 4099 1  first.c:2"), *section(0, 0, "store 4099 2  first.c:3"),
       *section(0, 1, "store 4099 3  other.c:4"), "5 store 4100 1  race.c:5", *section(0, 0), *section(1, 0),
       "0 store 4101 1  early.c:6", *section(0, 0), *section(1, 0), "1 store 4101 2  early.c:7", *section(1, 0), *section(0, 0),
       "0 store 4101 3  early.c:8", *section(0, 0), *section(1, 0), "1 store 4101 4  early.c:9", "1 store 4101 5  early.c:10",
       *section(0, 1, "store 4102 1"), *section(1, 1, "store 4102 2  both.c:11"), *section(0, 1, "load 4102 2  both.c:12"),
       *section(1, 1, "store 4102 3  both.c:13"), *section(0, 1, "load 4102 3  both.c:14")]
FIRST_FAR = FAR.index("0 store 4099 2  first.c:3")
RACE_FAR = FAR.index("5 store 4100 1  race.c:5")
TOLD_FAR = FAR.index("1 store 4101 2  early.c:7"), FAR.index("0 store 4101 3  early.c:8")
BOTH_FAR = [FAR.index(it) for it in ("1 store 4102 2  both.c:11", "0 load 4102 2  both.c:12", "1 store 4102 3  both.c:13")]
AFTER = [*section(1, 1), *section(0, 1), *section(1, 1, "load 4099 3  last.c:11")]
MOVED_FAR = [b"event %d %s" % (int(line.split(b" ", 2)[1]) + len(FAR), line.split(b" ", 2)[2]) for line in LINES[1:]]
BEHIND = EVENTS + len(FAR)
FARTHER = [SIZES, *numbered(FAR, 0), *MOVED_FAR]
status, said, wrong = long_judged([*FARTHER, *numbered(AFTER, BEHIND)], "--locksets", "all")
count("an access long ago is told with its label", status == 0 and f" {FIRST_FAR} (first.c:3) by p0 and event " in said and "(last.c:11) by p1" in said, status, said[:900], wrong)
count("an access is told with its label though others followed", f"handed over 4101: event {TOLD_FAR[0]} (early.c:7) by p1 and event {TOLD_FAR[1]} (early.c:8) by p0 " in said,
      status, said[:900], wrong)
status, said, wrong = long_judged([*FARTHER, *numbered(["0 store 4102 4  bare.c:15"], BEHIND)], "--locksets", "forgotten")
count("accesses that hold a lock in common are told with their labels though others followed and the word is told long behind them",
      f"unprotected 4102: event {BOTH_FAR[2]} (both.c:13) by p1 and event {BEHIND} (bare.c:15) by p0 hold no lock in common; "
      f"events {BOTH_FAR[0]} (both.c:11) and {BOTH_FAR[1]} (both.c:12) hold lock 1\n" in said, status, said[:900], wrong)
for words in ((), ("--locksets", "all")):
    status, said, wrong = long_judged([*FARTHER, *numbered(["6 store 4100 2  end"], BEHIND)], *words)
    count(f"the first access of a race is told though it came long ago, {words}",
          f"verdict racy\nevent {RACE_FAR} 5 store 4100 1  race.c:5\nevent {BEHIND} 6 store 4100 2  end\n" in said, status, said[:600], wrong)

# Words 4099 and 4100 race early and at the end, between lines with the same two labels; the first access of the second race came long ago.
RACING = ["0 store 4099 1  one.c:1", "1 store 4099 2  other.c:2", "5 store 4100 1  one.c:1"]
BEHIND = EVENTS + len(RACING)
MOVED = [b"event %d %s" % (int(line.split(b" ", 2)[1]) + len(RACING), line.split(b" ", 2)[2]) for line in LINES[1:]]
for last, told in (("6 store 4100 2  other.c:2", ", and of 1 more with these labels"), ("6 store 4100 2  third.c:3", "")):
    status, said, wrong = long_judged([SIZES, *numbered(RACING, 0), *MOVED, *numbered([last], BEHIND)], "--program")
    second = "" if told else f"race of word 4100\nevent 2 5 store 4100 1  one.c:1\nevent {BEHIND} {last}\n"
    count(f"all races of a long trace are told, {last}", status == 0 and f"verdict racy\nrace of word 4099{told}\nevent 0 0 store 4099 1  one.c:1\n"
          f"event 1 1 store 4099 2  other.c:2\n{second}racing words 2\n" in said, status, said[:900], wrong)
print(f"{passed} passed, {failed} failed")
sys.exit(failed > 0)
