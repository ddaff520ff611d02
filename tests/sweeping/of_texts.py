"""The sweep of texts: those of drawn scripts, with one byte, word or line of them edited."""
import random
import re
from functools import partial

import checks
import drawing
import edits
import grammar
import reports
import scripts
import turns
from flaw import expect
from found import Found
from running import Answer

# How many edits of a script's text are read.
EDITS = 10


def check_read(text, answer):
    """What is read is what stands there: the report is one of it."""
    script = scripts.read(text.decode())
    report = reports.read(answer)
    checks.check_report(script, report, checks.inferred_base(script, report))


def shown(line):
    """A line as it is shown: an ASCII sign as itself, any other byte as a question mark."""
    return "".join(chr(byte) if 32 <= byte <= 126 else "?" for byte in line)


def check_hint(text, place, errors):
    """Behind a script's fault stand its place, its line, and a caret under one of that line's bytes."""
    lines = errors.splitlines()
    expect(all(it.startswith("  ") for it in lines), f"each line behind a fault is indented, where these are {lines}")
    line, at = text.split(b"\n")[place - 1], re.fullmatch("  standard input:([0-9]+):([0-9]+)", lines[0])
    expect(at and int(at[1]) == place, f"line {place} is named, where {lines[0]!r} stands")
    byte = int(at[2]) - 1
    expect(byte <= len(line), f"a byte of the line is named, where {byte} stands")
    if not line:
        return
    start, end, dots = (0, 72, "") if byte < 60 else (byte - 40, byte + 32, "..")
    wanted = ["  " + dots + shown(line[start:end]) + (".." if len(line) > end else ""),
              "  " + " " * (len(dots) + byte - start) + "^"]
    expect(lines[1:3] == wanted, f"{wanted} are shown, where {lines[1:3]} stand")


def check_text(text, finding, answer):
    """The program answers what the slow reader finds. A script that is read may be stuck."""
    if finding is not None:
        wanted = Answer(2, "", "lrc: line {}: {}\n".format(*finding))
        first, _, hint = answer.errors.partition("\n")
        told = answer._replace(errors=first + "\n")
        expect(told == wanted, f"the program answers {wanted.errors.strip()!r}, where it answers {answer}")
        check_hint(text, finding[0], hint)
    elif answer.status == 3:
        is_stuck = not answer.output and answer.errors.endswith(": no progress\n")
        expect(is_stuck, f"the program reads the text, where it answers {answer}")
    else:
        check_read(text, answer)


def try_text(found, program, text, is_turning):
    """Compares what the program says of a text."""
    finding = grammar.read(text)
    answer = program.call(text, "step", "--journal")
    check = partial(check_text, text, finding)
    check(answer)
    found.seen["texts", finding[1] if finding else "read"] += 1
    found.seen["texts", "stuck"] += answer.status == 3
    if is_turning:
        found.turn("texts", turns.TEXTS, answer, check)


def base_text(number):
    """A lawful script's text: by turns of a guarded one, a free one, and one of any sizes."""
    draw = (drawing.guarded, drawing.free, drawing.of_any_sizes)[number % 3]
    return draw(number).text().encode()


def sweep(program, number, is_turning):
    """Reads the text of the script of a number, and some edits of it."""
    found, draws = Found(), random.Random(f"edits {number}")
    text = base_text(number)
    found.trial(f"text {number}", text, expect, grammar.read(text) is None, "a drawn script is lawful")
    found.seen["texts", "scripts"] += 1
    found.seen["texts", "edited"] += EDITS
    for place, it in enumerate([text, *(edits.edited(draws, text) for _ in range(EDITS))]):
        found.trial(f"text {number}, edit {place}", it, try_text, found, program, it, is_turning)
    return found
