#!/usr/bin/env python3
"""explored.py EXPLORED [PROGRAM]: compares what the library for C tells of scripts' schedules with what `lrc explore` prints.

EXPLORED is the program of explored.c. What it prints has to be what the cases of tests/program want of `explore` and of refused
scripts, without what the library doesn't tell: schedules, words, who keeps a processor waiting, what the text leaves open, and what the
rules allow. So it has to be with what PROGRAM prints of each script of examples/ and of drawn ones, where PROGRAM is built. And of each of these it has to be what
the plain enumeration of tests/exploring finds. The last line is `N passed, M failed`.
"""
import importlib.machinery
import importlib.util
import re
import subprocess
import sys
from pathlib import Path

TESTS = Path(__file__).resolve().parent.parent
EXAMPLES = TESTS.parent / "examples"
sys.dont_write_bytecode = True
sys.path.insert(0, str(TESTS / "exploring"))

import scripts  # noqa: E402
from schedules import enumerate_all  # noqa: E402
from texts import results_of  # noqa: E402

DRAWN = 200
BY_RULES = re.compile(r"outcomes .* by the rules( so far)?|beginnings .*")
GAPS = ("unguarded ", "unranked", "  word ", "  circle", "  wait", "  and ", "    line ", "    end ")
UNTOLD = re.compile(r", held by .*|, which nobody .*| for processor .*")


def case_reader():
    """The module of tests/program/run, which reads cases."""
    loader = importlib.machinery.SourceFileLoader("case_reader", str(TESTS / "program/run"))
    module = importlib.util.module_from_spec(importlib.util.spec_from_loader("case_reader", loader))
    loader.exec_module(module)
    return module


def told(text):
    """The lines that the library tells, of what `lrc explore` prints."""
    kept, accesses = [], 0
    for line in text.splitlines():
        is_event = line.startswith("event ")
        if line.startswith(("  words ", "  schedule ", "    event ", *GAPS)) or BY_RULES.fullmatch(line) or is_event and not accesses:
            continue
        accesses = 2 if line == "race" else accesses - is_event
        kept.append(UNTOLD.sub("", line))
    return kept


def output(*words, script=None):
    """The lines that a program prints."""
    return subprocess.run(words, input=script, stdout=subprocess.PIPE, timeout=60).stdout.decode().splitlines()


def wanted_of(case):
    """How many states the case's script is explored with, as words of a call, and what has to be told of it; None where the
    case is another one."""
    words = [run[1:] for run in case.runs if run[:1] == [b"explore"]]
    refused = re.match(r"lrc: (line [0-9]+: .*)\n", case.text("stderr").decode())
    if len(words) != 1 or words[0][:1] not in ([], [b"--most"]) or words[0][2:] or case.kinds or case.progress:
        return None
    if refused:
        return words[0][1:], [refused[1]]
    return (words[0][1:], told(case.text("stdout").decode())) if case.texts.get("stdout") else None


def compared(said, wanted):
    """What is wrong with these lines; None where nothing is."""
    return None if said == wanted else f"{said} where {wanted} is right"


def by_cases(program):
    """Of each case its name, and what is wrong."""
    reader = case_reader()
    for path in sorted(reader.HERE.glob("*.case")):
        case = reader.Case(path)
        wanted = wanted_of(case)
        if wanted is not None:
            yield path.stem, compared(output(program, *wanted[0], script=case.input()), wanted[1])


def by_rules(text, said):
    """What is wrong beside the enumeration; None where nothing is."""
    script = scripts.read(text.decode())
    found = enumerate_all(script)
    if found.race is not None:
        return compared(said[:1], ["verdict racy"])
    hangs = "hangs never" if found.hang is None else "hangs"
    results = results_of(script, found.outcomes, "words")
    return compared(said[:3], ["verdict race-free under every schedule", f"outcomes {len(results)}", hangs])


def by_scripts(program, lrc):
    """Of each script of examples/, and of drawn ones, its name, and what is wrong."""
    texts = [(path.name, path.read_bytes()) for path in sorted(EXAMPLES.rglob("*.lrc"))]
    texts += [(f"script {seed}", scripts.draw(seed).text().encode()) for seed in range(DRAWN)]
    for name, text in texts:
        said = output(program, script=text)
        yield name, by_rules(text, said)
        if lrc:
            yield f"{name} beside {lrc}", compared(said, told("\n".join(output(lrc, "explore", script=text))))


def main(program, lrc=None):
    trials = [*by_cases(program), *by_scripts(program, lrc)]
    faults = [(name, fault) for name, fault in trials if fault is not None]
    for name, fault in faults:
        print(f"c_library: {name}: {fault}")
    print(f"{len(trials) - len(faults)} passed, {len(faults)} failed")
    return bool(faults)


if __name__ == "__main__":
    sys.exit(main(*sys.argv[1:]))
