"""Help, the version and the usage, where no program is built: what the tests hold the program to (tests/program)."""
import glob
import os
import shlex

from .places import NOT_PROVED, ROOT, say

HELP = ("--help", "-h")
CASES = [f"{ROOT}/tests/program/{name}.case" for name in ("help_*", "version", "usage_nothing")]
OWN = "nothing is built here yet: ./lrc prove proves and builds it, ./lrc test tests it, ./lrc install DIR puts it there"


def asked(words):
    """The words of help or of the version among a command's words, without its file and other options; None where these
    ask for neither."""
    if not words or words[0] in ("help", "--version", "-V", *HELP):
        return words
    own = words[:words.index("--")] if "--" in words else words
    return next(([words[0], it] for it in own[1:] if it in HELP), None)


def block(lines, head):
    """The lines of a case's text, each of which stands behind four spaces."""
    text = []
    for line in lines[lines.index(head) + 1:] if head in lines else []:
        if not line.startswith("    "):
            break
        text.append(line[4:])
    return "".join(f"{line}\n" for line in text)


def answer_of(case, words):
    """The status, standard output and standard error for these words, as a case says; None where it says nothing of
    them."""
    with open(case, encoding="utf-8") as file:
        lines = file.read().splitlines()
    runs = [shlex.split(line[len("words:"):]) for line in lines if line.startswith("words:")]
    if words not in runs:
        return None
    status = next((int(line.split()[1]) for line in lines if line.startswith("status:")), 0)
    return status, block(lines, "stdout:"), block(lines, "stderr:")


def told(words):
    """What the program answers to these words of help; None where no case says it."""
    words = asked(words)
    if words is None:
        return None
    for case in (it for pattern in CASES for it in sorted(glob.glob(pattern))):
        try:
            answer = answer_of(case, words)
        except (OSError, ValueError):
            continue
        if answer is not None:
            return answer
    return None


def write_all(number, text):
    data = text.encode()
    while data:
        data = data[os.write(number, data):]


def tell(answer):
    """Prints an answer, and returns its status."""
    status, output, errors = answer
    try:
        write_all(1, output)
        write_all(2, errors)
    except OSError:
        say("output failed")
        return NOT_PROVED
    say(OWN)
    return status
