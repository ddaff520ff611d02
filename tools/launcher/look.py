"""The first look: where nothing is built yet, the program's answer, compiled with run-time checks and not proved."""
import os
import re
import signal
import stat

from .places import INSTALL, PROVE, TEST, say, write
from .runs import Run, family, tell

# The options that take the word after them.
OPTIONS = ("--tries", "--seed", "--seeds", "--lock", "--most")
HELP = ("help", "--help", "-h")
# What the launcher does by itself.
OWN_COMMANDS = ([PROVE], [TEST], [INSTALL])
# What the FILE is called where the program is tried.
NAME = "script.lrc"
HEAD = "first look, checked and not proved:"
ENDED = re.compile(r"^run=ended status=(\d+)\b.*proved=no$", re.M)
# What the toolchain looks for beside a try, in a process of its own that takes as long as the try itself: names that a
# check would refuse.
HINT = b"\0--start\0no function\0"
# Where the toolchain's own lines begin, after what the program wrote to standard error.
OWN = re.compile(r"^(interpreter: |checked: |races: |run=|rt: )", re.M)


def file_at(words):
    """The place of FILE among the words; None where none is given."""
    at = 1
    while at < len(words):
        if words[at] == "--":
            return at + 1 if at + 1 < len(words) else None
        if words[at] == "-" or not words[at].startswith("-"):
            return at
        at += 2 if words[at] in OPTIONS else 1
    return None


def input_again():
    """Standard input once more, from where it is, where that is a file; None where it can be read only once."""
    try:
        if not stat.S_ISREG(os.fstat(0).st_mode):
            return None
        again = os.open("/proc/self/fd/0", os.O_RDONLY)
        os.lseek(again, os.lseek(0, 0, os.SEEK_CUR), os.SEEK_SET)
        return again
    except OSError:
        return None


def tried(words):
    """The words of `rt try` that do what the program's words ask for, and the standard input; None where it can't."""
    nothing = os.open(os.devnull, os.O_RDONLY)
    if not words or any(word in HELP for word in words):
        return ["--", *words], nothing
    at = file_at(words)
    if at is not None and words[at] != "-":
        path = os.path.abspath(words[at])
        if not (os.path.isfile(path) and os.access(path, os.R_OK)):
            return None
        return ["--data", f"{NAME}={path}", "--", *words[:at], NAME, *words[at + 1:]], nothing
    again = input_again()
    return (["--", *words], again) if again is not None else None


def is_hint(pid):
    """Whether a process is the one that looks for names, which the proofs find, too."""
    try:
        with open(f"/proc/{pid}/cmdline", "rb") as file:
            return HINT in file.read()
    except OSError:
        return False


class Look:
    """A first look that goes on beside the proofs."""

    def __init__(self):
        self.run, self.has_hint = None, True

    def begin(self, rt, program, words):
        """Starts it, where the program isn't built yet and it can be done."""
        given = tried(words) if words[:1] not in OWN_COMMANDS and not program.is_there() else None
        if given:
            # The interpreter can't run a program that reads its words, so it gets no time.
            words = [rt, "try", "--steps", "1", *given[0]]
            self.run = Run("first-look", words, program.home, stdin=given[1], is_look=True)
            os.close(given[1])

    def spare_hint(self):
        """Ends the process that looks for names, so that the processor is free for the answer."""
        found = [pid for pid in family(self.run.process.pid) if is_hint(pid)] if self.has_hint else []
        if found:
            self.has_hint = False
            tell(found, signal.SIGKILL)

    def show(self, progress):
        """Shows the answer once it is there, and returns whether it did. Where there is none, nothing is said: the proved
        one comes."""
        if not self.run:
            return False
        self.spare_hint()
        if not self.run.has_ended():
            return False
        said, run = Run.text(self.run.errors), self.run
        self.run, ended = None, ENDED.search(said)
        if ended:
            progress.clear()
            write(f"{HEAD}\n{Run.text(run.log)}{OWN.split(said, 1)[0]}")
            if ended[1] != "0":
                say(f"the first look ended with status {ended[1]}")
        run.wait()
        return bool(ended)

    def pause(self):
        """What it runs is in a session of its own, so each process is stopped."""
        if self.run:
            tell(family(self.run.process.pid), signal.SIGSTOP)

    def go_on(self):
        if self.run:
            tell(family(self.run.process.pid), signal.SIGCONT)

    def end(self):
        if self.run:
            self.go_on()
            self.run.stop()
            self.run.wait()
