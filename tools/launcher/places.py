"""Where things lie, and how something is said."""
import os
import signal

ROOT = os.path.dirname(os.path.dirname(os.path.dirname(os.path.realpath(__file__))))
WEIGHTS = f"{ROOT}/tools/weights"


class Program:
    """A program of the repository: its crate's name and folder, where it is built, and what it was built from."""

    def __init__(self, name):
        self.name = name
        self.home = f"{ROOT}/crates/{name}"
        self.file = f"{self.home}/out/{name}"
        self.stamp = f"{self.home}/out/built"
        # What the toolchain said when it was proved.
        self.proved = f"{self.home}/out/proved"

    def is_there(self):
        return os.path.isfile(self.file)

    def last_words(self):
        """What the toolchain is told once all below it is proved: the launcher's own programs are built and run, of others
        it is only said whether they are proved."""
        if self in (WHOLE, CORE):
            return ["run", "--jobs", "1", "--", "--help"]
        return ["check" if os.path.isfile(f"{self.home}/src/main.rt") else "lib", "--jobs", "1"]


# The program with all commands; and the one with these alone, which stands on fewer crates and so is built sooner.
WHOLE, CORE = Program("lrc"), Program("lrc_quick")
CORE_COMMANDS = ("run", "step")
# The launcher's own commands: to prove and build alone; to test what is built; to put it into a folder.
PROVE, TEST, INSTALL = "prove", "test", "install"
# What `prove --all` proves beside the program: what a program of one's own stands on, and the library for C.
ALL, ALSO = "--all", ("seats", "cevandle", "c_library")
# What a build keeps to itself lies where no run of the toolchain looks for crates: `rt ci` refuses a second crates.txt.
OWN = f"{ROOT}/.git" if os.path.isdir(f"{ROOT}/.git") else f"{WHOLE.home}/out"
ROOMS = f"{OWN}/lrc-rooms"
TURN = f"{OWN}/lrc-turn"
# The signals that end a build in order.
SIGNALS = (signal.SIGINT, signal.SIGTERM, signal.SIGHUP)
# The statuses: a limit or a failed proof; usage, or what can't be read or written here.
NOT_PROVED, NOT_POSSIBLE = 4, 5


class Stopped(Exception):
    """A signal came; its number."""


class Failed(Exception):
    """A run failed; a line that says of which crate, and how."""


def write(text):
    """Writes to standard error. A pipe that nobody reads stops the build, as it stops any program; where standard error
    takes nothing otherwise, the build goes on."""
    data = text.encode(errors="surrogateescape")
    try:
        while data:
            data = data[os.write(2, data):]
    except BrokenPipeError:
        raise Stopped(signal.SIGPIPE) from None
    except OSError:
        pass


def say(words):
    """Says a line."""
    write(f"lrc: {words}\n")
