"""How far the build is: a line that is rewritten where standard error is a terminal, and a line a crate where not."""
import os
import time

from .places import say, write
from .plan import seconds_left, speed

# So much of the figures' own pace is held against what is measured, in seconds: the first small crate tells little.
HELD = 60
# Where there is no line to be rewritten, what is at work is said after so many seconds without a word.
SILENCE = 60


def in_words(seconds):
    """A time in whole minutes."""
    minutes = max(1, round(seconds / 60))
    return f"about {minutes} minute{'s' * (minutes > 1)}"


class Progress:
    """How far a build is, by the crates' weights."""

    def __init__(self, crates, cores):
        """A build that begins now."""
        self.crates, self.cores = crates, cores
        self.whole = sum(crate.weight for crate in crates)
        self.start = self.told = self.said = time.monotonic()
        self.wanted, self.took, self.most = HELD, HELD, 0
        self.is_terminal, self.is_written = os.isatty(2), False

    def so_far(self):
        seconds = int(time.monotonic() - self.start)
        return f"{seconds // 60}:{seconds % 60:02}"

    def note(self, crate, seconds, jobs):
        """Notes what a crate took, against its weight: this machine may be slower. One of which something was kept says
        nothing of the machine."""
        if not crate.has_kept:
            self.wanted, self.took = self.wanted + crate.weight, self.took + seconds * speed(jobs)

    def spent(self, running):
        """The seconds of its weight that each run's crate has had. `running`: for each its time and jobs."""
        pace = self.took / self.wanted
        return {it: seconds * speed(jobs) / pace for it, (seconds, jobs) in running.items()}

    def left(self, waiting, running):
        """The seconds that are left."""
        jobs = {it: jobs for it, (_, jobs) in running.items()}
        return self.took / self.wanted * seconds_left(waiting, self.spent(running), jobs, self.cores)

    def figures(self, waiting, running):
        """A percentage, which never falls, and the minutes left."""
        spent = self.spent(running)
        rest = sum(max(it.weight - spent.get(it, 0), it.weight / 20) for it in waiting)
        self.most = max(self.most, int(100 * (1 - rest / self.whole)))
        return f"{self.most} %, {in_words(self.left(waiting, running))} left"

    def begin(self):
        """Says what is done, and how long it takes."""
        time_of_all = in_words(seconds_left(self.crates, {}, {}, self.cores))
        say(f"proving {len(self.crates)} crates on {self.cores} cores, and building: {time_of_all} on such a machine"
            " where nothing was kept; once built, it starts at once")

    def show(self, waiting, running):
        """Rewrites the line on a terminal, once a second. Elsewhere says after each minute without a word what is at work."""
        now = time.monotonic()
        if self.is_terminal and (not self.is_written or now >= self.told + 1):
            self.told, self.is_written = now, True
            text = f"lrc: {self.at_work(waiting, running)}"
            write(f"\r{text[:columns() - 1]}\x1b[K")
        elif not self.is_terminal and now >= self.said + SILENCE:
            self.said = now
            say(self.at_work(waiting, running))

    def at_work(self, waiting, running):
        """How far the build is, and which crates are at work."""
        names = " ".join(crate.name for crate in running)
        return f"{self.so_far()} {self.figures(waiting, running)}: {names}"

    def proved(self, crate, waiting, running):
        """Says that a crate is proved, where there is no line to be rewritten."""
        if not self.is_terminal:
            done = len(self.crates) - len(waiting)
            figures = self.figures(waiting, running)
            self.said = time.monotonic()
            say(f"{self.so_far()} {crate.name} is proved, {done} of {len(self.crates)}: {figures}")

    def goes_on(self, waiting, running):
        """Says after a first look how long the proof takes from there."""
        self.say(f"the proof goes on: {self.figures(waiting, running)}; Ctrl-C keeps what is proved")

    def clear(self):
        """Takes the line away, so that something else can be said."""
        if self.is_written:
            self.is_written = False
            write("\r\x1b[K")

    def say(self, words):
        """Says a line in the place of the one that is rewritten."""
        self.clear()
        say(words)


def columns():
    try:
        return os.get_terminal_size(2).columns or 80
    except OSError:
        return 80
