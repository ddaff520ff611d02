"""The build: the libraries are proved in rooms, several at once, and then the program, which is built with it."""
import contextlib
import errno
import os
import shutil
import signal
import time

from . import plan, rooms
from .look import Look
from .places import ROOMS, SIGNALS, Failed, Stopped, say
from .progress import Progress
from .runs import Run

# Where no more bytes than this are free, a run that fails does so for that.
FULL = 1_000_000


@contextlib.contextmanager
def undisturbed():
    """Has signals wait until the build has ended in order."""
    signal.pthread_sigmask(signal.SIG_BLOCK, SIGNALS)
    try:
        yield
    finally:
        signal.pthread_sigmask(signal.SIG_UNBLOCK, SIGNALS)


def failure(crate, run):
    """Why a crate's run failed."""
    if shutil.disk_usage(ROOMS).free < FULL:
        return OSError(errno.ENOSPC, os.strerror(errno.ENOSPC), ROOMS)
    return Failed(f"{crate.name} is not proved: {run.why()}")


class Build:
    """A build: the crates that are not proved yet, and the runs that go on, by their crate."""

    def __init__(self, rt, program, crates):
        self.rt, self.program, self.crates, self.waiting = rt, program, crates, list(crates)
        self.running, self.jobs, self.look = {}, {}, Look()
        self.cores = plan.cores_at_hand()
        self.most = plan.most_at_once(self.cores)
        self.progress = Progress(crates, self.cores)
        # What the toolchain says of the program that it has proved and built.
        self.said = ""

    def begin(self, crate, jobs, words, folder):
        """Starts a run of the toolchain for a crate, with so many jobs."""
        self.jobs[crate] = jobs
        self.running[crate] = Run(crate.name, [self.rt, *words], folder, plan.NICE)

    def begin_ready(self):
        """Starts the libraries that may start now, the longest way first."""
        left = plan.left_of(self.waiting, self.progress.spent(self.spent()))
        running = {crate: self.jobs[crate] for crate in self.running}
        for crate, jobs in plan.starting(left, running, self.cores, self.most).items():
            self.begin(crate, jobs, ["lib", "--jobs", str(jobs)], rooms.enter(crate))

    def end_one(self):
        """Waits until a run ends that proved its crate, and returns the crate. Says how far the build is meanwhile."""
        while True:
            for crate, run in self.running.items():
                if run.has_ended():
                    if run.process.returncode:
                        raise failure(crate, run)
                    self.running.pop(crate).wait()
                    self.progress.note(crate, run.seconds(), self.jobs[crate])
                    return crate
            if self.look.show(self.progress):
                self.progress.goes_on(self.waiting, self.spent())
            self.progress.show(self.waiting, self.spent())
            time.sleep(0.05)

    def spent(self):
        return {crate: (run.seconds(), self.jobs[crate]) for crate, run in self.running.items()}

    def prove(self):
        """Proves the libraries, and then the program, which is built with it."""
        while len(self.waiting) > 1:
            self.begin_ready()
            crate = self.end_one()
            rooms.leave(crate)
            self.waiting.remove(crate)
            self.progress.proved(crate, self.waiting, self.spent())
        rooms.wait_for_removals()
        self.begin(self.crates[-1], 1, self.program.last_words(), self.crates[-1].folder)
        last = self.running[self.crates[-1]]
        self.end_one()
        self.said = last.last_line()
        what = "proved and built" if self.program.is_there() else f"{self.program.name} is proved"
        self.progress.say(f"{self.progress.so_far()} {what}")

    def pause(self, *_):
        """Ctrl-Z: stops the runs and then the launcher; both go on together."""
        runs = [*self.running.values(), self.look]
        for run in runs:
            run.pause()
        os.kill(os.getpid(), signal.SIGSTOP)
        for run in runs:
            run.go_on()

    def end_all(self):
        """Ends the runs, whose commands end with them, and keeps what they have proved."""
        for run in self.running.values():
            run.stop()
        self.look.end()
        for run in self.running.values():
            run.wait()
        rooms.end(self.crates)
        with contextlib.suppress(Stopped):
            self.progress.clear()


def build(rt, program, crates, words):
    """Proves and builds the program, and leaves nothing behind but what was proved, whatever comes between. Returns what
    the toolchain says of it."""
    made = Build(rt, program, crates)
    try:
        if rooms.begin(crates):
            say("taking up what a build that died has proved")
        made.progress.begin()
        made.look.begin(rt, program, words)
        if signal.getsignal(signal.SIGTSTP) == signal.SIG_DFL:
            signal.signal(signal.SIGTSTP, made.pause)
        made.prove()
    finally:
        with undisturbed():
            made.end_all()
    return made.said
