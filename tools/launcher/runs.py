"""Runs of the toolchain: begun, paused, ended."""
import ctypes
import os
import signal
import subprocess
import time

from .places import ROOMS

LIBC = ctypes.CDLL(None, use_errno=True)
PR_SET_PDEATHSIG = 1
# How long a run may take to end that was told to, in seconds.
PATIENCE = 10


def family(pid):
    """A process and all that it started."""
    try:
        with open(f"/proc/{pid}/task/{pid}/children", encoding="ascii") as file:
            return [pid, *(it for child in file.read().split() for it in family(int(child)))]
    except OSError:
        return [pid]


def tell(pids, number):
    """Sends a signal to those processes that there still are."""
    for pid in pids:
        try:
            os.kill(pid, number)
        except ProcessLookupError:
            continue


class Run:
    """A run of the toolchain, in a process group of its own, which Ctrl-C doesn't reach. It ends when the launcher
    dies, and its commands end with it."""

    def __init__(self, name, words, folder, nice=0, stdin=subprocess.DEVNULL, is_look=False):
        """Starts it, with what it says in a file; a first look's errors in a file of their own."""
        self.began, me = time.monotonic(), os.getpid()
        self.log = open(f"{ROOMS}/scratch/{name}.log", "w+b")
        self.errors = open(f"{ROOMS}/scratch/{name}.errors", "w+b") if is_look else self.log
        # A paused run hears of nothing less than SIGKILL; a first look has to be told, since it ends its own program.
        at_death = signal.SIGTERM if is_look else signal.SIGKILL

        def prepare():
            os.setpgrp()
            LIBC.prctl(PR_SET_PDEATHSIG, at_death)
            # In this session, in which alone giving way means anything.
            os.nice(nice)
            if os.getppid() != me:
                os._exit(1)

        environment = {**os.environ, "TMPDIR": f"{ROOMS}/scratch"}
        self.process = subprocess.Popen(words, cwd=folder, env=environment, stdin=stdin, stdout=self.log,
                                        stderr=self.errors, preexec_fn=prepare)

    def has_ended(self):
        return self.process.poll() is not None

    def seconds(self):
        return time.monotonic() - self.began

    def last_line(self):
        """The toolchain's line on what its answer rests on; empty where it says none."""
        return next((line for line in reversed(self.said.splitlines()) if line.startswith("logic=")), "")

    @staticmethod
    def text(file):
        file.seek(0)
        return file.read().decode(errors="replace")

    def why(self):
        """How a run failed: its signal, or its first error. The toolchain answers a command that a signal ended by a
        status of its own, 128 more than the signal or 256 less it."""
        status = self.process.returncode
        number = next((it for it in (-status, status - 128, 256 - status) if 0 < it < 32), None)
        if number:
            return f"its run was killed ({signal.Signals(number).name})"
        lines = [line.strip() for line in self.text(self.log).splitlines() if line.strip()]
        errors = [line for line in lines if "error" in line.lower()]
        return (errors or lines[-1:] or [f"its run ended with status {status}"])[0][:300]

    def pause(self):
        """Stops the run. The toolchain's command stops what it proves by itself, so that this ends too where the
        command is killed meanwhile."""
        tell([self.process.pid], signal.SIGTSTP)

    def go_on(self):
        tell([self.process.pid], signal.SIGCONT)

    def stop(self):
        """Tells the run to end, and to go on for that where it is paused."""
        if not self.has_ended():
            tell([self.process.pid], signal.SIGTERM)
            tell([self.process.pid], signal.SIGCONT)

    def wait(self):
        """Waits until a run ends that was told to, and ends it where it doesn't."""
        try:
            self.process.wait(PATIENCE)
        except subprocess.TimeoutExpired:
            tell(family(self.process.pid), signal.SIGKILL)
            self.process.wait()
        self.said = self.text(self.log)
        self.log.close()
        self.errors.close()
