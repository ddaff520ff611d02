"""A trial: an adapter runs a script, and its trace is judged."""
import ctypes
import dataclasses
import os
import resource
import signal
import subprocess
import tempfile
import threading
from pathlib import Path

# What a trial may come to. Each but RIGHT is a fault.
RIGHT, LIE, STRAYS, NO_TRACE, HANG, CRASH = "right", "lie", "strays", "no trace", "hang", "crash"
STATUSES = {RIGHT: 0, NO_TRACE: 2, HANG: 3, LIE: 6, STRAYS: 7, CRASH: 9}
# The most bytes that an adapter may print.
MOST_BYTES = 1 << 26
PR_SET_CHILD_SUBREAPER = 36


@dataclasses.dataclass(frozen=True)
class Task:
    """How trials are made: the adapter's words, the program `lrc`, words of `lrc check`, and seconds that a run may take."""

    adapter: tuple
    lrc: str
    model: tuple
    seconds: float


@dataclasses.dataclass(frozen=True)
class Trial:
    """What a trial came to, why, and its trace."""

    kind: str
    why: str
    trace: bytes


# Whether Ctrl-C has ended the trials of this process.
INTERRUPTED = threading.Event()


def adopt():
    """Lets this process adopt what an adapter leaves, so that it can be ended."""
    ctypes.CDLL(None).prctl(PR_SET_CHILD_SUBREAPER, 1, 0, 0, 0)


def interrupt(*_):
    """Ends the trial that is under way."""
    INTERRUPTED.set()
    raise KeyboardInterrupt


def begin_worker():
    """Begins a process that makes trials: after Ctrl-C it makes no more, whatever was handed to it before."""
    adopt()
    signal.signal(signal.SIGINT, interrupt)


def children():
    """The processes that this one started or adopted."""
    found = []
    for task in Path("/proc/self/task").iterdir():
        try:
            found += [int(word) for word in (task / "children").read_text().split()]
        except OSError:
            pass
    return found


def end_all():
    """Ends all that an adapter has left."""
    while left := children():
        for child in left:
            try:
                os.kill(child, signal.SIGKILL)
                os.waitpid(child, 0)
            except (ProcessLookupError, ChildProcessError):
                pass


def limit():
    resource.setrlimit(resource.RLIMIT_FSIZE, (MOST_BYTES, MOST_BYTES))
    resource.setrlimit(resource.RLIMIT_CORE, (0, 0))


def run_adapter(task, script, output):
    """Runs the adapter: its status; None if it doesn't end in time."""
    with tempfile.TemporaryFile() as given:
        given.write(script.encode())
        given.seek(0)
        adapter = subprocess.Popen(task.adapter, stdin=given, stdout=output, stderr=subprocess.DEVNULL,
                                   start_new_session=True, preexec_fn=limit)
        try:
            return adapter.wait(task.seconds)
        except subprocess.TimeoutExpired:
            return None
        finally:
            end_all()


def end_of(status):
    """Why a run is a fault by how it ended, with its kind; None if it isn't."""
    if status is None:
        return HANG, "it didn't end in time"
    if status < 0:
        return CRASH, f"it died of signal {-status}"
    return (CRASH, f"it ended with status {status}") if status else None


def said_by(words, given=None):
    """The status of a command of `lrc`, and what it printed."""
    ran = subprocess.run(words, input=given, capture_output=True, check=False)
    return ran.returncode, (ran.stdout + ran.stderr).decode(errors="replace")


def judged(task, script, trace):
    """What the trace comes to."""
    if not trace:
        return Trial(NO_TRACE, "it prints nothing", trace)
    status, text = said_by([task.lrc, "check", *task.model], trace)
    if status == 2:
        return Trial(NO_TRACE, text.splitlines()[0] if text else "it is no trace", trace)
    if status == 6:
        return Trial(LIE, next((line for line in text.splitlines() if line.startswith("unfaithful")), "a lie"), trace)
    if status != 0:
        raise OSError(f"lrc check ended with status {status}: {text}")
    with tempfile.NamedTemporaryFile("w", suffix=".lrc") as file:
        file.write(script)
        file.flush()
        status, text = said_by([task.lrc, "follows", file.name], trace)
    if status == 6:
        return Trial(STRAYS, "; ".join(line.strip() for line in text.splitlines()), trace)
    if status != 0:
        raise OSError(f"lrc follows ended with status {status}: {text}")
    return Trial(RIGHT, "", trace)


def tried(task, script):
    """A trial of the script."""
    if INTERRUPTED.is_set():
        raise KeyboardInterrupt
    with tempfile.TemporaryFile() as output:
        status = run_adapter(task, script, output)
        output.seek(0)
        trace = output.read()
    if len(trace) >= MOST_BYTES:
        return Trial(NO_TRACE, f"it prints {MOST_BYTES} bytes and more", trace[:1024])
    if fault := end_of(status):
        kind, why = fault
        return Trial(kind, why, trace)
    return judged(task, script, trace)


def never_hangs(task, script):
    """Whether the script is lawful, and no order of its turns hangs by its text."""
    status, text = said_by([task.lrc, "explore", "--most", "0"], script.encode())
    return status in (0, 7) and "\nhangs never\n" in text


def shows(task, script, kind, runs):
    """How many of so many runs come to a fault of this kind, and the first such trial."""
    found, first = 0, None
    for _ in range(runs):
        trial = tried(task, script)
        if trial.kind == kind:
            found, first = found + 1, first or trial
    return found, first


def does_show(task, script, kind, runs):
    """Whether one of so many runs comes to a fault of this kind."""
    return any(tried(task, script).kind == kind for _ in range(runs))
