"""The whole: builds a program where it isn't built, and then becomes it."""
import errno
import os
import signal
import sys

from .built import Stamp, is_built, is_of_sources, is_unchanged, taken, toolchain_of
from .crates import crates_of, weigh
from .places import ALL, ALSO, CORE, CORE_COMMANDS, INSTALL, NOT_POSSIBLE, NOT_PROVED, PROVE, ROOT, SIGNALS, TEST, TURN
from .places import WHOLE, Failed, Program, Stopped, say


def command():
    """The toolchain's command, as the shell would find it; None where there is none."""
    for folder in os.environ.get("PATH", os.defpath).split(os.pathsep):
        file = os.path.join(folder or ".", "rt")
        if os.path.isfile(file) and os.access(file, os.X_OK):
            return os.path.abspath(file)
    return None


def stop(number, _frame):
    """A signal ends the build; those that come while it ends change nothing."""
    for it in SIGNALS:
        signal.signal(it, signal.SIG_IGN)
    raise Stopped(number)


def listen():
    """Has the signals end the build in order. One that the caller ignores stays ignored, here and in the program."""
    for it in SIGNALS:
        if signal.getsignal(it) != signal.SIG_IGN:
            signal.signal(it, stop)


def hold_standard_streams():
    """Keeps the numbers of standard streams that are closed from being given to files of the build."""
    while (made := os.open(os.devnull, os.O_RDWR)) < 3:
        pass
    os.close(made)


def version_of(rt):
    """What the toolchain calls itself; None where it doesn't run."""
    import subprocess

    try:
        ran = subprocess.run([rt, "version"], stdin=subprocess.DEVNULL, stdout=subprocess.PIPE, check=True, text=True)
        return " ".join(ran.stdout.split())
    except (OSError, subprocess.CalledProcessError):
        return None


def turn():
    """Waits until no other build is at work here, and returns what keeps others out until it is closed."""
    import fcntl

    os.makedirs(f"{WHOLE.home}/out", exist_ok=True)
    held = os.open(TURN, os.O_RDWR | os.O_CREAT, 0o666)
    try:
        fcntl.flock(held, fcntl.LOCK_EX | fcntl.LOCK_NB)
    except BlockingIOError:
        other = os.pread(held, 20, 0).decode(errors="replace").strip()
        say(f"waiting for another build{f' (process {other})' if other else ''}")
        fcntl.flock(held, fcntl.LOCK_EX)
    except OSError as error:
        # Some file systems have no locks.
        if error.errno not in (errno.ENOLCK, errno.ENOTSUP, errno.EINVAL):
            raise
    os.ftruncate(held, 0)
    os.pwrite(held, f"{os.getpid()}\n".encode(), 0)
    return held


def that_do(words):
    """The programs that do what the words ask for, each with its crates, the one with all commands first."""
    programs = [WHOLE, CORE] if words[:1] and words[0] in (*CORE_COMMANDS, TEST) else [WHOLE]
    found = [(program, crates_of(program)) for program in programs]
    return [(program, crates) for program, crates in found if crates]


def built(programs, toolchain, version):
    """The first of the programs that is built from the sources as they are; None where none is."""
    return next((program for program, crates in programs if is_built(program, toolchain, version, crates)), None)


def proved_before(programs):
    """The first of the programs that was proved from the sources as they are, by whichever toolchain; None where none
    was."""
    return next((program for program, crates in programs if is_of_sources(program, crates)), None)


def turn_or_program(programs):
    """What keeps other builds out until it is closed, and no program; where nothing can be written, the program that was
    proved from the sources as they are."""
    try:
        return turn(), None
    except OSError as error:
        if error.errno not in (errno.EACCES, errno.EPERM, errno.EROFS):
            raise
        program = proved_before(programs)
        if program is None:
            at, why = os.path.relpath(error.filename or TURN), error.strerror
            raise OSError(f"no program is built from these sources, and this folder can't be written ({at}: {why})") from None
        say(f"this folder can't be written, so its program is run, which another toolchain proved ({Stamp(program).version})")
        return None, program


def version_that_runs(rt):
    """What the toolchain calls itself, which has to run."""
    version = version_of(rt)
    if version is None:
        raise OSError(f"the Rattle toolchain doesn't run ({rt} version)")
    return version


def make(rt, toolchain, programs, words):
    """Builds the last of these programs where none is built from the sources as they are. Returns the one that is."""
    hold_standard_streams()
    version = version_that_runs(rt)
    program = built(programs, toolchain, version)
    if program:
        return program
    held, program = turn_or_program(programs)
    if program:
        return program
    # One may be built by now.
    program = built(programs, toolchain, version)
    if not program:
        program, crates = programs[-1]
        build_anew(rt, program, crates, taken(program, toolchain, version, crates), words)
    os.close(held)
    return program


def build_anew(rt, program, crates, stamp, words):
    """Builds a program after these crates, and keeps the stamp of what it was built from."""
    from .build import build
    from .plan import cores_at_hand

    weigh(crates, cores_at_hand())
    os.makedirs(f"{program.home}/out", exist_ok=True)
    said = build(rt, program, crates, words)
    stamp.keep()
    keep_line(program, said)


def prove(words):
    """Proves and builds the program alone; with --all also what a program of one's own stands on, and the library for C;
    or another crate, with all that it stands on."""
    if not words:
        program_for([PROVE])
        return
    program, also = (WHOLE, ALSO) if words == [ALL] else (Program(words[0]), ())
    crates = crates_of(program, also)
    if len(words) > 1 or not crates:
        say(f"usage: ./lrc prove [{ALL} | CRATE], a crate that crates.txt lists")
        sys.exit(NOT_POSSIBLE)
    rt = command()
    if rt is None:
        raise lacking([(program, crates)])
    listen()
    hold_standard_streams()
    version, held = version_that_runs(rt), turn()
    stamp = taken(program, toolchain_of(rt), version, crates_of(program))
    build_anew(rt, program, crates, stamp, [PROVE])
    os.close(held)
    if also:
        status = os.spawnv(os.P_WAIT, f"{ROOT}/tools/c-library", ["c-library"])
        sys.exit(NOT_PROVED if status else 0)


def keep_line(program, said):
    """Keeps what the toolchain said of the program, as far as that can be written; nothing hangs on it."""
    try:
        with open(program.proved, "w", encoding="utf-8") as file:
            file.write(f"{said}\n" if said else "")
    except OSError:
        pass


def unchanged(programs, rt, toolchain):
    """The first of the programs that is built, by all that can be told at once; None where none is."""
    if rt is None:
        return proved_before(programs)
    return next((program for program, crates in programs if is_unchanged(program, toolchain, crates)), None)


def lacking(programs):
    """Why nothing can be built where there is no toolchain."""
    is_there = any(program.is_there() for program, _ in programs)
    changed = "the sources have changed since the program was proved, and " if is_there else ""
    return OSError(f"{changed}the Rattle toolchain (its command rt) is missing")


def program_for(words):
    """The program that does what the words ask for, built where something changed. Help is printed at once where none
    is built."""
    rt, programs = command(), that_do(words)
    toolchain = toolchain_of(rt) if rt else ""
    program = unchanged(programs, rt, toolchain)
    if program:
        return program
    tell_help(words)
    if rt is None:
        raise lacking(programs)
    listen()
    return make(rt, toolchain, programs, words)


def tell_help(words):
    """Prints what the words ask for and ends, where that is help."""
    from .told import tell, told

    answer = told(words)
    if answer is not None:
        signal.signal(signal.SIGPIPE, signal.SIG_DFL)
        sys.exit(tell(answer))


def test(words):
    """Tests what is built, by the cases that need nothing else."""
    program = program_for([TEST])
    os.execv(f"{ROOT}/tests/run", [f"{ROOT}/tests/run", *words, program.file])


def put(words):
    """Puts the program with all commands into a folder."""
    from .install import HEAD, install, usage

    given = usage(words)
    if given is None:
        say(f"usage: {HEAD}")
        sys.exit(NOT_POSSIBLE)
    program = program_for([INSTALL])
    try:
        install(command(), program, *given)
    except OSError as error:
        say(f"not installed: {told_of(error)}")
        sys.exit(NOT_POSSIBLE)
    except Failed as failed:
        say(f"not installed: {failed}")
        sys.exit(NOT_PROVED)
    sys.exit(0)


def is_text(word):
    """Whether a word is UTF-8, as the program takes words."""
    try:
        os.fsencode(word).decode()
    except UnicodeDecodeError:
        return False
    return True


def with_odd_file_read(words):
    """The words, with `-` in place of a file's name that is no UTF-8. That file is standard input then."""
    for place, word in enumerate(words):
        if not is_text(word) and os.path.isfile(word):
            os.dup2(os.open(word, os.O_RDONLY), 0)
            return [*words[:place], "-", *words[place + 1:]]
    return words


def run(words):
    """Builds where something changed, and then becomes the program."""
    own = {TEST: test, INSTALL: put, PROVE: prove}.get(words[0]) if words else None
    if own:
        own(words[1:])
        sys.exit(0)
    program = program_for(words)
    for it in (signal.SIGPIPE, signal.SIGXFSZ):
        signal.signal(it, signal.SIG_DFL)
    os.execv(program.file, [WHOLE.file, *with_odd_file_read(words)])


def end_by(number):
    """Ends as the signal ends a command."""
    signal.signal(number, signal.SIG_DFL)
    os.kill(os.getpid(), number)


def last_words(words):
    """Says why nothing was run, in a line, where that can still be said."""
    try:
        say(words)
    except Stopped:
        pass


def told_of(error):
    """What an error of the system is, in a line."""
    at = f"{os.path.relpath(error.filename)}: " if isinstance(error.filename, str) else ""
    return f"{at}{error.strerror or error}"


def main(words):
    """Runs; what keeps it from that is said in a line."""
    try:
        run(words)
    except Stopped as stopped:
        last_words("stopped; what is proved so far is kept")
        end_by(stopped.args[0])
    except Failed as failed:
        last_words(f"not built: {failed}")
        sys.exit(NOT_PROVED)
    except OSError as error:
        last_words(f"not built: {told_of(error)}")
    except Exception as error:  # Whatever it is, it is a line.
        last_words(f"not built: {type(error).__name__}: {error}")
    sys.exit(NOT_POSSIBLE)
