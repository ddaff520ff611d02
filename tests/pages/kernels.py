"""The kernels of examples/kernels, recorded by a seed: what `pages` says of them, and that the page of documents says the same."""
import re
import subprocess
import tempfile
from pathlib import Path

HERE = Path(__file__).resolve().parent
ROOT = HERE.parent.parent
PAGE = ROOT / "docs/PAGES.md"
KERNELS = ("stencil", "sort", "factor", "queue")
FORMS = {"": (), " -DCHANGED": ("-DCHANGED",)}
BUILD = ("gcc", "-g", "-O1", "-Wall", "-Wextra", "-Werror", "-fsanitize=thread", "-I", ROOT / "examples/kernels")
SIZES = "128,1024"
SEED = "1"
TRIES = 3


def recorded(kernel, words, room):
    """The trace of the kernel, which is built with these words."""
    made, trace = room / kernel, room / f"{kernel}.trace"
    subprocess.run([*BUILD, *words, "-c", ROOT / f"examples/kernels/{kernel}.c", "-o", f"{made}.o"], check=True)
    subprocess.run(["gcc", f"{made}.o", room / "recorder.o", "-pthread", "-ldl", "-o", made], check=True)
    places = {"CEVANDLE_SEED": SEED, "CEVANDLE_TRACE": str(trace), "PATH": "/usr/bin:/bin"}
    subprocess.run([made], env=places, check=True, stdout=subprocess.DEVNULL, timeout=60)
    return trace


def table(program, trace):
    """What `pages` prints of the trace."""
    words = [program, "pages", "--page-words", SIZES, trace]
    return subprocess.run(words, check=True, capture_output=True, text=True, timeout=60).stdout


def costs(text):
    """The messages and the words of each row."""
    return [(int(row[1]), int(row[8])) for row in map(str.split, text.splitlines()[1:])]


def told(kernel, form):
    """The same of the row that the page of documents has of the kernel in this form; None if it has none."""
    found = re.search(rf"^\| `{kernel}{form}` \|(.*)", PAGE.read_text(), re.MULTILINE)
    cells = [int(cell.replace(",", "")) for cell in re.findall(r"\| *([0-9,]+) *(?=\|)", f"|{found[1]}")] if found else []
    return list(zip(cells[::2], cells[1::2]))


def is_compiler_of_page():
    """Whether gcc is the one that the page's rows come from."""
    return subprocess.run(["gcc", "-dumpversion"], capture_output=True, text=True, check=True).stdout.split(".")[0].strip() == "12"


def flaw_of(program, kernel, room):
    """What is wrong of a kernel, None if nothing is."""
    found = {form: costs(table(program, recorded(kernel, words, room))) for form, words in FORMS.items()}
    before, after = found.values()
    if any(now[0] > was[0] or now[1] > was[1] for was, now in zip(before, after)) or before == after:
        return f"{kernel}: the change saves nothing, or costs something: {before} became {after}"
    if is_compiler_of_page() and any(told(kernel, form) != rows for form, rows in found.items()):
        return f"{kernel}: the page tells {[told(kernel, form) for form in FORMS]} and not {[*found.values()]}"
    return None


def flaws(program):
    """What is wrong of each kernel, None if nothing is. A thread that gets no processor for a second changes a seed's schedule:
    so each is tried again if something is wrong."""
    with tempfile.TemporaryDirectory(prefix="kernels-") as folder:
        room = Path(folder)
        subprocess.run([ROOT / "tools/recorder", room], check=True)
        for kernel in KERNELS:
            for _ in range(TRIES):
                flaw = flaw_of(program, kernel, room)
                if not flaw:
                    break
            yield flaw
