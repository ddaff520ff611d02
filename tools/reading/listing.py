"""The functions, lemmas and definitions of product crates."""
from . import antt, rattle, tree


def is_given(place):
    """Whether a file of proofs/ has what is written of one function's proof."""
    return place[-1] in ("Answers", "Invariants", "Proof") and not place[0][0].isupper()


def functions(files):
    """The functions of product crates that aren't tests: name, with its type, crate, and the names about it."""
    tests = test_modules(files)
    for path, crate, folder, place in files.sources("rt"):
        if folder == "src" and tree.is_product(crate) and not any(path.startswith(it) for it in tests):
            for it in rattle.items(files.texts[path]):
                if it.kind == "fn" and not it.test:
                    shown = f"{it.owner}::{it.name}" if it.owner else it.name
                    yield shown, path, shown, place


def test_modules(files):
    """The paths of modules that are read for tests alone, without an ending."""
    for path, _, _, place in files.sources("rt"):
        folder = path.removesuffix(".rt") if place not in (["lib"], ["main"]) else path.rsplit("/", 1)[0]
        for it in rattle.items(files.texts[path]):
            if it.kind == "mod" and it.test:
                yield f"{folder}/{it.name}"


def facts(files):
    """The lemmas and definitions of product crates: name, file, and the names about it."""
    for path, crate, folder, place in files.sources("antt"):
        if tree.is_product(crate) and (folder == "specs" or not is_given(place)):
            for it in antt.declarations(files.texts[path]):
                if it.kind != "constructor":
                    yield it.name, path, it.name, place
