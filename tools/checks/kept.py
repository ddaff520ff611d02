"""What a check keeps of each module (out/incremental): when it was written, and so how long a proof took."""
import collections
import os
import re

from .costs import PARTS


# What a proof's answers change of what is kept.
OF_PROOF = ("Proof", "Answers")


def modules(kept, crate):
    """The files that are kept of each function, by part."""
    found = collections.defaultdict(lambda: collections.defaultdict(list))
    for file in kept.glob(f"**/Rattle-{crate}-proofs.*.oantt"):
        names = file.name[len(f"Rattle-{crate}-proofs."):-len(".oantt")].split(".")
        at = next((at for at, name in enumerate(names) if name in PARTS or name.startswith("Kinds")), None)
        if at:
            found[".".join(names[:at])][names[at]].append(file)
    return found


def proof_spans(kept, crate):
    """When the proof of each function began and ended, by the function's path: from the last file of its statement to the first of
    its proof."""
    spans = {}
    for function, parts in modules(kept, crate).items():
        if "Proof" not in parts or "Tie" not in parts:
            continue
        ended = min(file.stat().st_mtime for file in parts["Proof"])
        stated = [file.stat().st_mtime for part, files in parts.items() if part not in OF_PROOF for file in files]
        spans[function] = max((time for time in stated if time <= ended), default=ended), ended
    return spans


def proof_seconds(kept, crate):
    """How long the proof of each function took. It is wall time of that check, whatever went on beside it."""
    return {function: ended - begun for function, (begun, ended) in proof_spans(kept, crate).items()}


def slow_proofs(crate, least):
    """The functions of a crate whose proof took so many seconds, as a check prints them, the slowest first."""
    took = proof_seconds(crate / "out" / "incremental", crate.name)
    found = [function for function in took if took[function] >= least and not re.search(r"\+|\bfn\b|TheImpl", function)]
    return [function.replace(".", "::") for function in sorted(found, key=lambda it: -took[it])]


def of_answers(kept, crate, functions):
    """What is kept of these functions' proofs, with what is made for their answers alone."""
    of_functions = modules(kept, crate)
    return [file for function in functions for part, files in of_functions[function].items() for file in files
            if part in (*OF_PROOF, "Goals", "Given") or re.search(r"\.Lts\.(View|Given)\.", file.name)]


def forget(kept, crate, functions):
    """Removes what is kept of these functions' proofs."""
    for file in of_answers(kept, crate, functions):
        file.unlink()


def take_up(old, new, crate, functions):
    """Puts what one folder keeps of these functions' proofs in the place of what another one does."""
    forget(new, crate, functions)
    for file in of_answers(old, crate, functions):
        os.link(file, new / file.relative_to(old))
