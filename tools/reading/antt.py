"""Files of specs/ and proofs/: their declarations."""
import functools
import re
from dataclasses import dataclass

COMMENT = re.compile(r"(?m)(?:(?<=\s)|^)--(?:\s.*)?$")
HEADER = re.compile(
    r"(?P<indent> *)(?P<marks>(?:abbrev |pub |unfoldable )*)(?:(?P<kind>record|data) (?P<named>[^\s({:]+)(?=[ :]|$)"
    r"|(?P<name>[^\s(){}:;]+)(?: \{[^}]*\})* :(?= |$))")
BLOCK = re.compile(r"(?:pub |abbrev )*(\w+)")


def without_comments(text):
    """The text with blanks in the place of its comments, so that places stay."""
    return COMMENT.sub(lambda found: " " * len(found[0]), text)


def squeezed(text):
    """The text on one line, with single blanks."""
    return " ".join(text.split())


@dataclass
class Declaration:
    """A definition or a lemma: its name, `record`, `data`, `constructor` or ``, and its text up to the next one."""

    name: str
    kind: str
    public: bool
    abbrev: bool
    start: int
    text: str

    def statement(self):
        """A definition's whole text, or a lemma's signature."""
        text = squeezed(without_comments(self.text))
        whole = self.kind or self.abbrev
        return text if whole else text.split(f" {self.name} ", 1)[0]


@functools.lru_cache(maxsize=None)
def declarations(text):
    """The declarations of a file, in their order; those in a `module _` block and the constructors of `data` too, but
    neither the fields of records nor what stands behind a `where`."""
    found, open_blocks, at = [], [], 0
    for line in without_comments(text).splitlines(keepends=True):
        indent = len(line) - len(line.lstrip(" "))
        if line.strip() and line[indent] not in ")]}":
            while open_blocks and open_blocks[-1][0] >= indent:
                open_blocks.pop()
            kind, outer = open_blocks[-1][1:] if open_blocks else ("module", "")
            header = HEADER.match(line)
            word = BLOCK.match(line.lstrip(" "))
            if header and kind in ("module", "data"):
                name, marks = header["named"] or header["name"], header["marks"]
                if kind == "module":
                    found.append(Declaration(name, header["kind"] or "", "pub" in marks, "abbrev" in marks, at, ""))
                    open_blocks.append((indent, header["kind"] or "declaration", name))
                else:
                    found.append(Declaration(f"{outer}.{name}", "constructor", True, False, at, ""))
                    open_blocks.append((indent, "declaration", name))
            elif kind == "module" and not re.match(r" *([({]|where$)", line):
                block = "module" if word and word[1] in ("module", "mutual") else "declaration"
                open_blocks.append((indent, block, ""))
        at += len(line)
    for one, start in zip(found, [*(it.start for it in found[1:]), len(text)]):
        one.text = text[one.start:start]
    return found
