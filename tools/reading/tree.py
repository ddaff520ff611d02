"""All files of the repository as texts, by their paths."""
import re
import subprocess
from pathlib import Path

TOP = Path(__file__).resolve().parent.parent.parent
SOURCE = re.compile(r"crates/(\w+)/(src|specs|proofs)/(.*)\.(rt|antt)")


class Tree:
    """The texts of a checkout's files."""

    def __init__(self, top=TOP):
        self.top = Path(top).resolve()
        self.texts = {}
        named = subprocess.run(["git", "ls-files", "-co", "--exclude-standard", "-z"], cwd=self.top, check=True,
                               capture_output=True, text=True).stdout
        for name in sorted(filter(None, named.split("\0"))):
            path = self.top / name
            try:
                self.texts[name] = path.read_text()
            except (OSError, UnicodeDecodeError):
                continue

    @classmethod
    def of(cls, texts):
        """A tree of these texts."""
        tree = cls.__new__(cls)
        tree.texts = dict(texts)
        return tree

    def sources(self, *endings):
        """The files of src/, specs/ and proofs/ with these endings: path, crate, folder, and the place in the folder."""
        for path in sorted(self.texts):
            found = SOURCE.fullmatch(path)
            if found and found[4] in endings:
                yield path, found[1], found[2], found[3].split("/")


def is_product(crate):
    """Whether a crate is part of the product: no tests, no examples, nothing that is timed."""
    return not re.match(r"(test|example)_|bench$", crate)
