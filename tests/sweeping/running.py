"""The program that is tried: one call of it, and what it answers."""
import subprocess
from typing import NamedTuple

from flaw import Flaw

SECONDS = 60


class Answer(NamedTuple):
    status: int
    output: str
    errors: str

    def __str__(self):
        return f"status {self.status}\n{self.output}{self.errors}"


class Program:
    def __init__(self, path):
        self.path = path

    def call(self, text, *words):
        """What the program answers to the words, with the text as its standard input."""
        given = text if isinstance(text, bytes) else text.encode()
        try:
            ran = subprocess.run([self.path, *words], input=given, capture_output=True, timeout=SECONDS)
        except subprocess.TimeoutExpired:
            raise Flaw(f"{' '.join(words)} isn't done within {SECONDS} seconds") from None
        return Answer(ran.returncode, *[it.decode(errors="backslashreplace") for it in (ran.stdout, ran.stderr)])
