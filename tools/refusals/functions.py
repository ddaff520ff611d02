"""The functions of a source file, and which of them an edit turns."""
import re
from typing import NamedTuple

from .toolchain import rtlib

CLAUSES = ("requires", "ensures", "ghost")
NAME = re.compile(r"[A-Za-z_]\w*")


class Function(NamedTuple):
    """A function of a source file: its name behind its type's, its type's trait's with the names that this is given, and
    where it and its body begin and end."""

    name: str
    owner: str
    trait: str
    given: tuple
    begin: int
    body: int
    end: int

    def is_told_as(self, path, stem):
        """Whether a check tells of it by this path, as `page::page::Page::clean`, or `page::page::PageDebug::fmt` of an
        impl of a trait. `stem`: what its file is called."""
        words = path.split("::")
        before = words[-2] if len(words) > 1 else ""
        if words[-1] != self.name:
            return False
        if not self.owner:
            return before in (stem, words[0])
        # A trait that is given a type has its name too, as `RefusedFromCutFault` of `From<CutFault>`.
        of_trait = self.owner + self.trait
        return before in (self.owner, of_trait) or bool(self.given) and before == of_trait + self.given[0]


def tokens(text):
    """The tokens of Rust's text that are neither spaces nor comments, each with its place."""
    for it in rtlib.RUST_TOKEN.finditer(text):
        if not it[0].isspace() and not it[0].startswith(("//", "/*")):
            yield it.start(), it[0]


def closing(words, at):
    """The place among the tokens of the brace that closes the one there."""
    depth = 0
    for place in range(at, len(words)):
        depth += {"{": 1, "}": -1}.get(words[place][1], 0)
        if not depth:
            return place
    return len(words) - 1


def is_clause(words, at):
    """Whether the brace there opens a clause of a contract, as in `ensures name {`."""
    before = [word for _, word in words[max(0, at - 3):at]]
    return any(word in CLAUSES for word in before) and all(NAME.fullmatch(word) or word == "*"
               for word in before[max(i for i, word in enumerate(before) if word in CLAUSES):])


def body_of(words, at):
    """The places of the tokens that begin and end a function's body; of one without, of its semicolon."""
    place, depth = at, 0
    while place < len(words):
        word = words[place][1]
        depth += (word in "([") - (word in ")]") if len(word) == 1 else 0
        if word == "{" and not depth:
            end = closing(words, place)
            if not is_clause(words, place):
                return place, end
            place = end
        elif word == ";" and not depth:
            return place, place
        place += 1
    return len(words) - 1, len(words) - 1


def owner_of(words, at):
    """The type and the trait of the impl or trait that begins at a token, the names that the trait is given, and the token
    that opens it."""
    head, given, place, angles = [], [], at + 1, 0
    while place < len(words) and words[place][1] not in ("{", ";"):
        word = words[place][1]
        angles += (word == "<") - (word == ">" and words[place - 1][1] not in ("-", "="))
        if not angles and NAME.fullmatch(word):
            head.append(word)
        elif head and "for" not in head and NAME.fullmatch(word):
            given.append(word)
        place += 1
    head = head[:head.index("where")] if "where" in head else head
    if "for" in head:
        cut = head.index("for")
        return head[-1], head[cut - 1] if cut else "", tuple(given), place
    return (head[-1] if head else ""), "", (), place


def functions_of(text):
    """The functions of a source file."""
    words, owners, found, place = list(tokens(text)), [], [], 0
    while place < len(words):
        at, word = words[place]
        owners = [it for it in owners if at < it[3]]
        if word in ("impl", "trait") and (place == 0 or words[place - 1][1] in ("}", ";", "{", "]", "pub", ")")):
            owner, trait, given, opens = owner_of(words, place)
            owners.append((owner, trait, given, words[closing(words, opens)][0]))
            place = opens
        elif word == "fn" and place + 1 < len(words) and NAME.fullmatch(words[place + 1][1]):
            begin, end = body_of(words, place + 2)
            owner, trait, given = owners[-1][:3] if owners else ("", "", ())
            found.append(Function(words[place + 1][1], owner, trait, given, at, words[begin][0], words[end][0]))
            place = begin
        place += 1
    return found


def around(functions, at):
    """The functions that a place lies in, the outermost first."""
    return [it for it in functions if it.begin <= at <= it.end]


def outline(text):
    """What a crate above may see of a source file: its tokens, without the bodies of functions that aren't const."""
    bodies = [(it.body, it.end) for it in functions_of(text) if not re.search(r"\bconst(\s+unsafe)?\s*$", text[:it.begin])]
    return [word for at, word in tokens(text) if not any(body < at < end for body, end in bodies)]
