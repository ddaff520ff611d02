"""Files of src/: their types and functions."""
import functools
import re
from dataclasses import dataclass

# Comments, texts and characters. (A lifetime has no second quote.)
PLAIN = re.compile(
    r"//[^\n]*|/\*.*?\*/|b?r#*\".*?\"#*|b?\"(?:\\.|[^\"\\])*\"|b?'(?:\\(?:x..|u\{\w+\}|.)|[^'\\\n])'", re.DOTALL)
ITEM = re.compile(
    r"(?P<public>\bpub(?P<within>\([a-z: ]+\))? )?(?:(?:const|unsafe) )*"
    r"\b(?P<kind>fn|struct|enum|trait|type|impl|mod)\b(?P<rest>[ <])")
NAME = re.compile(r"[A-Za-z_]\w*")
CLAUSE = re.compile(r"\s*(requires|ensures|ghost)(\*?)\s*(«?\w+»?:?)?\s*\{")


def masked(text):
    """The text with blanks in the place of comments, texts and characters, so that places stay."""
    return PLAIN.sub(lambda found: re.sub(r"[^\n]", " ", found[0]), text)


def matching(text, at):
    """Where the bracket that stands there is closed; the text's end where it isn't."""
    depth = 0
    for place in range(at, len(text)):
        depth += (text[place] in "([{") - (text[place] in ")]}")
        if depth == 0:
            return place
    return len(text)


@dataclass
class Item:
    """A function or a type: the type that it belongs to, and the trait whose impl it stands in."""

    kind: str
    name: str
    owner: str
    of_trait: str
    public: bool
    test: bool
    start: int
    end: int


def owner_of(rest):
    """The type of an impl's head, and the trait's name where it is a trait's impl."""
    head = rest
    if head.lstrip().startswith("<"):
        depth = 0
        for place, letter in enumerate(head):
            depth += (letter == "<") - (letter == ">" and head[place - 1] != "-")
            if letter == ">" and depth == 0:
                head = head[place + 1:]
                break
    trait, found, own = head.partition(" for ")
    names = NAME.findall((own if found else trait).split("<")[0])
    traits = NAME.findall(trait.split("<")[0])
    return (names[-1] if names else ""), traits[-1] if found and traits else ""


def body_after(code, at):
    """Where the function's body or its `;` stands from there on, behind its clauses."""
    while at < len(code):
        clause = CLAUSE.match(code, at)
        if clause:
            at = matching(code, clause.end() - 1) + 1
        elif code[at] in "{;":
            break
        elif code[at] in "([":
            at = matching(code, at) + 1
        else:
            at += 1
    return at


@functools.lru_cache(maxsize=None)
def items(text):
    """The functions and types of a file."""
    code, found, owners = masked(text), [], []
    for item in ITEM.finditer(code):
        line = code.rfind("\n", 0, item.start()) + 1
        if code[line:item.start()].strip(" "):
            continue
        while owners and owners[-1][0] < item.start():
            owners.pop()
        kind, at = item["kind"], item.end() - 1
        attributes = code[:line].rstrip().rsplit("\n\n", 1)[-1].split("\n")
        above = []
        while attributes and attributes[-1].lstrip().startswith(("#[", "//")) or attributes and not attributes[-1].strip():
            above.append(attributes.pop())
        test = any("#[test]" in it or "#[cfg(test)]" in it for it in above)
        if kind == "impl":
            brace = code.find("{", at)
            own, of_trait = owner_of(code[at:brace])
            owners.append((matching(code, brace), own, of_trait, test))
            continue
        name = NAME.search(code, at)
        if not name or any(it[1] is None for it in owners):
            continue
        owner = owners[-1] if owners else (0, "", "", False)
        public = bool(item["public"]) and not item["within"] or bool(owner[2]) and kind == "fn"
        one = Item(kind, name[0], owner[1], owner[2], public, test or owner[3], line, name.end())
        if kind == "fn":
            body = body_after(code, name.end())
            one.end = matching(code, body) if body < len(code) and code[body] == "{" else body
            # What stands in a function belongs to it.
            owners.append((one.end, None, "", False))
        elif kind in ("trait", "mod"):
            brace = re.compile(r"[{;]").search(code, name.end())
            if brace and brace[0] == "{":
                one.end = matching(code, brace.start())
                # (a trait's functions are as public as it is)
                owners.append((one.end, one.name if kind == "trait" else "", "trait" if public and kind == "trait" else "",
                               one.test))
        else:
            stop = re.compile(r"[{;]").search(code, name.end())
            one.end = matching(code, stop.start()) if stop and stop[0] == "{" else stop.start() if stop else len(code)
        found.append(one)
    return found
