"""A script, and what makes it smaller."""
import dataclasses


@dataclasses.dataclass(frozen=True)
class Script:
    """Sizes (processors, pages, words, locks, flags), a list of lines for each processor, and the shown addresses."""

    sizes: tuple
    sections: tuple
    shown: tuple

    @staticmethod
    def read(text):
        """The script of a text, in which nothing is wrong."""
        lines = [tuple(line.split(" ")) for line in text.splitlines()]
        sizes = [int(word) for word in lines[0][1:]]
        sections = []
        for line in lines[1:-1]:
            if line[0] == "p":
                sections.append([])
            else:
                sections[-1].append(line)
        return Script((*sizes, 0)[:5], tuple(map(tuple, sections)), tuple(int(word) for word in lines[-1][1:]))

    def text(self):
        sizes = self.sizes if self.sizes[4] else self.sizes[:4]
        lines = ["cluster " + " ".join(map(str, sizes))]
        for processor, section in enumerate(self.sections):
            lines += [f"p {processor}", *map(" ".join, section)]
        lines.append("show " + " ".join(map(str, self.shown)))
        return "\n".join(lines) + "\n"

    def length(self):
        """How many instructions it has."""
        return sum(map(len, self.sections))

    def without(self, places):
        """Without the lines at these places, pairs of a processor and a line's number."""
        sections = tuple(tuple(line for at, line in enumerate(section) if (processor, at) not in places)
                         for processor, section in enumerate(self.sections))
        return dataclasses.replace(self, sections=sections)

    def without_processor(self, processor):
        sections = self.sections[:processor] + self.sections[processor + 1 :]
        return dataclasses.replace(self, sizes=(len(sections), *self.sizes[1:]), sections=sections)


def units(script):
    """What can be left out: an instruction; an acquire with its release; the k-th barrier of each section."""
    barriers, found = {}, []
    for processor, section in enumerate(script.sections):
        held, episode = {}, 0
        for at, line in enumerate(section):
            if line[0] == "acquire":
                held[line[1]] = at
            elif line[0] == "release":
                found.append(frozenset({(processor, held.pop(line[1])), (processor, at)}))
            elif line[0] == "barrier":
                barriers.setdefault(episode, set()).add((processor, at))
                episode += 1
            else:
                found.append(frozenset({(processor, at)}))
        found += [frozenset({(processor, at)}) for at in held.values()]
    return found + [frozenset(places) for places in barriers.values()]


def renumbered(script, names, at):
    """With the numbers of these instructions from 0 on, in their order; the size at this place is how many there are."""
    used = sorted({int(line[1]) for section in script.sections for line in section if line[0] in names})
    number = {str(old): str(new) for new, old in enumerate(used)}
    sections = tuple(tuple((line[0], number[line[1]], *line[2:]) if line[0] in names else line for line in section)
                     for section in script.sections)
    sizes = (*script.sizes[:at], len(used), *script.sizes[at + 1 :])
    return dataclasses.replace(script, sizes=sizes, sections=sections)


def with_fewer_words(script):
    """The script with the words alone that it accesses, on one page or on a page each."""
    names = ("load", "store", "add")
    used = sorted({int(line[1]) for section in script.sections for line in section if line[0] in names}) or [0]
    pages, words = script.sizes[1:3]
    if len(used) > 64 or (len(used) == pages * words and 1 in (pages, words)):
        return
    number = {str(old): str(new) for new, old in enumerate(used)}
    sections = tuple(tuple((line[0], number[line[1]], *line[2:]) if line[0] in names else line for line in section)
                     for section in script.sections)
    for pages, words in ((1, len(used)), (len(used), 1)):
        yield Script((script.sizes[0], pages, words, *script.sizes[3:]), sections, tuple(range(len(used))))


def smaller_numbers(script):
    """Scripts with fewer words, locks or flags, and with one shown word."""
    yield from with_fewer_words(script)
    yield renumbered(script, ("acquire", "release"), 3)
    yield renumbered(script, ("set", "await"), 4)
    yield dataclasses.replace(script, shown=script.shown[:1])


def chunks(found, size):
    return [found[at : at + size] for at in range(0, len(found), size)]


def without_some(script, is_kept):
    """Leaves out runs of units, long ones first, as long as what is left is kept."""
    size = max(1, len(units(script)) // 2)
    while True:
        for chunk in reversed(chunks(units(script), size)):
            smaller = script.without(frozenset().union(*chunk))
            if smaller.length() < script.length() and is_kept(smaller):
                script = smaller
                break
        else:
            if size == 1:
                return script
            size = max(1, size // 2)


def without_processors(script, is_kept):
    for processor in reversed(range(len(script.sections))):
        if len(script.sections) > 1 and is_kept(smaller := script.without_processor(processor)):
            script = smaller
    return script


def smallest(script, is_kept):
    """A script from which nothing can be left out so that it is kept: processors, lines, words, locks, flags."""
    last = None
    while script != last:
        last = script
        script = without_some(without_processors(script, is_kept), is_kept)
        for smaller in smaller_numbers(script):
            if smaller != script and is_kept(smaller):
                script = smaller
                break
    return script
