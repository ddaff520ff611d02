"""One byte, word or line of a text changed, dropped or doubled."""

# Bytes that scripts have, and some that they don't.
BYTES = [bytes((byte,)) for byte in b"0123456789 \n\t\r-+pabcdehklorstuw\x00\xff"]
# Words that scripts have, and some that they almost have.
WORDS = (b"cluster p load store add acquire release barrier set await cut show 0 1 2 3 4 7 15 16 17 31 32 33 63 64 "
         b"65 4095 4096 4294967295 4294967296 00 01 -1 +1 1x Show").split()


def edit(draws, parts, others):
    """The parts with one of them changed into one of the others, dropped or doubled."""
    place = draws.randrange(len(parts))
    kind = draws.choice(("change", "drop", "double"))
    put = {"change": [draws.choice(others)], "drop": [], "double": [parts[place]] * 2}[kind]
    return parts[:place] + put + parts[place + 1:]


def edit_byte(draws, text):
    return b"".join(edit(draws, [text[place:place + 1] for place in range(len(text))], BYTES))


def edit_word(draws, text):
    """One word of one line; now and then of the last line, which has the most."""
    lines = text.split(b"\n")
    place = draws.choice((*[draws.randrange(len(lines))] * 7, len(lines) - 2))
    lines[place] = b" ".join(edit(draws, lines[place].split(b" "), WORDS))
    return b"\n".join(lines)


def edit_line(draws, text):
    """One line; by another one of the text where it is changed."""
    lines = text.split(b"\n")
    return b"\n".join(edit(draws, lines, lines))


def edited(draws, text):
    """The text with a drawn edit."""
    return draws.choice((edit_byte, edit_word, edit_line))(draws, text)
