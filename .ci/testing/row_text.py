"""The text of a file of rows: sections under headings, and what is written with a backslash in them."""

import re

REPEATED = re.compile(r"\\repeat (\d+) (.*)")
# What a letter behind a backslash stands for. The byte 195 begins a character of two bytes.
LETTERS = {"n": b"\n", "r": b"\r", "t": b"\t", "x": b"\xff", "c": b"\xc3"}


def pieces(line, number):
    """The bytes of a line, in which `\\i` is a number."""
    first, *others = line.split("\\")
    written = [first.encode()]
    for piece in others:
        letter = piece[:1]
        written.append(str(number).encode() if letter == "i" else LETTERS.get(letter, b""))
        written.append(piece[1:].encode())
    return b"".join(written)


def line_bytes(line):
    """The bytes of a line, which may say that a text stands there some times."""
    repeated = REPEATED.fullmatch(line)
    if repeated is None:
        return pieces(line, 0)
    times, text = int(repeated[1]), repeated[2]
    if "\\i" in text:
        return b"".join(pieces(text, number) for number in range(times))
    return pieces(text, 0) * times


def text_bytes(lines):
    """The bytes of lines. A line that ends with a backslash has no line end, and the last one has none."""
    written = []
    is_ended = False
    for line in lines:
        if is_ended:
            written.append(b"\n")
        is_ended = not line.endswith("\\")
        written.append(line_bytes(line))
    return b"".join(written)


def sections(path):
    """Each heading of a file, without `= `, with the number of its line and the lines under it."""
    found = []
    # A line ends with a line feed alone, the last one too.
    text = path.read_bytes().decode("utf-8").removesuffix("\n")
    for number, line in enumerate(text.split("\n"), 1):
        if line.startswith("= "):
            found.append((line[2:], number, []))
        elif found:
            found[-1][2].append(line)
    return found
