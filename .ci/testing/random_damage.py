"""Random damage of texts, the same for the same seed."""

from dataclasses import dataclass

# A linear congruential generator (Knuth).
FACTOR = 6_364_136_223_846_793_005
SUMMAND = 1_442_695_040_888_963_407
# The most changes of one text, and the most bytes that one change takes out or puts in again.
MOST_CHANGES = 4
MOST_BYTES = 40
# Signs and pieces of words that stand in texts of models, inputs and partitions.
SIGNS = b'{}[]();:,.=<>+-*/%"#!&~_ \t\r\n0123456789abnxeTrFz\\'


@dataclass
class Source:
    """A source of numbers that look random."""

    state: int

    def below(self, bound):
        """A number below a bound."""
        self.state = (self.state * FACTOR + SUMMAND) % 2**64
        return (self.state >> 33) % bound

    def offset(self, length):
        """An offset in a list of this length, or its end."""
        return self.below(length + 1)


def changed(source, text):
    """A text with one random change: a byte or a sign put in, a sign in the place of a byte, a piece taken out, or one put in
    again, behind itself or elsewhere."""
    first = source.offset(len(text))
    last = min(first + source.offset(MOST_BYTES), len(text))
    match source.below(6):
        case 0:
            return text[:first] + bytes([source.below(256)]) + text[first:]
        case 1:
            return text[:first] + sign(source) + text[first + 1 :]
        case 2:
            return text[:first] + sign(source) + text[first:]
        case 3:
            return text[:first] + text[last:]
        case 4:
            return text[:last] + text[first:last] + text[last:]
        case _:
            offset = source.offset(len(text))
            return text[:offset] + text[first:last] + text[offset:]


def sign(source):
    """One of the signs."""
    offset = source.offset(len(SIGNS) - 1)
    return SIGNS[offset : offset + 1]


def damaged(source, text):
    """A text with one to some random changes."""
    for _ in range(source.below(MOST_CHANGES) + 1):
        text = changed(source, text)
    return text
