"""The rights of things over things, as masks.

The things of a graph have places. A set of them is a mask: an integer that has bit i where the
thing at place i belongs to the set. What a thing has over others is a row: a mask for each right.
"""
from collections import defaultdict

LETTERS = "tgrwead"
WORD_BITS = 60
WORD = (1 << WORD_BITS) - 1


class Graph:
    """Things, and the row of each."""

    def __init__(self, things):
        self.things = sorted(things)
        self.places = {thing: place for place, thing in enumerate(self.things)}
        self.rows = {thing: defaultdict(int) for thing in self.things}

    def mask_of(self, things):
        """The mask of things, none twice."""
        return sum(1 << self.places[thing] for thing in things)

    def things_in(self, mask):
        """The things of a mask."""
        return [self.things[place] for place in places_in(mask)]

    def give(self, holder, right, mask):
        """Gives a thing a right over others."""
        if mask:
            self.rows[holder][right] |= mask


def places_in(mask):
    """The places in a mask, in order. They are looked for in words, which takes less time."""
    place = 0
    while mask:
        empty = (mask & -mask).bit_length() - 1
        word, place = mask >> empty & WORD, place + empty
        mask >>= empty + WORD_BITS
        while word:
            lowest = word & -word
            yield place + lowest.bit_length() - 1
            word ^= lowest
        place += WORD_BITS


def count_of(mask):
    """How many places are in a mask."""
    return bin(mask).count("1")


def over_whom(row):
    """The mask of those over whom a row has some right."""
    whole = 0
    for mask in row.values():
        whole |= mask
    return whole


def labels_in(row):
    """What a row has over whom: pairs of a place and its letters."""
    parts = [("", over_whom(row))]
    for right in LETTERS:
        mask = row.get(right, 0)
        halves = [half for label, part in parts
                  for half in ((label + right, part & mask), (label, part & ~mask))]
        parts = [(label, part) for label, part in halves if part]
    return [(place, label) for label, part in parts for place in places_in(part)]
