"""The blocks of many inodes as they were read: the texts of their numbers, which become numbers where that is asked for."""
import re
from array import array
from functools import cached_property
from itertools import accumulate, chain
from typing import NamedTuple

DIGITS = re.compile(rb"[0-9]+")
# A number that has a zero before other digits.
ZEROS = re.compile(rb" 0[0-9]")


class Bounds(NamedTuple):
    """How many blocks there are, the least and the greatest of their ids, and of their stamps."""

    count: int
    least: int
    greatest: int
    least_gen: int
    greatest_gen: int


class ManyBlocks:
    """Blocks by the columns of their texts."""

    def __init__(self, columns, more, is_id_first=False):
        # The stamp, the id and the length of the first block of each inode, then those of the second, or None each; and a
        # text that has those of further ones, where the id may come first.
        self.columns = columns
        self.more = more
        self.is_id_first = is_id_first

    def picked(self, places):
        """Those of the inodes at these places."""
        columns = [list(map(column.__getitem__, places)) for column in self.columns]
        return ManyBlocks(columns, list(map(self.more.__getitem__, places)), self.is_id_first)

    @cached_property
    def further(self):
        """The stamps, the ids and the lengths of blocks behind the second one, by the places of the inodes that have some."""
        found = {at: DIGITS.findall(text) for at, text in enumerate(self.more) if text} if any(self.more) else {}
        for texts in found.values() if self.is_id_first else ():
            texts[0::3], texts[1::3] = texts[1::3], texts[0::3]
        return found

    def column(self, place):
        """All stamps, all ids or all lengths."""
        further = chain.from_iterable(texts[place::3] for texts in self.further.values())
        return [*filter(None, self.columns[place]), *filter(None, self.columns[place + 3]), *further]

    @cached_property
    def bounds(self):
        """What bounds them, or None where there are none."""
        stamps, ids = self.column(0), self.column(1)
        return Bounds(len(ids), *bounds_of(ids), *bounds_of(stamps)) if ids else None

    def texts(self):
        """The numbers of the blocks of each inode as a text, in one form."""
        texts = [b" ".join(filter(None, numbers)) for numbers in zip(*self.columns)]
        for at, numbers in self.further.items():
            texts[at] = b" ".join(filter(None, (texts[at], *numbers)))
        joined = b" " + b" ".join(texts)
        if b" 0" in joined and ZEROS.search(joined):
            return [text_of(map(int, text.split())) for text in texts]
        return texts

    @cached_property
    def arrays(self):
        """All numbers, and where those of each inode end."""
        if not self.further:
            counts = [3 * ((one is not None) + (two is not None)) for one, two in zip(self.columns[0], self.columns[3])]
            return array("q", map(int, filter(None, chain.from_iterable(zip(*self.columns))))), list(accumulate(counts))
        texts = [text.split() for text in self.texts()]
        return array("q", map(int, chain.from_iterable(texts))), list(accumulate(map(len, texts)))


def bounds_of(texts):
    """The least and the greatest of numbers. Those that have as many digits are in the order of their texts."""
    least, greatest = min(texts), max(texts)
    if least.startswith(b"0") or len(set(map(len, texts))) > 1:
        numbers = list(map(int, texts))
        return min(numbers), max(numbers)
    return int(least), int(greatest)


def text_of(numbers):
    """Numbers as such a text."""
    return b" ".join([b"%d" % number for number in numbers])
