"""Reads what `hdfs oev -p XML` and `hdfs oiv -p XML` print.

A dump is read as a stream, and only one element of it is held at a time. It may come from anybody: a document type is
refused, so there are no entities and no references to follow, and tags, texts and depth are bounded.
"""
import re
from collections import Counter

from hdfs.formats import Block, Refused, number
from hdfs.reading.shapes import children_of, named, only_places
from hdfs.reading.stream import Reading

# So many bytes are read at a time, and fewer at the beginning, for who wants the first element alone.
CHUNK_BYTES = 262_144
FIRST_BYTES = 8_192

# The layouts of Hadoop 2.7 to 3.4.
LAYOUTS = range(-67, -62)

# What XML can't hold, and the backslash, stand as a backslash, four hex digits and a semicolon.
ESCAPE = re.compile(r"\\(?:([0-9a-fA-F]{4});)?")


class Element:
    """An element of a dump: its name, the text of one that has no elements in it, and the elements in it."""

    __slots__ = ("shape", "texts")

    def __init__(self, shape, texts):
        self.shape = shape
        self.texts = texts

    @property
    def name(self):
        return self.shape.name

    @property
    def text(self):
        return "" if self.shape.tags else self.texts[self.shape.first]

    @property
    def children(self):
        return [Element(child, self.texts) for child in self.shape.of(children_of)]

    def all(self, name):
        return [Element(child, self.texts) for child in self.shape.of(named).get(name, ())]

    def find(self, name):
        """The element of this name, or None."""
        found = self.shape.of(named).get(name)
        if found is None:
            return None
        if len(found) > 1:
            raise Refused(f"{name} comes {len(found)} times")
        return Element(found[0], self.texts)

    def get(self, name):
        found = self.find(name)
        if found is None:
            raise Refused(f"{name} is missing")
        return found

    def text_of(self, name):
        """The text of the element of this name."""
        place = self.shape.of(only_places).get(name)
        return self.get(name).text if place is None else self.texts[place]

    def string(self, name):
        """The text of the element of this name, with its escapes read back. Nothing is stripped."""
        return unescaped(name, self.text_of(name))

    def number(self, name):
        """The number in the element of this name."""
        return number_of(name, self.text_of(name))

    def leaves(self):
        """The names of the elements in it, or None if one of them has elements in it."""
        names = self.shape.tags[0::2]
        return None if None in names or any(self.shape.tags[1::2]) else names

    def numbers(self, name):
        """The numbers in all elements of this name."""
        return [child.value() for child in self.all(name)]

    def value(self):
        return number_of(self.name, self.text)

    def block_id(self, name):
        text = self.text_of(name)
        if text.startswith("-"):
            raise Refused(f"the negative block id {text[:40]}, of a striped file or of an old layout")
        return number_of(name, text)

    def boolean(self, name):
        """Whether the element of this name says true. A missing one says false."""
        found = self.find(name)
        if found is not None and found.text not in ("true", "false"):
            raise Refused(f"{name} is {found.text[:40]!r}, and neither true nor false")
        return found is not None and found.text == "true"

    def block(self, id_name, stamp_name, length_name):
        """The block whose id, generation stamp and length have these names."""
        block_id = self.block_id(id_name)
        return Block(self.number(stamp_name), block_id, self.number(length_name))


def number_of(name, text):
    """The number that the element of a name spells."""
    try:
        return number(text)
    except ValueError as error:
        raise Refused(f"{name}: {error}") from None


def plain_numbers(texts):
    """The numbers that texts spell, or None where one of them is no number, or may be too great for a line."""
    digits = "".join(texts)
    if not (digits.isascii() and digits.isdigit()) or "" in texts or len(max(texts, key=len)) > 18:
        return None
    return list(map(int, texts))


def is_same(one, other):
    """Whether two elements have the same names and texts in the same order."""
    if (one.name, one.text, len(one.children)) != (other.name, other.text, len(other.children)):
        return False
    return all(map(is_same, one.children, other.children))


def check_layout(element):
    """Refuses a layout that may have other members than those that are read here."""
    if element.text not in map(str, LAYOUTS):
        raise Refused(f"{element.name} is {element.text[:40]!r}, and {LAYOUTS[-1]} to {LAYOUTS[0]} are known")


def unescaped(name, text):
    """The text that Hadoop wrote, from what stands in the document."""
    if "\\" not in text:
        return text

    def character(escape):
        if escape[1] is None:
            raise Refused(f"{name} has a backslash that begins no escape")
        return chr(int(escape[1], 16))

    try:
        # Escapes are code units of UTF-16, so two of them may be one character.
        return ESCAPE.sub(character, text).encode("utf-16", "surrogatepass").decode("utf-16")
    except UnicodeDecodeError:
        raise Refused(f"{name} has half of a surrogate pair, which no path may have") from None


# How files begin that are no dumps, what they are, and what makes one of them.
BEGINNINGS = {
    b"HDFSIMG1": ("a binary image", "run `hdfs oiv -p XML` on it first"),
    b"\xff\xff\xff": ("a binary edit log", "run `hdfs oev -p XML` on it first"),
    b"\x1f\x8b": ("compressed by gzip", "run `gunzip` on it first"),
}


def check_beginning(name, chunk):
    """Refuses what is seen at once to be no dump."""
    for begin, (what, advice) in BEGINNINGS.items():
        if chunk.startswith(begin):
            raise Refused(f"{name} is {what}: {advice}")


def elements(file, root, wanted, most, passed=None, pieces=(), quick=()):
    """Yields the elements of a document whose place is wanted, one after another, each with its place.

    A place is the tuple of the names that lead to an element, without that of the root. No element may have more than
    `most` bytes in the document. `passed` counts what stands beside the wanted elements, by the two names of its place.
    `pieces` has those that may come in pieces, and `quick` what takes common forms, as `Reading` has both.
    """
    reading = Reading(root, wanted, most, Counter() if passed is None else passed, dict(pieces), dict(quick))
    ended, size = False, FIRST_BYTES
    while not ended:
        chunk = file.read(min(size, CHUNK_BYTES))
        size *= 2
        if reading.fed == 0:
            check_beginning(file.name, chunk)
        ended = not chunk
        fault = reading.end_document() if ended else reading.feed(chunk)
        for place, shape, texts in reading.taken():
            yield place, texts if shape is None else Element(shape, texts)
        if fault is not None:
            raise Refused(f"{file.name}, line {reading.line()}: {fault}")
