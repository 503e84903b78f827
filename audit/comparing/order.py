"""The order of what is in a part among files of the rest, by which a NameNode searches names.

Of each directory that lists both it is kept between which files of the rest stands what is in the part. What the log does
not touch has to stand behind the same file in both images. For all else the names of these files are read once more.
"""
import re
from array import array
from typing import NamedTuple

from hdfs.formats import Refused
from hdfs.reading.dumps import unescaped
from hdfs.reading.inodes import NONE
from hdfs.reading.walk import keys_of

CHUNK_BYTES = 1 << 18
INODE = re.compile(rb"<inode><id>([0-9]+)</id><type>FILE</type><name>([^<]*)</name>")
BEGINS = b"<inode>"
ENTITY = re.compile("&([^;]*);?")
ENTITIES = {"amp": "&", "lt": "<", "gt": ">", "quot": '"', "apos": "'"}


class Place(NamedTuple):
    """What stands between two files of the rest: its id, and those of the files before and behind it, or NONE."""

    child: int
    before: int
    behind: int


class Places:
    """Where what is in the part stands in lists that have files of the rest, too."""

    def __init__(self):
        self.children, self.befores, self.behinds = array("q"), array("q"), array("q")
        # The directory of the last list, the last file of the rest there, and from where on no file is behind a place.
        self.owner, self.before, self.open = None, NONE, 0
        self.begin, self.is_mixed = 0, False

    def begin_list(self, owner):
        """A long list comes in several pieces."""
        if owner != self.owner:
            self.end()
            self.owner, self.before, self.begin, self.open = owner, NONE, len(self.children), len(self.children)

    def pass_list(self, owner, numbers):
        """Takes a list of files of the rest alone."""
        self.begin_list(owner)
        self.pass_by(numbers)

    def take(self, owner, numbers, rows):
        """Takes a list, of which the files of the rest have rows."""
        self.begin_list(owner)
        for number, row in zip(numbers, rows):
            if row != NONE:
                self.pass_by((number,))
            else:
                self.children.append(number)
                self.befores.append(self.before)
                self.behinds.append(NONE)

    def pass_by(self, numbers):
        """The next files are of the rest."""
        if not numbers:
            return
        self.is_mixed = True
        self.before = numbers[-1]
        if self.open < len(self.children):
            self.behinds[self.open :] = array("q", numbers[:1]) * (len(self.children) - self.open)
            self.open = len(self.children)

    def end(self):
        """A list ended. It is of no use if it has no file of the rest."""
        if not self.is_mixed:
            del self.children[self.begin :], self.befores[self.begin :], self.behinds[self.begin :]
        self.is_mixed = False

    def all(self):
        return map(Place, self.children, self.befores, self.behinds)


def names_of(name, opened, ids):
    """The names of files of an image, by their ids. Its file is read once more, up to the last of them."""
    wanted, found, held = {str(inode_id).encode(): inode_id for inode_id in ids}, {}, b""
    with opened(name) as file:
        while len(found) < len(wanted) and (chunk := file.read(CHUNK_BYTES)):
            held += chunk
            for inode_id, told in INODE.findall(held):
                if inode_id in wanted:
                    found[wanted[inode_id]] = decoded(told)
            held = held[held.rfind(BEGINS) :]
    return found


def check(place, name, names):
    """Refuses a place of this name that may be out of order. Where a line feed stands for two characters, both fit then."""
    least, most = keys_of(name.decode())
    before, behind = (names.get(one) for one in place[1:])
    if place.before != NONE and (before is None or most < keys_of(before)[1]):
        raise Refused("a child may be out of order")
    if place.behind != NONE and (behind is None or keys_of(behind)[0] < least):
        raise Refused("a child may be out of order")


def decoded(text):
    """A name, of what a dump has."""
    return unescaped("a name", ENTITY.sub(character, text.decode()))


def character(entity):
    if entity[1] not in ENTITIES:
        raise Refused("a name has another entity")
    return ENTITIES[entity[1]]
