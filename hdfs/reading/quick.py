"""Reads the common forms of inodes and of directories' lists by regular expressions, many of them at a time.

What they take is what expat would read there, with the same result: their texts have neither `<`, `>` and `&` nor
characters that are not plain, their tags no blanks, and each element comes once, in the order in which `hdfs oiv` prints
it. At anything else they stop, and expat goes on.
"""
import re
from array import array
from collections import Counter
from itertools import accumulate
from typing import Iterable, NamedTuple

from hdfs.formats import FIRST_BLOCK_ID
from hdfs.reading.inodes import CLOSED, DIRECTORY, OPEN
from hdfs.reading.many_blocks import ManyBlocks

TEXT = rb"[!-%'-;=?-~ ]*"
# One without escapes.
PLAIN = rb"[!-%'-;=?-\[\]-~ ]*"
NUMBER = rb"[0-9]{1,18}"
# A name that every path may have: without a colon, a slash and a backslash.
NAME = rb"(?!\.\.?<)([!-%'-.0-9;=?-\[\]-~ ]{1,255})"

# What is passed over of a file and of a directory, and what is taken beside that, and where it lies.
OF_FILES = b"mtime", b"atime"
OF_FOLDERS = (b"mtime",)
OF_CLIENTS = b"clientName", b"clientMachine"
ATTRIBUTES_OF_FILES = b"preferredBlockSize", b"permission"
POLICY = (b"storagePolicyId",)
ATTRIBUTES_OF_FOLDERS = b"permission", b"nsquota", b"dsquota"


def maybe(names):
    """Elements that may be there, in this order, each with any plain text."""
    return b"".join(rb"(?:<%b>%b</%b>)?" % (name, TEXT, name) for name in names)


def taken(names):
    """Such elements, of which the texts are taken."""
    return b"".join(rb"(?:<%b>(%b)</%b>)?" % (name, PLAIN, name) for name in names)


def block(number):
    return rb"<block><id>%b</id><genstamp>%b</genstamp><numBytes>%b</numBytes></block>\n?" % (number, number, number)


# The numbers of two blocks are taken at once, and those of further ones later.
BLOCK = block(rb"(%b)" % NUMBER)
BLOCKS = rb"(?:<blocks>%b(?:%b)?((?:%b)*)</blocks>\n?)?" % (BLOCK, BLOCK, block(NUMBER))
OPENED = rb"(<file-under-construction>%b</file-under-construction>\n?)?" % maybe(OF_CLIENTS)
FILE = rb"FILE</type><name>%b</name><replication>(%b)</replication>" % (NAME, NUMBER)
FILE += maybe(OF_FILES) + taken(ATTRIBUTES_OF_FILES) + BLOCKS + taken(POLICY) + OPENED
FOLDER = rb"DIRECTORY</type><name>%b</name>" % NAME + maybe(OF_FOLDERS) + taken(ATTRIBUTES_OF_FOLDERS)
INODE = re.compile(rb"[\n ]*<inode><id>(%b)</id><type>(?:%b|%b)</inode>" % (NUMBER, FILE, FOLDER))
LIST = re.compile(rb"[\n ]*<directory><parent>(%b)</parent>(?:<child>(%b(?:</child><child>%b)*)</child>)?</directory>" % ((NUMBER,) * 3))
BETWEEN_CHILDREN = b"</child><child>"

# How what is passed over is counted, by the name of its element.
KEYS = {name: f"inode/{name.decode()}" for name in (*OF_FILES, *OF_FOLDERS)}
KEYS.update((name, f"file-under-construction/{name.decode()}") for name in OF_CLIENTS)
# The tags of a file and of a directory that have all that they may have, but blocks and a client, and those of a block.
FILE_TAGS, FOLDER_TAGS, BLOCK_TAGS, BLOCKS_TAGS = 20, 16, 8, 2


class Columns(NamedTuple):
    """What many inodes have, by columns."""

    ids: array
    names: list
    kinds: bytes
    replications: array
    blocks: ManyBlocks
    passed: Counter
    # The kind of each inode and the texts of its attributes: three of a file, three of a directory.
    attributes: Iterable = ()

    def picked(self, places):
        """The inodes at these places."""
        return Columns(
            array("q", map(self.ids.__getitem__, places)),
            list(map(self.names.__getitem__, places)),
            bytes(map(self.kinds.__getitem__, places)),
            array("q", map(self.replications.__getitem__, places)),
            self.blocks.picked(places),
            Counter(),
        )


class Known:
    """Takes elements of forms that are known beforehand, by a function as those below."""

    def __init__(self, take):
        self.take = take

    def learn(self, _element, _shape):
        pass


def matched(pattern, data, at):
    """What a pattern has in its groups, as often as it follows itself in data from a place on; and the place behind."""
    rows, found = [], None
    for found in iter(pattern.scanner(data, at).match, None):
        rows.append(found.groups())
    return rows, at if found is None else found.end()


def inodes_in(data, at, first_gen):
    """The inodes of common forms that stand in data from a place on, and the place behind them.

    There are none, None, where a block is of an old layout: it has a stamp below the first one, or a low id.
    """
    rows, behind = matched(INODE, data, at)
    if not rows:
        return None, at
    ids, names, replications, sizes, owners, *groups, policies, opened, folders, folder_owners, quotas, spaces = zip(*rows)
    one, stamp, length, two, other_stamp, other_length, more = groups
    blocks = ManyBlocks((stamp, one, length, other_stamp, two, other_length), more, is_id_first=True)
    bounds = blocks.bounds
    if bounds and (bounds.least < FIRST_BLOCK_ID or bounds.least_gen < first_gen):
        return None, at
    are_plain = not any(folders) and not any(opened)
    kinds = bytes((CLOSED,)) * len(rows) if are_plain else bytes(map(kind_of, folders, opened))
    columns = Columns(
        array("q", map(int, ids)),
        list(names) if are_plain else [name or folder for name, folder in zip(names, folders)],
        kinds,
        array("q", [int(replication or 0) for replication in replications]),
        blocks,
        passed_in(data[at:behind], kinds, bounds.count if bounds else 0, sum(map(bool, opened)), len(one) - one.count(None)),
        zip(kinds, owners, sizes, policies, folder_owners, quotas, spaces),
    )
    return columns, behind


def kind_of(folder, opened):
    if folder is not None:
        return DIRECTORY
    return CLOSED if opened is None else OPEN


def passed_in(piece, kinds, blocks, opened, with_blocks):
    """How often each element came that is passed over, in a piece that has inodes of these kinds and so many blocks."""
    folders = kinds.count(DIRECTORY)
    files = len(kinds) - folders
    most = FILE_TAGS * files + FOLDER_TAGS * folders + BLOCK_TAGS * blocks + BLOCKS_TAGS * with_blocks
    passed = Counter()
    # In no text is such a character.
    if opened or piece.count(b"<") != most:
        passed.update({key: piece.count(b"<%b>" % name) for name, key in KEYS.items()})
        return passed
    # Each has all that it may have.
    for names, count in ((OF_FILES, files), (OF_FOLDERS, folders)):
        for key in map(KEYS.get, names):
            passed[key] += count
    return passed


def lists_in(data, at):
    """The lists of directories that stand in data from a place on: owners, numbers and ends; and the place behind them."""
    rows, behind = matched(LIST, data, at)
    if not rows:
        return None, at
    owners, listed = zip(*rows)
    texts = list(filter(None, listed))
    numbers = array("q", map(int, BETWEEN_CHILDREN.join(texts).split(BETWEEN_CHILDREN))) if texts else ()
    counts = [text.count(BETWEEN_CHILDREN) + 1 if text else 0 for text in listed]
    return (array("q", map(int, owners)), numbers, list(accumulate(counts))), behind
