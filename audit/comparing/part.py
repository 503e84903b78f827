"""The part of two images that a log is about: all directories, and the files whose names its records have.

An edit does to such a part what it does to the whole. So only the part goes through the program, and the rest of both
images is compared by sums. For that all names of a path count, and not the last one alone: a file that stands among the
parents of a path has to be in the part. Where sums differ, one more pass has in the part what differs, and tells it.
"""
import contextlib
import os
import stat
from typing import NamedTuple

from audit.converting.attributes import SETTING
from audit.converting.audited import CARRIAGE_RETURN, places_of_names
from audit.reading.checkpoint import name_section
from hdfs.converting.edits import LEFT_OUT, SNAPSHOTS
from hdfs.formats import Refused
from hdfs.reading import overlap
from hdfs.reading.dumps import unescaped
from hdfs.reading.forms import PATHS, WANTED, CommonRecord
from hdfs.reading.inodes import DIRECTORY
from hdfs.reading.overlap import merged

# The opcodes of records that ask for no path, and one that has paths in a member of a member.
PASSED_OVER = (LEFT_OUT | SNAPSHOTS) - SETTING.keys()
WITH_MORE_PATHS = "OP_CONCAT_DELETE"

# An image of fewer bytes, or a log of more than one part in so many of these, leaves little to be saved.
LEAST_IMAGE, LOG_PART = 8_000_000, 4


class Part(NamedTuple):
    """Which files are in the part: those of some names, as bytes, and those of some ids, which joined it."""

    names: set
    ids: frozenset = frozenset()
    # Whether the ids of the blocks of the rest are wanted too.
    with_blocks: bool = False

    def has(self, inode_id, name):
        return name in self.names or inode_id in self.ids

    def marks_of_rest(self, columns):
        """Of each of many inodes whether it is in the rest."""
        names, ids = self.names, self.ids
        if DIRECTORY not in columns.kinds and names.isdisjoint(columns.names) and ids.isdisjoint(columns.ids if ids else ()):
            return [True] * len(columns.ids)
        mine = [kind != DIRECTORY and name not in names for kind, name in zip(columns.kinds, columns.names)]
        return [is_mine and inode_id not in ids for is_mine, inode_id in zip(mine, columns.ids)] if ids else mine


class Wider(Exception):
    """A pass that can't tell all that differs: one more is to be made, with this part."""

    def __init__(self, part):
        super().__init__()
        self.part = part


def is_sparse(options, link):
    """Whether an audit gives the program a part alone: as its options say, or else where that saves.

    It reads some files twice. The next audit of a chain whose state has no inodes yet is of the whole.
    """
    if options.whole or link and not link.inodes or bool(options.start) == bool(link):
        return False
    if not all(map(is_regular, [options.to, *options.files, *filter(None, [options.start])])):
        return False
    image, log = os.path.getsize(options.to), sum(map(os.path.getsize, options.files))
    return options.sparse or image >= LEAST_IMAGE and log * LOG_PART <= image


def is_regular(name):
    """Whether a file can be read more than once."""
    with contextlib.suppress(OSError):
        return stat.S_ISREG(os.stat(name).st_mode)
    return False


def names_between(first, last, files, opened):
    """The names in the paths of the records between two TXIDs, as bytes, as an image has them."""
    names = set()
    with contextlib.closing(merged(files, opened, is_quick=True)) as records:
        for record in records:
            if record.txid > last:
                break
            if record.txid > first and record.opcode not in PASSED_OVER:
                for path in paths_in(record):
                    names.update(path.split(b"/"))
    return names


def txid_of(name):
    """The TXID of an image, from its beginning."""
    section = name_section(name, overlap.opened)
    if section is None:
        raise Refused(f"{name} has no NameSection at its beginning")
    return section.number("txid")


def paths_in(record):
    """The bytes of the paths that a record has."""
    if isinstance(record, CommonRecord) and record.opcode != WITH_MORE_PATHS:
        members = WANTED.get(record.opcode, PATHS)
        return [path for name, path in zip(members, record.values) if name in PATHS and path is not None]
    data = record.data
    texts = (data.texts[place] for place in data.shape.of(places_of_names))
    return [unescaped("a path", CARRIAGE_RETURN.sub("\n", text)).encode() for text in texts]
