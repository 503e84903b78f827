"""Which inodes an image has: of each its id, the id of its directory, its name there and its attributes.

Most inodes are the same in two images. So all that no record names are compared by sums: of each a BLAKE2b of what is
compared, added in one of some buckets by its id. Where two sums differ, the inodes of the bucket are looked at.
"""
import struct
from array import array
from hashlib import blake2b
from typing import NamedTuple

from hdfs.formats import to_json
from hdfs.reading.inodes import DIRECTORY, NONE
from hdfs.reading.walk import ROOT

BUCKETS = 4096
SUM_BYTES = 16
IDS = struct.Struct("<qq")


class Entry(NamedTuple):
    """What is compared of an inode."""

    id: int
    # The id of its directory, 0 of the root, and the bytes of its full name.
    directory: int
    name: bytes
    attributes: dict


class InodeTable:
    """The inodes of an image that its root leads to. `sets` has their attributes, `full` the full name for one in a row."""

    def __init__(self, image, sets, full):
        self.image = image
        self.inodes = image.inodes
        self.sets = sets
        self.full = full
        # Whether a row is compared, and the id of its directory.
        self.is_live = image.live_rows()
        self.directories = array("q", bytes(8 * len(self.inodes)))
        for row, kind in enumerate(self.inodes.kinds):
            if kind == DIRECTORY and self.is_live[row]:
                self.note_children(row)

    def note_children(self, row):
        inode_id = self.inodes.ids[row]
        for child in self.image.all_below(row):
            self.directories[child] = inode_id

    def entry(self, row):
        attributes = self.sets.all[self.inodes.sets[row]]
        return Entry(self.inodes.ids[row], self.directories[row], self.full(self.inodes.name(row)), attributes)

    def entry_of(self, inode_id):
        """The entry of an id, or None."""
        row = self.inodes.rows_of([inode_id])[0]
        return None if row == NONE else self.entry(row)

    def leave_out(self, rows):
        """Compares these rows no more by sums."""
        for row in rows:
            self.is_live[row] = False

    def sums(self):
        """The sums of what is left."""
        sums = [0] * BUCKETS
        digests = [digest_of(to_json(sorted(attributes.items())).encode()) for attributes in self.sets.all]
        inodes, directories, full = self.inodes, self.directories, self.full
        names, ends, sets = inodes.names, inodes.name_ends, inodes.sets
        for row, inode_id in enumerate(inodes.ids):
            if self.is_live[row]:
                head = IDS.pack(inode_id, directories[row]) + digests[sets[row]]
                sums[inode_id % BUCKETS] += int.from_bytes(digest_of(head + full(names[ends[row] : ends[row + 1]])), "little")
        return [one % (1 << 8 * SUM_BYTES) for one in sums]

    def of_buckets(self, buckets):
        """The entries of the inodes that these sums are of, by their ids."""
        rows = (row for row, inode_id in enumerate(self.inodes.ids) if self.is_live[row] and inode_id % BUCKETS in buckets)
        return {entry.id: entry for entry in map(self.entry, rows)}


def digest_of(data):
    return blake2b(data, digest_size=SUM_BYTES).digest()


def path_by(entry_of, inode_id):
    """The path of an inode, by a function that answers the entry of an id, or None where it has none."""
    names = []
    while inode_id != ROOT:
        entry = entry_of(inode_id)
        if entry is None:
            return None
        names.append(entry.name.decode())
        inode_id = entry.directory
    return "/" + "/".join(reversed(names))
