"""The inodes of an image and what its directories list, in rows of arrays: a million of them have 100 MB.

Inodes are known by their ids in a dump, and by the numbers of their rows here, which count them in its order.
"""
from array import array
from bisect import bisect_left
from functools import partial
from itertools import accumulate, chain, islice
from typing import NamedTuple

from hdfs.formats import Block, NoBlocks

# What an inode is: a directory, a file that is open or closed, or one that is taken without its blocks.
DIRECTORY, OPEN, CLOSED, BARE = range(4)

# The row of an inode that is missing, and what stands behind the last list of a directory.
NONE = -1

# A row has so many bits.
ROW_BITS = 32
# A table has at most so many places for each id.
SPARSE = 8
# Ids that are sorted are sorted in so many parts, which are about as long by a sample of so many.
PARTS, SAMPLES = 8, 4_096


class File(NamedTuple):
    replication: int
    closed: bool
    blocks: list


class Inodes:
    """Inodes, each with its id, its name, and what file it is if it is no directory."""

    def __init__(self):
        self.ids = array("q")
        # The names one after another, and where each ends. The blocks in the same way, three numbers for each.
        self.names = bytearray()
        self.name_ends = array("Q", [0])
        self.blocks = array("q")
        self.block_ends = array("Q", [0])
        self.kinds = bytearray()
        self.replications = array("q")
        # The numbers of the sets of attributes.
        self.sets = array("I")
        # The blocks of each bare file, which are none of some kind, by its row.
        self.bare = {}
        # What finds the row of an id, behind `finish`.
        self.rows = None

    def __len__(self):
        return len(self.ids)

    def add(self, inode_id, name, kind, replication=0, numbers=(), attributes=0):
        """Adds an inode. The numbers are those of a file's blocks, one block after another; the last is a set's."""
        self.ids.append(inode_id)
        self.names += name
        self.name_ends.append(len(self.names))
        self.kinds.append(kind)
        self.replications.append(replication)
        self.sets.append(attributes)
        self.blocks.extend(numbers)
        self.block_ends.append(len(self.blocks))

    def add_columns(self, columns, sets=None):
        """Adds many inodes, with the numbers of their sets of attributes, or none."""
        begin = len(self.names)
        self.names += b"".join(columns.names)
        self.name_ends.extend(islice(accumulate(map(len, columns.names), initial=begin), 1, None))
        begin, (numbers, ends) = len(self.blocks), columns.blocks.arrays
        self.blocks.extend(numbers)
        self.block_ends.extend([begin + end for end in ends])
        self.ids.extend(columns.ids)
        self.kinds += columns.kinds
        self.replications.extend(columns.replications)
        self.sets.extend(sets or bytes(len(columns.ids)))

    def add_file(self, inode_id, name, file, attributes=0):
        if isinstance(file.blocks, NoBlocks):
            self.add_bare(inode_id, name, file, attributes)
        else:
            kind = CLOSED if file.closed else OPEN
            self.add(inode_id, name, kind, file.replication, chain.from_iterable(file.blocks), attributes)

    def add_bare(self, inode_id, name, file, attributes):
        self.bare[len(self)] = NoBlocks(file.blocks.kind)
        self.add(inode_id, name, BARE, file.replication, file.blocks.read, attributes)

    def finish(self):
        """Finds out where each id is. Answers the row of an id that came before, or None."""
        self.names = bytes(self.names)
        self.rows = RowsOfIds(self.ids)
        return self.rows.repeated

    def rows_of(self, ids):
        """The row of each id, or NONE."""
        if self.rows is None:
            self.rows = RowsOfIds(self.ids)
        return self.rows.of(ids)

    def count(self):
        """How many inodes came."""
        return len(self)

    def greatest(self):
        """The greatest id."""
        return max(self.ids, default=0)

    def missing(self, ids):
        """The place of the first of these ids that no inode has, or None."""
        return next((at for at, row in enumerate(self.rows_of(ids)) if row == NONE), None)

    def name(self, row):
        """The bytes of a name."""
        return self.names[self.name_ends[row] : self.name_ends[row + 1]]

    def file(self, row):
        """The file that an inode is, or None for a directory."""
        kind = self.kinds[row]
        if kind == DIRECTORY:
            return None
        if kind == BARE:
            return File(self.replications[row], True, self.bare[row])
        return File(self.replications[row], kind == CLOSED, self.blocks_of(row))

    def blocks_of(self, row):
        """The blocks of a file, also of one that is taken without them."""
        numbers = iter(self.blocks[self.block_ends[row] : self.block_ends[row + 1]])
        return list(map(Block, numbers, numbers, numbers))


class RowsOfIds:
    """The row of each id: in a table, or where the ids lie far from one another by a search."""

    def __init__(self, ids):
        self.low, self.rows = min(ids, default=0), None
        # The row of an id that came before, if there is one.
        self.repeated = None
        if max(ids, default=0) - self.low < SPARSE * len(ids):
            self.fill(ids)
        else:
            self.sort(ids)

    def fill(self, ids):
        """Makes a table, from the least id on."""
        low, self.table = self.low, array("i", [NONE]) * (max(ids, default=-1) - self.low + 1)
        table = self.table
        for row, inode_id in enumerate(ids):
            table[inode_id - low] = row
        if len(table) - table.count(NONE) < len(ids):
            self.find_repeated(ids)

    def find_repeated(self, ids):
        """An id that comes twice has the row where it comes first."""
        low, table = self.low, self.table
        for row in reversed(range(len(ids))):
            table[ids[row] - low] = row
        self.repeated = next(row for row, inode_id in enumerate(ids) if table[inode_id - low] != row)

    def sort(self, ids):
        """Sorts the ids with their rows. Some of them are sorted at a time, so that few numbers are objects at once."""
        self.ids, self.rows = array("q"), array("i")
        some = sorted(ids[:: len(ids) // SAMPLES + 1])
        ends = [*some[:: len(some) // PARTS + 1][1:], max(ids, default=0)]
        for above, end in zip([-1, *ends], ends):
            pairs = sorted([inode_id << ROW_BITS | row for row, inode_id in enumerate(ids) if above < inode_id <= end])
            self.ids.extend([pair >> ROW_BITS for pair in pairs])
            self.rows.extend([pair & (1 << ROW_BITS) - 1 for pair in pairs])
        repeated = [self.rows[at + 1] for at, pair in enumerate(zip(self.ids, islice(self.ids, 1, None))) if pair[0] == pair[1]]
        self.repeated = min(repeated, default=None)

    def pairs(self):
        """Each id with its row, in the order of the ids."""
        if self.rows is None:
            return ((inode_id, row) for inode_id, row in enumerate(self.table, self.low) if row != NONE)
        return zip(self.ids, self.rows)

    def of(self, wanted):
        """The row of each of these ids, or NONE."""
        if self.rows is None:
            low, table, count = self.low, self.table, len(self.table)
            if wanted and low <= min(wanted) and max(wanted) < low + count:
                return array("i", [table[at - low] for at in wanted])
            return array("i", (table[at - low] if 0 <= at - low < count else NONE for at in wanted))
        ids, rows, count = self.ids, self.rows, len(self.ids)
        places = map(partial(bisect_left, ids), wanted)
        return array("i", (rows[at] if at < count and ids[at] == one else NONE for at, one in zip(places, wanted)))


class Lists:
    """Lists of numbers, each of an inode. An inode may have several, which are one list then."""

    def __init__(self):
        self.owners = array("q")
        self.numbers = array("q")
        self.ends = array("Q", [0])
        # The first list of each row, and the next one of the same row, or NONE: behind `finish`.
        self.first = None
        self.next = None

    def add(self, owner, numbers):
        """Adds a list to the inode of this id."""
        self.owners.append(owner)
        self.numbers.extend(numbers)
        self.ends.append(len(self.numbers))

    def add_columns(self, owners, numbers, ends):
        """Adds many lists."""
        begin = len(self.numbers)
        self.owners.extend(owners)
        self.numbers.extend(numbers)
        self.ends.extend([begin + end for end in ends])

    def keep(self, owner):
        """Sees to it that the inode of this id, whose list came last, has one."""

    def last_owner(self):
        """The id of the inode whose list came last."""
        return self.owners[-1]

    def finish(self, inodes):
        """Finds the lists of each row, and the owner of a list that is no inode."""
        rows = inodes.rows_of(self.owners)
        self.missing = next((owner for owner, row in zip(self.owners, rows) if row == NONE), None)
        self.finish_rows(rows, len(inodes))

    def finish_rows(self, rows, count):
        """Finds the lists of each of so many rows, if the owners have these rows."""
        self.first = array("i", [NONE]) * count
        self.next = array("i", [NONE]) * len(rows)
        for at in reversed(range(len(rows))):
            row = rows[at]
            if row != NONE:
                self.next[at] = self.first[row]
                self.first[row] = at

    def only_list(self, row):
        """Where the only list of a row begins and ends, or None if it has none or several."""
        at = self.first[row]
        return None if at == NONE or self.next[at] != NONE else slice(self.ends[at], self.ends[at + 1])

    def places(self, row):
        """The places of the numbers that an inode has, in the order of the dump."""
        at = self.first[row]
        while at != NONE:
            yield from range(self.ends[at], self.ends[at + 1])
            at = self.next[at]
