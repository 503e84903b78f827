"""The rest of an image: the files whose names no record of a log has. They are compared image to image, by sums.

A log does nothing to such a file, unless a record deletes a directory above it. So only the others, and all directories,
go through the program. Of the rest no more is kept than where each file is listed, and the first word of its own sum, by
which `differing` finds the files that differ. What is odd there is Refused, and then the whole of both images goes
through the program.
"""
import struct
from array import array
from hashlib import blake2b
from itertools import compress
from typing import NamedTuple

from audit.comparing.order import Places
from hdfs.formats import Refused, to_json
from hdfs.reading.inodes import BARE, DIRECTORY, NONE, Inodes, Lists, RowsOfIds
from hdfs.reading.many_blocks import text_of

SUM_BYTES = 16
SUM_WORDS = SUM_BYTES // array("I").itemsize
LONG_BITS = 64
MODULUS = 1 << 8 * SUM_BYTES
# The id, the replication, the kind, and how many bytes the name has and the text of the blocks.
HEAD = struct.Struct("<qqBQQ")


class Total(NamedTuple):
    """What is compared of two rests."""

    total: int
    files: int
    bare: int
    blocks: int


NO_REST = Total(0, 0, 0, 0)


class Sums:
    """A sum over files and over the lists that have them, and how many files, bare ones and blocks these are."""

    def __init__(self, total=0, files=0, bare=0, blocks=0):
        self.total = total
        self.files = files
        self.bare = bare
        self.blocks = blocks

    def members(self):
        return Total(self.total % MODULUS, self.files, self.bare, self.blocks)

    def take(self, inode, numbers, attributes, kind_of_bare):
        """Takes a file: its id, its name, its kind and its replication, its blocks, the sum of its attributes.

        Answers the first word of its sum.
        """
        inode_id, name, kind, replication = inode
        blocks = text_of(numbers)
        head = HEAD.pack(inode_id, replication, kind, len(blocks), len(name))
        digest = digest_of(b"".join((head, attributes, name, blocks, kind_of_bare.encode())))
        self.add(digest)
        self.files += 1
        self.bare += kind == BARE
        # The program has no blocks of bare files.
        self.blocks += 0 if kind == BARE else count_in([blocks])
        return words_of(digest)[0]

    def take_columns(self, columns, attributes, mine):
        """Takes those of many inodes that are marked, with the sums of the attributes of all. None of them is bare.

        Answers the first words of their sums.
        """
        blocks = list(compress(columns.blocks.texts(), mine))
        names = list(compress(columns.names, mine))
        numbers = (compress(column, mine) for column in (columns.ids, columns.replications, columns.kinds))
        heads = map(HEAD.pack, *numbers, map(len, blocks), map(len, names))
        texts = map(b"".join, zip(heads, compress(attributes, mine), names, blocks))
        digests = b"".join([blake2b(text, digest_size=SUM_BYTES).digest() for text in texts])
        self.add(digests)
        self.files += len(names)
        self.blocks += count_in(blocks)
        return words_of(digests)

    def add(self, digests):
        """Adds digests that stand one behind the other."""
        halves = array("Q", digests)
        self.total += sum(halves[0::2]) + (sum(halves[1::2]) << LONG_BITS)

    def take_away(self, other):
        self.total -= other.total
        self.files -= other.files
        self.bare -= other.bare
        self.blocks -= other.blocks


class Attributes:
    """The sums of sets of attributes, by the numbers of the sets."""

    def __init__(self, sets):
        self.sets = sets
        self.digests = []

    def of(self, numbers):
        """The sums of sets by their numbers."""
        for attributes in self.sets.all[len(self.digests) :]:
            self.digests.append(digest_of(to_json(sorted(attributes.items())).encode()))
        return map(self.digests.__getitem__, numbers)


class Rest:
    """The rest of one image: what is not in a part."""

    def __init__(self, part, sets):
        self.part = part
        self.attributes = Attributes(sets)
        self.sums = Sums()
        self.replications, self.kinds_of_bare = set(), set()
        # The ids of the files, and behind them the row of each, and the list that has each row, or NONE.
        self.ids = array("q")
        self.rows, self.lists = None, array("i")
        # The first word of the sum of each, and the ids of all their blocks, if these are wanted.
        self.words = array("I")
        self.blocks = array("q") if part.with_blocks else None
        self.greatest = 0
        # Of each list the id of its directory, how many of these files it has, and the sum of their ids in order.
        self.owners, self.counts, self.digests = array("q"), array("Q"), []
        # Whether each list is out, once what is left was asked for.
        self.is_out = ()
        # Where in these lists the others stand.
        self.places = Places()
        # The rows of the directories in the part, and how many of these files each row of the part has.
        self.owner_rows, self.count_at = (), ()

    # ---- Files.

    def take(self, inode_id, name, kind, replication, numbers, attributes, kind_of_bare=""):
        self.note([inode_id], () if kind == BARE else [replication])
        if kind == BARE:
            self.kinds_of_bare.add(kind_of_bare)
        numbers = array("q", numbers)
        self.words.append(self.sums.take((inode_id, name, kind, replication), numbers, *self.attributes.of([attributes]), kind_of_bare))
        if self.blocks is not None and kind != BARE:
            self.blocks.extend(numbers[1::3])

    def take_columns(self, columns, sets):
        """Takes those of many inodes that are of the rest. Answers the places of the others."""
        mine = self.part.marks_of_rest(columns)
        self.note(compress(columns.ids, mine), compress(columns.replications, mine))
        self.words.extend(self.sums.take_columns(columns, self.attributes.of(sets), mine))
        if self.blocks is not None:
            for text in compress(columns.blocks.texts(), mine):
                self.blocks.extend(map(int, text.split()[1::3]))
        return [at for at, is_mine in enumerate(mine) if not is_mine]

    def note(self, ids, replications):
        if self.rows is not None:
            raise Refused("an inode comes behind the lists of directories")
        self.ids.extend(ids)
        self.replications.update(replications)

    def end_inodes(self, ids_of_part):
        """All inodes came."""
        if self.rows is None:
            self.greatest = max(self.ids, default=0)
            self.rows = RowsOfIds(self.ids)
            self.lists = array("i", [NONE]) * len(self.ids)
            self.ids = None
        if self.rows.repeated is not None or any(row != NONE for row in self.rows.of(ids_of_part)):
            raise Refused("an inode comes twice")

    def has(self, inode_id):
        return self.rows.of([inode_id])[0] != NONE

    # ---- Lists.

    def sift(self, owner, numbers, ids_of_part):
        """Notes which of these files a directory lists. Answers what else it lists."""
        if self.rows is None:
            self.end_inodes(ids_of_part)
        rows = self.rows.of(numbers)
        if NONE not in rows:
            self.places.pass_list(owner, numbers)
            self.note_list(owner, rows, numbers)
            return ()
        self.places.take(owner, numbers, rows)
        others = [number for number, row in zip(numbers, rows) if row == NONE]
        if len(others) < len(rows):
            self.note_list(owner, [row for row in rows if row != NONE], [number for number, row in zip(numbers, rows) if row != NONE])
        return others

    def refer(self, owner, numbers):
        """Notes which of these files a directory refers to."""
        pairs = [(row, number) for row, number in zip(self.rows.of(numbers), numbers) if row != NONE]
        if pairs:
            self.note_list(owner, *zip(*pairs))

    def note_list(self, owner, rows, ids):
        """A long list comes in several pieces."""
        if not rows:
            return
        if not self.owners or self.owners[-1] != owner:
            self.owners.append(owner)
            self.counts.append(0)
            self.digests.append(blake2b(array("q", [owner]).tobytes(), digest_size=SUM_BYTES))
            self.end_digest(-2)
        lists, place = self.lists, len(self.owners) - 1
        for row in rows:
            lists[row] = place
        self.counts[-1] += len(rows)
        self.digests[-1].update(array("q", ids).tobytes())

    def end_digest(self, place):
        """Keeps of a list no more than its sum."""
        if len(self.digests) >= -place and not isinstance(self.digests[place], bytes):
            self.digests[place] = self.digests[place].digest()

    def finish(self, inodes):
        """All lists came."""
        self.end_digest(-1)
        self.places.end()
        if sum(self.counts) > len(self.lists) - self.lists.count(NONE):
            raise Refused("an inode is in two directories")
        self.owner_rows = inodes.rows_of(self.owners)
        self.count_at = array("Q", bytes(8 * len(inodes)))
        for row, count in zip(self.owner_rows, self.counts):
            if row == NONE or inodes.kinds[row] != DIRECTORY:
                raise Refused("a list is of no directory")
            self.count_at[row] += count

    # ---- What is left of it.

    def out(self, is_live):
        """Which lists are of directories that are not live, by the rows of these."""
        return bytearray(not is_live[row] for row in self.owner_rows)

    def count_out(self, out):
        """How many files are in no list, or in one of these."""
        return self.lists.count(NONE) + sum(count for count, is_out in zip(self.counts, out) if is_out)

    def are_out(self, ids, out):
        """Whether each of these ids is that of such a file."""
        lists = self.lists
        return [row != NONE and (lists[row] == NONE or out[lists[row]] == 1) for row in self.rows.of(ids)]

    def left(self, out, away):
        """The sums without what these lists have. `away` answers the sums of files that are out, of which there are some."""
        self.is_out = out
        sums = Sums(*self.sums.members())
        sums.add(b"".join([digest for _, digest in self.listed()]))
        if self.count_out(out):
            sums.take_away(away(out))
        return sums.members()


    # ---- What finds the files that differ.

    def files(self):
        """Of each file that is not out: its id, the first word of its sum, and the id of its directory."""
        lists, words, owners, is_out = self.lists, self.words, self.owners, self.is_out
        for inode_id, row in self.rows.pairs():
            place = lists[row]
            if place != NONE and not is_out[place]:
                yield inode_id, words[row], owners[place]

    def listed(self):
        """The id of each directory that has such files, and the sum of its list."""
        return ((owner, digest) for owner, digest, is_out in zip(self.owners, self.digests, self.is_out) if not is_out)

    def places_left(self):
        """Where others stand among such files."""
        files = array("q", (place.behind if place.before == NONE else place.before for place in self.places.all()))
        return (place for place, row in zip(self.places.all(), self.rows.of(files)) if not self.is_out[self.lists[row]])

    def has_block(self, ids):
        """Whether a file of the rest has one of these blocks. Bare files count as without."""
        return not ids.isdisjoint(self.blocks)


class Sifted(Inodes):
    """The inodes of the part. Others go to the rest."""

    def __init__(self, rest):
        super().__init__()
        self.rest = rest

    def is_kept(self, inode_id, name, kind):
        return kind == DIRECTORY or self.rest.part.has(inode_id, name)

    def add(self, inode_id, name, kind, replication=0, numbers=(), attributes=0):
        if self.is_kept(inode_id, name, kind):
            super().add(inode_id, name, kind, replication, numbers, attributes)
        else:
            self.rest.take(inode_id, name, kind, replication, numbers, attributes)

    def add_bare(self, inode_id, name, file, attributes):
        if self.is_kept(inode_id, name, BARE):
            super().add_bare(inode_id, name, file, attributes)
        else:
            self.rest.take(inode_id, name, BARE, file.replication, file.blocks.read, attributes, file.blocks.kind)

    def add_columns(self, columns, sets=None):
        kept = self.rest.take_columns(columns, sets)
        if kept:
            super().add_columns(columns.picked(kept), array("I", map(sets.__getitem__, kept)))

    def finish(self):
        repeated = super().finish()
        self.rest.end_inodes(self.ids)
        return repeated

    def count(self):
        return len(self) + self.rest.sums.files

    def greatest(self):
        return max(super().greatest(), self.rest.greatest)

    def missing(self, ids):
        return next((at for at, row in enumerate(self.rows_of(ids)) if row == NONE and not self.rest.has(ids[at])), None)


class SiftedLists(Lists):
    """The lists of the part. What they have of the rest goes there, and one that has nothing else is none here."""

    def __init__(self, inodes):
        super().__init__()
        self.inodes = inodes
        self.last = None

    def add(self, owner, numbers):
        self.last = owner
        others = self.inodes.rest.sift(owner, numbers, self.inodes.ids)
        if others or not numbers:
            super().add(owner, others)

    def keep(self, owner):
        if not self.owners or self.owners[-1] != owner:
            super().add(owner, ())

    def last_owner(self):
        return self.last

    def add_columns(self, owners, numbers, ends):
        begin = 0
        for owner, end in zip(owners, ends):
            self.add(owner, numbers[begin:end])
            begin = end


class Again(Inodes):
    """Inodes that are read once more, for the sums of those of the rest that are out."""

    def __init__(self, rest, out, sets):
        super().__init__()
        self.rest = rest
        self.out = out
        self.attributes = Attributes(sets)
        self.sums = Sums()
        self.left = rest.count_out(out)

    def add(self, inode_id, name, kind, replication=0, numbers=(), attributes=0, kind_of_bare=""):
        if self.rest.are_out([inode_id], self.out)[0]:
            self.sums.take((inode_id, name, kind, replication), numbers, *self.attributes.of([attributes]), kind_of_bare)
            self.left -= 1

    def add_bare(self, inode_id, name, file, attributes):
        self.add(inode_id, name, BARE, file.replication, file.blocks.read, attributes, file.blocks.kind)

    def add_columns(self, columns, sets=None):
        mine = self.rest.are_out(columns.ids, self.out)
        self.sums.take_columns(columns, self.attributes.of(sets), mine)
        self.left -= sum(mine)


def digest_of(data):
    return blake2b(data, digest_size=SUM_BYTES).digest()


def count_in(texts):
    """How many blocks these texts are of."""
    joined = b" ".join(filter(None, texts))
    return (joined.count(b" ") + 1) // 3 if joined else 0


def words_of(digests):
    """The first words of digests that stand one behind the other."""
    return array("I", digests)[::SUM_WORDS]
