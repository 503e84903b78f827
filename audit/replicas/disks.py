"""Reads what DataNodes have on their disks, as `find` lists it on each of them, and makes replicas of it:

    find DIR.. -type f -name 'blk_*' -printf '%s %p\\n'

The file blk_ID has a block, and its size is the block's length. blk_ID_STAMP.meta beside it has the stamp. Both are a
replica, and one alone is none. All files are put in the order of their blocks, so that a listing may have any order and
any length.
"""
import re
from itertools import chain, groupby, islice

from audit.replicas.listings import OTHER_IDS, TWICE, Replica, lines_in, shown
from audit.replicas.sorting import Sorted
from hdfs.formats import FIRST_BLOCK_ID, GREATEST_NUMBER, Refused

LINE = re.compile(rb"([0-9]{1,19}) ((?:[^\0]*/)?)([^/\0]+)")
FILE = re.compile(rb"blk_(-?[0-9]{1,19})(?:_([0-9]{1,19})\.meta)?")

# What is known of so many directories is kept.
DIRECTORIES = 4_096

# What the folders below a block pool hold: whether a replica there is still written.
FOLDERS = {b"finalized": False, b"rbw": True, b"rwr": True}

# Folders that hold no replica that a DataNode reports: what is copied, deleted, or as it was before an upgrade.
PASSED_OVER = (b"tmp", b"lazypersist", b"trash", b"previous")

# What files of one block in one directory are, by how many block files and meta files there are.
NO_PAIR = {
    (1, 0): "block files without a meta file",
    (0, 1): "meta files without a block file",
    (0, 2): "meta files without a block file",
    (1, 2): "block files with two meta files",
}

# A record has the block and the DataNode in so many characters.
KEY_BYTES = 24


class Disks:
    """The files of blocks on the disks of DataNodes, and the replicas that they are."""

    def __init__(self, pool, notes, folder):
        self.pool = pool
        self.notes = notes
        self.files = Sorted(folder, "files")
        self.listings = []
        # Of directories that were listed: what is counted of their files, or None; and whether they are still written.
        self.directories = {}

    def read(self, node, name):
        """Takes the listing of a DataNode. One may have several."""
        self.listings.append(name)
        self.directories.clear()
        with open(name, "rb") as file:
            place = 0
            for place, line in lines_in(file):
                try:
                    self.take(node, line, place)
                except Refused as reason:
                    raise Refused(f"{name}, line {place}: {reason}") from None
        if place == 0:
            self.notes.name("listings without a line", f"{name} has no line")

    def take(self, node, line, place):
        found = LINE.fullmatch(line)
        if found is None:
            raise Refused(f"{shown(line)} is no size and path, as -printf '%s %p\\n' prints them")
        size, directory, name = found.groups()
        file = FILE.fullmatch(name)
        if file is None:
            self.notes.name("files that are no block's", f"{self.listings[-1]}, line {place}: {shown(name)}")
            return
        what, is_building = self.directories.get(directory) or self.learn(directory, place)
        block, stamp = int(file[1]), file[2]
        if what is not None or block < FIRST_BLOCK_ID:
            # A block is counted once, and not with its meta file.
            self.notes.count[what or OTHER_IDS] += stamp is None
            return
        value = int(stamp or size)
        if max(block, value) > GREATEST_NUMBER:
            raise Refused(f"{max(block, value)} is not a number from 0 to {GREATEST_NUMBER}")
        what = block, node, is_building, directory, stamp is not None, value, len(self.listings) - 1, place
        self.files.put(b"%016x%08x%d%b\0%d %d %d %d\n" % what)

    def learn(self, directory, place):
        if len(self.directories) == DIRECTORIES:
            self.directories.clear()
        self.directories[directory] = self.kind_of(directory, place)
        return self.directories[directory]

    def kind_of(self, directory, place):
        """What is counted of a directory's files, or None where they are replicas; and whether these are written."""
        above, has_pool, below = (b"/" + directory).rpartition(b"/BP-")
        pool, is_whole, below = below.partition(b"/")
        if not has_pool or not is_whole:
            return "files outside of a block pool", False
        if not self.pool.has(b"BP-" + pool, f"{self.listings[-1]}, line {place}"):
            return "other block pools", False
        first, _, below = below.partition(b"/")
        kind = below.partition(b"/")[0] if first == b"current" else first
        if above.endswith(b"/previous"):
            return "previous", False
        if first == b"current" and kind in FOLDERS:
            return None, FOLDERS[kind]
        return kind.lower().decode() if kind.lower() in PASSED_OVER else "other folders", False

    def replicas(self):
        """The replicas of all DataNodes, in order. A block that a DataNode has twice is one, as it takes it."""
        for key, records in groupby(self.files.lines(), lambda record: record[:KEY_BYTES]):
            block, node = int(key[:16], 16), int(key[16:], 16)
            first = list(islice(records, 3))
            parts = [record[KEY_BYTES:].partition(b"\0") for record in first]
            if len(parts) == 2 and parts[0][0] == parts[1][0] and parts[0][2][:1] < parts[1][2][:1]:
                # As it should be.
                length, stamp = (int(part[2].split(b" ", 2)[1]) for part in parts)
                yield Replica(block, node, stamp, length, parts[0][0].startswith(b"1"))
            else:
                yield from self.kept(block, node, chain(first, records))

    def kept(self, block, node, records):
        """The replica that a DataNode has of a block, where it has anything else than one pair of files."""
        kept = None
        for directory, files in groupby(records, lambda record: record[KEY_BYTES : record.index(b"\0")]):
            found = self.pair(block, node, directory, files)
            if found is None:
                continue
            if kept is not None:
                told = f"{found[1]}: block {block} is on another disk of this DataNode too: {kept[1]}"
                self.notes.name(TWICE, told)
            # A DataNode keeps the one of the greatest stamp, and then of the greatest length.
            kept = max(filter(None, (kept, found)), key=lambda pair: (pair[0].gen, pair[0].len))
        if kept is not None:
            yield kept[0]

    def pair(self, block, node, directory, records):
        """The replica that the files of a block in a directory are, with where it is listed; or None."""
        found = {0: [], 1: []}
        for record in records:
            is_meta, value, listing, place = map(int, record.partition(b"\0")[2].split())
            where = f"{self.listings[listing]}, line {place}"
            if any(is_meta == 0 or value == other for other, _ in found[is_meta]):
                raise Refused(f"{where}: it lists the same file as {found[is_meta][0][1]}")
            found[is_meta] = [*found[is_meta][:1], (value, where)]
        blocks, metas = found[0], found[1]
        if len(blocks) == len(metas) == 1:
            replica = Replica(block, node, metas[0][0], blocks[0][0], directory.startswith(b"1"))
            return replica, blocks[0][1]
        what = NO_PAIR[len(blocks), len(metas)]
        self.notes.name(what, f"{(blocks or metas)[0][1]}: {block} is of the {what}")
        return None
