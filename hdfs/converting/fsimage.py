"""Reads an image that `hdfs oiv -p XML` printed, and makes an image of this project of it.

A dump is refused where it can't be read, or has something that nothing here stands for. It is inconsistent where it
contradicts itself, which an image of a sound NameNode never does.
"""
from collections import Counter
from typing import NamedTuple

from hdfs import formats
from hdfs.converting.lines import Lines
from hdfs.formats import Refused, is_plain_name
from hdfs.reading.dumps import check_layout, elements, plain_numbers
from hdfs.reading.inodes import CLOSED, DIRECTORY, NONE, OPEN, File, Inodes, Lists
from hdfs.reading.places import told_in
from hdfs.reading.quick import Known, inodes_in, lists_in
from hdfs.reading.shapes import named, only_places
from hdfs.reading.stream import COMMON, MORE
from hdfs.reading.walk import ROOT, RUN_ROWS, Inconsistent, Walk

LAYOUT = ("version", "layoutVersion")
NUMBERS = ("NameSection",)
COUNT = ("INodeSection", "numInodes")
INODE = ("INodeSection", "inode")
LIST = ("INodeDirectorySection", "directory")
SNAPSHOTS = ("SnapshotSection", "numSnapshots")

MORE_CHILDREN = (*LIST, MORE)

# So many bytes an element may have. A directory has 6,400,000 children at most, and is read in pieces.
SECTION_BYTES = 67_108_864

# What only files have, and how often it comes in the form of an inode.
OF_FILES = {"blockType": 0, "blocks": 1, "erasureCodingPolicyId": 0, "file-under-construction": 1, "replication": 1}

class Form(NamedTuple):
    """Where most inodes of a shape have what is taken of them: the places of texts."""

    kind: str
    closed: bool
    type: int
    name: int
    # The id, then the replication of a file, and of each of its blocks the stamp, the id and the length.
    numbers: list


def form_of(shape):
    """The form of a shape, or False where something is missing or comes twice, or may tell of a striped file."""
    members, places = shape.of(named), shape.of(only_places)
    numbers = [places.get("id")]
    if OF_FILES.keys() & members.keys():
        kind = "FILE"
        numbers.append(places.get("replication"))
        for block in blocks_of(shape):
            numbers += map(block.of(only_places).get, ("genstamp", "id", "numBytes"))
    else:
        kind = "DIRECTORY"
    of_type, of_name = places.get("type"), places.get("name")
    is_common = all(len(members.get(name, ())) <= most for name, most in OF_FILES.items())
    if None in (of_type, of_name, *numbers) or not is_common:
        return False
    return Form(kind, "file-under-construction" not in members, of_type, of_name, numbers)


def blocks_of(shape):
    """The shapes of the blocks in that of an inode."""
    return [block for listed in shape.of(named).get("blocks", ()) for block in listed.of(named).get("block", ())]


class Dump(Walk):
    """What a dump says. Inodes are known by their ids, which tie its sections together."""

    # Whether common forms are read by regular expressions, and not by expat.
    is_quick = True

    def __init__(self):
        self.numbers = None
        self.has_layout = False
        # How many inodes the image says that it has.
        self.count = None
        self.inodes = Inodes()
        # The ids that each directory lists.
        self.children = Lists()
        # Blocks of layouts before this stamp have stamps below it, if it is known.
        self.first_gen = 0
        # The least and the greatest id of a block, and the greatest stamp.
        self.least_block = formats.GREATEST_NUMBER
        self.greatest_block = 0
        self.greatest_gen = 0
        # How often each element came that is not taken.
        self.passed = Counter()

    def readers(self):
        """What reads the elements that are wanted, by their places."""
        return {
            LAYOUT: self.layout,
            NUMBERS: self.take_numbers,
            COUNT: self.take_count,
            INODE: self.inode,
            (*INODE, COMMON): self.common_inodes,
            LIST: self.directory,
            (*LIST, COMMON): lambda columns: self.children.add_columns(*columns),
            MORE_CHILDREN: self.more_children,
            SNAPSHOTS: self.snapshots,
        }

    def read(self, file):
        """Reads a dump, and answers this."""
        self.read_elements(file)
        self.check_whole()
        self.finish()
        return self

    def read_elements(self, file):
        """Reads what is wanted of a dump."""
        readers = self.readers()
        quick = {INODE: Known(self.inodes_in), LIST: Known(lists_in)} if self.is_quick else {}
        element = None
        try:
            for place, element in elements(file, "fsimage", set(readers), SECTION_BYTES, self.passed, {LIST: 0}, quick):
                readers[place](element)
                if self.has_enough():
                    break
        except Inconsistent:
            raise
        except Refused as refused:
            raise Refused(told_in(file.name, element, refused)) from None

    @staticmethod
    def has_enough():
        """Whether no more of the dump is wanted."""
        return False

    def finish(self):
        """Finds the inodes of all ids."""
        self.children.finish(self.inodes)
        self.child_rows = self.inodes.rows_of(self.children.numbers)
        self.root = self.inodes.rows_of([ROOT])[0]
        self.inodes.rows = None
        if NONE not in self.child_rows:
            # Each child is known by its row.
            self.children.numbers = None

    def layout(self, element):
        check_layout(element)
        self.has_layout = True

    def take_numbers(self, section):
        if self.numbers is not None:
            raise Refused("the dump has two NameSections")
        self.numbers = section
        self.last_block = section.number("lastAllocatedBlockId")
        self.last_gen = section.number("genstampV2")
        self.txid = section.number("txid")

    def take_count(self, element):
        self.count = element.value()

    def inode(self, element):
        if not self.add_plain(element):
            self.add(element)

    def add_plain(self, element):
        """Adds an inode if it is such as most are. Answers whether it was: what is wrong is for `add` to tell."""
        form, texts = element.shape.of(form_of), element.texts
        if not form or texts[form.type] != form.kind or not is_plain_name(texts[form.name]):
            return False
        numbers = plain_numbers([texts[place] for place in form.numbers])
        if numbers is None:
            return False
        if form.kind == "DIRECTORY":
            self.inodes.add(numbers[0], texts[form.name].encode(), DIRECTORY, attributes=self.set_of(element))
            return True
        inode_id, replication, *blocks = numbers
        stamps, ids = blocks[0::3], blocks[1::3]
        if blocks:
            if min(ids) < formats.FIRST_BLOCK_ID or min(stamps) < self.first_gen:
                return False
            self.note_blocks(min(ids), max(ids), max(stamps))
        kind = CLOSED if form.closed else OPEN
        self.inodes.add(inode_id, texts[form.name].encode(), kind, replication, blocks, self.set_of(element))
        return True

    def note_blocks(self, least, greatest, greatest_gen):
        self.least_block = min(self.least_block, least)
        self.greatest_block = max(self.greatest_block, greatest)
        self.greatest_gen = max(self.greatest_gen, greatest_gen)

    def inodes_in(self, data, at):
        """The inodes of common forms that stand in data from a place on, as `quick` has them."""
        return (None, at) if self.numbers is None else inodes_in(data, at, self.first_gen)

    def common_inodes(self, columns):
        """Adds many inodes."""
        self.inodes.add_columns(columns, self.sets_of(columns))
        bounds = columns.blocks.bounds
        if bounds:
            self.note_blocks(bounds.least, bounds.greatest, bounds.greatest_gen)
        self.passed.update(+columns.passed)

    def add(self, element):
        inode_id = element.number("id")
        try:
            name, file = element.string("name"), self.file_of(element)
            if inode_id != ROOT:
                self.check_name(name)
        except Refused as refused:
            raise Refused(f"inode {inode_id}: {refused}") from None
        # No path has the name of the root.
        name = b"" if inode_id == ROOT else name.encode()
        if file is None:
            self.inodes.add(inode_id, name, DIRECTORY, attributes=self.set_of(element))
            return
        self.inodes.add_file(inode_id, name, file, self.set_of(element))
        for block in file.blocks:
            self.note_blocks(block.id, block.id, block.gen)

    # An image of this project has no attributes.

    @staticmethod
    def set_of(_element):
        """The number of an inode's set of attributes."""
        return 0

    @staticmethod
    def sets_of(_columns):
        """The numbers of the sets of many inodes, or None."""
        return None

    def file_of(self, inode):
        """The file that an inode is, or None for a directory."""
        kind = inode.string("type")
        if kind == "DIRECTORY":
            return None
        if kind != "FILE":
            raise Refused(f"its type is {kind[:40]!r}, and there are no symbolic links here")
        return self.file_with_blocks(inode)

    def file_with_blocks(self, inode):
        if is_striped(inode):
            raise Refused("the file is striped")
        blocks = [block.block("id", "genstamp", "numBytes") for block in blocks_in(inode)]
        return File(inode.number("replication"), is_closed(inode), blocks)

    def directory(self, element):
        if not self.list_plain(element):
            self.list(element)

    def more_children(self, element):
        """Takes further children of the last directory."""
        self.list(element, self.children.last_owner())

    def list_plain(self, element):
        """Takes the children of a directory that lists nothing else. Answers whether that was seen at once."""
        names = element.leaves()
        is_plain = names and names[0] == "parent" and names.count("child") == len(names) - 1
        numbers = plain_numbers(element.texts) if is_plain else None
        if numbers is not None:
            self.children.add(numbers[0], numbers[1:])
        return numbers is not None

    def list(self, element, owner=None):
        """Takes the children of a directory, or further ones of that which has this id."""
        if element.all("refChild"):
            raise Refused("a directory has a refChild, and there are no snapshots here")
        self.children.add(element.number("parent") if owner is None else owner, element.numbers("child"))

    @staticmethod
    def snapshots(count):
        if count.text != "0":
            raise Refused("there are no snapshots here")

    def check_whole(self):
        """Refuses a dump that lacks a section, or has another count of inodes than it says."""
        if not self.has_layout:
            raise Refused("the dump has no layoutVersion: an oiv of before Hadoop 2.8 prints none, and other elements")
        if self.numbers is None:
            raise Refused("the dump has no NameSection")
        if self.count is None:
            raise Refused("numInodes is missing")
        repeated = self.inodes.finish()
        if repeated is not None:
            raise Inconsistent(f"inode {self.inodes.ids[repeated]} comes twice")
        if self.count != self.inodes.count():
            raise Inconsistent(f"numInodes is {self.count}, and the inodes are {self.inodes.count()}")

    def awaiting(self):
        """The ids that were issued and that the log may still give to a file.

        A NameNode that follows a log may save its image between the record that issues an id and the one that adds its
        block. So the last id awaits, if no file has it. If its file is gone no record names it again.
        """
        is_issued = self.last_block >= formats.FIRST_BLOCK_ID
        return [self.last_block] if is_issued and self.greatest_block < self.last_block else []

    check_name = staticmethod(formats.check_name)

    # ---- Lines.

    def pieces(self):
        """Lines of this project's image, those of some paths at a time, with how many these are."""
        lines = Lines(self)
        for above, names, rows in self.runs():
            for at in range(0, len(rows), RUN_ROWS):
                some = rows[at : at + RUN_ROWS]
                yield lines.of(above, names[at : at + RUN_ROWS], some), len(some)

    @staticmethod
    def number_for(replication):
        """What stands in a line for a replication."""
        return replication

    def name_of(self, row):
        """The bytes of a name, as it stands in a line."""
        return self.inodes.name(row)

    def is_told(self, _above):
        """Whether the log tells of what kind a file is that this directory has."""
        return False

    def row(self, path, file):
        """The file at a path. Its blocks have to have ids that were issued."""
        for block in file.blocks:
            if block.id < formats.FIRST_BLOCK_ID:
                raise Refused(f"{path} has the block id {block.id}, of an old layout")
            if block.id > self.last_block:
                raise Inconsistent(f"{path} has the block id {block.id}, above the last one, {self.last_block}")
        return file


def blocks_in(inode):
    listed = inode.find("blocks")
    return listed.all("block") if listed else []


def is_closed(inode):
    return inode.find("file-under-construction") is None


def is_striped(inode):
    """Whether a file has block groups. A replicated one may say CONTIGUOUS, or the policy 0, or nothing."""
    kind, policy = inode.find("blockType"), inode.find("erasureCodingPolicyId")
    if kind is not None and kind.text not in ("CONTIGUOUS", "STRIPED"):
        raise Refused(f"its blockType is {kind.text[:40]!r}")
    return kind is not None and kind.text == "STRIPED" or policy is not None and policy.value() != 0


def image_lines(dump, last_block, last_gen, txid):
    """The lines of the image that a dump stands for, with this last id, this last stamp and this number."""
    yield formats.image_header(last_block, last_gen, dump.awaiting(), txid)
    count = 0
    for lines, paths in dump.pieces():
        count += paths
        yield lines
    yield formats.image_end(count)
