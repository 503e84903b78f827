"""An image as an audit takes it: with snapshots, bare files and names with carriage returns, which real clusters have.

Snapshots change no live name. What only they hold is counted, and so is every element that nothing here stands for, by
the name that it has in the dump: an element of a later Hadoop shows itself.
"""
import os
import stat
from array import array

from audit.comparing.rest import Again, Rest, Sifted, SiftedLists
from audit.converting.attributes import OF_INODE, Sets, of_inode
from audit.reading.loops import row_in_loop
from audit.reading.mentions import REFERENCE, Mentions
from hdfs.converting.bare import OLD, STRIPED, bare_file, has_old_block, is_bare, kind_in_image, word_of
from hdfs.converting.fsimage import INODE, LAYOUT, NUMBERS, SECTION_BYTES, Dump, blocks_in, blocks_of, image_lines, is_striped
from hdfs.formats import FIRST_BLOCK_ID, FIRST_GEN, PATH_BYTES, Refused
from hdfs.reading.dumps import elements
from hdfs.reading.inodes import NONE, Lists
from hdfs.reading.shapes import children_of, named, texts_in
from hdfs.reading.stream import COMMON
from hdfs.reading.walk import SHORT_PATH, Inconsistent

# What is taken of each element.
TAKEN = {
    "NameSection": {"genstampV1Limit", "genstampV2", "lastAllocatedBlockId", "namespaceId", "txid"},
    "inode": {"blockType", "blocks", "file-under-construction", "id", "name", "replication", *OF_INODE},
    "blocks": {"block"},
    "block": {"genstamp", "id", "numBytes"},
    "file-under-construction": set(),
    "directory": {"child", "parent", "refChild"},
    "ref": {"referredId"},
}


class Checkpoint(Dump):
    """An image of a real cluster."""

    def __init__(self, table, part=None):
        super().__init__()
        self.table = table
        self.check_name = table.check_name
        self.cluster = None
        # The kinds of bare files by their paths: those that the log tells, and those that were found here.
        self.told_kinds = {}
        self.bare_kinds = {}
        # The directories that have files of the first sort.
        self.told_folders = set()
        # What other sections say of inodes, which inode each reference stands for, and the references of directories.
        self.mentions = Mentions()
        self.references = self.mentions.ids[REFERENCE]
        self.referring = Lists()
        # How the last inode's id contradicts the inodes, or None.
        self.low_inode = None
        self.snapshots_count = 0
        self.only_in_snapshots = 0
        self.with_line_feeds = 0
        # How many paths lie below those of as many names as there may be. They are left out.
        self.too_deep = {}
        self.sets = Sets()
        # The files that are not in the part, if there is one: they are summed, and not in the arrays.
        self.rest = None if part is None else Rest(part, self.sets)
        if self.rest is not None:
            self.inodes = Sifted(self.rest)
            self.children = SiftedLists(self.inodes)

    def readers(self):
        return {**super().readers(), **self.mentions.readers(), REFERENCE: self.reference}

    def take_numbers(self, section):
        super().take_numbers(section)
        self.cluster = section.number("namespaceId") if section.find("namespaceId") else None
        # Blocks of layouts before this limit have stamps below it.
        self.first_gen = section.number("genstampV1Limit") if section.find("genstampV1Limit") else 0
        self.pass_over(section)

    def check_whole(self):
        super().check_whole()
        if self.cluster is None:
            raise Refused("namespaceId is missing")

    def pass_over(self, element, keys=None):
        """Counts what is not taken of an element."""
        for key in element.shape.of(keys or keys_beside):
            self.passed[key] += 1

    def add_plain(self, element):
        is_added = super().add_plain(element)
        if is_added:
            self.pass_over(element, keys_in_file)
        return is_added

    def add(self, element):
        super().add(element)
        self.pass_over(element)
        self.with_line_feeds += "\n" in element.get("name").text

    def file_with_blocks(self, inode):
        blocks = blocks_in(inode)
        for element in (*inode.all("blocks"), *inode.all("file-under-construction"), *blocks):
            self.pass_over(element)
        if is_striped(inode):
            return bare_file(STRIPED.kind, blocks)
        return bare_file(OLD.kind, blocks) if has_old_block(blocks, self.first_gen) else super().file_with_blocks(inode)

    def set_of(self, element):
        places = element.shape.of(attribute_places)
        return self.sets.kept((element.shape, *map(element.texts.__getitem__, places)), lambda: of_inode(element))

    def sets_of(self, columns):
        return array("I", map(self.sets.of_columns.__getitem__, columns.attributes))

    def snapshots(self, count):
        self.snapshots_count = count.value()

    def reference(self, element):
        self.mentions.take(REFERENCE, element.number("referredId"))
        self.pass_over(element)

    def list(self, element, owner=None):
        owner = element.number("parent") if owner is None else owner
        self.children.add(owner, element.numbers("child"))
        self.pass_over(element)
        places = element.numbers("refChild")
        if places:
            self.referring.add(owner, places)
            self.children.keep(owner)

    def finish(self):
        self.mentions.check(self.inodes)
        self.low_inode = self.mentions.low_last(self.inodes)
        self.referring.finish(self.inodes)
        self.reference_rows = self.inodes.rows_of(self.references)
        if self.rest is not None:
            self.finish_rest()
        super().finish()

    def finish_rest(self):
        """Gives the rest what directories refer to. What can't be said of it then is Refused."""
        for owner, begin, end in zip(self.referring.owners, self.referring.ends, self.referring.ends[1:]):
            ids = [self.references[place] for place in self.referring.numbers[begin:end] if place < len(self.references)]
            self.rest.refer(owner, ids)
        self.rest.finish(self.inodes)
        if self.least_block < FIRST_BLOCK_ID or self.greatest_block > self.last_block:
            raise Refused("a block has an id that no block has")

    def refers(self, row):
        return self.referring.first[row] != NONE

    def referred(self, row):
        children = []
        for place in self.references_of(row):
            child = self.known(self.reference_rows[place], self.references[place])
            children.append((self.inodes.name(child).decode(), child))
        return children

    def references_of(self, row):
        """The places of the references that a directory has."""
        for at in self.referring.places(row):
            place = self.referring.numbers[at]
            if place >= len(self.references):
                told = f"inode {self.inodes.ids[row]} has the refChild {place}"
                raise Inconsistent(f"{told}, and the references are {len(self.references)}")
            if self.rest is None or not self.rest.has(self.references[place]):
                yield place

    def check_all_taken(self):
        """What the root does not lead to is held by snapshots alone, if there are any."""
        if not self.snapshots_count:
            super().check_all_taken()
        held = [row for row, is_taken in enumerate(self.is_taken) if not is_taken] if not all(self.is_taken) else []
        self.only_in_snapshots = len(held) + self.count_away()
        looped = row_in_loop(held, self.all_below)
        if looped is not None:
            raise Inconsistent(f"inode {self.inodes.ids[looped]}, away from the root, is below itself")
        for lists in (self.children, self.referring):
            if lists.missing is not None:
                raise Inconsistent(f"inode {lists.missing} is missing")

    def count_away(self):
        """How many files of the rest the root does not lead to."""
        count = self.rest.count_out(self.rest.out(self.is_taken)) if self.rest is not None else 0
        if count and not self.snapshots_count:
            raise Refused("an inode is in no directory")
        return count

    def count_in(self, row):
        return super().count_in(row) + (0 if self.rest is None else self.rest.count_at[row])

    def sums_of_rest(self, is_gone, opened):
        """The sums of the rest that the root leads to, but for what is in directories that are gone, by the rows of these.

        Files that are out of it are read once more for that. `opened` opens the image.
        """
        out = self.rest.out([is_live and not row_is_gone for is_live, row_is_gone in zip(self.is_taken, is_gone)])
        return self.rest.left(out, lambda out: sums_again(self, out, opened))

    def all_below(self, row):
        """The rows of all that a directory lists."""
        return [*self.rows_in(row), *(self.reference_rows[place] for place in self.references_of(row))]

    def live_rows(self):
        """Whether the root leads to each row."""
        return bytearray(self.is_taken)

    def row(self, path, file):
        told = self.told_kinds.get(path)
        kind = kind_in_image(file, told) if told is not None or is_bare(file) else None
        if kind is not None:
            self.bare_kinds[path] = kind
            return bare_file(kind)._replace(replication=self.table.number(word_of(kind)))
        return super().row(path, file._replace(replication=self.number_for(file.replication)))

    def number_for(self, replication):
        return self.table.number(str(replication))

    def is_told(self, above):
        return above.decode() in self.told_folders

    def use(self, table, told):
        """Takes a table, and what the log tells of bare files."""
        self.table = table
        self.told_kinds = told

    def begin_lines(self):
        """All lines are made anew."""
        self.bare_kinds, self.too_deep = {}, {}
        self.told_folders = {path.rpartition("/")[0] for path in self.told_kinds}

    # ---- Names that the program has otherwise.

    def below(self, path, row):
        """They are looked at as the cluster has them, and are in the order of the names that the program has."""
        if self.rest is not None and len(path) > SHORT_PATH:
            raise Refused("a path may be too long")
        names, rows = super().below(path, row)
        if self.table.encoded.isdisjoint(names):
            return names, rows
        short = [self.table.names.get(name, name).encode() for name in map(bytes.decode, names)]
        pairs = sorted(zip(short, rows))
        return [name for name, _ in pairs], array("i", [row for _, row in pairs])

    def name_of(self, row):
        name = super().name_of(row).decode()
        return self.table.names.get(name, name).encode()

    def full_name(self, name):
        return self.table.full_name(name).encode()

    def check_path(self, path):
        if len(path.encode()) > PATH_BYTES:
            self.table.shorten(path)

    def leave_below(self, path, row):
        if self.rest is not None:
            raise Refused("a path may have too many names")
        ahead, count = [row], 0
        while ahead:
            above = ahead.pop()
            below = list(map(self.child, self.children.places(above)))
            below += [(self.reference_rows[at], self.references[at]) for at in self.references_of(above)]
            for found in below:
                self.take(*found)
            count += len(below)
            ahead += [found for found, _ in below]
        if count:
            self.too_deep[path.decode()] = count


def keys_beside(shape):
    """The keys of what is not taken of an element of this shape."""
    return [f"{shape.name}/{child.name}" for child in shape.of(children_of) if child.name not in TAKEN[shape.name]]


def attribute_places(shape):
    """The places of the texts of an inode's attributes, also of those in elements in them."""
    return [place for name in OF_INODE for child in shape.of(named).get(name, ()) for place in range(child.first, child.first + max(1, texts_in(child)))]


def keys_in_file(shape):
    """The keys of what is not taken of an inode, if it is a file or has nothing that only files have."""
    members = shape.of(named)
    parts = [shape, *members.get("blocks", ()), *members.get("file-under-construction", ()), *blocks_of(shape)]
    return [key for part in parts for key in keys_beside(part)]


def name_section(name, opened):
    """The NameSection of an image, or None where there is none, or where its file can be read only once."""
    if not stat.S_ISREG(os.stat(name).st_mode):
        return None
    with opened(name) as file:
        try:
            found = elements(file, "fsimage", {NUMBERS}, SECTION_BYTES)
            return next((element for _, element in found), None)
        except Refused:
            return None


class ReadAgain(Checkpoint):
    """An image of which inodes are read once more, for what of the rest is out."""

    def __init__(self, table, rest, out):
        super().__init__(table)
        self.inodes = Again(rest, out, self.sets)

    def readers(self):
        places = LAYOUT, NUMBERS, INODE, (*INODE, COMMON)
        return {place: reader for place, reader in super().readers().items() if place in places}

    def has_enough(self):
        return self.inodes.left == 0


def sums_again(dump, out, opened):
    """The sums of the files of an image's rest that are out."""
    again = ReadAgain(dump.table, dump.rest, out)
    with opened() as file:
        again.read_elements(file)
    return again.inodes.sums


def read_image(name, table, opened, part=None):
    """An image, and how it contradicts itself, or None. `opened` opens its file.

    With a part it has only directories and the files that are in that, and sums of the rest.
    """
    dump = Checkpoint(table, part)
    try:
        with opened(name) as file:
            dump.read(file)
    except Inconsistent as found:
        return dump, str(found)
    except Refused as refused:
        raise Refused(with_name(name, refused)) from None
    return dump, None


def with_name(name, refused):
    """A reason with the name of its file, which it may have already."""
    return str(refused) if str(refused).startswith(name) else f"{name}: {refused}"


def low_number(dump):
    """How an image contradicts itself if its last stamp is below that of a block, or what no NameNode has; or None."""
    if dump.last_gen < max(dump.greatest_gen, FIRST_GEN - 1):
        return f"its last stamp is {dump.last_gen}, below that of a block, {dump.greatest_gen}, or the least"
    if dump.last_block < FIRST_BLOCK_ID - 1:
        return f"its last id is {dump.last_block}, below the least"
    return None


def write_image(dump, name, output):
    """Writes an image as this project has it to a file. Answers how it contradicts itself, or None."""
    with open(output, "wb") as file:
        return give_image(dump, name, file.write)


def give_image(dump, name, write, last_gen=0):
    """Writes an image as this project has it, and its last stamp at least as said. Answers how it contradicts itself."""
    try:
        for piece in pieces_of(dump, last_gen):
            write(piece)
    except Inconsistent as found:
        return str(found)
    except Refused as refused:
        raise Refused(with_name(name, refused)) from None
    return None


def pieces_of(dump, last_gen=0):
    """The lines of an image as this project has it, many of them at a time.

    The program takes no image with such a last id or stamp. What is wrong with it is told beside what else differs.
    """
    dump.begin_lines()
    return image_lines(dump, *numbers_of(dump, last_gen))


def numbers_of(dump, last_gen=0):
    """The last block's id, the last stamp and the TXID, as an image has them."""
    last_block = max(dump.last_block, FIRST_BLOCK_ID - 1)
    return last_block, max(last_gen, dump.last_gen, dump.greatest_gen, FIRST_GEN - 1), dump.txid
