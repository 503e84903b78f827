"""What a log goes on from in an audit: the first image, or the one that a chain keeps."""
import contextlib
import json
from array import array
from itertools import chain

from audit.chain.kept import Kept
from audit.chain.links import Link
from audit.converting.attributes import Sets
from audit.converting.table import MARK
from audit.program.proved import chunks_of
from audit.program.told import lines_in
from audit.reading.checkpoint import give_image, low_number, numbers_of, pieces_of, read_image
from audit.reading.listed import ListedTree
from hdfs.converting.bare import BLOCKS_OF
from hdfs.formats import PATH_BYTES, Image, Refused, image_directory, image_end, image_file, image_header, image_line

# A name that no path has.
NO_NAME = "/"


class FirstImage:
    """The first image of a chain, which is taken on trust."""

    def __init__(self, name, table, opened, part=None):
        self.name = name
        self.dump, contradiction = read_image(name, table, opened, part)
        self.check(contradiction or self.dump.low_inode or low_number(self.dump))
        self.link = Link(self.dump.txid, self.dump.txid, 0, self.dump.cluster, {})

    def check(self, contradiction):
        if contradiction is not None:
            raise Refused(f"{self.name} contradicts itself: {contradiction}")

    @property
    def sets(self):
        """The sets of attributes of its inodes."""
        return self.dump.sets

    @property
    def rest(self):
        """What is not in the part, if there is one."""
        return self.dump.rest

    def blocks_of_bare(self, _tree):
        """The blocks of bare files, by their rows."""
        inodes = self.dump.inodes
        return {row: tuple(map(tuple, inodes.blocks_of(row))) for row in inodes.bare}

    def header(self):
        last_block, last_gen, txid = numbers_of(self.dump)
        return json.loads(image_header(last_block, last_gen, self.dump.awaiting(), txid))

    def give(self, write, last_gen):
        """Writes the image, with a last stamp that is at least this."""
        self.check(give_image(self.dump, self.name, write, last_gen))
        self.link = self.link._replace(bare=dict(sorted(self.dump.bare_kinds.items())))

    def lines(self):
        return lines_in(pieces_of(self.dump))

    def tree(self):
        return tree_over(self.dump, self.link)

    @property
    def deep(self):
        """The directories below which something has too many names."""
        return self.dump.too_deep.keys()


class KeptImage:
    """The image that a chain keeps, in its state: in a file, from a place on."""

    def __init__(self, link, name, place, table):
        self.link = link
        self.name = name
        self.place = place
        self.table = table
        # The names that are short in the file. The table may get more.
        self.names = set(link.names)
        # The directories of as many names as there may be: more may have been below them.
        self.deep = ()
        # The sets of attributes of its inodes, or None if the state has none.
        self.sets = Sets(link.sets) if link.inodes else None
        self.shorten()

    @contextlib.contextmanager
    def open(self):
        with open(self.name, "rb") as file:
            file.seek(self.place)
            yield file

    def header(self):
        with self.open() as file:
            return json.loads(file.readline())

    def give(self, write, last_gen):
        """Writes the image, with a last stamp that is at least this."""
        header = self.header()
        header["last_gen"] = max(last_gen, header["last_gen"])
        write(image_line(header))
        for piece in self.pieces():
            write(piece)
        if self.has_grown():
            bare, blocks = ({self.table.short_again(path): it for path, it in of.items()} for of in (self.link.bare, self.link.blocks))
            self.link = self.link._replace(bare=bare, blocks=blocks)

    def shorten(self):
        """Gives short names in paths that a rename made too long, which the image of then did not have, or was not whole."""
        with self.open() as file:
            for line in file:
                path = json.loads(line).get("path", "") if len(line) > PATH_BYTES else ""
                if len(path.encode()) > PATH_BYTES:
                    self.table.shorten(path)

    def has_grown(self):
        return len(self.names) < len(self.table.names)

    def pieces(self):
        """The image behind its header, by the names that the table has now."""
        with self.open() as file:
            if not self.has_grown():
                file.readline()
                yield from chunks_of(file)
                return
            rows = [row._replace(path=self.table.short_again(row.path)) for row in Image(file).rows(check=lambda _path: None)]
        for row in sorted(rows, key=lambda row: row.path.encode().split(b"/")):
            path, replication, closed, blocks = row
            yield image_directory(path) if blocks is None else image_file(path, replication, closed, blocks)
        yield image_end(len(rows))

    def lines(self):
        return lines_in(chain([image_line(self.header())], self.pieces()))

    def tree(self):
        with self.open() as file:
            file.readline()
            kept = Kept(file, self.name_in_file)
        if self.sets:
            self.give_inodes(kept)
        self.deep = list(map(self.table.short_again, kept.deep))
        return tree_over(kept, self.link)

    def blocks_of_bare(self, tree):
        """The blocks of bare files, by their rows."""
        return {tree.find(path).inode: tuple(zip(*[iter(numbers)] * 3)) for path, numbers in self.link.blocks.items()}

    def give_inodes(self, kept):
        """Gives its rows their ids and their sets of attributes."""
        if len(kept.inodes) != self.link.inodes:
            raise Refused(f"{self.name} has {self.link.inodes:,} inodes, and its image {len(kept.inodes):,}")
        kept.inodes.ids, kept.inodes.sets = self.columns()

    def columns(self):
        """The ids of all inodes, and the numbers of their sets of attributes, in the order of the lines."""
        ids, sets = array("q"), array("I")
        with open(self.name, "rb") as file:
            file.seek(self.place - self.link.inodes * (ids.itemsize + sets.itemsize))
            ids.fromfile(file, self.link.inodes)
            sets.fromfile(file, self.link.inodes)
        return ids, sets

    def name_in_file(self, name):
        full = self.table.full_name(name)
        if full in self.names:
            return name
        # What begins with the mark there is a short name.
        return NO_NAME if full.startswith(MARK) else full


def tree_over(image, link):
    """The tree of the names in an image whose inodes lie in arrays, with the bare files of a link."""
    tree = ListedTree(image)
    for path, kind in link.bare.items():
        tree.find_file(path).blocks = BLOCKS_OF[kind]
    return tree
