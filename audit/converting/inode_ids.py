"""Which inode stands where, once the log was followed: the inodes of an image by their rows, and those that the log made.

A tree says what has which name. Each of its nodes knows its inode: a file of the image is its row, or keeps that once it
was looked for, and a directory of the image has its row. What the log makes has a `Made`.
"""
from audit.converting.attributes import SETTING, change, of_record, of_texts_of_record
from audit.reading.listed import Listed
from hdfs.converting.bare import is_bare, numbers_of
from hdfs.converting.edits import path_in
from hdfs.converting.tree import File, Folder, is_directory
from hdfs.formats import DoesNotApply, to_json
from hdfs.reading.longrecords import SUM

MAKING = {"OP_ADD": True, "OP_MKDIR": False}
# The records of a file, which may put it in the place of itself, each with the member that has its path.
OF_A_FILE = {"OP_CONCAT_DELETE": "TRG", "OP_TRUNCATE": "SRC"}
OF_A_FILE.update(dict.fromkeys(("OP_ADD", "OP_ADD_BLOCK", "OP_UPDATE_BLOCKS", "OP_CLOSE", "OP_APPEND", "OP_SET_REPLICATION"), "PATH"))
LISTING = {"OP_UPDATE_BLOCKS", "OP_CLOSE"}

SNAPSHOT = "/.snapshot"
BLOCK = "GENSTAMP", "BLOCK_ID", "NUM_BYTES"


class Made:
    """An inode that the log made: its id, if the record has one, and its attributes, or the number of their set."""

    __slots__ = ("id", "attributes")

    def __init__(self, inode_id, attributes):
        self.id = inode_id
        self.attributes = attributes


class Followed:
    """What records of a log do to inodes and their attributes, beside what they do to the tree."""

    def __init__(self, tree, sets, blocks):
        self.tree = tree
        self.sets = sets
        # The attributes of rows of the image that a record changed.
        self.changed = {}
        # The blocks of bare files, as tuples of stamp, id and length, or None where no record tells them.
        self.blocks = blocks
        # What stood at the path of the record that is followed, and the blocks that it gets beside its own.
        self.before, self.added = None, ()

    # ---- A record: what is asked before the tree follows its edits, and behind that.

    def begin(self, record):
        """Looks at what may be put in the place of itself, and at what gives it its blocks."""
        data, member = record.data, OF_A_FILE.get(record.opcode)
        self.before = self.tree.find(path_in(data, member)) if member else None
        self.added = ()
        if record.opcode == "OP_CONCAT_DELETE":
            sources = data.get("SOURCES")
            self.added = [self.blocks_of(self.tree.find(path_in(sources, source.name))) for source in sources.children]

    def end(self, record):
        """Gives an inode to what was made, and changes attributes. Answers whether the record sets some."""
        if record.opcode in SETTING:
            self.set(record)
            return True
        node = self.tree.find(path_in(record.data, OF_A_FILE.get(record.opcode, "PATH"))) if record.opcode in OF_A_FILE or record.opcode in MAKING else None
        if isinstance(node, (File, Folder)) and node.inode is None:
            node.inode = made_by(record) if record.opcode in MAKING else inode_of(self.before)
        if isinstance(node, File) and is_bare(node):
            self.blocks[node.inode] = self.blocks_behind(record)
        return False

    def blocks_of(self, node):
        """The blocks of a file, or None where they are not known."""
        if isinstance(node, int):
            return tuple(map(tuple, self.tree.inodes.blocks_of(node)))
        if not isinstance(node, File):
            return None
        return self.blocks.get(node.inode) if is_bare(node) else tuple(map(tuple, node.blocks))

    def blocks_behind(self, record):
        """The blocks of a bare file behind a record, or None where it does not tell them."""
        opcode, before = record.opcode, None if self.before is None else self.blocks_of(self.before)
        listed = None if record.data.find(SUM) else tuple(tuple(numbers_of(block, *BLOCK)) for block in record.data.all("BLOCK"))
        if opcode == "OP_ADD":
            return ()
        if opcode in LISTING:
            return listed
        if opcode == "OP_TRUNCATE" or before is None or None in self.added:
            return None
        if opcode == "OP_ADD_BLOCK":
            return before[: len(before) + 1 - len(listed)] + listed if listed else None
        return before + tuple(block for blocks in self.added for block in blocks)

    def made(self, is_file, inode_id, owner, group, mode, size=None):
        """The inode that a record of a common form makes, by the bytes of its texts."""
        key = is_file, owner, group, mode, size
        return Made(inode_id and int(inode_id), self.sets.kept(key, lambda: of_texts_of_record(*key)))

    def set(self, record):
        path = path_in(record.data, SETTING[record.opcode])
        if SNAPSHOT in path:
            return
        node = self.tree.find(path)
        inode = inode_of(node)
        if node is None:
            raise DoesNotApply(f"there is nothing at {to_json(path)}")
        if inode is not None:
            change(self.attributes_of(inode), record, self.id_of(inode))

    def attributes_of(self, inode):
        """The attributes of an inode, to be changed."""
        if isinstance(inode, Made):
            if isinstance(inode.attributes, int):
                inode.attributes = dict(self.sets.all[inode.attributes])
            return inode.attributes
        if inode not in self.changed:
            self.changed[inode] = dict(self.sets.all[self.tree.inodes.sets[inode]])
        return self.changed[inode]

    def attributes_in(self, inode):
        """The attributes of an inode, to be looked at."""
        if isinstance(inode, Made):
            return self.sets.all[inode.attributes] if isinstance(inode.attributes, int) else inode.attributes
        return self.changed[inode] if inode in self.changed else self.sets.all[self.tree.inodes.sets[inode]]

    def set_of(self, inode):
        """The number of the set of an inode's attributes."""
        if isinstance(inode, Made):
            return inode.attributes if isinstance(inode.attributes, int) else self.sets.number(inode.attributes)
        return self.sets.number(self.changed[inode]) if inode in self.changed else self.tree.inodes.sets[inode]

    def give(self, inode, attributes):
        """Gives an inode attributes in place of those that it has."""
        if isinstance(inode, Made):
            inode.attributes = attributes
        else:
            self.changed[inode] = attributes

    def id_of(self, inode):
        return inode.id if isinstance(inode, Made) else self.tree.inodes.ids[inode]


def made_by(record):
    """The inode that a record makes. One without an id is of an old layout, or of a trial."""
    inode_id = record.data.find("INODEID")
    return Made(None if inode_id is None else inode_id.value(), of_record(record.data, MAKING[record.opcode]))


def inode_of(node):
    """The inode of a node of the tree: a row of the image, or what the log made; None if it is not known."""
    if isinstance(node, Listed):
        return node.row
    return node.inode if isinstance(node, (File, Folder)) else node
