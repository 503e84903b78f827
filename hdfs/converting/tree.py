"""The names that exist: what an image has, and what the log made of it since."""
from array import array
from itertools import chain

from hdfs.formats import Block

CHANGES_OF_FILES = {"OP_ADD_BLOCK", "OP_UPDATE_BLOCKS", "OP_CLOSE", "OP_APPEND"}


class File:
    """Whether a file is closed, the list of its blocks, and its inode, where that is followed too."""

    __slots__ = ("closed", "blocks", "inode")

    def __init__(self, closed, blocks, inode=None):
        self.closed = closed
        self.blocks = blocks
        self.inode = inode


class Folder(dict):
    """A directory that the log made, and its inode, where that is followed too."""

    __slots__ = ("inode",)

    def __init__(self, inode=None):
        super().__init__()
        self.inode = inode


class Tree:
    """A directory is a dictionary from names to what they name, and anything else is a file.

    A file of an image is packed until it is looked for, since a log names few of them: into bytes, or it is the number
    of its row among an image's inodes. The tree follows
    edits and judges none: one that does not apply leaves it as it is, and the program refuses it.
    """

    def __init__(self, inodes=None):
        self.root = {}
        self.inodes = inodes

    def find(self, path):
        """The directory or file at a path, which may be packed, or None."""
        node = self.root
        for name in path[1:].split("/") if path != "/" else ():
            node = node.get(name) if is_directory(node) else None
        return node

    def find_file(self, path):
        """The file at a path, or None."""
        node = self.find(path)
        if is_packed(node):
            directory, name = self.place(path)
            node = directory[name] = unpacked(node) if isinstance(node, bytes) else self.file_of(node)
        return node if isinstance(node, File) else None

    def file_of(self, row):
        """The file in a row of the inodes."""
        _, closed, blocks = self.inodes.file(row)
        return File(closed, blocks, row)

    def place(self, path):
        """The directory that a path lies in, and the path's last name. The directory is None where there is none."""
        parent, _, name = path.rpartition("/")
        directory = self.find(parent or "/")
        return directory if name and is_directory(directory) else None, name

    def put(self, path, node):
        """Puts a directory or file where nothing is. Answers whether it could."""
        directory, name = self.place(path)
        if directory is None or name in directory:
            return False
        directory[name] = node
        return True

    def remove(self, path):
        directory, name = self.place(path)
        if directory is not None:
            directory.pop(name, None)

    def rename(self, source, target):
        node = self.find(source)
        if node is not None and not target.startswith(f"{source}/") and self.put(target, node):
            self.remove(source)

    def apply(self, edit):
        """Follows an edit, which is a dictionary of a line's members."""
        op = edit["op"]
        if op == "OP_MKDIR":
            self.put(edit["path"], Folder())
        elif op == "OP_ADD":
            self.put(edit["path"], File(False, []))
        elif op == "OP_DELETE":
            self.remove(edit["path"])
        elif op == "OP_RENAME":
            self.rename(edit["src"], edit["dst"])
        elif op in CHANGES_OF_FILES:
            file = self.find_file(edit["path"])
            if file is not None:
                apply_to_file(file, edit)


def apply_to_file(file, edit):
    if edit["op"] == "OP_ADD_BLOCK":
        file.blocks.append(Block(edit["gen"], edit["id"], 0))
    if "blocks" in edit:
        file.blocks = edit["blocks"]
    if edit["op"] in ("OP_CLOSE", "OP_APPEND"):
        file.closed = edit["op"] == "OP_CLOSE"


def packed(closed, blocks):
    """A file in few bytes, or as such where a line of an image has other values than a program writes."""
    try:
        numbers = array("q", chain.from_iterable(blocks))
    except (TypeError, OverflowError):
        return File(closed, blocks)
    return bytes((closed,)) + numbers.tobytes() if type(closed) is bool else File(closed, blocks)


def unpacked(file):
    numbers = array("q")
    numbers.frombytes(file[1:])
    numbers = iter(numbers)
    return File(file[0] == 1, list(map(Block, numbers, numbers, numbers)))


def is_packed(node):
    return isinstance(node, (bytes, int))


def is_directory(node):
    return isinstance(node, dict)


def tree_of(image):
    """The tree of the names in an image."""
    tree = Tree()
    for row in image.rows():
        tree.put(row.path, {} if row.blocks is None else packed(row.closed, row.blocks))
    return tree
