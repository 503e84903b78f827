"""Bare files: files whose blocks can't be held here, and that an audit takes as closed files without blocks.

All else is as it is: their names, and that they are files. Their paths are kept with their kinds, so that they are bare
in both images and in the log. An image shows which files are striped, and which have blocks of an old layout. The log
makes a striped file, one of more blocks than a line holds, and one of which it can't say which blocks it has.
"""
import re

from hdfs.converting.tree import is_directory, is_packed
from hdfs.formats import FIRST_BLOCK_ID, GREATEST_NUMBER, NoBlocks
from hdfs.reading.inodes import File

STRIPED, OLD, LONG, REPLICATED = map(NoBlocks, ("striped", "old", "long", "replicated"))
# What a chain of before kinds were kept has.
UNKNOWN = NoBlocks("unknown")

BLOCKS_OF = {blocks.kind: blocks for blocks in (STRIPED, OLD, LONG, REPLICATED, UNKNOWN)}

NEGATIVE = re.compile("-[0-9]{1,19}")

# A line has room for so many blocks, whatever its path. A file that is longer has more.
FEW_BLOCKS = 100


def is_bare(file):
    return isinstance(file.blocks, NoBlocks)


def bare_file(kind, blocks=()):
    """A bare file, by the elements of its blocks. Its replication is not known."""
    return File(0, True, NoBlocks(kind, [number for block in blocks for number in numbers_of(block, "genstamp", "id", "numBytes")]))


def numbers_of(block, *names):
    """Numbers of a block, of which the id may be negative."""
    return [number_in(block, name) for name in names]


def number_in(block, name):
    text = block.text_of(name)
    is_negative = NEGATIVE.fullmatch(text) is not None and int(text) >= -GREATEST_NUMBER - 1
    return int(text) if is_negative else block.number(name)


def word_of(kind):
    """What stands for a bare file's replication, so that files of two kinds differ for the program."""
    return "1" if kind == UNKNOWN.kind else kind


def old_id(blocks):
    """The first id of a record's blocks that no block of a replicated file of this layout has, as a text; or None."""
    for block in blocks:
        if block.text_of("BLOCK_ID").startswith("-") or block.number("BLOCK_ID") < FIRST_BLOCK_ID:
            return block.text_of("BLOCK_ID")
    return None


def has_old_block(blocks, first_gen):
    """Whether one of an inode's blocks is of an old layout, by its id or by a stamp below the first of this layout."""
    for block in blocks:
        if block.text_of("id").startswith("-") or block.number("id") < FIRST_BLOCK_ID:
            return True
        if block.number("genstamp") < first_gen:
            return True
    return False


def kind_in_image(file, told):
    """The kind of a file of an image that is bare or that the log tells to be of a kind; None if it is not bare.

    A long file, and one whose blocks the log can't say, look in an image as all do.
    """
    found = file.blocks.kind if is_bare(file) else None
    is_as_told = {
        "unknown": True,
        "replicated": found in (None, OLD.kind),
        "long": found is None and len(file.blocks) >= FEW_BLOCKS,
    }
    return told if is_as_told.get(told) else found


def new_bare(path, kind):
    """The edits that make a bare file."""
    made = {"op": "OP_ADD", "path": path, "replication": word_of(kind)}
    return [made, {"op": "OP_CLOSE", "path": path, "blocks": BLOCKS_OF[kind]}]


def made_bare(path, kind):
    """The edits by which a file that exists is bare from then on."""
    return [{"op": "OP_DELETE", "path": path}, *new_bare(path, kind)]


def bare_paths(tree):
    """The paths of all bare files in a tree, each with its kind. A packed file is not bare."""
    ahead = [("", tree.root)]
    found = {}
    while ahead:
        path, directory = ahead.pop()
        for name, node in directory.items():
            if is_directory(node):
                ahead.append((f"{path}/{name}", node))
            elif not (node is None or is_packed(node)) and is_bare(node):
                found[f"{path}/{name}"] = node.blocks.kind
    return found
