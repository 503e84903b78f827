"""The first image of a chain as the state that a chain would have there: the first audit goes on from it as each later one."""
import contextlib
import os
from array import array
from itertools import chain as chained
from typing import NamedTuple

from audit.chain.links import INODE_BYTES, Link
from audit.chain.starts import FirstImage
from audit.comparing.inodes_compared import in_path_order
from audit.converting.inode_ids import inode_of
from audit.converting.table import Table
from hdfs.formats import Refused


class Made(NamedTuple):
    """A link, the file that has its image, and from what place on."""

    link: Link
    name: str
    place: int


@contextlib.contextmanager
def first_state(image, name, opened):
    """A state that is made of an image, in a file of this name, which is gone behind that."""
    try:
        with open(name, "wb") as file:
            made = written(image, file, opened)
        yield made
    finally:
        with contextlib.suppress(FileNotFoundError):
            os.remove(name)


def written(image, file, opened):
    """Writes the ids and the numbers of the sets of all inodes, and the image, as a state has them."""
    table = Table()
    start = FirstImage(image, table, opened)
    place, known = INODE_BYTES * len(start.dump.inodes), len(table.names)
    file.seek(place)
    start.give(file.write, 0)
    if start.dump.too_deep or known != len(table.names):
        raise Refused("the first image has too many names, or too long ones, in a path")
    inodes, tree = start.dump.inodes, start.tree()
    ids, sets = array("q"), array("I")
    for _, node in in_path_order(tree, table):
        ids.append(inodes.ids[inode_of(node)])
        sets.append(inodes.sets[inode_of(node)])
    file.seek(place - INODE_BYTES * len(ids))
    file.write(ids.tobytes() + sets.tobytes())
    blocks = {path: list(chained.from_iterable(inodes.blocks_of(tree.find(path).inode))) for path in start.link.bare}
    link = start.link._replace(inodes=len(ids), sets=start.sets.all, blocks=blocks, **table.members())
    return Made(link, file.name, place)
