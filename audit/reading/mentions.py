"""What an image says of inodes beside their section: ids that have to be those of inodes, and the last id issued."""
from array import array

from hdfs.reading.walk import Inconsistent

LAST = ("INodeSection", "lastInodeId")
REFERENCE = ("INodeReferenceSection", "ref")
OPEN = ("FileUnderConstructionSection", "inode")
CHANGED = ("SnapshotDiffSection", "dirDiffEntry", "inodeId")

# The places of ids, each with what the inode is called there.
IDS = {
    ("SnapshotSection", "snapshottableDir", "dir"): "a snapshottable directory",
    CHANGED: "a directory that a snapshot has otherwise",
    ("SnapshotDiffSection", "fileDiffEntry", "inodeId"): "a file that a snapshot has otherwise",
    ("SnapshotDiffSection", "dirDiffEntry", "dirDiff", "deletedInode"): "a child that only a snapshot has",
}
CALLED = {**IDS, REFERENCE: "what a reference stands for", OPEN: "a file under construction"}


class Mentions:
    """The ids that other sections have of inodes, by the places of their elements."""

    def __init__(self):
        self.ids = {place: array("q") for place in CALLED}
        # The last inode's id that the image says was issued.
        self.last = None

    def readers(self):
        """What reads the elements, by their places. Those with more in them are given to `take` by who reads them."""
        readers = {place: lambda element, place=place: self.take(place, element.value()) for place in IDS}
        return {**readers, OPEN: lambda element: self.take(OPEN, element.number("id")), LAST: self.take_last}

    def take(self, place, inode_id):
        self.ids[place].append(inode_id)

    def take_last(self, element):
        self.last = element.value()

    def check(self, inodes):
        """Refuses an id that no inode has."""
        for place, ids in self.ids.items():
            missing = inodes.missing(ids)
            if missing is not None:
                raise Inconsistent(f"inode {ids[missing]} is missing, {CALLED[place]}")

    def low_last(self, inodes):
        """How the last id contradicts the inodes, or None. A NameNode would issue an id that exists."""
        greatest = inodes.greatest()
        if self.last is None or self.last >= greatest:
            return None
        return f"lastInodeId is {self.last}, and there is an inode {greatest}"
