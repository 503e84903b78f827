"""What the texts of a cluster's tools have in common: lines, DataNodes, block pools, and what is left out of them."""
import sys
from collections import Counter
from typing import NamedTuple

from hdfs.formats import Refused

# A block that 512 DataNodes have takes 60,000 bytes in a line of fsck.
LINE_BYTES = 1_048_576

# What both may have.
OTHER_IDS = "replicas of striped files and old layouts"
TWICE = "blocks that a DataNode has twice"


class Replica(NamedTuple):
    """What a DataNode has of a block. Replicas go by block, then by DataNode."""

    block: int
    # The place of its DataNode among all.
    node: int
    gen: int
    len: int
    is_building: bool


class Nodes:
    """The DataNodes, by their names, in the order in which they come."""

    def __init__(self):
        self.names = []
        self.places = {}

    def place(self, name):
        if name not in self.places:
            if not name or not name.isprintable() or " " in name:
                raise Refused(f"{name[:80]!r} is no name of a DataNode")
            self.places[name] = len(self.names)
            self.names.append(name)
        return self.places[name]


class Pool:
    """The block pool that is looked at: the one that is named, or else the only one that there is."""

    def __init__(self, name):
        self.named = name and name.encode()
        self.seen = set()

    def has(self, name, where):
        """Whether what stands somewhere is of the pool."""
        if name not in self.seen:
            if self.named is None and self.seen:
                two = f"{next(iter(self.seen)).decode('utf-8', 'replace')} and {name.decode('utf-8', 'replace')}"
                raise Refused(f"{where}: two block pools, {two}: --pool has to name one")
            # The names of all others are forgotten.
            if self.named in (None, name):
                self.seen.add(name)
        return self.named in (None, name)

    def check(self):
        """Refuses a name that no listing has."""
        if self.named is not None and not self.seen:
            raise Refused(f"no listing has the block pool {self.named.decode()}")


class Notes:
    """Counts what is not judged, and names the first of it on standard error."""

    def __init__(self, most):
        self.most = most
        self.named = 0
        self.count = Counter()

    def pass_over(self, what):
        self.count[what] += 1

    def name(self, what, told):
        self.count[what] += 1
        if self.named < self.most:
            print(f"replicas: {told}", file=sys.stderr)
        self.named += 1

    def finish(self):
        """Says how many were not named."""
        if self.named > self.most:
            print(f"replicas: .. and {self.named - self.most:,} more", file=sys.stderr)


def lines_in(file):
    """The number of each line of a file and its bytes, without the line feed."""
    number = 0
    while line := file.readline(LINE_BYTES):
        number += 1
        if not line.endswith(b"\n"):
            what = "is torn, and ends the file" if len(line) < LINE_BYTES else f"has more than {LINE_BYTES:,} bytes"
            raise Refused(f"{file.name}, line {number}: it {what}")
        yield number, line[:-1]


def shown(text):
    """The begin of a text that is not as it should be."""
    return repr(text[:80].decode("utf-8", "replace"))
