"""A chain of audits in a directory: the proved program's own image at the TXID of the last one, and what it stands for.

So only the first image of a cluster is taken on trust. What was wrong in a later one is told again by each audit, until
an image is right.
"""
import contextlib
import fcntl
import hashlib
import json
import os
import re
from array import array
from typing import NamedTuple

from hdfs.converting.bare import BLOCKS_OF, UNKNOWN
from hdfs.formats import Refused, to_json

STATE = "state"
FORM = "hdfs-audit-3"
# The forms before: one without inodes, and one whose first line has no sum either, and no kinds of bare files.
FORM_WITHOUT_INODES, OLD_FORM = "hdfs-audit-2", "hdfs-audit"
REPLICATION = re.compile(rb'"replication":([0-9]{1,3})\b')
CHUNK_BYTES = 1 << 20
# An inode has its id and the number of its set.
INODE_BYTES = array("q").itemsize + array("I").itemsize
OF_INODES = {"inodes", "sets", "blocks"}


class Link(NamedTuple):
    """Where a chain stands."""

    # The TXID of the first image, that of the last one, and how many audits lie between.
    first: int
    txid: int
    audits: int
    # The namespaceId of the cluster.
    cluster: int
    # The files that are taken without blocks, each with its kind.
    bare: dict
    # What a table has to begin with.
    names: list = ()
    replications: dict = ()
    # How many inodes it has behind its first line, and the sets of attributes that they have, by their numbers.
    inodes: int = 0
    sets: list = ()
    # The blocks of bare files, of which they are known, one number after another.
    blocks: dict = {}
    # Whether it was read from a state of the form before.
    is_old: bool = False

    def members(self):
        """What the first line of a state has of it."""
        return {name: value for name, value in self._asdict().items() if name != "is_old"}

    def __str__(self):
        return f"chain: TXID {self.first} (first image) .. {self.txid}, {self.audits:,} audits"


class Chain:
    """A directory with a chain. One audit at a time uses it."""

    def __init__(self, folder):
        self.folder = folder
        self.name = os.path.join(folder, STATE)
        # What file was read last, and what was found in it.
        self.read = None
        os.makedirs(folder, exist_ok=True)
        self.lock = open(os.path.join(folder, "lock"), "w")
        try:
            fcntl.flock(self.lock, fcntl.LOCK_EX | fcntl.LOCK_NB)
        except OSError:
            raise Refused(f"another audit uses {folder}") from None

    def found(self):
        """Where the chain stands, and where in its file the image begins: None and 0 before the first audit.

        The whole file is read for it, unless it is the one that was read last.
        """
        if not os.path.exists(self.name):
            return None, 0
        with open(self.name, "rb") as file:
            status = os.fstat(file.fileno())
            state = status.st_dev, status.st_ino, status.st_mtime_ns, status.st_size
            if self.read is None or self.read[0] != state:
                self.read = state, self.read_state(file)
        return self.read[1]

    def read_state(self, file):
        try:
            members = json.loads(file.readline())
            form, told = members.pop("form"), members.pop("sha256", None)
            if form == OLD_FORM and told is not None:
                raise ValueError
            link = link_of(form, members)
        except (ValueError, TypeError, KeyError, AttributeError):
            raise Refused(f"{self.name} is no state of an audit") from None
        place = file.tell() + link.inodes * INODE_BYTES
        if not link.is_old and told != sum_of(form, link, file):
            advice = "bring it back from a copy, or begin another chain in an empty folder"
            raise Refused(f"{self.name} is damaged, since its SHA-256 is not that of its first line: {advice}")
        if link.is_old:
            # Its replications are as they are.
            numbers = {int(number) for line in file for number in REPLICATION.findall(line)}
            link = link._replace(replications={str(number): number for number in sorted(numbers)})
        return link, place


class Keeping:
    """An image that a chain is given, piece by piece, with the link that it is for. Until the end all stays as it was."""

    def __init__(self, chain, link, inodes):
        self.chain = chain
        self.link = link
        self.name = f"{chain.name}.new"
        self.file = open(self.name, "wb")
        # As many characters as the sum will have.
        self.file.write(first_line(link, "0" * 64))
        self.sum = hashlib.sha256(to_json(link.members()).encode())
        for column in inodes:
            self.write(bytes(column))

    def write(self, piece):
        self.sum.update(piece)
        self.file.write(piece)

    def end(self):
        """The image is whole, and takes the place of the last one."""
        self.file.seek(0)
        self.file.write(first_line(self.link, self.sum.hexdigest()))
        self.file.flush()
        os.fsync(self.file.fileno())
        self.file.close()
        os.replace(self.name, self.chain.name)

    def drop(self):
        """The image is not kept, unless it is already."""
        self.file.close()
        with contextlib.suppress(FileNotFoundError):
            os.remove(self.name)


def first_line(link, told):
    return to_json({"form": FORM, "sha256": told, **link.members()}).encode() + b"\n"


def link_of(form, members):
    """The link that the first line of a state has."""
    if form == OLD_FORM:
        return Link(**{**members, "bare": dict.fromkeys(members["bare"], UNKNOWN.kind)}, is_old=True)
    if form not in (FORM, FORM_WITHOUT_INODES) or not set(members["bare"].values()) <= BLOCKS_OF.keys():
        raise ValueError
    if (form == FORM) != bool(OF_INODES & members.keys()):
        raise ValueError
    return Link(**members)


def sum_of(form, link, rest):
    """The SHA-256 of a link and of what it stands before, from where a file is read to its end."""
    members = link.members()
    if form == FORM_WITHOUT_INODES:
        members = {name: value for name, value in members.items() if name not in OF_INODES}
    found = hashlib.sha256(to_json(members).encode())
    while chunk := rest.read(CHUNK_BYTES):
        found.update(chunk)
    return found.hexdigest()
