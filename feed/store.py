"""The folder of checkpoints: images `fsimage_T`, each with its SHA-256 beside it, and the state. Called by the hands and at the start.

A file is written under another name, made safe on the disk, and then gets its own. The sum comes before its image, as
`fsimage_T.sha256`, which `sha256sum -c` reads.
"""
import errno
import fcntl
import hashlib
import json
import os
import re
from typing import Iterator, NamedTuple, Optional

from place import GREATEST_NUMBER, Place
from state import NAME as STATE
from state import Damaged, Kept, kept_in

IMAGE = re.compile("fsimage_([0-9]{19})")
SUM, PAIRS, WRITING = ".sha256", ".pairs", "writing_"
OWN = re.compile(rf"{IMAGE.pattern}(?:{re.escape(SUM)}|{re.escape(PAIRS)})?|{STATE}")
CHUNK_BYTES = 1_048_576
# The first line of an image has no more bytes, and neither has the last one.
HEADER_BYTES, END_BYTES = 65_536, 64


class Disk:
    """What a store asks of the system, in one folder. The judge puts its own in place of it."""

    def __init__(self, path):
        self.path = path
        os.makedirs(path, exist_ok=True)
        self.descriptor = os.open(path, os.O_RDONLY | os.O_DIRECTORY)
        # It ends with this process, however that ends.
        try:
            fcntl.flock(self.descriptor, fcntl.LOCK_EX | fcntl.LOCK_NB)
        except BlockingIOError:
            raise BlockingIOError(errno.EAGAIN, "another feeder has this folder", path) from None

    def place(self, name):
        return os.path.join(self.path, name)

    def names(self):
        return os.listdir(self.path)

    def open(self, name):
        return open(self.place(name), "rb")

    def create(self, name):
        return open(self.place(name), "wb", buffering=0)

    @staticmethod
    def sync(file):
        os.fsync(file.fileno())

    def rename(self, name, other):
        os.rename(self.place(name), self.place(other))

    def remove(self, name):
        os.remove(self.place(name))

    def sync_names(self):
        os.fsync(self.descriptor)


class Scan:
    """Goes over an image by chunks: its sum, its lines, its first line and its last one."""

    def __init__(self):
        self.sum = hashlib.sha256()
        self.lines = 0
        self.head = self.tail = b""

    def take(self, chunk):
        self.sum.update(chunk)
        self.lines += chunk.count(b"\n")
        if b"\n" not in self.head:
            self.head = (self.head + chunk)[:HEADER_BYTES]
        self.tail = (self.tail + chunk[-END_BYTES:])[-END_BYTES:]

    def number(self):
        """The number of its last transaction. It is whole if its last line counts the lines between first and last."""
        number = number_in(self.head)
        if not self.tail.endswith(b"\n"):
            raise Damaged("its last line is torn")
        if members_of(self.tail[:-1].rpartition(b"\n")[2]) != {"end": self.lines - 2}:
            raise Damaged("its last line does not count its rows: it is torn")
        return number


def number_in(head):
    """The number that the first line of an image has."""
    header = members_of(head.partition(b"\n")[0])
    if header.get("image") != "hdfs-standby" or type(header.get("txid")) is not int:
        raise Damaged("its first line is that of no image")
    return header["txid"]


class Check:
    """Sees that an image is whole, while it goes to the program: nothing else does before this has ended."""

    def __init__(self, name, wanted):
        self.name, self.wanted = name, wanted
        self.scan = Scan()
        self.take = self.scan.take

    def finish(self):
        """It raises Damaged where the image is not as it was written."""
        self.scan.number()
        if self.wanted is not None and self.wanted != sum_line(self.scan, self.name):
            raise Damaged("its sum is another one")


class Start(NamedTuple):
    """A checkpoint from which a start may go on. It has no name where there is none."""

    name: Optional[str]
    place: Place
    check: Optional[Check] = None


class Store:
    """The files of a feeder. `tell` is given what an operator has to know."""

    def __init__(self, disk, tell):
        self.disk = disk
        self.tell = tell
        # The images that are not whole, or that the program did not take.
        self.passed = set()

    # ---- At the start.

    def clear(self):
        """Removes what was being written, and sums without their image."""
        names = set(self.disk.names())
        for name in sorted(names):
            is_torn = name.startswith(WRITING) and OWN.fullmatch(name[len(WRITING) :])
            is_alone = name.endswith((SUM, PAIRS)) and OWN.fullmatch(name) and name.rpartition(".")[0] not in names
            if is_torn or is_alone:
                self.disk.remove(name)

    def state(self) -> Optional[Kept]:
        """What the state's file has, or None where there is none. It raises Damaged."""
        try:
            with self.disk.open(STATE) as file:
                return kept_in(file.read())
        except FileNotFoundError:
            return None

    def images(self):
        """The names of all images, the newest first."""
        return sorted((name for name in self.disk.names() if IMAGE.fullmatch(name) and txid_of(name) <= GREATEST_NUMBER), reverse=True)

    def own(self):
        """The names of the images that a feeder wrote, and of those of them that were passed over. All others stay for ever."""
        names = set(self.disk.names())
        own = {name for name in self.images() if name + SUM in names or name + PAIRS in names}
        return sorted(own - self.passed), sorted(own & self.passed)

    def pass_over(self, name, reason):
        self.passed.add(name)
        self.tell(f"{name} is passed over: {reason}")

    def starts(self) -> Iterator[Start]:
        """The checkpoints, the newest first, and last no checkpoint at all. Whether one is whole its check says, while it is read."""
        names = set(self.disk.names())
        has_sums = any(name.endswith(SUM) for name in names)
        for name in self.images():
            is_old = name + PAIRS in names and name + SUM not in names
            try:
                if is_old and has_sums:
                    raise Damaged("it has no sum, and others have")
                yield self.start(name, name + SUM in names, is_old)
            except (Damaged, OSError) as fault:
                self.pass_over(name, fault)
        yield Start(None, Place(0, 0))

    def start(self, name, has_sum, is_old):
        with self.disk.open(name) as file:
            place = Place(number_in(file.read(HEADER_BYTES)), txid_of(name))
        wanted = None
        if has_sum:
            with self.disk.open(name + SUM) as file:
                wanted = file.read()
        else:
            self.tell(f"{name} has no sum")
        if is_old:
            self.check_pairs(name, place)
        return Start(name, place, Check(name, wanted))

    def check_pairs(self, name, place):
        """A checkpoint of an earlier feeder has a file beside it, which must not say something else."""
        with self.disk.open(name + PAIRS) as file:
            members = members_of(file.read())
        if (members.get("number"), members.get("txid")) != place:
            raise Damaged(f"the file beside it has not number {place.number} and TXID {place.txid}")

    # ---- While it runs.

    def replace(self, name, data):
        """Replaces a file whole."""
        with self.disk.create(WRITING + name) as file:
            write(file, data)
            self.disk.sync(file)
        self.disk.rename(WRITING + name, name)
        self.disk.sync_names()

    def begin(self, name):
        return Writing(self, name)

    def remove(self, name):
        """Removes a file, and what stands beside an image. What is not there was removed."""
        for one in (name, name + SUM, name + PAIRS):
            try:
                self.disk.remove(one)
            except FileNotFoundError:
                pass


class Writing:
    """An image that is being written."""

    def __init__(self, store, name):
        self.store, self.name = store, name
        self.scan = Scan()
        self.file = store.disk.create(WRITING + name)

    def write(self, chunk):
        write(self.file, chunk)
        self.scan.take(chunk)

    def close(self):
        self.file.close()

    def finish(self, number):
        """Makes it safe. It gets its name behind its sum: where it is, the sum is."""
        with self.file:
            self.store.disk.sync(self.file)
        if self.scan.number() != number:
            raise Damaged(f"it has number {self.scan.number()}, and {number} is due")
        self.store.replace(self.name + SUM, sum_line(self.scan, self.name))
        self.store.disk.rename(WRITING + self.name, self.name)
        self.store.disk.sync_names()


def write(file, data):
    """Writes all of it: a file without a buffer may take a part."""
    left = memoryview(data)
    while left:
        left = left[file.write(left) :]


def sum_line(scan, name):
    return f"{scan.sum.hexdigest()}  {name}\n".encode()


def txid_of(name):
    return int(IMAGE.fullmatch(name)[1])


def members_of(line):
    try:
        members = json.loads(line)
    except (ValueError, RecursionError):
        members = None
    return members if type(members) is dict else {}
