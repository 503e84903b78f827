"""A look at the folder of segments. Called by the hands, in a thread that may hang."""
import hashlib
import os
import time
from typing import Dict

from names import Found, Look, Named, named

# A folder that was changed less than so long before it was listed may have been changed once more since.
YOUNG_SECONDS = 2
# So much of a segment in progress is looked at.
HEAD_BYTES = 65_536
# A binary log has eight bytes before its first operation, and this one where there is none yet.
BINARY, HEADER_BYTES, NO_OPERATION = 0xFF, 8, 0xFF
FIRST_RECORD = b"<RECORD>"
CHUNK_BYTES = 1_048_576


def is_begun(head: bytes) -> bool:
    """Whether the first bytes of a segment in progress have a transaction."""
    if head[:1] == bytes((BINARY,)):
        return len(head) > HEADER_BYTES and head[HEADER_BYTES] != NO_OPERATION
    if head[:1] == b"<":
        return FIRST_RECORD in head
    return b"\n" in head


def key_of(found) -> tuple:
    return found.st_ino, found.st_size, found.st_mtime_ns, found.st_ctime_ns


class System:
    """What a folder asks of the system. The judge puts its own in place of it."""

    now = staticmethod(time.time)
    names = staticmethod(os.listdir)
    stat = staticmethod(os.stat)

    @staticmethod
    def head(path):
        with open(path, "rb") as file:
            return file.read(HEAD_BYTES)

    @staticmethod
    def opened(path):
        """A file's key, its size, and the file."""
        file = open(path, "rb", buffering=0)
        found = os.fstat(file.fileno())
        return key_of(found), found.st_size, file

    @staticmethod
    def sum(path, moved):
        with open(path, "rb") as file:
            made = hashlib.sha256()
            for chunk in iter(lambda: file.read(CHUNK_BYTES), b""):
                made.update(chunk)
                moved()
            return made.hexdigest()


class Folder:
    """A folder of segments. A listing of it stands for as long as the folder's own time does."""

    def __init__(self, path, system=System):
        self.path = path
        self.system = system
        # The time of the folder at its last listing, if that listing may stand, and what it had.
        self.listed_at = None
        self.named = []
        # The sums that were taken, each with the key that its file had.
        self.sums = {}
        # How many files and parts of them were asked for: while it grows a look does not hang.
        self.moves = 0

    def moved(self):
        self.moves += 1

    def look(self, look: Look) -> Dict[str, Found]:
        """The segments above a TXID. It raises OSError where the folder can't be listed."""
        changed = self.system.stat(self.path).st_mtime_ns
        if look.is_fresh or changed != self.listed_at:
            self.listed_at = None
            self.named = [it for it in map(named, self.system.names(self.path)) if it and it.last > look.above]
            is_old = self.system.now() - changed / 1e9 >= YOUNG_SECONDS
            self.listed_at = changed if is_old else None
        self.named = [it for it in self.named if it.last > look.above]
        return {it.name: self.found(it, look) for it in self.named}

    def found(self, it: Named, look: Look) -> Found:
        self.moved()
        is_next = it.is_finalized and it.first <= look.above + 1
        is_summed = it.name in look.summed or (look.summed_above is not None and it.last > look.summed_above)
        return Found(
            it,
            self.tried(lambda path: key_of(self.system.stat(path)), it, None) if is_next else None,
            it.is_finalized or self.tried(lambda path: is_begun(self.system.head(path)), it, True),
            self.tried(lambda path: self.sum_of(path, it.name), it, None) if is_summed else None,
        )

    def sum_of(self, path, name):
        """The sum of a file, which is taken anew where the file has changed."""
        key = key_of(self.system.stat(path))
        if self.sums.get(name, (None,))[0] != key:
            self.sums[name] = key, self.system.sum(path, self.moved)
        return self.sums[name][1]

    def tried(self, ask, it: Named, otherwise):
        """What the system answers about a segment. Where it refuses, the name stands."""
        try:
            return ask(os.path.join(self.path, it.name))
        except OSError:
            return otherwise
