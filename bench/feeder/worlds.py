"""The world of a session: a folder of segments, a disk with room, and what can go wrong with each. The feeder's own modules look at it."""
import errno
import io
import json
import os
import random
from types import SimpleNamespace

EPOCH = 1_000_000_000
START, END = "OP_START_LOG_SEGMENT", "OP_END_LOG_SEGMENT"
FAULTS = (errno.EIO, errno.ESTALE, errno.EACCES)
HEADER = b"\xff\xff\xff\xbd\x00\x00\x00\x00"


class Trouble:
    """When something fails, and how."""

    def __init__(self, seed):
        self.random = random.Random(seed)
        self.is_on = True

    def chance(self, part):
        return self.is_on and self.random.random() < part

    def fail(self, part, *faults):
        """Raises an error in a part of the calls."""
        if self.chance(part):
            number = self.random.choice(faults or FAULTS)
            raise OSError(number, os.strerror(number))


class File:
    def __init__(self, data, inode, now):
        self.data, self.inode, self.time = data, inode, now


class Segments:
    """The cluster's folder, as `System` of the feeder's folder.py asks for it."""

    def __init__(self, trouble, clock):
        self.trouble, self.clock = trouble, clock
        self.files = {}
        self.is_hidden = False
        self.inode, self.changed = 1, 0.0
        # What the last listing showed, and when that was: what one who looks over the feeder's shoulder knows.
        self.shown, self.listed_at = {}, -1.0
        self.sums_failed = False
        # The segments in progress that could not be read at some time: their names are all that was known.
        self.unread = set()

    # ---- What the cluster does.

    def put(self, name, data):
        """A new file under a name. A file that is there is replaced."""
        self.inode += 1
        self.touch()
        self.files[name] = File(data, self.inode, self.clock())

    def touch(self):
        """The folder's time is of whole seconds, so two changes may have one."""
        self.changed = float(int(self.clock()))

    def grow(self, name, data):
        """The same file has more: its folder does not change."""
        self.files[name].data, self.files[name].time = data, self.clock()

    def drop(self, name):
        if self.files.pop(name, None):
            self.touch()

    def hide(self, is_hidden):
        """Another file system is mounted over the folder, or no more."""
        self.is_hidden = is_hidden

    # ---- What the feeder asks.

    def now(self):
        return EPOCH + self.clock()

    def stat(self, path):
        name = os.path.basename(path)
        self.trouble.fail(0.08 if name == "folder" else 0.03)
        if name == "folder":
            return self.times(0 if self.is_hidden else self.changed, 1, 0)
        file = self.file(name)
        return self.times(file.time, file.inode, len(file.data))

    @staticmethod
    def times(at, inode, size):
        nanoseconds = int((EPOCH + at) * 1e9)
        return SimpleNamespace(st_mtime_ns=nanoseconds, st_ctime_ns=nanoseconds, st_ino=inode, st_size=size)

    def file(self, name):
        if self.is_hidden or name not in self.files:
            raise FileNotFoundError(errno.ENOENT, "no such file")
        return self.files[name]

    def names(self, _path):
        self.trouble.fail(0.05)
        names = [] if self.is_hidden else sorted(self.files)
        self.shown = {name: self.files[name].data for name in names}
        self.listed_at = self.clock()
        return names

    def head(self, path):
        try:
            self.trouble.fail(0.1)
            return self.file(os.path.basename(path)).data[:65_536]
        except OSError:
            # Gone since the listing, too: it may have its other name by now.
            self.unread.add(os.path.basename(path))
            raise

    def opened(self, path):
        self.trouble.fail(0.1)
        found = self.stat(path)
        data = self.file(os.path.basename(path)).data
        key = (found.st_ino, found.st_size, found.st_mtime_ns, found.st_ctime_ns)
        return key, len(data), FailingFile(data, self.trouble)

    def sum(self, path, _moved):
        import hashlib

        self.sums_failed |= self.trouble.chance(0.1)
        if self.sums_failed:
            raise OSError(errno.EIO, "a sum fails")
        return hashlib.sha256(self.file(os.path.basename(path)).data).hexdigest()


class FailingFile(io.BytesIO):
    def __init__(self, data, trouble):
        super().__init__(data)
        self.trouble = trouble

    def read(self, size=-1):
        self.trouble.fail(0.03, errno.EIO, errno.ESTALE)
        return super().read(size)


class Room:
    """The disk of checkpoints, as `Disk` of the feeder's store.py is. It has so many bytes."""

    def __init__(self, trouble):
        self.trouble = trouble
        self.files = {}
        self.bytes = 4000

    def names(self):
        return list(self.files)

    def open(self, name):
        if name not in self.files:
            raise FileNotFoundError(errno.ENOENT, "no such file")
        return io.BytesIO(self.files[name])

    def create(self, name):
        self.trouble.fail(0.05, errno.EIO, errno.ENOSPC)
        self.files[name] = b""
        return Written(self, name)

    def write(self, name, data):
        """Takes what there is room for, and sometimes less."""
        self.trouble.fail(0.03, errno.EIO)
        left = self.bytes - sum(map(len, self.files.values()))
        if left <= 0 and data:
            raise OSError(errno.ENOSPC, "no space")
        taken = min(len(data), left)
        if taken > 1 and self.trouble.chance(0.1):
            taken //= 2
        self.files[name] += bytes(data[:taken])
        return taken

    def sync(self, _file):
        self.trouble.fail(0.05, errno.EIO, errno.ENOSPC)

    def rename(self, name, other):
        self.trouble.fail(0.05)
        self.files[other] = self.files.pop(name)

    def remove(self, name):
        if name not in self.files:
            raise FileNotFoundError(errno.ENOENT, "no such file")
        self.trouble.fail(0.1)
        del self.files[name]

    def sync_names(self):
        self.trouble.fail(0.03)


class Written:
    def __init__(self, room, name):
        self.room, self.name = room, name

    def write(self, data):
        return self.room.write(self.name, data)

    def close(self):
        pass

    def __enter__(self):
        return self

    def __exit__(self, *_fault):
        pass


def segment_name(first, last):
    return f"edits_{first:019}-{last:019}"


def progress_name(first, suffix=""):
    return f"edits_inprogress_{first:019}{suffix}"


def line(op, txid, **members):
    return json.dumps({"op": op, "txid": txid, **members}) + "\n"


def segment(first, paths):
    """A segment of directories, or of a deletion that stops the log where a path is None."""
    lines = [line(START, first)]
    for txid, path in enumerate(paths, first + 1):
        lines.append(line("OP_MKDIR", txid, path=path) if path else line("OP_DELETE", txid, path="/none"))
    return "".join([*lines, line(END, first + len(paths) + 1)]).encode()
