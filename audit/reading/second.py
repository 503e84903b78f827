"""The second image of an audit, in a process of its own: it is read beside the first one and the log.

The process has the image in its memory, and gives the program the lines of it once the table has all names. It is asked
for one thing after another, and answers by a pipe.
"""
import contextlib
import mmap
import os
import signal
import struct
import traceback
from array import array
from functools import cached_property
from multiprocessing import Pipe
from multiprocessing.reduction import recv_handle, send_handle
from typing import NamedTuple, Optional

from audit.comparing import order
from audit.comparing import rest_compared
from audit.converting.table import Table
from audit.program.progress import STEP_SECONDS, size_of
from audit.program.running import CHUNK_BYTES, Feed
from audit.program.told import lines_in, told_of
from audit.reading.checkpoint import give_image, pieces_of, read_image
from audit.reading.inode_table import Entry, InodeTable, path_by
from hdfs.converting.bare import word_of
from hdfs.formats import Refused
from hdfs.reading.inodes import BARE, DIRECTORY, NONE

# How far the image is read, or given to the program, in bytes, and how many there are.
PLACE = struct.Struct("qq")
NOT_KNOWN = -1


class Facts(NamedTuple):
    """What is known of an image that was read: what it contradicts itself in, if it does, and what stands in it."""

    contradiction: Optional[str]
    has_numbers: bool
    cluster: Optional[int] = None
    txid: int = 0
    last_block: int = 0
    last_gen: int = 0
    greatest_gen: int = 0
    low_inode: Optional[str] = None
    passed: dict = {}
    with_line_feeds: int = 0
    # The names that the table gets by it, and what it has a number for.
    names: list = []
    words: list = []


class Given(NamedTuple):
    """What is known of an image whose lines were made."""

    contradiction: Optional[str]
    names: list
    bare_kinds: dict
    too_deep: dict
    only_in_snapshots: int
    size: int


class Second:
    """The process that has the second image, as the audit sees it."""

    def __init__(self, name, table, lock, part=None):
        self.name = name
        self.shared = mmap.mmap(-1, PLACE.size)
        self.channel, other = Pipe()
        self.process = os.fork()
        if self.process == 0:
            status = 1
            try:
                self.channel.close()
                if lock is not None:
                    lock.close()
                signal.signal(signal.SIGINT, signal.SIG_DFL)
                Side(name, table, other, self.shared, part).serve()
                status = 0
            finally:
                os._exit(status)
        other.close()

    def facts(self, progress):
        """What is known of the image, once it is read."""
        return self.answer(progress, f"reading {os.path.basename(self.name)}")

    def give(self, table, told, child):
        """Asks that a child of the audit is given the lines of the image, with what the log tells of bare files."""
        with self.while_there():
            self.channel.send(("give", table.full, table.replications, told))
            send_handle(self.channel, child.stdin.fileno(), self.process)
        child.stdin.close()

    def given(self, progress):
        """What is known of the image, once its lines were given."""
        return self.answer(progress, "giving the second image to the program")

    def told_of(self, fault):
        """What is told of a line of the image that the program refuses."""
        return self.asked("tell", fault)

    # ---- Inodes, once its lines were given.

    def ids_at(self, paths):
        """The ids of what the image has at these paths of the program, or NONE."""
        return self.asked("ids_at", paths)

    def inodes(self, ids, bare):
        """The entry of each of these ids, or None, the sums of all others, how many inodes there are, and the blocks of bare files."""
        places, sets, *rest = self.asked("inodes_of", ids, bare)
        entries = [place and Entry(one, *place[:2], sets[place[2]]) for one, place in zip(ids, places)]
        return (entries, *rest)

    def of_buckets(self, buckets):
        """The entries of these sums, by their ids."""
        return self.asked("of_buckets", buckets)

    def by_path(self, entries):
        """Entries of the image by their paths."""
        paths = self.asked("paths_of", [entry.id for entry in entries])
        return {path: entry for path, entry in zip(paths, entries) if path is not None}

    def columns_at(self, paths):
        """The ids of what the image has at these paths, or NONE, the numbers of their sets, and these sets."""
        return self.asked("columns_at", paths)

    def sums_of_rest(self):
        """The sums of what is not in the part that was read."""
        return self.asked("sums_of_rest")

    def buckets_of_rest(self):
        """The words of the rest's files and lists, added in buckets."""
        return self.asked("buckets_of_rest")

    def marks_of_rest(self, buckets):
        """The files and the lists of the rest in these buckets, each with its mark."""
        return self.asked("marks_of_rest", buckets)

    def beside(self, joining):
        """The ids of the files of the rest that have to join the part with these."""
        return self.asked("beside", joining)

    def directories_below(self, ids):
        """The ids of those of these inodes that are directories, and of all directories below them."""
        return self.asked("directories_below", ids)

    def order_of_part(self, named):
        """Where what is in the part stands among files of the rest: a sum, and the places of what has one of these ids."""
        return self.asked("order_of_part", named)

    def names_of(self, ids):
        """The names of files of the rest, by their ids."""
        return self.asked("names_of", ids)

    def has_block_in_rest(self, ids):
        """Whether a file of the rest has one of these blocks."""
        return self.asked("has_block_in_rest", ids)

    def asked(self, *words):
        with self.while_there():
            self.channel.send(words)
        return self.answer(None, "")

    @contextlib.contextmanager
    def while_there(self):
        try:
            yield
        except (EOFError, ConnectionError):
            raise Refused(f"the process that reads {self.name} was ended") from None

    def answer(self, progress, what):
        """The next answer. What the process is refused, this is."""
        task = progress.task(what) if progress else None
        with self.while_there():
            while task and not self.channel.poll(STEP_SECONDS):
                done, size = PLACE.unpack(self.shared[: PLACE.size])
                task.size = None if size == NOT_KNOWN else size
                if done != task.done:
                    task.add(done - task.done)
            answer = self.channel.recv()
        if isinstance(answer, Exception):
            raise answer
        return answer

    def end(self):
        """Ends the process, whatever it does."""
        os.kill(self.process, signal.SIGKILL)
        os.waitpid(self.process, 0)
        self.channel.close()


class Noted:
    """A file that is read, and where it is noted how much of it was."""

    def __init__(self, name, note):
        self.name = name
        self.file = open(name, "rb")
        self.note = note
        self.done = 0
        self.size = size_of(self.file)

    def __enter__(self):
        return self

    def __exit__(self, *_raised):
        self.file.close()

    def read(self, size):
        data = self.file.read(size)
        self.done += len(data)
        self.note(self.done, NOT_KNOWN if self.size is None else self.size)
        return data


class Side:
    """The process itself."""

    def __init__(self, name, table, channel, shared, part=None):
        self.name = name
        self.table = Table(table.full, table.replications)
        self.channel = channel
        self.shared = shared
        self.part = part
        self.dump = None

    def serve(self):
        """Answers until nobody asks any more."""
        try:
            self.answer(self.read)
            while True:
                what, *words = self.channel.recv()
                self.answer(getattr(self, what), *words)
        except (EOFError, ConnectionError):
            pass

    def answer(self, call, *words):
        try:
            answer = call(*words)
        except (Refused, OSError) as reason:
            answer = reason
        except Exception:
            answer = RuntimeError(traceback.format_exc())
        self.channel.send(answer)

    def note(self, done, size):
        PLACE.pack_into(self.shared, 0, done, size)

    def opened(self, name):
        return Noted(name, self.note)

    def read(self):
        self.dump, contradiction = read_image(self.name, self.table, self.opened, self.part)
        dump = self.dump
        if dump.numbers is None:
            return Facts(contradiction, False)
        numbers = dump.cluster, dump.txid, dump.last_block, dump.last_gen, dump.greatest_gen
        counts = dict(dump.passed), dump.with_line_feeds
        return Facts(contradiction, True, *numbers, dump.low_inode, *counts, self.table.full, self.words())

    def words(self):
        """What stands for the replications and for the kinds of bare files."""
        inodes = self.dump.inodes
        replications = {number for number, kind in zip(inodes.replications, inodes.kinds) if kind not in (DIRECTORY, BARE)}
        kinds = {blocks.kind for blocks in inodes.bare.values()}
        if self.dump.rest is not None:
            replications |= self.dump.rest.replications
            kinds |= self.dump.rest.kinds_of_bare
        return [*map(str, sorted(replications)), *sorted(map(word_of, kinds))]

    def give(self, names, replications, told):
        """Gives the program the lines. All paths are looked at, also if it ends before."""
        dump, feed = self.dump, Feed(open(recv_handle(self.channel), "wb", CHUNK_BYTES))
        dump.use(Table(names, replications), told)

        def write(piece):
            feed.write(piece)
            self.note(feed.size, NOT_KNOWN)

        try:
            contradiction = give_image(dump, self.name, write)
            feed.write(b"checkpoint\n")
        finally:
            feed.close()
        return Given(contradiction, dump.table.full, dump.bare_kinds, dump.too_deep, dump.only_in_snapshots, feed.size)

    def tell(self, fault):
        return told_of(fault, lambda: lines_in(pieces_of(self.dump)))

    @cached_property
    def table_of_inodes(self):
        return InodeTable(self.dump, self.dump.sets, lambda name: name)

    def ids_at(self, paths):
        return list(map(self.id_at, paths))

    def id_at(self, path):
        row = self.row_at(path)
        return NONE if row == NONE else self.dump.inodes.ids[row]

    def row_at(self, path):
        row = self.dump.root
        for name in path[1:].split("/") if path else ():
            row = NONE if row == NONE else self.dump.row_of(row, name)
        return row

    def columns_at(self, paths):
        inodes, rows = self.dump.inodes, list(map(self.row_at, paths))
        ids = array("q", (row if row == NONE else inodes.ids[row] for row in rows))
        return ids, array("I", (0 if row == NONE else inodes.sets[row] for row in rows)), self.dump.sets.all

    def inodes_of(self, ids, bare):
        table, inodes = self.table_of_inodes, self.dump.inodes
        count = sum(table.is_live)
        rows = [row if row != NONE and table.is_live[row] else None for row in inodes.rows_of(ids)]
        places = [None if row is None else (table.directories[row], inodes.name(row), inodes.sets[row]) for row in rows]
        table.leave_out(row for row in rows if row is not None)
        blocks = [None if row == NONE else tuple(map(tuple, inodes.blocks_of(row))) for row in inodes.rows_of(bare)]
        return places, self.dump.sets.all, table.sums(), count, blocks

    def of_buckets(self, buckets):
        return self.table_of_inodes.of_buckets(buckets)

    def sums_of_rest(self):
        return self.dump.sums_of_rest(bytes(len(self.dump.inodes)), lambda: self.opened(self.name))

    def buckets_of_rest(self):
        return rest_compared.buckets_of(self.dump.rest)

    def marks_of_rest(self, buckets):
        return rest_compared.marks_in(self.dump.rest, buckets)

    def beside(self, joining):
        return rest_compared.beside(self.dump.rest, joining)

    def directories_below(self, ids):
        return rest_compared.directories_below(self.dump, ids)

    def order_of_part(self, named):
        return rest_compared.order_of(self.dump.rest, named)

    def names_of(self, ids):
        return order.names_of(self.name, self.opened, ids)

    def has_block_in_rest(self, ids):
        return self.dump.rest.has_block(ids)

    def paths_of(self, ids):
        return [path_by(self.table_of_inodes.entry_of, inode_id) for inode_id in ids]
