"""Reads what `hdfs fsck / -files -blocks -locations` printed, and makes replicas of the locations that it has.

A path may hold anything but a colon, a line feed too. Each text that is taken has a colon, so no name passes for one. A
file's line says how many blocks it has, and so many lines of blocks have to follow.
"""
import re
from collections import Counter
from itertools import groupby

from audit.replicas.listings import TWICE, Replica, lines_in, shown
from audit.replicas.sorting import Sorted
from hdfs.formats import FIRST_BLOCK_ID, Refused, number

KIND = rb"(?:(replicated: replication=[0-9]{1,9}|erasure-coded: policy=[\w.-]{1,99}), )?"
FILE = re.compile(rb" [0-9]{1,19} bytes, " + KIND + rb"([0-9]{1,19}) block\(s\)(, OPENFORWRITE)?: ")
BLOCK = re.compile(rb"([0-9]{1,19})\. (?:(BP-[^: ]+):)?blk_(-?[0-9]{1,19})_([0-9]{1,19}) len=([0-9]{1,19}) +(.*)")
PLACES = re.compile(rb"(MISSING!.*)|(Live_repl|Expected_repl|repl)=([0-9]{1,19})(?: +\[(.*)\])?")
STORAGE = rb"DatanodeInfoWithStorage\[([^],[ ]+),[^],[ ]+,[^],[ ]+\]"
PLACE = re.compile(rb"(?:" + STORAGE + rb"|([^],[() ]+))(?:\(([A-Z_ ]+)\))?(?:, |$)")
COUNT = re.compile(rb" *([A-Z][A-Za-z() -]*):[\t ]+([0-9]{1,19})\b.*")
STARTED = re.compile(rb"FSCK started by .* for path (.*) at .*")

# What it counts, as it is named there.
TOTAL = "Total blocks (validated)"
MINIMAL = "Minimally replicated blocks"
OVER = "Over-replicated blocks"
UNDER = "Under-replicated blocks"
MISPLACED = "Mis-replicated blocks"
MISSING = "Missing blocks"
CORRUPT = "Corrupt blocks"
DATANODES = "Number of data-nodes"
COUNTS = {name.encode(): name for name in (TOTAL, MINIMAL, OVER, UNDER, MISPLACED, MISSING, CORRUPT, DATANODES)}

# A record has the block in so many characters.
KEY_BYTES = 16


class Fsck:
    """The blocks of all files, in order, where fsck finds their replicas, and what it counts."""

    def __init__(self, name, pool, notes, nodes, folder):
        self.name = name
        self.pool = pool
        self.notes = notes
        self.nodes = nodes
        self.blocks = Sorted(folder, "fsck")
        self.counts = {}
        # How many blocks it lists, how many of them are of old layouts or missing, and how many files are open.
        self.listed = 0
        self.old = 0
        self.missing = 0
        self.opened = 0
        # How many blocks of a file are still to come, the place of the next one, and whether they are striped.
        self.left = 0
        self.place = 0
        self.is_striped = False
        self.has_ended = False
        with open(name, "rb") as file:
            for at, line in lines_in(file):
                try:
                    self.take(line)
                except (Refused, ValueError) as reason:
                    raise Refused(f"{name}, line {at}: {reason}") from None
        self.check_end()

    def take(self, line):
        block = BLOCK.fullmatch(line)
        if block is not None:
            self.take_block(*block.groups())
        elif re.match(rb"[0-9]+\. (BP-|blk_)[^ ]*[:_]", line):
            raise Refused(f"{shown(line)} is no block")
        elif (file := FILE.search(line)) is not None:
            self.check_file()
            self.left, self.place = number(file[2].decode()), 0
            self.is_striped = (file[1] or b"").startswith(b"erasure-coded")
            self.opened += file[3] is not None
        elif (started := STARTED.fullmatch(line)) is not None:
            if started[1] != b"/":
                raise Refused(f"it is of the path {shown(started[1])}, and not of /")
        elif line.startswith(b"FSCK ended at "):
            self.has_ended = True
        elif (count := COUNT.fullmatch(line)) is not None and count[1] in COUNTS:
            self.counts.setdefault(COUNTS[count[1]], number(count[2].decode()))

    def take_block(self, place, pool, block, stamp, length, rest):
        if self.left == 0 or int(place) != self.place:
            raise Refused(f"block {place.decode()}, where no file has so many or block {self.place} is next")
        self.place += 1
        self.left -= 1
        found = PLACES.fullmatch(rest)
        if found is None:
            raise Refused(f"{shown(rest)} says neither MISSING! nor how many replicas there are")
        if pool is not None and not self.pool.has(pool, self.name):
            raise Refused(f"it is of the block pool {pool.decode('utf-8', 'replace')}")
        self.listed += not self.is_striped
        if self.is_striped or int(block) < FIRST_BLOCK_ID:
            self.old += not self.is_striped
            return
        self.missing += found[1] is not None
        numbers = number(block.decode()), number(stamp.decode()), number(length.decode())
        live = 0 if found[3] is None else number(found[3].decode())
        if live and found[4] is None:
            raise Refused("it lists no replicas: say -files -blocks -locations")
        nodes = sorted(self.places_in(found[4] or b""))
        is_building = found[2] == b"Expected_repl"
        self.blocks.put(b"%016x %d %d %d %d %b\n" % (*numbers, live, is_building, b"%d " * len(nodes) % tuple(nodes)))

    def places_in(self, text):
        """The DataNodes that are listed."""
        at = 0
        while at < len(text):
            found = PLACE.match(text, at)
            if found is None:
                raise Refused(f"{shown(text[at:])} is no DataNode")
            at = found.end()
            if found[3] == b"CORRUPT":
                self.notes.pass_over("replicas that fsck calls corrupt")
            else:
                yield self.nodes.place((found[1] or found[2]).decode("utf-8", "backslashreplace"))

    def check_file(self):
        if self.left:
            raise Refused(f"{self.left:,} blocks of the file before it are not there: say -files -blocks -locations")

    def check_end(self):
        """Refuses a text that is no whole one."""
        try:
            self.check_file()
            if not self.has_ended:
                raise Refused("it does not say that fsck ended")
            total = self.counts.get(TOTAL)
            if total is not None and total != self.listed and not self.opened:
                raise Refused(f"it counts {total:,} blocks, and lists {self.listed:,}")
        except Refused as reason:
            raise Refused(f"{self.name}, at its end: {reason}") from None

    def count(self, name):
        """What it counts under a name, or None. Hadoop 2 counts missing blocks only where there are some."""
        return self.counts.get(name, self.missing if name == MISSING else None)

    def counts_more(self):
        """What it counts that the program does not, and how many there are."""
        counts = {"open files": self.opened, "blocks of old layouts": self.old}
        return {what: count for what, count in counts.items() if count}

    def records(self):
        """The id of each block, in order; its stamp, length, live replicas, if it is written; and its DataNodes."""
        for key, records in groupby(self.blocks.lines(), lambda record: record[:KEY_BYTES]):
            numbers = [list(map(int, record[KEY_BYTES:].split())) for record, _ in zip(records, range(2))]
            if len(numbers) > 1:
                raise Refused(f"{self.name}: block {int(key, 16)} is in two files")
            yield int(key, 16), numbers[0][:4], numbers[0][4:]

    def replicas(self):
        """The replicas that it lists, in order. It says of each what the NameNode has of the block."""
        for block, (gen, length, _, is_building), nodes in self.records():
            for node, times in Counter(nodes).items():
                if times > 1:
                    self.notes.name(TWICE, f"{self.name}: block {block} is {times} times at {self.nodes.names[node]}")
                yield Replica(block, node, gen, length, bool(is_building))

    def live(self):
        """The id and stamp of each block that is not written, in order, how many replicas are live, how many listed."""
        for block, (gen, _, live, is_building), nodes in self.records():
            if not is_building:
                yield block, gen, live, len(set(nodes))
