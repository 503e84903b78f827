"""How the lines of a segment become the pieces that are sent. Pure but for the file that it is given to read.

A transaction has the cluster's TXID, and a number in the lines that the program reads. Called by the hands.
"""
import hashlib
import io
import json
from array import array
from typing import NamedTuple

from following import Bad, Taken, Unreadable
from oev import LINE_BYTES, Refused, end_mark, start_mark, to_json
from place import Place

# The program takes 16,777,216 bytes in a segment.
PIECE_BYTES = 8_388_608
FILE_BYTES = 1_073_741_824
CHUNK_BYTES = 1_048_576
MARK_BYTES = 100


class Piece(NamedTuple):
    """A segment as it is sent: whole lines from a start mark to an end mark."""

    first: int  # the number of its first line
    data: bytes
    txids: array  # the TXID of each line, or of the last one before a mark that no line of the log stands for
    end: Place  # where the log is behind it

    def txid(self, index):
        """The TXID of a line, where the first one has the index 0."""
        return self.txids[min(max(index, 0), len(self.txids) - 1)]


class Pieces:
    """Takes lines and makes pieces of them. It is the output and the map of a converted log, too."""

    def __init__(self, reached, most=PIECE_BYTES):
        self.reached = reached
        self.most = most
        self.done = []
        self.begin()

    def begin(self):
        self.lines = []
        self.txids = array("q")

    def put(self, txid, number):
        """The next line has this number, and this TXID if it has one."""
        self.reached = Place(number, txid or self.reached.txid)
        self.txids.append(self.reached.txid)

    def leave_out(self, txid):
        """No line stands for this TXID."""
        self.reached = self.reached._replace(txid=txid)

    def write(self, line):
        self.lines.append(line)

    def end_segment(self):
        first = self.reached.number + 1 - len(self.lines)
        self.done.append(Piece(first, b"".join(self.lines), self.txids, self.reached))
        self.begin()


class LineReader:
    """Reads segments of this project's lines."""

    # What stands behind the name of a segment that it reads.
    suffix = ""
    # Whether each transaction has a line.
    has_each = True

    def __init__(self, most=PIECE_BYTES):
        self.most = most

    def pieces(self, file, segment, reached):
        """The pieces that a file has behind what was reached, and where the log is behind them."""
        cutter = Cutter(segment, reached, self.most)
        for place, text in enumerate(iter(lambda: file.readline(LINE_BYTES + 2), b""), 1):
            cutter.take(edit_of(text, place, segment))
        return cutter.finish()


class Cutter:
    """Numbers the edits of a segment as its log goes on, and cuts them into pieces.

    It hides nothing that the program has to judge: where TXIDs have a gap the numbers have one, and no mark is added
    but at a cut and where a part of the segment was taken before.
    """

    def __init__(self, segment, reached, most):
        self.segment = segment
        self.most = most
        self.pieces = Pieces(reached, most)
        self.begun = reached
        self.shift = reached.number - reached.txid
        self.start = start_mark()[0]
        self.last = None
        self.bytes = 0

    def take(self, edit):
        if self.last is None:
            self.begin(edit)
        self.last = edit
        if edit["txid"] <= self.begun.txid:
            return
        line = self.line(edit)
        if self.bytes + len(line) + MARK_BYTES > self.most:
            self.give(end_mark()[0])
            self.give(self.start)
            line = self.line(edit)
        self.put(edit, edit["txid"], line)

    def begin(self, edit):
        """The first line of the file says how its pieces begin."""
        if edit["txid"] != self.segment.first:
            raise Refused(f"the first line has txid {edit['txid']}")
        if edit["op"] == self.start["op"]:
            self.start = edit
        if self.segment.first <= self.begun.txid:
            self.give(self.start)

    def line(self, edit):
        return line_of(edit, edit["txid"] + self.shift)

    def give(self, mark):
        """Writes a mark that no line of the file stands for."""
        self.shift += 1
        self.put(mark, None, line_of(mark, self.pieces.reached.number + 1))

    def put(self, edit, txid, line):
        # A number that is not the next one leaves room, and the program refuses the piece.
        number = self.pieces.reached.number + 1 if txid is None else txid + self.shift
        self.pieces.put(txid, number)
        self.pieces.write(line)
        self.bytes += len(line)
        if edit["op"] == end_mark()[0]["op"]:
            self.pieces.end_segment()
            self.bytes = 0

    def finish(self):
        if self.last is None:
            raise Refused("it is empty")
        if self.last["txid"] != self.segment.last or self.last["op"] != end_mark()[0]["op"]:
            raise Refused(f"the last line is not the end mark with txid {self.segment.last}")
        return self.pieces.done, self.pieces.reached


def line_of(members, number):
    try:
        return to_json({**members, "txid": number}).encode() + b"\n"
    except (ValueError, RecursionError):
        raise Refused(f"TXID {members['txid']}: a line with half of a character, or too deep") from None


def edit_of(text, place, segment):
    """The members of a line, which has to be an edit of its segment: no word, no report, and of no other txid."""
    if not text.endswith(b"\n"):
        raise Refused(f"line {place} is torn, or has more than {LINE_BYTES:,} bytes")
    try:
        members = json.loads(text.decode())
    except (ValueError, RecursionError):
        members = None
    if type(members) is not dict or type(members.get("op")) is not str:
        raise Refused(f"line {place} is no edit")
    txid = members.get("txid")
    if type(txid) is not int or not segment.first <= txid <= segment.last:
        raise Refused(f"line {place} has no txid that the file's name allows")
    return members


class Summing(io.RawIOBase):
    """A file whose bytes are summed as they are read."""

    def __init__(self, file, name):
        super().__init__()
        self.file, self.name = file, name
        self.sum = hashlib.sha256()

    def readable(self):
        return True

    def readinto(self, buffer):
        data = self.file.read(len(buffer))
        buffer[: len(data)] = data
        self.sum.update(data)
        return len(data)


def taken(reader, system, path, named, reached):
    """A segment as it is sent: `Taken`, or why it can't be read now, or is bad."""
    key = None
    try:
        key, size, file = system.opened(path)
        with file:
            if size > FILE_BYTES:
                return Bad(f"it has more than {FILE_BYTES:,} bytes", key)
            summing = Summing(file, named.name)
            pieces, end = reader.pieces(io.BufferedReader(summing, CHUNK_BYTES), named, reached)
            return Taken(key, summing.sum.hexdigest(), pieces, end)
    except Refused as reason:
        return Bad(str(reason), key)
    except OSError as reason:
        return Unreadable(reason.strerror or str(reason))
