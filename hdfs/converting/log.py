"""Writes edits as the lines of a log: numbers them anew, gives marks where they lack, and cuts the log into parts."""
import os
from collections import Counter

from hdfs.converting.edits import end_mark, start_mark
from hdfs.formats import Refused, line_of

# The program takes 16,777,216 bytes behind an image.
PART_BYTES = 16_000_000
MARK_BYTES = 100


class Log:
    """The lines of a log, numbered one after another."""

    def __init__(self, output, number, profile, numbers):
        self.output = output
        self.number = number
        self.profile = profile
        self.numbers = numbers
        # Whether a segment was begun and not ended, and its bytes.
        self.inside = False
        self.segment_bytes = 0
        self.given = Counter()

    def write(self, edits, txid):
        """Writes the edits that a record stands for, all or none. The record's own number is `txid`."""
        if edits == start_mark() and self.inside:
            self.give(end_mark())
        lines = self.lines_of(edits)
        size = sum(map(len, lines))
        if self.output.most is not None and self.segment_bytes + size + MARK_BYTES > self.output.most:
            self.give(end_mark() + start_mark())
            lines = self.lines_of(edits)
        for edit, line in zip(edits, lines):
            self.put(edit, line, txid)

    def write_line(self, line, values, txid):
        """Writes an edit that is no mark, and no append, whose line is made of these values and its number."""
        text = line % (*values, self.number + 1)
        if self.output.most is not None and self.segment_bytes + len(text) + MARK_BYTES > self.output.most:
            self.give(end_mark() + start_mark())
            text = line % (*values, self.number + 1)
        self.number += 1
        self.numbers.put(txid, self.number)
        self.output.write(text)
        self.segment_bytes += len(text)
        self.inside = True

    def leave_out(self, txid):
        self.numbers.leave_out(txid)

    def give(self, marks):
        """Writes marks that no record stands for."""
        for mark, line in zip(marks, self.lines_of(marks)):
            self.put(mark, line, None)
            self.given[mark["op"]] += 1

    def finish(self):
        """Gives the last segment its end mark where it lacks one, and answers whether it did."""
        lacking = self.inside
        if lacking:
            self.give(end_mark())
        return lacking

    def lines_of(self, edits):
        return [line_of(self.of_profile(edit), number) for number, edit in enumerate(edits, self.number + 1)]

    def of_profile(self, edit):
        """The edit as the log's profile has it."""
        if self.profile == 1 and edit["op"] == "OP_APPEND":
            raise Refused("an append, and the log is to have profile 1")
        if self.profile == 2 and [edit] == start_mark():
            return {**edit, "profile": 2}
        return edit

    def put(self, edit, line, txid):
        self.number += 1
        self.numbers.put(txid, self.number)
        self.output.write(line)
        self.segment_bytes += len(line)
        self.inside = [edit] != end_mark()
        if not self.inside:
            self.segment_bytes = 0
            self.output.end_segment()


class Map:
    """Writes the TXID and the number of each line to a file. `-` stands where there is none."""

    def __init__(self, file):
        self.file = file

    def put(self, txid, number):
        self.file.write(f"{'-' if txid is None else txid} {number}\n")

    def leave_out(self, txid):
        self.file.write(f"{txid} -\n")


def pairs_in(name):
    """What a map has: the TXID of each record and the number of each line, as texts."""
    with open(name) as lines:
        for line in lines:
            yield line.split()


class Whole:
    """Lines that go to one file. A segment has at most so many bytes, if that is said."""

    def __init__(self, file, most=None):
        self.most = most
        self.write = file.write
        self.close = file.close

    def end_segment(self):
        pass


class Parts:
    """Lines that go to files of at most PART_BYTES in a directory. Each of them has whole segments."""

    most = PART_BYTES

    def __init__(self, directory):
        self.directory = directory
        self.count = 0
        self.file = None
        self.bytes = 0
        self.segment = bytearray()

    def write(self, line):
        self.segment += line

    def end_segment(self):
        if self.file is None or self.bytes + len(self.segment) > PART_BYTES:
            self.begin()
        self.file.write(self.segment)
        self.bytes += len(self.segment)
        self.segment.clear()

    def begin(self):
        """Begins the next part."""
        if self.file is not None:
            self.file.close()
        self.count += 1
        self.bytes = 0
        self.file = open(os.path.join(self.directory, f"part-{self.count:05}"), "wb")

    def close(self):
        """Writes what is left of a segment that was broken off, and closes the last part."""
        if self.segment:
            self.end_segment()
        if self.file is not None:
            self.file.close()


def words_for_parts(options, image, before, folder, numbers):
    """What zulurowan-from-oev is asked, to cut a log into parts in a folder. It goes on from an image of this TXID, or from nothing."""
    # A later part of a log, applied to nothing, would give another namespace.
    begin = ["--image", image, "--after", str(before)] if image else ["--first", "1"]
    skipped = [word for opcode in options.skip for word in ("--skip", opcode)]
    passed = ["--snapshots", options.snapshots]
    return ["--split", folder, "--map", numbers, *begin, *skipped, *passed, "--", *options.files]


def parts_in(folder):
    """The parts that zulurowan-from-oev left, in order."""
    return [os.path.join(folder, name) for name in sorted(os.listdir(folder))]
