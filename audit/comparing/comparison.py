"""Compares two images that the proved program printed.

A namespace has one text. So that two namespaces are the same is that their texts are the same bytes behind the header;
no other code of this project has to be trusted for it. Only where they differ are they read, to tell how. Both come
through pipes, and are compared as they come.
"""
import json
from collections import Counter
from functools import cached_property
from itertools import zip_longest

from hdfs.formats import row_of, to_json

DIRECTORY_ENDS = b'"type":"dir"}\n'
FILE_ENDS = b'"type":"file"}\n'
BLOCK_BEGINS = b'{"gen":'


class Line:
    """A line of a text. It is read only where the other text has another one."""

    def __init__(self, text):
        self.text = text

    @cached_property
    def row(self):
        return row_of(json.loads(self.text))

    @cached_property
    def key(self):
        """What path order goes by: the names, each by its bytes without a sign, as the program prints them."""
        return self.row.path.encode().split(b"/")


class Differences:
    """Tells differences, the first of them, and counts all."""

    def __init__(self, most, output, table):
        self.most = most
        self.output = output
        self.table = table
        self.count = Counter()

    def tell(self, kind, *words):
        if sum(self.count.values()) < self.most:
            self.output(kind, self.table.in_words(" ".join(map(str, words))))
        self.count[kind] += 1

    def left(self):
        """How many were not printed."""
        return max(0, sum(self.count.values()) - self.most)

    def summary(self):
        return ", ".join(f"{kind} {count:,}" for kind, count in sorted(self.count.items()))


def alike_pieces(ours, theirs, alike):
    """Counts what both texts have alike, and answers what was read of each behind that: it begins with a line.

    Both are functions that answer the next whole lines of a text, and nothing behind all.
    """
    one = other = b""
    while True:
        one, other = one or ours(), other or theirs()
        size = min(len(one), len(other))
        if size == 0 or one[:size] != other[:size]:
            return one, other
        count(one[:size], alike)
        one, other = one[size:], other[size:]


def count(lines, alike):
    """Counts lines that both texts have. Inside of a text JSON has no quotes like these."""
    alike["directories"] += lines.count(DIRECTORY_ENDS)
    alike["files"] += lines.count(FILE_ENDS)
    alike["blocks"] += lines.count(BLOCK_BEGINS)


def lines_of(held, pieces):
    """The lines of a text, of which some were read."""
    while held:
        for line in held.split(b"\n")[:-1]:
            yield Line(line + b"\n")
        held = pieces()


def merged(ours, theirs):
    """Pairs of the lines that both have at each path, in path order. None stands for nothing."""
    one, other = next(ours, None), next(theirs, None)
    while one or other:
        is_same = one and other and one.text == other.text
        if not is_same and (other is None or one and one.key < other.key):
            yield one, None
            one = next(ours, None)
        elif not is_same and (one is None or other.key < one.key):
            yield None, other
            other = next(theirs, None)
        else:
            yield one, other
            one, other = next(ours, None), next(theirs, None)


class Alone:
    """What only one of the images has. The top of it is told, with the number of paths below."""

    def __init__(self, kind, differences):
        self.kind = kind
        self.differences = differences
        self.top = None
        self.below = 0
        # The path of each file, by the id of its first block.
        self.files = {}

    def take(self, row):
        if row.blocks:
            self.files[row.blocks[0].id] = row.path
        if self.top is not None and row.path.startswith(f"{self.top.path}/"):
            self.below += 1
            return
        self.flush()
        self.top = row

    def flush(self):
        if self.top is not None:
            words = [f"and {self.below:,} below"] if self.below else []
            self.differences.tell(self.kind, to_json(self.top.path), kind_of(self.top, self.differences.table), *words)
        self.top, self.below = None, 0


class Blocks:
    """The ids of the blocks in the lines that differ, of both texts."""

    def __init__(self):
        self.ids = set(), set()

    def take(self, *lines):
        for ids, line in zip(self.ids, lines):
            ids.update(block.id for block in (line and line.row.blocks) or ())

    def new(self):
        """Those that the second text has alone."""
        return self.ids[1] - self.ids[0]


def compare(ours, theirs, differences, blocks=None):
    """Tells how two texts differ, path by path. Answers how many directories, files and blocks are alike.

    Both are functions that answer the next whole lines of a text, and nothing behind all. The blocks of lines that differ
    are noted, if that is wanted.
    """
    alike = Counter()
    held, other_held = alike_pieces(ours, theirs, alike)
    missing, extra = Alone("missing", differences), Alone("extra", differences)
    for one, other in merged(lines_of(held, ours), lines_of(other_held, theirs)):
        if blocks and not (one and other and one.text == other.text):
            blocks.take(one, other)
        if other is None:
            missing.take(one.row)
        elif one is None:
            extra.take(other.row)
        else:
            missing.flush()
            extra.flush()
            if one.text == other.text:
                count(one.text, alike)
            else:
                tell_row(one.row, other.row, differences)
    missing.flush()
    extra.flush()
    for block in sorted(missing.files.keys() & extra.files.keys()):
        differences.tell("moved", to_json(missing.files[block]), to_json(extra.files[block]))
    return alike


def tell_row(one, other, differences):
    """Tells how what both have at a path differs: first what the log makes of it, then what the image has."""
    path = to_json(one.path)
    words = differences.table.words
    kinds = [kind_of(row, differences.table) for row in (one, other)]
    if kinds[0] != kinds[1]:
        differences.tell("kind", path, *kinds)
        return
    if one.replication != other.replication:
        differences.tell("replication", path, words[one.replication], words[other.replication])
    if one.closed != other.closed:
        differences.tell("state", path, *("closed" if row.closed else "open" for row in (one, other)))
    blocks = map(words_of_blocks, (one, other))
    for place, (block, found) in enumerate(zip_longest(*blocks, fillvalue="-")):
        if block != found:
            differences.tell("block", path, place, block, found)


def kind_of(row, table):
    """What a row is: a directory, a file, or a bare file of some kind."""
    word = "directory" if row.blocks is None else table.words[row.replication]
    return "file" if word.isdigit() else word


def words_of_blocks(row):
    """Each block of a file as ID:GEN:LEN."""
    return [f"{block.id}:{block.gen}:{block.len}" for block in row.blocks]
