"""An image of this project, which a chain keeps, in arrays. It lists paths in order, each directory before what is in it."""
import json
import re
from array import array

from hdfs.formats import PATH_NAMES, Refused, row_of
from hdfs.reading.inodes import CLOSED, DIRECTORY, OPEN, Inodes, Lists
from hdfs.reading.many_blocks import ManyBlocks
from hdfs.reading.names import Names
from hdfs.reading.quick import NUMBER, Columns, matched

CHUNK_BYTES = 1 << 20
END = b'{"end":'


def block(number):
    return rb'\{"gen":%b,"id":%b,"len":%b\}' % (number, number, number)


BLOCK = block(rb"(%b)" % NUMBER)
FILE = rb'"blocks":\[(?:%b(?:,%b)?((?:,%b)*))?\],"closed":(true|false),' % (BLOCK, BLOCK, block(NUMBER))
ENDS = rb'(?:"replication":([0-9]{1,3}),"type":"file"|"type":"dir")\}\n'
LINE = re.compile(rb'\{(?:%b)?"path":"([^"\\]*)/([^"\\/]+)",%b' % (FILE, ENDS))


class Kept(Names):
    """An image that is read from a file, whose header has been read. `name_in_file` answers the name there for one here."""

    def __init__(self, file, name_in_file):
        self.file = file
        self.name_in_file = name_in_file
        self.inodes = Inodes()
        self.inodes.add(0, b"", DIRECTORY)
        self.root = 0
        self.children = Lists()
        # What directories list are rows here, and no ids.
        self.child_rows = self.children.numbers = array("i")
        self.in_order = {}
        # Of each open directory: its path, its row, and the rows in it. And the last directory: its path and its row.
        self.above = [(b"", 0, array("i"))]
        self.last = None, None
        # The directories that lie as deep as one may.
        self.deep = []
        self.read()

    has_names_of_program = True

    def full_name(self, name):
        return self.name_in_file(name).encode()

    def live_rows(self):
        return bytearray(b"\1") * len(self.inodes)

    def read(self):
        held = b""
        while True:
            chunk = self.file.read(CHUNK_BYTES)
            held += chunk
            rows, at = matched(LINE, held, 0)
            while (end := held.find(b"\n", at)) >= 0 and not held.startswith(END, at):
                # A line that the expression does not know, for what stands in its path.
                rows.append(groups_of(held[at : end + 1]))
                more, at = matched(LINE, held, end + 1)
                rows += more
            self.take(rows, held[:at])
            if held.startswith(END, at):
                break
            if not chunk:
                raise Refused(f"{self.file.name} has an image without its end")
            held = held[at:]
        while self.above:
            self.leave()
        self.children.finish_rows(self.children.owners, len(self.inodes))

    def take(self, rows, _lines):
        """Takes what the expression has in its groups for these lines."""
        if not rows:
            return
        *numbers, more, closed, paths, names, replications = zip(*rows)
        kinds = bytes([KINDS[state] for state in closed])
        replications = array("q", [int(replication or 0) for replication in replications])
        begin = len(self.inodes)
        self.inodes.add_columns(Columns(array("q", range(begin, begin + len(rows))), names, kinds, replications, ManyBlocks(numbers, more), None))
        for row, (path, name, kind) in enumerate(zip(paths, names, kinds), begin):
            if path != self.above[-1][0]:
                self.go_to(path)
            self.above[-1][2].append(row)
            if kind == DIRECTORY:
                self.last = b"%b/%b" % (path, name), row
                if len(self.above) == PATH_NAMES:
                    self.deep.append(self.last[0].decode())

    def go_to(self, path):
        """Goes into the last directory, or back to one above it."""
        if path == self.last[0]:
            self.above.append((*self.last, array("i")))
            return
        while self.above and self.above[-1][0] != path:
            self.leave()
        if not self.above:
            raise Refused(f"{self.file.name} has a path below {path.decode()}, which it does not have before it")

    def leave(self):
        """Goes out of a directory."""
        _, row, rows = self.above.pop()
        self.children.add(row, rows)


# What a path is, by what its line says of it as a file.
KINDS = {b"true": CLOSED, b"false": OPEN, None: DIRECTORY}


def groups_of(line):
    """What the expression would have in its groups for a line, with all blocks as further ones."""
    try:
        row = row_of(json.loads(line))
    except (ValueError, KeyError, TypeError) as fault:
        raise Refused(f"an image that is kept has the line {line[:100]!r}: {fault}") from None
    path, _, name = row.path.encode().rpartition(b"/")
    if row.blocks is None:
        return (*[None] * 8, path, name, None)
    blocks = ",".join(str(number) for block in row.blocks for number in block).encode()
    return (*[None] * 6, blocks, b"true" if row.closed else b"false", path, name, str(row.replication).encode())
