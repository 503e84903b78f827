"""The lines of an image of this project, made from the arrays of a dump."""
import re
from json.encoder import encode_basestring

from hdfs.formats import FIRST_BLOCK_ID, image_directory, image_file
from hdfs.reading.inodes import BARE, CLOSED, DIRECTORY

# What JSON has otherwise in a text.
ESCAPED = re.compile(rb'[\x00-\x1f"\\]')

FOLDER = b'{"path":"%b/%b","type":"dir"}\n'
BLOCK = b'{"gen":%d,"id":%d,"len":%d}'
FILE = b'{"blocks":[%b],"closed":%b,"path":"%b/%b","replication":%d,"type":"file"}\n'
# A closed file of one block, as most are.
COMMON = FILE.replace(b"%b", BLOCK, 1).replace(b"%b", b"true", 1)


class Replications(dict):
    """The number that stands for each replication."""

    def __init__(self, number_for):
        super().__init__()
        self.number_for = number_for

    def __missing__(self, replication):
        self[replication] = self.number_for(replication)
        return self[replication]


class Lines:
    """Makes lines of the rows of a dump. What is not such as most are is for its `row` to look at."""

    def __init__(self, dump):
        self.dump = dump
        self.inodes = dump.inodes
        self.replications = Replications(dump.number_for)
        self.has_escapes = ESCAPED.search(dump.inodes.names) is not None
        self.are_issued = dump.least_block >= FIRST_BLOCK_ID and dump.greatest_block <= dump.last_block

    def of(self, above, names, rows):
        """The lines of rows in the directory of a path, with their names."""
        if not self.are_issued or self.dump.is_told(above):
            return b"".join([self.looked_at(above, name, row) for name, row in zip(names, rows)])
        inodes = self.inodes
        kinds, blocks, ends, replications = inodes.kinds, inodes.blocks, inodes.block_ends, inodes.replications
        is_plain = not self.has_escapes
        path, texts = (above, names) if is_plain else (escaped(above), map(escaped, names))
        made = []
        for name, row in zip(texts, rows):
            kind = kinds[row]
            if kind == DIRECTORY:
                made.append(FOLDER % (path, name))
                continue
            if kind == BARE:
                made.append(self.looked_at(above, self.dump.name_of(row), row))
                continue
            numbers, replication = blocks[ends[row] : ends[row + 1]], self.replications[replications[row]]
            if kind == CLOSED and len(numbers) == 3:
                made.append(COMMON % (*numbers, path, name, replication))
            else:
                listed = b",".join([BLOCK] * (len(numbers) // 3)) % tuple(numbers)
                made.append(FILE % (listed, b"true" if kind == CLOSED else b"false", path, name, replication))
        return b"".join(made)

    def looked_at(self, above, name, row):
        path, file = f"{above.decode()}/{name.decode()}", self.inodes.file(row)
        return image_directory(path) if file is None else image_file(path, *self.dump.row(path, file))


def escaped(text):
    """The bytes of a text as JSON has them."""
    return encode_basestring(text.decode())[1:-1].encode() if ESCAPED.search(text) else text
