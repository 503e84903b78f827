"""Walks through the inodes of a dump in path order, and looks whether they are a tree as a sound NameNode has it."""
from array import array
from operator import lt

from hdfs import formats
from hdfs.formats import Refused, to_json
from hdfs.reading.inodes import DIRECTORY, NONE
from hdfs.reading.names import Names

ROOT = 16385

# So many rows are taken at a time.
RUN_ROWS = 10_000

# A path of so few bytes has room for a name behind it.
SHORT_PATH = formats.PATH_BYTES - formats.NAME_BYTES - 1

# Names have two orders, which differ where a name is not ASCII. A NameNode searches the children of a directory by
# comparing bytes as Java has them, signed, from -128 to 127. So a dump has them in that order, and it is looked at. An
# image of this project has paths by their bytes without a sign, from 0 to 255. So children are sorted anew. This turns
# bytes into those whose order without a sign is that of the first ones with a sign.
SIGNED = bytes(byte ^ 0x80 for byte in range(256))


class Inconsistent(Refused):
    """An image that contradicts itself."""


class Walk(Names):
    """What a dump has for the walk: `inodes`, `children`, the row of each child in `child_rows`, and the root's row."""

    def runs(self):
        """Yields rows that stand one after another in path order, all in one directory: its path, their names, and they.

        Paths and names are bytes. The path of the root is empty. A directory comes before what is in it.
        """
        self.in_order = {}
        # An inode is taken once a directory has it.
        self.is_taken = bytearray(len(self.inodes))
        self.take(self.root, ROOT)
        first = self.children.first
        # For each directory that is open: its path, the names and rows in it, where the walk is among these, and at
        # which of them it goes deeper, the last one first.
        ahead = [(b"", *self.listed(b"", self.root))] if first[self.root] != NONE else []
        while ahead:
            above, names, rows, begin, deeper = ahead.pop()
            if not deeper:
                if begin < len(rows):
                    yield above, names[begin:], rows[begin:]
                continue
            at = deeper.pop()
            yield above, names[begin : at + 1], rows[begin : at + 1]
            ahead.append((above, names, rows, at + 1, deeper))
            path = b"%b/%b" % (above, names[at])
            if len(ahead) == formats.PATH_NAMES:
                self.leave_below(path, rows[at])
            else:
                ahead.append((path, *self.listed(path, rows[at])))
        self.check_all_taken()

    def listed(self, path, row):
        """The names and the rows in a directory in path order, a walk's beginning among them, and where it goes deeper."""
        names, rows = self.below(path, row)
        taken = self.is_taken
        for child in rows:
            taken[child] = True
        if len(path) > SHORT_PATH:
            for name in names:
                self.check_path(f"{path.decode()}/{name.decode()}")
        lists = array("i", map(self.children.first.__getitem__, rows))
        deeper = [at for at in reversed(range(len(rows))) if lists[at] != NONE] if any_list(lists) else []
        return names, rows, 0, deeper

    check_path = staticmethod(formats.check_path)

    def leave_below(self, path, _row):
        """What is below a path of as many names as there may be."""
        formats.check_path(f"{path.decode()}/-")

    def below(self, path, row):
        """The names and the rows of what a directory has, in path order."""
        if self.inodes.kinds[row] != DIRECTORY:
            raise Inconsistent(f"inode {self.inodes.ids[row]} is a file with children")
        rows = self.rows_in(row)
        if NONE in rows or any(map(self.is_taken.__getitem__, rows)):
            self.tell_unknown(row)
        names = names_of(self.inodes, rows)
        if not is_plain(names) or self.refers(row):
            rows = self.in_order[row] = self.sorted_below(path.decode() or "/", row, rows)
            names = names_of(self.inodes, rows)
        elif self.children.only_list(row) is None:
            self.in_order[row] = rows
        return names, rows

    def tell_unknown(self, row):
        for place in self.children.places(row):
            self.known(*self.child(place))

    def child(self, place):
        """The row of a child, or NONE, and its id."""
        row = self.child_rows[place]
        return row, self.children.numbers[place] if row == NONE else self.inodes.ids[row]

    def sorted_below(self, path, row, rows):
        """What a directory has, in path order, where that is not seen at once."""
        listed = [(self.inodes.name(row).decode(), row) for row in rows]
        check_order(path, [name for name, _ in listed])
        below = sorted(listed + self.referred(row), key=lambda child: child[0].encode())
        check_different(path, [(name, self.inodes.ids[row]) for name, row in below])
        return array("i", [row for _, row in below])

    def refers(self, _row):
        """Whether a directory refers to children, because a snapshot has them too."""
        return False

    def referred(self, _row):
        """The names and rows of the children that a directory refers to."""
        return []

    def known(self, row, inode_id):
        """The row of an inode that no directory has yet."""
        if row == NONE:
            raise Inconsistent(f"inode {inode_id} is missing")
        if self.is_taken[row]:
            raise Inconsistent(f"inode {inode_id} is in two directories")
        return row

    def take(self, row, inode_id):
        self.is_taken[self.known(row, inode_id)] = True

    def check_all_taken(self):
        """Refuses what the root does not lead to."""
        row = self.is_taken.find(False)
        if row != NONE:
            raise Inconsistent(f"inode {self.inodes.ids[row]} is in no directory")
        if self.children.missing is not None:
            raise Inconsistent(f"inode {self.children.missing} is missing")


def any_list(lists):
    """Whether one of the rows has a list."""
    return bool(lists) and max(lists) != NONE


class ManyNames:
    """The names of many rows. Each is made where it is asked for, so that few of them are objects at once."""

    def __init__(self, inodes, rows):
        self.inodes = inodes
        self.rows = rows

    def __len__(self):
        return len(self.rows)

    def __iter__(self):
        return map(self.inodes.name, self.rows)

    def __getitem__(self, place):
        found = self.rows[place]
        return names_of(self.inodes, found) if isinstance(place, slice) else self.inodes.name(found)


def names_of(inodes, rows):
    return ManyNames(inodes, rows) if len(rows) > RUN_ROWS else list(map(inodes.name, rows))


def is_plain(names):
    """Whether names ascend, and have one order only. They are looked at a run at a time."""
    last = b""
    for at in range(0, len(names), RUN_ROWS):
        some = names[at : at + RUN_ROWS]
        if not (is_in_any_order(some) and (at == 0 or last < some[0]) and is_ascending(some)):
            return False
        last = some[-1]
    return True


def is_in_any_order(names):
    """Whether it makes no difference for names if their bytes are signed, and if a line feed is a carriage return."""
    text = b"".join(names)
    return text.isascii() and b"\n" not in text


def is_ascending(names):
    return all(map(lt, names, names[1:]))


def check_order(path, names):
    """Refuses children that are not in the order by which a NameNode searches them."""
    last = b"", ""
    for name in names:
        least, most = keys_of(name)
        if most < last[0]:
            told = f"the child {to_json(name)} is behind {to_json(last[1])}, out of order"
            raise Inconsistent(f"{to_json(path)}: {told}")
        last = max(last, (least, name))


def keys_of(name):
    """The least and the most that a name may be in that order. A line feed here may be a carriage return there."""
    key = name.encode().translate(SIGNED)
    before, line_feed, _ = name.partition("\n")
    return key, f"{before}\r".encode().translate(SIGNED) + b"\xff" if line_feed else key


def check_different(path, children):
    """Refuses two children of one name, which stand side by side."""
    for (name, inode_id), (other, other_id) in zip(children, children[1:]):
        if inode_id == other_id:
            raise Inconsistent(f"{to_json(path)}: inode {inode_id} is there twice")
        if name == other:
            told = f"{to_json(path)}: two children have the name {to_json(name)}"
            raise Refused(f"{told}, or have a carriage return there") if "\n" in name else Inconsistent(told)
