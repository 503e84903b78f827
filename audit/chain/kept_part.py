"""The part of the image that a chain keeps, which a log is about, and the rest, which is compared by sums.

Of each file of the rest it is kept where its line is. So the next state has all of them again, below the directories as
they are then.
"""
import json
from array import array
from json.encoder import encode_basestring

from audit.chain.kept import KINDS, LINE, Kept, groups_of
from audit.chain.starts import KeptImage, tree_over
from audit.comparing.inodes_compared import names_below
from audit.comparing.order import Place
from audit.comparing.rest import Attributes, Sums, digest_of
from audit.converting.inode_ids import inode_of
from audit.converting.table import MARK
from audit.reading.listed import Listed
from hdfs.converting.bare import OLD, STRIPED
from hdfs.converting.tree import is_directory
from hdfs.formats import PATH_NAMES, Refused, image_end, image_file, image_line, row_of
from hdfs.reading.inodes import BARE, DIRECTORY, NONE
from hdfs.reading.many_blocks import ManyBlocks
from hdfs.reading.quick import Columns
from hdfs.reading.walk import SIGNED

# The kinds of bare files that an image shows. One of another kind is in the part, by its name.
SHOWN = {STRIPED.kind, OLD.kind}
# What a bare file has in place of a replication.
NO_REPLICATION = -1
PATH_BEGINS, PATH_ENDS = b'"path":"', b'","replication":'
WINDOW_BYTES = 1 << 20


def names_of_told(link, table):
    """The names of the bare files of a link of which an image does not show that they are."""
    return {table.full_name(path.rpartition("/")[2]).encode() for path, kind in link.bare.items() if kind not in SHOWN}


class PartOfKept(KeptImage):
    """The part of the image that a chain keeps."""

    def __init__(self, link, name, place, table, part):
        super().__init__(link, name, place, table)
        if self.sets is None or self.has_grown():
            raise Refused("the state has no inodes, or its names grew")
        # The rest lies beside the part.
        self.dump = self.rest = KeptPart(self, part)
        if self.dump.deep:
            raise Refused("a path may have too many names")

    def give(self, write, last_gen):
        if self.has_grown():
            raise Refused("the table of names grew")
        header = self.header()
        header["last_gen"] = max(last_gen, header["last_gen"])
        write(image_line(header))
        for line in self.dump.lines:
            write(line)
        write(image_end(len(self.dump.lines)))

    def tree(self):
        bare = {path: kind for path, kind in self.link.bare.items() if path in self.dump.bare_in_part}
        return tree_over(self.dump, self.link._replace(bare=bare))

    def blocks_of_bare(self, tree):
        blocks = {path: numbers for path, numbers in self.link.blocks.items() if path in self.dump.bare_in_part}
        return {tree.find(path).inode: tuple(zip(*[iter(numbers)] * 3)) for path, numbers in blocks.items()}


class KeptPart(Kept):
    """The part in arrays. Of the rest: sums, and of each file its id, the number of its set, and where its line is."""

    def __init__(self, start, part):
        self.link = start.link
        self.table = start.table
        self.part = part
        # The lines of the part, and the paths of its bare files.
        self.lines, self.bare_in_part = [], set()
        self.sums, self.attributes = Sums(), Attributes(start.sets)
        words = start.table.words.items()
        self.replication_of = {number: int(word) if word.isdigit() else NO_REPLICATION for number, word in words}
        self.ids, self.sets, self.offsets = array("q"), array("I"), array("q")
        # The first words of the sums of these files, and whether each row is of a directory that is gone.
        self.words, self.is_gone = array("I"), ()
        # Of each row the last file of the rest before it in its directory, or NONE. The root is in none.
        self.before = array("i", [NONE])
        # Which files of the rest are in each directory, by its row, in the order of their lines.
        self.rest_in = {}
        self.odd = set()
        self.all_ids, self.all_sets = start.columns()
        self.taken = 1
        self.name_of_file = start.name
        with start.open() as file:
            file.readline()
            self.offset = file.tell()
            super().__init__(file, start.name_in_file)
        self.inodes.ids[0], self.inodes.sets[0] = self.all_ids[0], self.all_sets[0]
        self.all_ids = self.all_sets = None
        self.count_at = [len(self.rest_in.get(row, ())) for row in range(len(self.inodes))]

    def count_in(self, row):
        return super().count_in(row) + self.count_at[row]

    # ---- Reading.

    def take(self, rows, lines):
        if not rows:
            return
        *numbers, more, closed, paths, names, replications = zip(*rows)
        kinds = bytes(map(KINDS.__getitem__, closed))
        full = names if not self.link.names else list(map(self.full, names))
        ids, sets = (column[self.taken : self.taken + len(rows)] for column in (self.all_ids, self.all_sets))
        self.taken += len(rows)
        columns = Columns(ids, full, kinds, array("q", [int(number or 0) for number in replications]), ManyBlocks(numbers, more), None)
        mine = self.part.marks_of_rest(columns)
        self.place(rows, mine, kinds, full, lines.split(b"\n"), ids, sets)
        self.add_part(columns, names, sets, [at for at, is_mine in enumerate(mine) if not is_mine])
        self.add_rest(columns, paths, names, sets, mine)

    def full(self, name):
        """The bytes of the cluster's name for those of one in a line."""
        return self.table.full_name(name.decode()).encode() if name.startswith(MARK.encode()) else name

    def place(self, rows, mine, kinds, full, lines, ids, sets):
        """Notes in which directory each path lies, and what its line is."""
        row = len(self.inodes)
        for at, is_mine in enumerate(mine):
            path, name = rows[at][8:10]
            if path != self.above[-1][0]:
                self.go_to(path)
            directory = self.above[-1][1]
            if not name.isascii() or b"\n" in name or name.startswith(MARK.encode()):
                self.odd.add(directory)
            if is_mine:
                self.rest_in.setdefault(directory, array("i")).append(len(self.ids))
                self.ids.append(ids[at])
                self.sets.append(sets[at])
                self.offsets.append(self.offset)
            else:
                self.above[-1][2].append(row)
                self.before.append(self.rest_in[directory][-1] if directory in self.rest_in else NONE)
                self.lines.append(lines[at] + b"\n")
                if kinds[at] == DIRECTORY:
                    self.last = b"%b/%b" % (path, name), row
                    if len(self.above) == PATH_NAMES:
                        self.deep.append(self.last[0].decode())
                row += 1
            self.offset += len(lines[at]) + 1

    def add_part(self, columns, names, sets, kept):
        """The names in its arrays are those in the lines."""
        if kept:
            self.inodes.add_columns(columns._replace(names=names).picked(kept), array("I", map(sets.__getitem__, kept)))

    def add_rest(self, columns, paths, names, sets, mine):
        """Sums what is of the rest, and notes which bare files are in the part."""
        replications = [self.replication_of.get(number, number) for number in columns.replications]
        plain = [is_mine and replication != NO_REPLICATION for is_mine, replication in zip(mine, replications)]
        words = self.sums.take_columns(columns._replace(replications=replications), self.attributes.of(sets), plain)
        if not self.link.bare:
            self.words.extend(words)
            return
        words = iter(words)
        for at in range(len(mine)):
            path = f"{paths[at].decode()}/{names[at].decode()}"
            if path in self.link.bare and not mine[at]:
                self.bare_in_part.add(path)
            elif plain[at]:
                self.words.append(next(words))
            elif mine[at]:
                inode = columns.ids[at], columns.names[at], BARE, 0
                self.words.append(self.sums.take(inode, self.blocks_of(path), *self.attributes.of([sets[at]]), self.link.bare[path]))

    def blocks_of(self, path):
        if path not in self.link.blocks:
            raise Refused("nobody knows the blocks of a bare file")
        return self.link.blocks[path]

    # ---- What is left of the rest.

    def sums_of_rest(self, is_gone, _opened):
        """The sums of the rest, but for what is in directories that are gone, by the rows of these."""
        self.is_gone = is_gone
        sums, reader = Sums(*self.sums.members()), self.reader()
        for row, places in self.rest_in.items():
            for place in places if is_gone[row] else ():
                sums.take_away(self.sums_of_line(reader.line(self.offsets[place]), place))
        sums.add(b"".join([digest for _, digest in self.listed()]))
        return sums.members()

    def files(self):
        """Of each file that is not gone: its id, the first word of its sum, and the id of its directory."""
        for row, places in self.rest_in.items():
            if not self.is_gone[row]:
                yield from ((self.ids[place], self.words[place], self.inodes.ids[row]) for place in places)

    def listed(self):
        """The id of each directory that has such files, and the sum of its list."""
        reader = self.reader()
        for row, places in self.rest_in.items():
            if not self.is_gone[row]:
                numbers = array("q", [self.inodes.ids[row], *(self.ids[place] for place in self.in_order_of_image(row, places, reader))])
                yield self.inodes.ids[row], digest_of(numbers.tobytes())

    def places_left(self):
        """Where others stand among such files. The file behind them is not said."""
        reader = self.reader()
        for row, places in self.rest_in.items():
            if not self.is_gone[row]:
                children = self.rows_in(row)
                befores = [self.before[child] for child in children] if row not in self.odd else self.befores_by_names(places, children, reader)
                for child, before in zip(children, befores):
                    yield Place(self.inodes.ids[child], NONE if before == NONE else self.ids[before], NONE)

    def befores_by_names(self, places, children, reader):
        """The last file of the rest before each of these rows, in the order of an image."""
        files = [(self.key_in(name_in(reader.line(self.offsets[place]))), place) for place in places]
        keys = [self.key_in(self.inodes.name(child)) for child in children]
        return [max((file for file in files if file[0] < key), default=(None, NONE))[1] for key in keys]

    def key_in(self, name):
        """What the order of an image goes by, for a name in a line."""
        return self.full(name).translate(SIGNED)

    def in_order_of_image(self, row, places, reader):
        """The files of a directory in the order in which an image lists them."""
        if row not in self.odd:
            return places
        return sorted(places, key=lambda place: self.key_in(name_in(reader.line(self.offsets[place]))))

    def sums_of_line(self, line, place):
        """The sums of one file."""
        sums, found = Sums(), LINE.fullmatch(line)
        *numbers, more, closed, path, name, replication = found.groups() if found else groups_of(line)
        blocks, _ = ManyBlocks([[number] for number in numbers], [more]).arrays
        attributes, told = list(self.attributes.of([self.sets[place]])), self.replication_of.get(int(replication), int(replication))
        inode = self.ids[place], self.full(name)
        if told == NO_REPLICATION:
            path = f"{path.decode()}/{name.decode()}"
            sums.take((*inode, BARE, 0), self.blocks_of(path), *attributes, self.link.bare[path])
        else:
            sums.take((*inode, KINDS[closed], told), blocks, *attributes, "")
        return sums

    def reader(self):
        return LinesAt(self.name_of_file)


class LinesAt:
    """Reads lines of a file by their places. Most of them stand one behind the other."""

    def __init__(self, name):
        self.file = open(name, "rb")
        self.begin, self.window = 0, b""

    def line(self, place):
        at = place - self.begin
        end = self.window.find(b"\n", at) if 0 <= at < len(self.window) else -1
        size = WINDOW_BYTES
        while end < 0:
            self.file.seek(place)
            self.begin, self.window, at = place, self.file.read(size), 0
            end = self.window.find(b"\n")
            if end < 0 and len(self.window) < size:
                raise Refused("the state ends in a line")
            size *= 2
        return self.window[at : end + 1]


def name_in(line):
    """The bytes of the name in a line, as the program has it."""
    found = LINE.fullmatch(line)
    return found[10] if found else groups_of(line)[9]


class NextState:
    """The lines of the next state: those that the program printed of the part, and those of the rest."""

    def __init__(self, ours, start):
        self.followed = ours.followed
        self.tree = ours.tree
        self.table = ours.table
        self.kept = start.dump
        self.link = start.link
        self.reader = self.kept.reader()
        self.ids, self.sets = array("q"), array("I")
        # The bare files of the rest, by their new paths, and their blocks.
        self.bare, self.blocks = {}, {}

    def lines(self, part):
        """All lines in path order. `part` has those of the part in that order."""
        self.take(self.followed.id_of(inode_of(self.tree.root)), self.followed.set_of(inode_of(self.tree.root)))
        ahead = self.below("", self.tree.root)
        while ahead:
            path, node, place = ahead.pop()
            if place is not None:
                yield self.line(path, place)
                continue
            inode = inode_of(node)
            self.take(self.followed.id_of(inode), self.followed.set_of(inode))
            yield next(part)
            if is_directory(node) or isinstance(node, int) and self.kept.inodes.kinds[node] == DIRECTORY:
                ahead += self.below(path, node)

    def take(self, inode_id, number):
        self.ids.append(inode_id)
        self.sets.append(number)

    def below(self, path, node):
        """What a directory has, the last one first: of each its path, and its node or the place of a file of the rest."""
        row = node.row if isinstance(node, Listed) else node if isinstance(node, int) else NONE
        found = [(name.encode(), child, None) for name, child in names_below(node, self.kept, self.table)]
        for place in self.kept.rest_in.get(row, ()):
            found.append((name_in(self.reader.line(self.kept.offsets[place])), None, place))
        found.sort(key=lambda child: child[0], reverse=True)
        return [(f"{path}/{name.decode()}", child, place) for name, child, place in found]

    def line(self, path, place):
        """The line of a file of the rest, whose directory may have another path now."""
        self.take(self.kept.ids[place], self.kept.sets[place])
        line = self.reader.line(self.kept.offsets[place])
        before, moved = path_in(line), line
        if before != path:
            moved = with_path(line, path)
        if before in self.link.bare:
            self.bare[path], self.blocks[path] = self.link.bare[before], self.link.blocks[before]
        return moved


def path_in(line):
    """The path in the line of a file."""
    return json.loads(line)["path"] if b"\\" in line else line[slice(*ends_of_path(line))].decode()


def with_path(line, path):
    """The line of a file at another path."""
    if b"\\" in line:
        return image_file(path, *row_of(json.loads(line))[1:])
    begin, end = ends_of_path(line)
    return b"%b%b%b" % (line[: begin - 1], encode_basestring(path).encode(), line[end + 1 :])


def ends_of_path(line):
    """Where a path without escapes begins and ends in the line of a file."""
    return line.index(PATH_BEGINS) + len(PATH_BEGINS), line.index(PATH_ENDS)
