"""Compares the inodes that a log makes of an image with those of a second image: where each is, and its attributes.

Inodes that no record named are compared by sums, all others one by one. What differs is told by paths: names, kinds and
blocks are compared by what the program prints, so a path that only one of the images has is told there.
"""
from array import array
from collections import Counter
from itertools import zip_longest
from operator import itemgetter

from audit.converting.attributes import UNKNOWN, XATTR, differing, differing_strictly
from audit.converting.inode_ids import Made, inode_of
from audit.reading.inode_table import Entry, InodeTable, path_by
from audit.reading.listed import Listed
from hdfs.converting.bare import is_bare
from hdfs.converting.tree import File, is_directory
from hdfs.formats import PATH_NAMES, to_json
from hdfs.reading.inodes import DIRECTORY, NONE


class Ours:
    """The inodes that the log makes of an image."""

    def __init__(self, followed, table):
        self.followed = followed
        self.tree = followed.tree
        self.image = self.tree.root.image
        self.inodes = self.image.inodes
        self.table = table
        self.all = InodeTable(self.image, followed.sets, self.full_in_row)
        # The entry of each id that the log named, or None of one that is gone; and what inode it is here.
        self.named = {}
        self.inode_at = {}
        # The blocks of the bare files, by their ids, or None where they are not known.
        self.bare = {}
        # The rows of the image that stand nowhere any more.
        self.gone_rows = set()

    def full(self, name):
        """The bytes of the cluster's name for one of the program."""
        return self.table.full_name(name).encode()

    def full_in_row(self, name):
        """The same for the bytes of one in a row, where an image that a chain keeps has the program's names."""
        return self.full(name.decode()) if self.image.has_names_of_program else name

    def look(self, ids_at):
        """Finds what the log named. `ids_at` answers the ids of the paths of the second image."""
        self.number_made(ids_at)
        placed, displaced = {}, []
        for _, directory, name, node in self.changes():
            row = self.image.row_of(directory.row, name) if isinstance(directory, Listed) else NONE
            inode = None if node is None else inode_of(node)
            if row not in (NONE, inode):
                displaced.append(row)
            if inode is not None:
                placed[inode] = self.id_of(directory), self.full(name)
            if isinstance(node, File) and is_bare(node) and inode is not None:
                self.bare[self.followed.id_of(inode)] = self.followed.blocks_of(node)
        self.gone_rows = self.gone(displaced, placed)
        for row in self.gone_rows:
            self.name(row, None)
        for row in self.followed.changed.keys() - placed.keys():
            self.name(row, self.entry(row))
        for inode, place in placed.items():
            if isinstance(inode, Made):
                self.named[inode.id] = Entry(inode.id, *place, self.followed.attributes_in(inode))
                self.inode_at[inode.id] = inode
            else:
                self.name(inode, self.entry(inode)._replace(directory=place[0], name=place[1]))

    def name(self, row, entry):
        """Takes what became of a row. One that is gone stays so."""
        if self.all.is_live[row]:
            self.all.leave_out([row])
            self.named[self.inodes.ids[row]] = entry
            self.inode_at[self.inodes.ids[row]] = row

    def entry(self, row):
        return self.all.entry(row)._replace(attributes=self.followed.attributes_in(row))

    def changes(self):
        """What directories have otherwise than an image: the path, the directory, a name, and what has it, or None."""
        ahead = [("", self.tree.root)]
        while ahead:
            above, directory = ahead.pop()
            for name, node in dict.items(directory):
                path = f"{above}/{name}"
                yield path, directory, name, node
                if is_directory(node):
                    ahead.append((path, node))

    def number_made(self, ids_at):
        """Takes the ids that the second image has for what records without ids made."""
        made = ((path, None if node is None else inode_of(node)) for path, _, _, node in self.changes())
        unnumbered = {path: inode for path, inode in made if isinstance(inode, Made) and inode.id is None}
        for inode, found in zip(unnumbered.values(), ids_at(list(unnumbered)) if unnumbered else ()):
            inode.id = found

    def gone(self, displaced, placed):
        """The rows that stand nowhere any more, by those that do not stand where they stood, and where others stand."""
        ahead, found = list(displaced), set()
        while ahead:
            row = ahead.pop()
            if row not in placed and row not in found:
                found.add(row)
                ahead += self.image.all_below(row)
        return found

    def id_of(self, directory):
        return self.inodes.ids[directory.row] if isinstance(directory, Listed) else directory.inode.id

    def by_path(self, entries):
        """Entries by their paths, if they have some."""
        paths = (path_by(self.entry_of, entry.id) for entry in entries)
        return {path: entry for path, entry in zip(paths, entries) if path is not None}

    def entry_of(self, inode_id):
        """The entry of an id, or None."""
        if inode_id in self.named:
            return self.named[inode_id]
        row = self.inodes.rows_of([inode_id])[0]
        return None if row == NONE else self.entry(row)

    # ---- What a chain keeps.

    def learn(self, one, other):
        """Takes what no record tells of an inode from the other image. Answers whether there was something."""
        unknown = {key for key, value in one.attributes.items() if value is UNKNOWN}
        if not unknown:
            return False
        known = {key: value for key, value in one.attributes.items() if key not in unknown}
        for key, value in other.attributes.items():
            if key in unknown or XATTR in unknown and key.startswith(XATTR):
                known.setdefault(key, value)
        self.followed.give(self.inode_at[one.id], known)
        return True

    def columns(self):
        """The ids of all inodes in path order, and the numbers of their sets. The root comes first."""
        ids, numbers = array("q"), array("I")
        for _, node in in_path_order(self.tree, self.table):
            inode = inode_of(node)
            ids.append(self.followed.id_of(inode))
            numbers.append(self.followed.set_of(inode))
        return ids, numbers


def in_path_order(tree, table):
    """The paths of the program with what has them, in the order in which it prints them, the root before all."""
    image, ahead = tree.root.image, [("", tree.root)]
    while ahead:
        path, node = ahead.pop()
        yield path, node
        if path.count("/") < PATH_NAMES and (is_directory(node) or isinstance(node, int) and image.inodes.kinds[node] == DIRECTORY):
            below = sorted(((name.encode(), name, child) for name, child in names_below(node, image, table)), reverse=True, key=itemgetter(0))
            ahead += [(f"{path}/{name}", child) for _, name, child in below]


def names_below(node, image, table):
    """What a directory has, each with the program's name."""
    own = dict(dict.items(node)) if is_directory(node) else {}
    row = node.row if isinstance(node, Listed) else node if isinstance(node, int) else NONE
    for child in image.all_below(row) if row != NONE else ():
        name = image.inodes.name(child).decode()
        name = table.full_name(name) if image.has_names_of_program else name
        name = table.names.get(name, name)
        if name not in own:
            yield name, child
    yield from ((name, child) for name, child in own.items() if child is not None)


class InodesCompared:
    """What was found of the inodes of both. What no record tells is taken from the second image where it is to be kept."""

    def __init__(self, ours, second, is_kept, is_strict):
        self.ours = ours
        self.second = second
        self.differing_in = differing_strictly if is_strict else differing
        # What differs, as pairs of entries, the ids of bare files with both lists of blocks, and what no record tells, by kind.
        self.differing, self.other_blocks = [], []
        self.open_keys = Counter()
        # Of how many inodes something was taken on trust.
        self.trusted = 0
        ours.look(second.ids_at)
        # How many inodes are in the second image.
        theirs, sums, self.count, blocks = second.inodes(list(ours.named), list(ours.bare))
        for (inode_id, mine), found in zip(ours.bare.items(), blocks):
            if None not in (mine, found) and mine != found:
                self.other_blocks.append((inode_id, mine, found))
        for one, other in zip(list(ours.named.values()), theirs):
            self.take(one, other)
            if is_kept and one and other:
                self.trusted += ours.learn(one, other)
        self.compare_sums(sums)

    def compare_sums(self, theirs):
        buckets = {at for at, pair in enumerate(zip(self.ours.all.sums(), theirs)) if pair[0] != pair[1]}
        if buckets:
            ones, others = self.ours.all.of_buckets(buckets), self.second.of_buckets(buckets)
            for inode_id in sorted(ones.keys() | others.keys()):
                # What is the same in all was not looked at.
                if ones.get(inode_id) != others.get(inode_id):
                    self.take(ones.get(inode_id), others.get(inode_id))

    def take(self, one, other):
        """Compares two entries of one id, of which one may be None."""
        if one is None and other is None:
            return
        if one and other and one[:3] == other[:3] and not list(self.differing_in(one.attributes, other.attributes, self.open_keys)):
            return
        self.differing.append((one, other))

    def placed_otherwise(self):
        """What the images have in different places, or one of them alone: pairs of entries."""
        return [(one, other) for one, other in self.differing if not (one and other and one[:3] == other[:3])]

    def tell(self, differences):
        """Tells what differs, but below a path of too many names, where records are left out."""
        ones = self.ours.by_path([one for one, _ in self.differing if one])
        others = self.second.by_path([other for _, other in self.differing if other]) if self.differing else {}
        self.tell_blocks(differences)
        deep = {entry.id for entries in (ones, others) for path, entry in entries.items() if path.count("/") > PATH_NAMES}
        ones, others = (without(deep, entries) for entries in (ones, others))
        for path in sorted(ones.keys() & others.keys()):
            one, other = ones[path], others[path]
            if one.id != other.id:
                differences.tell("inode", to_json(path), one.id, other.id)
            for key, mine, theirs in self.differing_in(one.attributes, other.attributes, Counter()):
                differences.tell("attribute", to_json(path), to_json(key), to_json(mine), to_json(theirs))
        # What else differs is told with the paths.
        for path in sorted(ones.keys() | others.keys()) if not differences.count else ():
            differences.tell("inode", to_json(path), *(where[path].id if path in where else "-" for where in (ones, others)))

    def tell_blocks(self, differences):
        """Tells which blocks of bare files differ."""
        for inode_id, ours, theirs in self.other_blocks:
            path = to_json(path_by(self.ours.entry_of, inode_id))
            for place, pair in enumerate(zip_longest(ours, theirs)):
                if pair[0] != pair[1]:
                    differences.tell("block", path, place, *("-" if block is None else f"{block[1]}:{block[0]}:{block[2]}" for block in pair))

    def unknown_blocks(self):
        """Of how many bare files the blocks are not known."""
        return sum(blocks is None for blocks in self.ours.bare.values())


def without(ids, entries):
    return {path: entry for path, entry in entries.items() if entry.id not in ids}
