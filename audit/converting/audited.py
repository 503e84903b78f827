"""What becomes of each record in an audit, where only namespaces are compared.

Real clusters do more than a standby here can follow. Records of snapshots change no live name, and are left out. A
file whose blocks can't be held here is bare from then on. Nothing of this is for
a standby that has reports: it would order blocks to be deleted that a snapshot holds.
"""
import re
from collections import Counter

from hdfs.converting import edits
from hdfs.converting.bare import (
    FEW_BLOCKS,
    LONG,
    OLD,
    REPLICATED,
    STRIPED,
    UNKNOWN,
    is_bare,
    made_bare,
    new_bare,
    old_id,
)
from hdfs.converting.edits import path_in
from hdfs.converting.tree import File, is_directory
from hdfs.formats import (
    GREATEST_NUMBER,
    NAME_BYTES,
    PATH_BYTES,
    PATH_NAMES,
    DoesNotApply,
    Refused,
    line_of,
    to_json,
)
from hdfs.reading.dumps import Element, unescaped
from hdfs.reading.shapes import children_of

# The records of one file, with the member that names it.
OF_FILES = {
    "OP_ADD_BLOCK": "PATH",
    "OP_UPDATE_BLOCKS": "PATH",
    "OP_CLOSE": "PATH",
    "OP_APPEND": "PATH",
    "OP_SET_REPLICATION": "PATH",
    "OP_TRUNCATE": "SRC",
}

NAMES = {"PATH", "SRC", "DST", "TRG", "SOURCES"}

# What is taken of the records that are kept.
NUMBERS = {"TXID", "BLOCK", "BLOCK_ID", "ERASURE_CODING_POLICY_ID", "GENSTAMPV2", "NEWLENGTH", "REPLICATION"}
ATTRIBUTES = {"BLOCKSIZE", "ENTRY", "INODEID", "PERMISSION_STATUS", "XATTR"}
TAKEN = NAMES | NUMBERS | ATTRIBUTES | {"OPTIONS", "OVERWRITE"}

# The edits that move or remove what lies below a path.
MOVING = {"OP_DELETE", "OP_RENAME"}
NOT_KNOWN = "what moves is not known"

# A path of so few characters, all of them such, is the same in an image and for the program.
FEW_BYTES = NAME_BYTES // 4
PLAIN = re.compile(r"[^\r\\\x7f]*")

CARRIAGE_RETURN = re.compile(r"(?:\r|\\000[dD];)\n?")


class Audited:
    """Makes edits of records, and keeps what is to be said of them."""

    def __init__(self, last_gen, table, deep=(), followed=None):
        self.table = table
        # What follows inodes and their attributes, if they are compared, and the record that it follows.
        self.followed = followed
        self.record = None
        # The directories below which there may be something of too many names, which is not held.
        self.deep = set(deep)
        # Whether the table got a name of a path that is too long. Then what is made by it is of no use.
        self.has_grown = False
        # The last stamp of the image, the first that the log issues, and those that it gives before that.
        self.last_gen = last_gen
        self.first_issued = None
        self.given = set()
        # How many records have a carriage return in a name.
        self.carriage_returns = 0
        # How often each member of a record that is kept was not taken.
        self.passed = Counter()

    def edits_of(self, record, tree):
        """The edits that a record stands for. There are none where it is left out."""
        self.record = record = self.as_held(record)
        if record is None or self.has_grown:
            self.record = None
            return []
        if self.followed is not None:
            self.followed.begin(record)
        made = self.numbered(self.converted(record, tree))
        if self.deep:
            self.move_deep(made)
        self.note_stamps(record)
        if made:
            for name in record.data.shape.of(names_passed):
                self.passed[name] += 1
        return made

    def behind(self):
        """What is done once the tree has followed the record. Answers whether it sets attributes."""
        return self.followed is not None and self.record is not None and self.followed.end(self.record)

    def converted(self, record, tree):
        if record.opcode in OF_FILES:
            return of_file(record, tree)
        if record.opcode == "OP_ADD":
            return add(record, tree)
        if record.opcode == "OP_CONCAT_DELETE":
            return concat(record.data, tree)
        if record.opcode == "OP_ALLOCATE_BLOCK_ID" and record.data.string("BLOCK_ID").startswith("-"):
            return []
        return edits.edits_beside_snapshots(record, tree)

    def numbered(self, made):
        """Edits with the number that the table has for a replication."""
        for edit in made:
            if "replication" in edit:
                edit["replication"] = self.table.number(str(edit["replication"]))
        return made

    def as_held(self, record):
        """The record with the names that an image and the program have, or None where its paths have too many names."""
        shape, texts = record.data.shape, record.data.texts
        places = [place for place in shape.of(places_of_names) if self.is_otherwise(texts[place])]
        if not places:
            return record
        texts = list(texts)
        self.carriage_returns += any(CARRIAGE_RETURN.search(texts[place]) for place in places)
        for place in places:
            texts[place] = self.held(texts[place])
        deep = [text.count("/") > PATH_NAMES for text in map(texts.__getitem__, shape.of(places_of_names))]
        if any(deep) and not all(deep):
            raise Refused(f"a path of more than {PATH_NAMES:,} names, and one that is none: {NOT_KNOWN}")
        if any(deep):
            paths = [unescaped("a path", texts[place]) for place in shape.of(places_of_names)]
            self.deep.update(map(deepest, paths))
            return None
        return record._replace(data=Element(shape, texts))

    def move_deep(self, made):
        """Follows the directories below which something is not held. What comes up from there is not known."""
        for edit in made:
            source = edit.get("src", edit.get("path"))
            moved = {path for path in self.deep if edit["op"] in MOVING and f"{path}/".startswith(f"{source}/")}
            if not moved:
                continue
            self.deep -= moved
            if edit["op"] == "OP_RENAME":
                new = {edit["dst"] + path[len(source) :] for path in moved}
                if any(path.count("/") < PATH_NAMES for path in new):
                    raise Refused(f"{to_json(source)} may have paths of more than {PATH_NAMES:,} names, which come up: {NOT_KNOWN}")
                self.deep.update(map(deepest, new))

    def is_otherwise(self, text):
        """Whether a path may have other names here than in the log."""
        return bool(self.table.names) or len(text) > FEW_BYTES or not PLAIN.fullmatch(text)

    def held(self, text):
        """A path as an image and the program have it: an image has a line feed for a carriage return in a name."""
        path = self.table.short_path(unescaped("a path", CARRIAGE_RETURN.sub("\n", text)))
        if len(path) > PATH_BYTES // 4 and len(path.encode()) > PATH_BYTES and path.count("/") <= PATH_NAMES:
            self.table.shorten(path)
            self.has_grown = True
        return path.replace("\\", "\\005c;")

    def note_stamps(self, record):
        """Notes which stamps a record issues or gives to blocks, bare files' blocks among them."""
        if record.opcode == "OP_SET_GENSTAMP_V2" and self.first_issued is None:
            self.first_issued = record.data.number("GENSTAMPV2")
        for block in record.data.all("BLOCK"):
            self.note_stamp(block.number("GENSTAMP"))

    def note_stamp(self, gen):
        if gen > self.last_gen and (self.first_issued is None or gen < self.first_issued):
            self.given.add(gen)

    def issued_before(self):
        """The greatest stamp that was issued before the image, if that is above the image's last one; or else None.

        A standby may learn of a stamp only when a block comes with it, and save a lower one until then.
        """
        return max((gen for gen in self.given if self.first_issued is None or gen < self.first_issued), default=None)


def deepest(path):
    """The deepest directory that fits, of those that lead to a path."""
    return "/".join(path.split("/")[: PATH_NAMES + 1])


def names_passed(shape):
    """The names of the members that are not taken, in the shape of a record's members."""
    return [child.name for child in shape.of(children_of) if child.name not in TAKEN]


def places_of_names(shape):
    """The places of the texts that are names, in the shape of a record's members."""
    members = [child for child in shape.of(children_of) if child.name in NAMES]
    parts = [part for member in members for part in member.of(children_of) or [member]]
    return [part.first for part in parts if not part.tags]


def of_file(record, tree):
    """The edits of a record of one file."""
    path = path_in(record.data, OF_FILES[record.opcode])
    node = tree.find(path)
    # A packed file is not bare.
    kind = node.blocks.kind if isinstance(node, File) and is_bare(node) else None
    is_file = not (node is None or is_directory(node))
    old = old_id(record.data.all("BLOCK")) if kind in (None, LONG.kind) else None
    if old is not None and is_file:
        raise DoesNotApply(f"{to_json(path)} has no block of an old layout and is not striped, and is given {old}")
    if kind is not None:
        return cut_bare(path, kind) if record.opcode == "OP_TRUNCATE" else []
    if old is None:
        made = edits.edits_of(record, tree)
        if all(map(fits_a_line, made)):
            return made
    return made_bare(path, LONG.kind) if is_file else no_file(path)


def cut_bare(path, kind):
    """A truncate of a bare file: which blocks are left is not known, unless it is striped."""
    return made_bare(path, REPLICATED.kind) if kind in (OLD.kind, LONG.kind) else []


def fits_a_line(edit):
    """Whether a line has room for an edit's blocks."""
    if len(edit.get("blocks", ())) <= FEW_BLOCKS:
        return True
    try:
        line_of(edit, GREATEST_NUMBER)
    except Refused:
        return False
    return True


def add(record, tree):
    """A new file. A striped one is bare, and may have the replication 0."""
    policy = record.data.find("ERASURE_CODING_POLICY_ID")
    if policy is None or policy.value() == 0:
        return edits.edits_of(record, tree)
    path = path_in(record.data, "PATH")
    if not tree.find_file(path):
        return new_bare(path, STRIPED.kind)
    if not record.data.boolean("OVERWRITE"):
        raise Refused(f"the file {path} exists and is not overwritten: an append of old layouts")
    return made_bare(path, STRIPED.kind)


def concat(data, tree):
    """Blocks move from other files, which are deleted, to the end of a file, which is bare from then on.

    A striped file stays striped, and one of an old layout has blocks of it still.
    """
    sources, target = data.get("SOURCES"), path_in(data, "TRG")
    made = []
    for path in (path_in(sources, source.name) for source in sources.children):
        made += [{"op": "OP_DELETE", "path": path}] if tree.find_file(path) else no_file(path)
    file = tree.find_file(target)
    if file is None:
        return made + no_file(target)
    has_kept = is_bare(file) and file.blocks.kind in (STRIPED.kind, OLD.kind, REPLICATED.kind, UNKNOWN.kind)
    return made if has_kept else made + made_bare(target, REPLICATED.kind)


def no_file(path):
    """An edit of a file where there is none. The program says why not."""
    return [{"op": "OP_APPEND", "path": path}]
