"""Reads the records of a log whose forms are known by regular expressions, one for each form.

A form is what a record that expat read has beside its texts: its opcode, its tags, and in which order they come. Blocks
that follow one another count as one. What an expression takes is what expat would read there, with the same result: texts
are plain, and those that are wanted are numbers and paths as most are. At anything else it stops, and expat goes on.
"""
import io
import re
from operator import itemgetter
from typing import NamedTuple

from hdfs.reading.dumps import Element, elements
from hdfs.reading.quick import NUMBER, PLAIN, TEXT
from hdfs.reading.stream import Repeats, parts_of, places_of_texts

# What is taken of the records of an opcode. Of every other one it is its paths, so that they are seen to be plain.
WANTED = {
    "OP_ADD": ("PATH", "REPLICATION", "ERASURE_CODING_POLICY_ID", "INODEID", "USERNAME", "GROUPNAME", "MODE", "BLOCKSIZE"),
    "OP_MKDIR": ("PATH", "INODEID", "USERNAME", "GROUPNAME", "MODE"),
    "OP_SET_REPLICATION": ("PATH", "REPLICATION"),
    "OP_ALLOCATE_BLOCK_ID": ("BLOCK_ID",),
    "OP_SET_GENSTAMP_V2": ("GENSTAMPV2",),
    "OP_RENAME": ("SRC", "DST", "OPTIONS"),
    "OP_RENAME_OLD": ("SRC", "DST"),
}
PATHS = ("PATH", "SRC", "DST", "TRG")

# A path as most are: its names are no longer than a name may be, and JSON has them as they are.
PATH = rb"((?:/(?!\.\.?[/<])[!#-%'-.0-9;=?-\[\]-~ ]{1,255})+)"
PATTERNS = {**dict.fromkeys(PATHS, PATH), "OPTIONS": rb"([A-Z_|]*)", **dict.fromkeys(("USERNAME", "GROUPNAME"), rb"(%b)" % PLAIN)}
# Where wanted texts stand.
DATA = ["RECORD", "DATA"]
STATUS = [*DATA, "PERMISSION_STATUS"]
OF_STATUS = {"USERNAME", "GROUPNAME", "MODE"}
# What is read as expat reads it, if it is asked for.
OTHERS = {"ENTRY", "XATTR"}
BLANKS = rb"[\n ]*"
OPCODE = "OP_[A-Z0-9_]+"
HEAD = re.compile(rb"[\n ]*<RECORD>[\n ]*<OPCODE>(%b)</OPCODE>" % OPCODE.encode())

BLOCK = {"BLOCK_ID", "GENSTAMP", "NUM_BYTES"}
BLOCK_TAGS = 8

# So many forms of an opcode are known, none of them with more tags.
FORMS = 8
FORM_TAGS = 200

DIGITS_ALONE = bytes(byte if byte in b"0123456789" else 32 for byte in range(256))


class Form:
    """A form of the records of an opcode."""

    def __init__(self, opcode, tags):
        self.opcode = opcode
        # The members that are passed over, and those in the groups of the expression.
        self.names = []
        self.groups = []
        # The order of what a block has, if there are blocks.
        self.block = None
        self.match = re.compile(b"".join(self.parts_of_pattern(tags))).match
        if "TXID" not in self.groups:
            raise NoForm
        # Whether there are members of which more is asked than their texts.
        self.has_others = not OTHERS.isdisjoint(self.names)
        places = [self.groups.index(name) + 1 if name in self.groups else 0 for name in ("TXID", *WANTED.get(opcode, PATHS))]
        # None stands before the groups, and is what is not there.
        self.pick = itemgetter(*places)

    def parts_of_pattern(self, tags):
        """The parts of the expression. A NoForm says that there is none."""
        yield BLANKS
        inside, at = [], 0
        while at < len(tags):
            tag = tags[at]
            if inside == DATA and not tag.startswith("/"):
                self.names.append(tag.rstrip("/"))
            if inside == DATA and tag == "BLOCK":
                yield self.blocks(tags, at)
                while tags[at : at + 1] == ["BLOCK"]:
                    at += BLOCK_TAGS
                continue
            yield b"<%b>" % re.escape(tag.encode())
            if tag.startswith("/"):
                inside.pop()
            elif not tag.endswith("/"):
                inside.append(tag)
            is_leaf = inside and tag == inside[-1] and tags[at + 1] == f"/{tag}"
            yield self.text(inside) if is_leaf else BLANKS if at + 1 < len(tags) else b""
            at += 1

    def text(self, inside):
        """What the text of an element is."""
        *above, name = inside
        if above == ["RECORD"] and name == "OPCODE":
            return self.opcode.encode()
        if above != (STATUS if name in OF_STATUS else DATA) or name not in ("TXID", *WANTED.get(self.opcode, PATHS), *PATHS):
            return TEXT
        if name in self.groups:
            raise NoForm
        self.groups.append(name)
        return PATTERNS.get(name, rb"(%b)" % NUMBER)

    def blocks(self, tags, at):
        """The expression of blocks that follow one another."""
        block = tags[at : at + BLOCK_TAGS]
        self.block = block[1:7:2]
        count = tags.count("BLOCK")
        if self.groups.count("BLOCK") or set(self.block) != BLOCK or tags[at : at + count * BLOCK_TAGS] != block * count:
            raise NoForm
        self.groups.append("BLOCK")
        members = b"".join(rb"<%b>%b</%b>[\n ]*" % (name.encode(), NUMBER, name.encode()) for name in self.block)
        return rb"((?:<BLOCK>[\n ]*%b</BLOCK>[\n ]*)*)" % members

    def blocks_in(self, text):
        """The stamp, the id and the length of each block in what the expression has of them."""
        numbers = list(map(int, text.translate(DIGITS_ALONE).split()))
        return list(zip(*(numbers[self.block.index(name) :: 3] for name in ("GENSTAMP", "BLOCK_ID", "NUM_BYTES"))))


class Record(NamedTuple):
    opcode: str
    txid: int
    data: Element
    # The name of its file.
    dump: str


class NoForm(Exception):
    """A record that has no form: one expression can't say which."""


class CommonRecord:
    """A record of a known form. It is read as expat reads it only if that is asked for."""

    __slots__ = ("opcode", "txid", "dump", "form", "values", "blocks", "text", "repeats")

    def __init__(self, form, found, dump, repeats):
        self.opcode = form.opcode
        self.form = form
        groups = found.groups()
        txid, *self.values = form.pick((None, *groups))
        self.txid = int(txid)
        self.dump = dump
        self.blocks = groups[form.groups.index("BLOCK")] if form.block else b""
        self.text = found[0]
        self.repeats = repeats

    def whole(self):
        """The record as others are."""
        return Record(self.opcode, self.txid, self.data, self.dump)

    @property
    def data(self):
        """The members of the record, as expat reads them."""
        begin = self.text.index(b"<")
        found = self.repeats.find(self.text[begin : self.text.rindex(b"<")])
        if found is None:
            file = io.BytesIO(b"<EDITS>%b</EDITS>" % self.text)
            file.name = self.dump
            return next(elements(file, "EDITS", {("RECORD",)}, len(self.text)))[1].get("DATA")
        return Element(*found).get("DATA")


class CommonRecords:
    """The forms of the records of a dump, which has this name."""

    def __init__(self, dump):
        self.dump = dump
        self.forms = {}
        self.known = set()
        self.repeats = Repeats()

    def learn(self, element, shape):
        """Takes the bytes of a record, up to its end tag, with the shape that expat found."""
        self.repeats.learn(element, shape)
        parts = parts_of(element) if len(shape.tags) <= FORM_TAGS else None
        if not parts or parts[1::2][:3] != ["RECORD", "OPCODE", "/OPCODE"] or not re.fullmatch(OPCODE, parts[4]):
            return
        if places_of_texts(parts[3::2], shape.tags) is None:
            return
        tags, key = [*parts[1::2], "/RECORD"], (parts[4], *without_repeated_blocks(parts[1::2]))
        forms = self.forms.setdefault(parts[4].encode(), [])
        if key not in self.known and len(forms) < FORMS:
            self.known.add(key)
            try:
                forms.append(Form(parts[4], tags))
            except NoForm:
                pass

    def take(self, data, at):
        """The records of known forms that stand in data from a place on, or None; and the place behind them."""
        records, forms = [], self.forms
        while True:
            head = HEAD.match(data, at)
            found = None
            for form in forms.get(head[1], ()) if head else ():
                found = form.match(data, at)
                if found is not None:
                    break
            if found is None:
                return records or None, at
            records.append(CommonRecord(form, found, self.dump, self.repeats))
            at = found.end()


def without_repeated_blocks(tags):
    """The tags with one block in place of several that follow one another."""
    kept = []
    for tag in tags:
        kept.append(tag)
        if kept[-BLOCK_TAGS:] == kept[-2 * BLOCK_TAGS : -BLOCK_TAGS] and kept[-BLOCK_TAGS] == "BLOCK":
            del kept[-BLOCK_TAGS:]
    return kept
