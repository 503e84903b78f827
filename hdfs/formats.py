"""Paths, numbers, lines and images of this project, as docs/FORMATS.md defines them."""
import json
import re
from json.encoder import encode_basestring
from typing import NamedTuple, Optional

GREATEST_NUMBER = 2**63 - 1
LINE_BYTES = 65_536
NAME_BYTES = 255
PATH_BYTES = 8_000
PATH_NAMES = 1_000

FIRST_BLOCK_ID = 1_073_741_825
FIRST_GEN = 1_001

GREATEST_REPLICATION = 512

DIGITS = re.compile("[0-9]{1,19}")

# A path, if its characters are bytes, and if there are few enough; and a name, if its characters are bytes.
PLAIN_PATH = re.compile(rf"(?:/(?!\.\.?(?:/|\Z))[^/:]{{1,{NAME_BYTES}}})+")
PLAIN_NAME = re.compile(rf"(?!\.\.?\Z|\x7f)[^/:\\\n]{{1,{NAME_BYTES}}}")

to_json = json.JSONEncoder(ensure_ascii=False, separators=(",", ":"), sort_keys=True).encode


class Refused(Exception):
    """Something that can't be converted. The text is the reason."""


class DoesNotApply(Refused):
    """A record that can't be followed, because of what the log before it made."""


class NoBlocks(tuple):
    """The blocks of a file that is taken without them: none, and the kind of bare files that it is of.

    An image may say which it has all the same: in `read` are the stamp, the id and the length of each, one after another.
    """

    def __new__(cls, kind, read=()):
        made = super().__new__(cls)
        made.kind, made.read = kind, read
        return made


class Block(NamedTuple):
    """A block of a file, with the members that it has in a line."""

    gen: int
    id: int
    len: int


def number(text):
    """The number that a text spells in digits. A ValueError says that a line can't have it."""
    if len(text) < 19 and text.isascii() and text.isdigit():
        return int(text)
    spelled = int(text) if DIGITS.fullmatch(text) else GREATEST_NUMBER + 1
    if spelled > GREATEST_NUMBER:
        raise ValueError(f"{text[:40]!r} is not a number from 0 to {GREATEST_NUMBER}")
    return spelled


def check_name(name):
    """Refuses a name that no path may have."""
    size = len(name) if name.isascii() else len(name.encode())
    if not 1 <= size <= NAME_BYTES:
        raise Refused(f"a name of {size} bytes, where 1 to {NAME_BYTES} are allowed")
    check_characters(name)


def check_characters(name):
    """Refuses a name that no path may have, whatever its length."""
    if "/" in name or ":" in name or name in (".", ".."):
        raise Refused(f"the name {to_json(name)}, which no path may have")


def is_plain_name(text):
    """Whether a text of a dump is at once seen to be a name, without escapes and line feeds."""
    return text.isascii() and PLAIN_NAME.fullmatch(text) is not None


def check_path(path):
    """Refuses a text that is no path."""
    if path == "/" or path.isascii() and len(path) <= PATH_NAMES and PLAIN_PATH.fullmatch(path):
        return
    if not path.startswith("/"):
        raise Refused(f"the path {to_json(path)}, which does not begin with a slash")
    names = path[1:].split("/")
    if len(names) > PATH_NAMES or len(path.encode()) > PATH_BYTES:
        begin = to_json(path[:60])
        raise Refused(f"a path of more than {PATH_NAMES} names or {PATH_BYTES} bytes, which begins {begin}")
    for name in names:
        check_name(name)


def line_of(edit, txid):
    """The line of an edit, with its line feed. An edit is a dictionary of the line's members without the number."""
    if txid > GREATEST_NUMBER:
        raise Refused(f"there is no number above {GREATEST_NUMBER}")
    members = [f'"{name}":{text_of(value)}' for name, value in sorted({**edit, "txid": txid}.items())]
    line = f"{{{','.join(members)}}}".encode()
    if len(line) > LINE_BYTES:
        blocks = f": {to_json(edit['path'])} has {len(edit['blocks']):,} blocks" if "blocks" in edit else ""
        raise Refused(f"its line would have {len(line):,} bytes, and {LINE_BYTES:,} are allowed{blocks}")
    return line + b"\n"


def text_of(value):
    """The JSON of what a member of an edit may be: a number, a text or blocks."""
    if isinstance(value, str):
        return encode_basestring(value)
    return str(value) if isinstance(value, int) else f"[{blocks_text(value)}]"


def image_header(last_block, last_gen, awaiting, txid):
    """The first line of an image of profile 1. The ids that await were issued, and no file has them yet."""
    header = {"awaiting": awaiting, "image": "hdfs-standby", "last_block": last_block, "last_gen": last_gen}
    return image_line({**header, "profile": 1, "txid": txid, "version": 2})


def image_directory(path):
    return f'{{"path":{encode_basestring(path)},"type":"dir"}}\n'.encode()


def image_file(path, replication, closed, blocks):
    listed = blocks_text(blocks)
    state = "true" if closed else "false"
    members = f'"closed":{state},"path":{encode_basestring(path)},"replication":{replication},"type":"file"'
    return f'{{"blocks":[{listed}],{members}}}\n'.encode()


def blocks_text(blocks):
    return ",".join([f'{{"gen":{gen},"id":{block_id},"len":{length}}}' for gen, block_id, length in blocks])


def image_end(paths):
    return image_line({"end": paths})


def image_line(members):
    return to_json(members).encode() + b"\n"


class Row(NamedTuple):
    """What a line of an image has of a path. A directory has no blocks, None."""

    path: str
    replication: Optional[int]
    closed: bool
    blocks: Optional[list]


def row_of(members):
    if members["type"] == "dir":
        return Row(members["path"], None, True, None)
    blocks = [Block(block["gen"], block["id"], block["len"]) for block in members["blocks"]]
    return Row(members["path"], members.get("replication"), members["closed"], blocks)


class Image:
    """An image that is read line by line: first its `txid`, then its `rows`.

    It may stand behind other lines, as the program prints it: behind the first line `image`.
    """

    def __init__(self, file):
        self.file = file
        self.number = 0
        header = self.header()
        if header.get("image") != "hdfs-standby" or header.get("version") not in (1, 2):
            raise Refused("the image has no header of version 1 or 2")
        self.txid = header.get("txid")
        if type(self.txid) is not int or not 0 <= self.txid <= GREATEST_NUMBER:
            raise Refused("the image's header has no txid")

    def header(self):
        line = self.file.readline()
        if not line.startswith(b"{"):
            while line and line != b"image\n":
                line = self.file.readline()
            line = self.file.readline()
        return self.members(line)

    def members(self, line):
        """The members of the next line."""
        self.number += 1
        try:
            members = json.loads(line)
        except (ValueError, RecursionError):
            members = None
        if type(members) is not dict or not line.endswith(b"\n"):
            raise Refused(f"line {self.number} of the image is torn, or no object")
        return members

    def rows(self, check=check_path):
        """The row of each path. `check` refuses what no path may be."""
        paths = 0
        while "end" not in (members := self.members(self.file.readline())):
            paths += 1
            try:
                check(members["path"])
                yield row_of(members)
            except (KeyError, TypeError, AttributeError):
                raise Refused(f"line {self.number} of the image is no directory and no file") from None
        if members["end"] != paths:
            raise Refused(f"the image ends with another count than its {paths} paths")
