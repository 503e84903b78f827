"""Records of more blocks than any line holds. Only the first of their blocks are kept, and those of another layout."""
import hashlib

from hdfs.converting.bare import old_id
from hdfs.formats import FIRST_BLOCK_ID, Refused
from hdfs.reading.dumps import Element, plain_numbers
from hdfs.reading.shapes import Shape, texts_in

# A member that a long record gets, so that two records differ if their blocks do.
SUM = "SHA256"
# The tags of a block.
BLOCK = ["BLOCK", "BLOCK_ID", None, "NUM_BYTES", None, "GENSTAMP", None, None]


class LongRecord:
    """A record that comes in pieces: the first one, and what is kept of the others."""

    def __init__(self, element):
        self.shape, self.texts = element.shape, list(element.texts)
        # What stands in DATA, without that: all members but most of the blocks.
        self.tags = list(self.shape.tags[:-1])
        self.sum = hashlib.sha256()

    def take(self, element):
        """Takes a further piece. Each of its blocks has to have an id."""
        if has_blocks_alone(element):
            self.sum.update("\0".join(element.texts).encode() + b"\n")
            return
        try:
            for child in element.get("DATA").children:
                self.take_member(child)
        except Refused as refused:
            opcode, txid = self.texts[:2]
            raise Refused(f"{opcode[:40]}, TXID {txid[:40]}: {refused}") from None

    def take_member(self, member):
        texts = member.texts[member.shape.first : member.shape.first + texts_in(member.shape)]
        self.sum.update("\0".join(texts).encode() + b"\n")
        if member.name != "BLOCK" or old_id([member]) is not None:
            self.tags += [member.name, *member.shape.tags, None]
            self.texts += texts

    def element(self):
        """The record, with the sum of what is not kept."""
        tags = [*self.tags, SUM, None, None]
        return Element(Shape(self.shape.name, tags), [*self.texts, self.sum.hexdigest()])


def has_blocks_alone(element):
    """Whether a piece has nothing but blocks of this layout, as most have it."""
    count = len(element.texts) // 3
    if element.shape.tags != ["DATA", *BLOCK * count, None]:
        return False
    ids = plain_numbers(element.texts[::3])
    return ids is not None and min(ids) >= FIRST_BLOCK_ID
