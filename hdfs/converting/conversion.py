"""Converts the records of a log, one after another. The tree of the names goes along, and the lines go to a log."""
from collections import Counter

from hdfs.converting.edits import edits_of, start_mark
from hdfs.formats import Refused
from hdfs.reading.dumps import check_layout, elements, is_same
from hdfs.reading.forms import CommonRecord, CommonRecords, Record
from hdfs.reading.longrecords import LongRecord
from hdfs.reading.stream import COMMON, MORE, PIECE_TEXTS

# What HDFS allows for a record, enough for a file of 1,048,576 blocks. One of so many is read in pieces.
RECORD_BYTES = 134_217_728

LAYOUT = ("EDITS_VERSION",)
RECORD = ("RECORD",)
MORE_OF_RECORD = ("RECORD", MORE)
COMMON_RECORDS = ("RECORD", COMMON)


class Conversion:
    """Takes records one after another. A transaction has a TXID in the dumps and a number in the lines."""

    # Whether records of common forms are read by regular expressions, and not by expat, where a short way takes them.
    is_quick = True

    def __init__(self, tree, log, skipped_opcodes, edits_of=edits_of, take_common=None, behind=None):
        self.tree = tree
        self.edits_of = edits_of
        # What is done once the tree has followed a record. It answers whether that was more than its edits say.
        self.behind = behind
        # What does at once what becomes of a record of a common form, and answers whether it did.
        self.take_common = take_common
        self.log = log
        self.skipped_opcodes = skipped_opcodes
        # The TXID that the first record has to have, if any, and what helps where it has another.
        self.first = None
        self.advice = ""
        # The TXID that the log has to reach, if any.
        self.reaches = None
        # The last record of the dumps, and the last TXID that was taken. Both are None before the first.
        self.previous = None
        self.last = None
        # Whether the next record may lie in the middle of a segment.
        self.may_be_inside = False
        self.kept = Counter()
        self.left_out = Counter()
        self.skipped = Counter()
        self.passed_over = 0

    def begin_at(self, txid, advice):
        self.first = txid
        self.advice = advice

    def begin_after(self, txid):
        self.reaches = txid
        self.last = txid
        self.may_be_inside = True

    def take(self, record):
        """Takes the next record of the dumps. Those of one TXID come one after another."""
        if self.previous is not None:
            check_order(self.previous, record)
        self.previous = record
        if self.last is None and self.first not in (None, record.txid):
            raise Refused(f"the log begins at TXID {record.txid}, and TXID {self.first} is next: {self.advice}")
        if self.last is not None and record.txid <= self.last:
            self.passed_over += 1
            return
        if self.last is not None and record.txid > self.last + 1:
            raise Refused(f"{record.opcode}, TXID {record.txid}: a gap, since TXID {self.last + 1} is next")
        self.last = record.txid
        try:
            self.convert(record)
        except Refused as refused:
            if record.opcode not in self.skipped_opcodes:
                raise type(refused)(f"{record.opcode}, TXID {record.txid}: {refused}") from None
            self.log.leave_out(record.txid)
            self.skipped[record.opcode] += 1

    def convert(self, record):
        if isinstance(record, CommonRecord):
            if not self.may_be_inside and self.take_common(self, record):
                return
            record = record.whole()
        edits = self.edits_of(record, self.tree)
        if not edits:
            self.log.leave_out(record.txid)
            is_taken = self.behind is not None and self.behind()
            (self.kept if is_taken else self.left_out)[record.opcode] += 1
            return
        if self.may_be_inside and edits != start_mark():
            self.log.give(start_mark())
        self.may_be_inside = False
        self.log.write(edits, record.txid)
        for edit in edits:
            self.tree.apply(edit)
        if self.behind is not None:
            self.behind()
        self.kept[record.opcode] += 1

    def finish(self):
        """Ends the log, and answers the lines of the summary."""
        if self.reaches is not None:
            self.check_end(self.reaches)
        ends_inside = self.log.finish()
        summary = [
            counted("records kept", self.kept),
            counted("records left out", self.left_out),
            counted("records skipped, at your own risk", self.skipped),
            f"records passed over, up to a TXID that was taken: {self.passed_over:,}",
            counted("marks given that no record stands for", self.log.given),
            f"last TXID {self.last or 0}, last number {self.log.number}",
        ]
        return summary + ["the dump ends inside a segment, which was given an end mark"] * ends_inside

    def check_end(self, txid):
        """Refuses a log that ends before a TXID: nothing is known of what lies between."""
        if self.previous is None:
            raise Refused(f"the log has no record, and is to go on behind TXID {txid}")
        if self.previous.txid < txid:
            raise Refused(f"the log ends at TXID {self.previous.txid}, and is to go on behind TXID {txid}")


def check_order(previous, record):
    """Refuses a record that goes back, and one that is another than the one before it at the same TXID."""
    if record.txid < previous.txid:
        raise Refused(f"{record.dump}: {record.opcode}, TXID {record.txid}, comes behind TXID {previous.txid}")
    if record.txid == previous.txid and not is_repeated(previous, record):
        one, other = f"{previous.opcode} in {previous.dump}", f"{record.opcode} in {record.dump}"
        raise Refused(f"TXID {record.txid} is two records that differ: {one}, {other}")


def is_repeated(previous, record):
    return previous.opcode == record.opcode and is_same(previous.data, record.data)


def counted(title, counter):
    """The line of the summary about what was counted by opcode."""
    opcodes = ", ".join(f"{opcode} {count:,}" for opcode, count in sorted(counter.items()))
    return f"{title}: {sum(counter.values()):,}" + (f" ({opcodes})" if opcodes else "")


def records_of(file, is_quick=False):
    """The records of a dump, in its order. A quick reader takes those of common forms by themselves."""
    has_layout, held = False, None
    quick = {RECORD: CommonRecords(file.name)} if is_quick else {}
    for place, element in elements(file, "EDITS", {LAYOUT, RECORD}, RECORD_BYTES, pieces={RECORD: 1}, quick=quick):
        if place == MORE_OF_RECORD:
            held.take(element)
            continue
        if held is not None:
            yield record_of(file, held.element())
            held = None
        if place == LAYOUT:
            check_layout_of(file, element)
            has_layout = True
        elif not has_layout:
            break
        elif place == COMMON_RECORDS:
            yield from element
        elif len(element.texts) < PIECE_TEXTS:
            yield record_of(file, element)
        else:
            held = LongRecord(element)
    if not has_layout:
        raise Refused(f"{file.name}: no EDITS_VERSION before its first RECORD")
    if held is not None:
        yield record_of(file, held.element())


def check_layout_of(file, element):
    try:
        check_layout(element)
    except Refused as refused:
        raise Refused(f"{file.name}: {refused}") from None


def record_of(file, element):
    opcode = element.string("OPCODE")
    try:
        data = element.get("DATA")
        return Record(opcode, data.number("TXID"), data, file.name)
    except Refused as refused:
        raise Refused(f"{file.name}: {opcode} without a TXID: {refused}") from None
