"""The log between two images, as lines that the program reads."""
import contextlib
import json
import os
from itertools import chain

from audit.converting.audited import TAKEN, Audited
from audit.converting.inode_ids import Followed
from audit.converting.shortways import ShortWays
from audit.converting.table import Grew
from hdfs.converting.bare import bare_paths
from hdfs.converting.conversion import Conversion
from hdfs.converting.log import Log, Map, Whole, pairs_in
from hdfs.formats import DoesNotApply, Refused
from hdfs.reading.overlap import merged
from hdfs.reading.places import taken

# The program holds a segment until it has ended.
SEGMENT_BYTES = 4_000_000


class Converted:
    """The lines, in a file, with what is to be said of them."""

    def __init__(self, start, until, files, folder, table, opened):
        self.name = os.path.join(folder, "lines")
        self.map = os.path.join(folder, "map")
        header = start.header()
        self.tree = tree = start.tree()
        self.followed = Followed(tree, start.sets, start.blocks_of_bare(tree)) if start.sets else None
        self.edits = Audited(header["last_gen"], table, start.deep, self.followed)
        # How the log can't be followed, or None.
        self.fault = None
        with open(self.name, "wb") as lines, open(self.map, "w") as numbers:
            # The program's number of a transaction is not its TXID, once the log has been followed.
            log = Log(Whole(lines, SEGMENT_BYTES), header["txid"], 2, Map(numbers))
            ways = ShortWays(self.edits)
            conversion = Conversion(tree, log, (), self.edits.edits_of, ways.take, self.edits.behind)
            conversion.begin_after(start.link.txid)
            try:
                take(conversion, files, until, opened)
            except DoesNotApply as found:
                self.fault = table.in_words(str(found))
        if self.edits.has_grown:
            raise Grew
        self.bare = bare_paths(tree)
        # The blocks of those that are known, one number after another.
        known = {path: self.followed.blocks_of(tree.find(path)) for path in self.bare} if self.followed else {}
        self.blocks = {path: list(chain.from_iterable(blocks)) for path, blocks in known.items() if blocks is not None}
        self.edits.passed += ways.passed(TAKEN)
        self.left_out = conversion.left_out

    def txid_of(self, fault):
        """The cluster's TXID of what a fault is about: a transaction, or the first one of a segment."""
        number = fault.txid or self.number_of(fault.segment)
        return next((txid for txid, new in pairs_in(self.map) if new == str(number)), "unknown")

    def number_of(self, segment):
        """The number of the first line of a segment. Segments are counted from 1, by their end marks."""
        ended = 0
        with open(self.name, "rb") as lines:
            for line in lines:
                if ended == segment - 1:
                    return json.loads(line)["txid"]
                ended += json.loads(line)["op"] == "OP_END_LOG_SEGMENT"
        return None


def take(conversion, files, until, opened):
    """Converts the records up to a TXID, which the log has to reach."""
    with contextlib.closing(merged(files, opened, is_quick=Conversion.is_quick)) as records:
        for record in records:
            if record.txid > until:
                break
            taken(conversion, record)
    conversion.finish()
    if conversion.last < until:
        raise Refused(f"the log ends at TXID {conversion.last}, and the second image is of TXID {until}")
