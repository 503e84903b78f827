"""Reads segments that `hdfs oev -p XML` printed, with one tree of the names kept in memory. Called by the hands, in one thread.

The tree is that of the last transaction that the program took: what was converted and not taken is undone.
"""
from oev import Conversion, Image, Log, Refused, Tree, records_of, start_mark, tree_of
from segments import Pieces

PROFILE = 2


class UndoneTree(Tree):
    """A tree that can go back to what it was at a mark."""

    def __init__(self):
        super().__init__()
        self.changes = []

    def keep(self):
        self.changes = []

    def undo(self, mark=0):
        """Goes back to where so many changes had been made."""
        for undo in reversed(self.changes[mark:]):
            undo()
        del self.changes[mark:]

    def put(self, path, node):
        done = super().put(path, node)
        if done:
            directory, name = self.place(path)
            self.changes.append(lambda: directory.pop(name, None))
        return done

    def remove(self, path):
        directory, name = self.place(path)
        if directory is not None and name in directory:
            node = directory[name]
            self.changes.append(lambda: directory.__setitem__(name, node))
        super().remove(path)

    def apply(self, edit):
        file = self.find_file(edit["path"]) if "path" in edit else None
        if file is not None:
            closed, blocks = file.closed, list(file.blocks)
            self.changes.append(lambda: file.__init__(closed, blocks))
        super().apply(edit)


class MarkedPieces(Pieces):
    """Pieces that note how far the tree was at the end of each."""

    def __init__(self, reached, tree):
        super().__init__(reached)
        self.tree = tree
        self.marks = []

    def end_segment(self):
        super().end_segment()
        self.marks.append((self.reached, len(self.tree.changes)))


class DumpReader:
    """Reads segments as dumps."""

    suffix = ".xml"
    # Whether each transaction has a line: many records of a cluster have none.
    has_each = False

    def __init__(self, image, skipped_opcodes, edits_of):
        self.tree = UndoneTree()
        self.skipped_opcodes = skipped_opcodes
        self.edits_of = edits_of
        # Where the tree was at the end of each piece that was read last, and at its end.
        self.marks = []
        if image is not None:
            with open(image, "rb") as file:
                self.tree.root = tree_of(Image(file)).root

    def settle(self, reached):
        """Takes the tree to what was reached: to the end of a piece that was read, or to what it was before them."""
        self.tree.undo(next((mark for place, mark in self.marks if place == reached), 0))
        self.tree.keep()
        self.marks = []

    def pieces(self, file, segment, reached):
        """The pieces that a file has behind what was reached, and where the log is behind them."""
        self.settle(reached)
        pieces = MarkedPieces(reached, self.tree)
        # What is refused in the middle leaves nothing: no place is that of its marks.
        log = Log(pieces, reached.number, PROFILE, pieces)
        conversion = Conversion(self.tree, log, self.skipped_opcodes, self.edits_of)
        conversion.begin_after(reached.txid)
        first = last = None
        for record in records_of(file):
            first, last = first or record.txid, record.txid
            conversion.take(record)
        if (first, last) != (segment.first, segment.last):
            raise Refused(f"it has TXIDs {first} to {last}")
        conversion.finish()
        if not pieces.done:
            # No record has a line. Marks show that the log went on, and are the lines that a look has promised.
            log.give(start_mark())
            log.finish()
        self.marks = [*pieces.marks, (pieces.reached, len(self.tree.changes))]
        return pieces.done, pieces.reached

