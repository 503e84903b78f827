"""The namespace that replicas are judged by: an image and a log, as the program is given them before any report."""
import os
import subprocess

from audit.converting.table import Exact
from audit.reading.checkpoint import Checkpoint, low_number, with_name, write_image
from hdfs.converting.bare import is_bare
from hdfs.converting.fsimage import blocks_in
from hdfs.converting.log import pairs_in, parts_in, words_for_parts
from hdfs.finding import path_of_command
from hdfs.formats import FIRST_BLOCK_ID, Refused


class Held(Checkpoint):
    """An image of a real cluster, as it is. Bare files have no blocks here, and nothing is said of the replicas of theirs."""

    def __init__(self):
        super().__init__(Exact())
        self.bare_blocks = set()

    def file_with_blocks(self, inode):
        file = super().file_with_blocks(inode)
        if is_bare(file):
            ids = (int(block.get("id").text) for block in blocks_in(inode))
            self.bare_blocks.update(block_id for block_id in ids if block_id >= FIRST_BLOCK_ID)
        return file


class Namespace:
    """An image, if there is one, and the parts of the log behind it. All files are in a folder."""

    def __init__(self, options, folder):
        self.image = None
        # The TXID that the dumps reach, and the number of the last line. They differ as some records make no line.
        self.txid = 0
        self.number = 0
        self.parts = []
        self.map = os.path.join(folder, "map")
        # Of the image: the blocks of bare files, the stamp from which on blocks are not of an old layout, and whether
        # a block that no file has may be one that a snapshot has.
        self.bare_blocks = set()
        self.first_gen = 0
        self.has_snapshots = False
        if options.fsimage:
            self.read_image(options.fsimage, os.path.join(folder, "image"))
        if options.files:
            self.convert_log(options, os.path.join(folder, "parts"))

    def read_image(self, name, output):
        dump = Held()
        try:
            with open(name, "rb") as file:
                dump.read(file)
        except Refused as reason:
            raise Refused(with_name(name, reason)) from None
        contradiction = low_number(dump) or write_image(dump, name, output)
        if contradiction is not None:
            raise Refused(f"{name} contradicts itself: {contradiction}")
        self.image = output
        self.txid = self.number = dump.txid
        self.bare_blocks, self.first_gen = dump.bare_blocks, dump.first_gen
        self.has_snapshots = dump.snapshots_count > 0

    def convert_log(self, options, folder):
        """Makes lines of the log, in parts of whole segments that are no longer than a segment may be."""
        words = words_for_parts(options, self.image, self.txid, folder, self.map)
        command = [path_of_command("from-oev"), *words]
        done = subprocess.run(command, stdout=subprocess.DEVNULL, stderr=subprocess.PIPE)
        if done.returncode != 0:
            told = done.stderr.decode("utf-8", "replace").strip()
            raise Refused(told or f"zulurowan-from-oev ended with status {done.returncode}")
        self.parts = parts_in(folder)
        for txid, number in pairs_in(self.map):
            self.txid = self.txid if txid == "-" else int(txid)
            self.number = self.number if number == "-" else int(number)

    def files(self):
        return [self.image, *self.parts] if self.image else self.parts

    def holds(self, block, gen):
        """Whether a file may have a block here: it is of no bare file, and of no old layout."""
        return block not in self.bare_blocks and gen >= self.first_gen

    def txid_of(self, number):
        """The TXID of the record that a line stands for."""
        return next((txid for txid, new in pairs_in(self.map) if new == number), "unknown")
