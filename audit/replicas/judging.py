"""Lets the proved program judge replicas by a namespace, and tells what it says with the cluster's DataNodes."""
import os
import sys
from collections import Counter
from itertools import groupby

from audit.replicas.answers import HELD, TABLES, UNSAFE, Answers
from audit.replicas.disks import Disks
from audit.replicas.fsck import CORRUPT, DATANODES, MINIMAL, MISPLACED, MISSING, OVER, TOTAL, UNDER, Fsck
from audit.replicas.lanes import Reports
from audit.replicas.listings import OTHER_IDS, Nodes, Notes, Pool
from hdfs.formats import Refused

CLASSES = ("live", "building", "stale", "ahead", "wronglength")


class Judgement:
    """One judgement, by its options, with the program, a namespace, and a folder for files."""

    def __init__(self, program, namespace, folder, options):
        self.options = options
        self.notes = Notes(options.most)
        self.count = Counter()
        # What differs from what fsck says: counts, and of how many blocks the live replicas.
        self.differing = Counter()
        self.fsck = None
        self.namespace = namespace
        self.nodes = Nodes()
        self.reports = Reports(os.path.join(folder, "reports"), self.nodes)
        arguments = ["--permille", str(options.permille), "--min", str(options.min)]
        self.answers = Answers(program, arguments, os.path.join(folder, "printed"))
        self.read(folder)

    def read(self, folder):
        """Reads all listings. Disks are the better source, and fsck is one only where there are none."""
        pool = Pool(self.options.pool)
        disks = Disks(pool, self.notes, folder)
        for name, listing in self.options.disk:
            disks.read(self.nodes.place(name), listing)
        if self.options.fsck:
            nodes = Nodes() if self.options.disk else self.nodes
            self.fsck = Fsck(self.options.fsck, pool, self.notes, nodes, folder)
        pool.check()
        self.reports.write(self.judged((disks if self.options.disk else self.fsck).replicas()))

    def judged(self, replicas):
        """The replicas of blocks that may be held here."""
        for replica in replicas:
            if self.namespace.holds(replica.block, replica.gen):
                yield replica
            else:
                self.notes.pass_over(OTHER_IDS)

    def run(self):
        """Tells what the program says. Answers whether fsck says the same, where it is asked."""
        self.answers.ask(self.namespace, self.reports, self.options.most)
        self.tell_replicas()
        self.tell_orders()
        self.tell_unsafe()
        if self.fsck:
            self.tell_live()
        self.tell_counts()
        self.tell_left_out()
        self.notes.finish()
        return self.verdict()

    def tell_replicas(self):
        named = self.reports.names()
        for _, block, lane, what in self.answers.rows(TABLES, "replica"):
            self.count[what.rpartition(" ")[2]] += 1
            sys.stdout.write(f"replica {block} {name_of(named, block, lane)} {what}\n")

    def tell_orders(self):
        """Tells of the blocks that no file has. One that the log has not named yet may be of a file that is newer."""
        named = self.reports.names()
        waiting = self.answers.rows(HELD, "held")
        held = next(waiting, None)
        for _, block, lane in self.answers.rows(TABLES, "order"):
            place, name = (int(block), int(lane)), name_of(named, block, lane)
            while held and (int(held[1]), int(held[2])) < place:
                held = next(waiting, None)
            if held and (int(held[1]), int(held[2])) == place:
                self.count["held"] += 1
                print("held", block, name, held[3].partition(" ")[2])
            elif self.namespace.has_snapshots:
                self.notes.pass_over("blocks of no file, which a snapshot may have")
            else:
                self.count["order"] += 1
                print("order", block, name)

    def tell_unsafe(self):
        """Tells which blocks of closed files have too few live replicas, and their paths."""
        for words in self.answers.rows(UNSAFE, "unsafe"):
            print(*words)
        (left,) = self.answers.rows(UNSAFE, "more")
        tell_more(int(left[1]))

    def tell_live(self):
        """Tells of blocks of which fsck has more live replicas, or lists fewer replicas than are live."""
        ours = self.live()
        block, live = next(ours, (None, 0))
        for wanted, gen, said, listed in self.fsck.live():
            if not self.namespace.holds(wanted, gen):
                self.fsck.old += 1
                continue
            while block is not None and block < wanted:
                block, live = next(ours, (None, 0))
            here = live if block == wanted else 0
            if not said <= here <= max(said, listed):
                self.differing["live"] += 1
                if self.differing["live"] <= self.options.most:
                    print("live", wanted, here, "fsck", said)
        tell_more(self.differing["live"] - self.options.most)

    def live(self):
        """The id of each block that has a replica, in order, and how many are live."""
        for block, rows in groupby(self.answers.rows(TABLES, "replica"), lambda row: row[1]):
            yield int(block), sum(row[3].endswith(" live") for row in rows)

    def tell_counts(self):
        """Tells what the program counts, beside what fsck counts of the same."""
        (blocks,) = self.answers.rows(TABLES, "blocks")
        print(*blocks)
        _, total, _, safe = " ".join(blocks).split()[:4]
        figures = self.answers.figures()
        missing = figures["missing"]
        self.beside("total", int(total), TOTAL)
        self.beside("safe", int(safe), MINIMAL)
        # A missing block is not under-replicated for fsck, and one of which all replicas are corrupt is not missing.
        self.beside("under_replicated", figures["under_replicated"] - missing, UNDER)
        self.beside("over_replicated", figures["over_replicated"], OVER)
        self.beside("missing", missing, MISSING, CORRUPT)
        if self.fsck and self.fsck.count(MISPLACED) is not None:
            print("mis_replicated - fsck", self.fsck.count(MISPLACED))

    def beside(self, name, here, *counts):
        words = [name, here]
        said = [self.fsck.count(count) for count in counts] if self.fsck else [None]
        if said[0] is not None:
            words += ["fsck", *(" corrupt ".join(str(count or 0) for count in said).split())]
            if here != sum(count or 0 for count in said) and not self.fsck.counts_more():
                self.differing[name] += 1
                words.append("differs")
        print(*words)

    def tell_left_out(self):
        classes = ", ".join(f"{name} {self.count[name]:,}" for name in (*CLASSES, "order", "held"))
        print(f"replicas: {self.reports.count:,} at {len(self.nodes.names):,} DataNodes ({classes})")
        if self.fsck:
            self.notes.count["DataNodes that fsck counts and nobody listed"] = self.unlisted()
        for what, count in sorted(self.notes.count.items()):
            if count:
                print(f"not judged, {what}: {count:,}")
        for what, count in self.fsck.counts_more().items() if self.fsck else ():
            print(f"not compared, as fsck counts them too, {what}: {count:,}")

    def unlisted(self):
        """How many DataNodes fsck counts beyond those that were listed: blocks may be missing for want of them."""
        return max(0, (self.fsck.count(DATANODES) or 0) - len(self.nodes.names)) if self.options.disk else 0

    def verdict(self):
        by = f"the namespace of TXID {self.namespace.txid}"
        if self.differing:
            found = sorted(self.differing)
            if "live" in found:
                found[found.index("live")] = f"live of {self.differing['live']:,} blocks"
            print(f"differs: fsck does not say what the program finds by {by}: {', '.join(found)}")
        elif self.fsck:
            but = ", but for what was not compared" if self.fsck.counts_more() else ""
            print(f"the same: fsck says what the program finds by {by}{but}")
        else:
            print(f"judged by {by}")
        return not self.differing


def tell_more(left):
    """Tells how many were not printed."""
    if left > 0:
        print(f".. and {left:,} more")


def name_of(named, block, lane):
    """The name of the DataNode that has a replica. They are asked for in order."""
    for at_block, at_lane, name in named:
        if at_block == block and at_lane == lane:
            return name
    raise Refused(f"the program printed a replica of block {block} that nobody reported")
