"""An audit: reads two images and the log between them, runs the proved program on them, and tells what it finds.

The second image is read by a process of its own. What the program is given and prints goes through pipes: only the lines
of the log lie in a file.

What can't be read leaves nothing to be said, and is Refused. A second image that contradicts itself is a finding.
"""
import contextlib
import json
import os
import sys
from collections import Counter

from audit.chain.first_state import first_state
from audit.chain.kept_part import NextState, PartOfKept, names_of_told
from audit.chain.links import Chain, Keeping, Link
from audit.chain.starts import FirstImage, KeptImage
from audit.comparing import order
from audit.comparing.comparison import Blocks, Differences, compare
from audit.comparing.inodes_compared import InodesCompared, Ours, in_path_order
from audit.comparing.part import Part, Wider, is_sparse, names_between, txid_of
from audit.comparing.rest import NO_REST
from audit.comparing.rest_compared import Joining, beside, differing, order_of
from audit.comparing.verdict import AsObject, Printed, Scope, Verdict
from audit.converting.between import Converted
from audit.converting.table import Grew, Table
from audit.program.progress import Progress
from audit.program.proved import chunks_of
from audit.program.running import Running
from audit.program.told import told_of
from audit.reading.checkpoint import name_section
from audit.reading.second import Given, Second
from hdfs.formats import PATH_NAMES, Refused, image_end
from hdfs.reading.inodes import NONE
from hdfs.reading.overlap import opened


# Where the lines of the part lie that the program printed.
PART = "part"

# So many passes are made with a part. Few files may join it in any case, and else one of so many of the rest.
PASSES, FEW_JOINING, JOINING_PART = 4, 10_000, 4


class Otherwise(Refused):
    """An audit of a part can't tell what it finds. The whole says it."""


def audited(program, folder, options):
    """Audits by a part where that saves, with what differs in it, and by the whole where a part can't tell all."""
    chain = Chain(options.state) if options.state else None
    if is_sparse(options, chain and chain.found()[0]):
        with contextlib.suppress(Refused):
            return audited_by_parts(program, folder, options, chain)
    return Audit(program, folder, options, chain).run()


def audited_by_parts(program, folder, options, chain):
    """Audits by a part, and by a wider one as long as there is something that it can't tell."""
    with contextlib.ExitStack() as stack:
        part, made = Part(None), None
        if chain and chain.found()[0] is None:
            progress = progress_of(options)
            made = stack.enter_context(first_state(options.start, f"{chain.name}.first", progress.open))
            progress.clear()
        for _ in range(PASSES):
            try:
                return Audit(program, folder, options, chain, part, made).run()
            except Wider as found:
                part = found.part
    raise Otherwise("the part grows and grows")


def progress_of(options):
    is_shown = not options.quiet and sys.stderr is not None and sys.stderr.isatty()
    return Progress(sys.stderr if is_shown else None, options.progress)


class Audit:
    """One audit, by its options, with the program and a folder for its files."""

    def __init__(self, program, folder, options, chain=None, part=None, made=None):
        self.program = program
        self.folder = folder
        self.options = options
        self.output = AsObject() if options.json else Printed()
        self.chain = chain or (Chain(options.state) if options.state else None)
        link, self.place = self.chain.found() if self.chain else (None, 0)
        # A state that was made of the first image, if the chain has none yet.
        self.made = made
        if made:
            link, _, self.place = made
        self.table = Table(link.names, link.replications) if link else Table()
        self.link = link
        self.differences = Differences(options.most, self.output.tell, self.table)
        self.progress = progress_of(options)
        self.notes = []
        if link and link.is_old:
            self.notes.append(f"{self.chain.name} has no sum yet, and is taken as it is: the next one has its SHA-256")
        # Whether the log issued a later stamp than the image has.
        self.has_later_stamp = False
        # The two runs of the program: it has what the log makes in the one, and the second image in the other.
        self.ours = self.theirs = None
        # The inodes that the log makes, and what was found of both images' inodes.
        self.our_inodes = self.inodes = self.tree = None
        self.is_whole = False
        # The part, if there is one. The first has no names yet.
        self.part = part if part is None or part.names is not None else Part(self.names_of_part())
        # What is compared by sums alone, and the blocks of what differs.
        self.rest, self.blocks = NO_REST, None if part is None else Blocks()

    def run(self):
        """Tells what is found. Answers whether the second image is what the log makes of the first."""
        self.second = Second(self.options.to, self.table, self.chain and self.chain.lock, self.part)
        try:
            return self.judged()
        except Refused as reason:
            raise Refused(self.table.in_words(str(reason))) from None
        finally:
            self.end_runs()
            self.second.end()
            self.progress.clear()

    def names_of_part(self):
        """The names that files of the part have: those that the log has, and those of which only a chain knows what they are."""
        first = self.link.txid if self.link else txid_of(self.options.start)
        names = names_between(first, txid_of(self.options.to), self.options.files, self.progress.open)
        return names | names_of_told(self.link, self.table) if self.link else names

    def end_runs(self):
        for running in filter(None, (self.ours, self.theirs)):
            running.end()
        self.ours = self.theirs = None

    def judged(self):
        start, facts, given, log = self.prepared()
        contradiction = facts.contradiction or given.contradiction
        applies = self.apply(start, log)
        if contradiction is None and applies:
            contradiction = self.judge()
        alike = None
        if contradiction is not None:
            self.differences.tell("inconsistent", contradiction)
        link = Link(start.link.first, facts.txid, start.link.audits + 1, start.link.cluster, in_order(log.bare), blocks=in_order(log.blocks), **self.table.members())
        if self.part:
            self.check_part(applies, facts, contradiction)
        if applies:
            self.compare_inodes(log, contradiction is None)
            if self.part and contradiction is None:
                self.compare_rest(start)
            alike = self.compare(facts, given, link, contradiction is None)
            if self.part:
                self.check_blocks()
        if alike is not None and facts.low_inode is not None:
            self.differences.tell("inconsistent", facts.low_inode)
        if self.differences.left():
            self.output.tell(f".. and {self.differences.left():,} more")
        behind = self.notes
        if self.chain is not None:
            behind.append(str(link if applies else start.link))
        scope = None if alike is None else self.scope(alike, facts, given, log)
        verdict = Verdict(start.link.txid, facts.txid, applies, self.differences.summary(), scope)
        if self.part and self.chain is not None:
            self.keep_part(start, link)
        self.output.end(verdict, behind)
        return verdict.is_same

    def prepared(self):
        """Where the log goes on, what is known of the second image, and the log, all by one table.

        Both runs of the program have been given their images then, but for the second one where that contradicts itself.
        """
        start, facts, given = self.start(), None, Given(None, [], {}, {}, 0, 0)
        section = name_section(self.options.to, opened)
        while True:
            known = len(self.table.names)
            self.give(start)
            if facts is None and (section is None or section.find("txid") is None):
                facts = self.facts(start.link)
            with contextlib.suppress(Grew):
                until = facts.txid if facts else section.number("txid")
                self.check_txid(start.link, until)
                log = Converted(start, until, self.options.files, self.folder, self.table, self.progress.open)
                facts = facts or self.facts(start.link)
                if facts.contradiction is None:
                    given = self.give_second(log)
                if known == len(self.table.names):
                    self.raise_stamp(start, log.edits.issued_before())
                    return start, facts, given, log
            self.end_runs()

    def facts(self, link):
        """What is known of the second image, which has to be one of the same cluster, and behind the first."""
        facts = self.second.facts(self.progress)
        if not facts.has_numbers:
            raise Refused(f"{self.options.to} contradicts itself: {facts.contradiction}")
        if facts.cluster != link.cluster:
            raise Refused(f"two clusters: namespaceId {link.cluster}, and {facts.cluster} in {self.options.to}")
        self.check_txid(link, facts.txid)
        self.add_names(facts.names)
        for word in facts.words:
            self.table.number(word)
        return facts

    def add_names(self, names):
        for name in names:
            self.table.add(name)

    def start(self):
        """The end of the chain, or else the first image."""
        if self.link is not None:
            if self.options.start and not self.made:
                raise Refused(f"{self.chain.name} goes on from TXID {self.link.txid}, and --from is for the first audit alone")
            kept = self.link, self.made.name if self.made else self.chain.name, self.place, self.table
            return KeptImage(*kept) if self.part is None else PartOfKept(*kept, self.part)
        if not self.options.start:
            raise Refused("--from FROM has to name the image that the log goes on from")
        return FirstImage(self.options.start, self.table, self.progress.open, self.part)

    def give(self, start, last_gen=0):
        """Gives the program the image that the log goes on from, by a table that has all of its names."""
        while True:
            known = len(self.table.names)
            self.ours = Running(self.program)
            task = self.progress.task("giving the image to the program")

            def write(piece):
                self.ours.feed.write(piece)
                task.add(len(piece))

            start.give(write, last_gen)
            if known == len(self.table.names):
                return
            self.end_runs()

    def raise_stamp(self, start, last_gen):
        """Gives the image anew if the log gives a stamp, or None, that the image does not have and that it did not issue."""
        if last_gen is not None:
            last = f"the last stamp of the image of TXID {start.link.txid}, {start.header()['last_gen']}"
            self.notes.append(f"{last}, is taken as {last_gen}: the log gives this one, and did not issue it")
            self.ours.end()
            self.give(start, last_gen)

    def give_second(self, log):
        """Lets the program have the second image. Answers what was found then."""
        self.theirs = Running(self.program)
        self.second.give(self.table, log.bare, self.theirs.child)
        given = self.second.given(self.progress)
        self.add_names(given.names)
        return given

    def check_txid(self, link, txid):
        if txid <= link.txid:
            raise Refused(f"{self.options.to} is of TXID {txid}, and the log goes on behind TXID {link.txid}")

    def apply(self, start, log):
        """Lets the program follow the log. Answers whether it applies to the image that it goes on from."""
        if log.fault is not None:
            self.differences.tell("fault", log.fault)
            return False
        with open(log.name, "rb") as lines:
            for piece in chunks_of(self.progress.watched(lines, "giving the log to the program")):
                self.ours.feed.write(piece)
        self.ours.ask()
        fault = self.ours.fault(self.progress)
        if fault is None:
            return True
        if fault.line is not None:
            raise Refused(f"the image of TXID {start.link.txid} contradicts itself: {told_of(fault, start.lines)}")
        self.differences.tell("fault", f"TXID {log.txid_of(fault)}: {fault.meaning}")
        return False

    def judge(self):
        """Answers how the second image contradicts itself for the program, or None."""
        fault = self.theirs.fault(self.progress)
        if fault is None:
            return None
        return fault.meaning if fault.line is None else self.second.told_of(fault)

    def compare(self, facts, given, link, is_whole):
        """Keeps what the log makes, if there is a chain, be the second image right or wrong.

        Answers how many directories, files and blocks are alike, and tells what differs, if the second image is whole.
        """
        keeping = self.keeping(link) if self.chain and self.part is None else None
        try:
            task = self.progress.task("comparing the images", given.size)
            ours = self.pieces_of_ours(keeping)
            if is_whole:
                self.compare_numbers(json.loads(self.ours.first), facts)

                def theirs():
                    piece = self.theirs.piece(self.progress)
                    task.add(len(piece))
                    return piece

                alike = compare(ours, theirs, self.differences, self.blocks)
            else:
                alike = None
                while keeping and ours():
                    pass
            if keeping:
                keeping.end()
            if self.inodes is not None:
                self.inodes.tell(self.differences)
            return alike
        finally:
            if keeping:
                keeping.drop()

    def check_part(self, applies, facts, contradiction):
        """Sees to it that the part can tell what it finds.

        How the second image contradicts itself is found in the part alone, but for what is seen while it is read.
        """
        if not applies or contradiction is not None and (self.chain or facts.contradiction is None):
            raise Otherwise("the part has something to tell")

    def compare_inodes(self, log, is_whole):
        """Compares where inodes are, and their attributes, if both are known."""
        self.tree, self.is_whole = log.tree, is_whole
        self.our_inodes = Ours(log.followed, self.table) if log.followed else None
        if self.our_inodes is None:
            self.notes.append(f"{self.chain.name} has no attributes yet, which were not compared: the next one has them")
        elif is_whole:
            self.inodes = InodesCompared(self.our_inodes, self.second, self.chain is not None, self.options.strict)
        else:
            self.our_inodes.look(lambda paths: [NONE] * len(paths))

    def compare_rest(self, start):
        """Compares by sums what is not in the part of either image. What can't be told so joins the part.

        Those are files that differ, and all of a directory that has such ones, or that stands elsewhere in the second
        image, or has something there that stood elsewhere: what is told of names and their order is told of all then.
        """
        gone = bytearray(len(start.dump.inodes))
        for row in self.our_inodes.gone_rows:
            gone[row] = True
        self.rest = start.dump.sums_of_rest(gone, lambda: self.progress.open(self.options.start))
        theirs, moved = self.second.sums_of_rest(), self.inodes.placed_otherwise()
        if self.rest == theirs and not moved:
            self.check_order(start.rest, moved)
            return
        joining = differing(start.rest, self.second) if self.rest != theirs else Joining(set(), set())
        joining.directories.update(other.directory for _, other in moved if other)
        joining.directories.update(self.second.directories_below([other.id for _, other in moved if other]))
        ids = self.part.ids.union(beside(start.rest, joining), self.second.beside(joining))
        if len(ids) > max(FEW_JOINING, self.rest.files // JOINING_PART) or len(ids) == len(self.part.ids) and self.rest != theirs:
            raise Otherwise("the rest of the images differs")
        if len(ids) > len(self.part.ids):
            raise Wider(self.part._replace(ids=ids))
        self.check_order(start.rest, moved)

    def check_order(self, ours, moved):
        """Sees to it that in the second image, too, what is in the part stands in order among files of the rest.

        What differs in its place stands among none in the second image.
        """
        named = self.our_inodes.named
        changed = {*named, *(one.id for one, _ in moved if one)}
        total, places = order_of(ours, changed)
        theirs, found = self.second.order_of_part(changed)
        if total != theirs:
            raise Otherwise("something stands elsewhere in its directory")
        known = {place[:2] for place in places}
        found = [place for place in found if place[:2] not in known]
        names = self.second.names_of({one for place in found for one in place[1:] if one != NONE}) if found else {}
        for place in found:
            order.check(place, named[place.child].name, names)

    def check_blocks(self):
        """Sees to it that no block that the second image has otherwise is one of the rest, too."""
        new = self.blocks.new()
        if new and not self.part.with_blocks:
            raise Wider(self.part._replace(with_blocks=True))
        if new and self.second.has_block_in_rest(new):
            raise Otherwise("a block may be in two files")

    def keeping(self, link):
        """What keeps the state of a chain, with the inodes that the log makes, or else those of the second image."""
        columns, sets = ((), ()), ()
        if self.our_inodes is not None:
            columns, sets = self.our_inodes.columns(), self.our_inodes.followed.sets.all
        elif self.is_whole:
            *columns, sets = self.second.columns_at([path for path, _ in in_path_order(self.tree, self.table)])
        return Keeping(self.chain, link._replace(inodes=len(columns[0]), sets=sets), columns)

    def pieces_of_ours(self, keeping):
        """What answers the next lines of what the log makes, which are kept."""
        if not keeping:
            with contextlib.suppress(FileNotFoundError):
                os.remove(os.path.join(self.folder, PART))
            return self.piece_of_ours
        keeping.write(self.ours.first)

        def piece():
            lines = self.ours.piece(self.progress)
            keeping.write(lines or self.ours.take_end())
            return lines

        return piece

    def piece_of_ours(self):
        """The next lines, which a chain of parts wants again."""
        lines = self.ours.piece(self.progress)
        if self.chain is not None:
            with open(os.path.join(self.folder, PART), "ab") as file:
                file.write(lines)
        return lines

    def keep_part(self, start, link):
        """Keeps what the log makes: the part as the program printed it, with the rest of the state of before."""
        state, name = NextState(self.our_inodes, start), f"{self.chain.name}.lines"
        with open(os.path.join(self.folder, PART), "rb") as part, open(name, "w+b") as lines:
            os.remove(name)
            lines.writelines(state.lines(part))
            bare, blocks = ({**of, **more} for of, more in ((link.bare, state.bare), (link.blocks, state.blocks)))
            sets = self.our_inodes.followed.sets.all
            link = link._replace(bare=in_order(bare), blocks=in_order(blocks), inodes=len(state.ids), sets=sets)
            keeping = Keeping(self.chain, link, (state.ids, state.sets))
            try:
                keeping.write(self.ours.first)
                lines.seek(0)
                for piece in chunks_of(lines):
                    keeping.write(piece)
                keeping.write(image_end(len(state.ids) - 1))
                keeping.end()
            finally:
                keeping.drop()

    def compare_numbers(self, header, theirs):
        """Compares the last block id, and the last stamp.

        A standby may save a lower stamp than the log issued, until a block comes with it.
        """
        if header["last_block"] != theirs.last_block:
            self.differences.tell("last_block", header["last_block"], theirs.last_block)
        if not theirs.greatest_gen <= theirs.last_gen <= header["last_gen"]:
            self.differences.tell("last_gen", header["last_gen"], theirs.last_gen)
        elif theirs.last_gen != header["last_gen"]:
            note = f"{theirs.last_gen} in the image, {header['last_gen']} in the log"
            self.notes.append(f"not compared, the last stamp: {note}, with which no block has come")
            self.has_later_stamp = True

    def scope(self, alike, facts, given, log):
        """What was compared, and what was not."""
        bare = len(log.bare.keys() | given.bare_kinds.keys()) + self.rest.bare
        alike.update(files=self.rest.files, blocks=self.rest.blocks)
        for path, count in given.too_deep.items():
            self.notes.append(f"not compared, below {self.table.in_words(path)}: {count:,} paths of too many names")
        found = self.inodes
        others = {
            "inodes that only snapshots hold": given.only_in_snapshots,
            "files whose blocks no record tells": found.unknown_blocks() if found else bare,
            "records with a carriage return in a name, taken as a line feed": log.edits.carriage_returns,
            "names of the image with a line feed, which may be a carriage return": facts.with_line_feeds,
            # One of the images may lack some.
            "paths of more than 1,000 names": max(sum(given.too_deep.values()), self.ours.left_out),
            "last stamp, with which no block has come": self.has_later_stamp,
        }
        left = {
            "of the image": facts.passed,
            "records of the log": log.left_out,
            "members of other records": log.edits.passed,
            "attributes that no record tells": found.open_keys if found else {},
        }
        if found and found.trusted:
            self.notes.append(f"taken on trust into the chain: attributes of {found.trusted:,} inodes, which no record tells")
        others = Counter({what: int(count) for what, count in others.items() if count})
        inodes = found.count + self.rest.files if found else 0
        return Scope(alike, bare, inodes, left, others, self.rest.files if self.part else None)


def in_order(kinds):
    """What a state keeps of bare files: of those whose paths it has."""
    return dict(sorted((path, kind) for path, kind in kinds.items() if path.count("/") <= PATH_NAMES))
