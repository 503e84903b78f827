"""Trials of `audit`: damages, lost edits, forms of real clusters, programs that fail, chains, clusters at random."""
import contextlib
import gzip
import hashlib
import io
import json
import os
import pty
import random
import re
import shutil
import subprocess
import tempfile
import threading
import time
from types import SimpleNamespace

from audit.chain.links import INODE_BYTES, OF_INODES, Chain
from audit.comparing.auditing import Audit, audited
from audit.program.progress import Progress
from audit.program.proved import Program
from audit.program.running import Running
from audit.reading.second import Side
from audit.trials.at_random import cluster_at_random
from audit.trials.attribute_cases import check_attributes
from audit.trials.audit_damages import BLOCKS, DAMAGES, HARMLESS, LOST, SPARE, in_inode, replaced, several, story
from audit.trials.audit_forms import FORMS, long_in_chain, many_replications, marks_in_chain, moved_down, own_settings_in_chain
from audit.trials.cases import document, record, rename
from audit.trials.cluster import Cluster
from audit.trials.part_cases import WAYS, by_parts, check_parts, kept_in
from hdfs.finding import path_of_command
from hdfs.formats import Refused, to_json


CLUSTERS = 30
STEPS = 80
AUDITS_OF_A_CLUSTER = 12
# Of so many clusters each TXID is that of the first image once, and that of the second.
WHOLE_CLUSTERS = 2

# A name, a program, and what the reason has in it. The status is 2.
FAILING = [
    ("a program that is killed", "#!/bin/sh\nkill -9 $$\n", "the program was killed by signal 9"),
    ("a program without memory", "#!/bin/sh\necho fault 55\nexit 1\n", "the program told fault 55: "),
    ("a program that can't read", "#!/bin/sh\ncat > /dev/null\necho fault 8\nexit 1\n", "the program told fault 8: "),
    ("a program that prints nothing", "#!/bin/sh\ncat > /dev/null\n", "printed no whole image"),
    ("a program that prints half an image", "#!/bin/sh\ncat > /dev/null\nprintf '{}'\n", "printed no whole image"),
    ("a program that fails", "#!/bin/sh\ncat > /dev/null\nexit 3\n", "status 3 and printed no whole image"),
    (
        "a program that prints another image",
        "#!/bin/sh\ncat > /dev/null\nprintf '{\"image\":\"hdfs-standby\"}\\n{\"end\":0}\\ndone 1\\n'\n",
        "because of a defect of this script",
    ),
    (
        "a program that prints a line of an image, and another one than the second image has",
        "#!/bin/sh\ncat > /dev/null\nprintf '{\"image\":\"hdfs-standby\",\"last_block\":1,\"last_gen\":1}\\n{\"path\":\"/$$\",\"type\":\"dir\"}\\n'\n",
        "printed no whole image",
    ),
    ("a program that prints something", "#!/bin/sh\ncat > /dev/null\nprintf '{}\\n{\"end\":0}\\ndone 1\\n'\n", "no whole image"),
]


class Trials:
    """The files of the story, and a command that audits them."""

    def __init__(self, check):
        self.check = check
        self.cluster, self.first, self.second = story()
        self.images = self.cluster.images
        self.last = self.cluster.txid
        self.records = [text for _, text in self.cluster.records]
        self.whole = check.file(document(*self.records))

    def image(self, txid, damage=lambda text: text):
        return self.check.file(damage(self.images[txid]))

    def log(self, *records):
        return self.check.file(document(*records))

    def run(self, *arguments):
        return self.check.run("audit", "--program", self.check.program, *arguments)

    def audited(self, name, status, begin, *arguments):
        """An audit has to end with this status, and its first line has to begin so."""
        got, output, errors = self.run(*arguments)
        told = (got, output.startswith(begin), errors) == (status, True, "")
        self.check.holds(f"an audit: {name}", told, f"{got}\n{output}{errors}\nwanted {status} {begin}")
        return output

    def refused(self, name, reason, *arguments):
        """Nothing can be said of something, for this reason."""
        status, output, errors = self.run(*arguments)
        told = (status, output) == (2, "") and errors.startswith("audit: nothing can be said") and reason in errors
        self.check.holds(f"no audit: {name}", told, f"{status}\n{output}{errors}\nwanted {reason}")


def check_audits(check, at, of):
    """Each damage is found, and nothing is said where nothing can be. These are the parts from `at` on, one of so many."""
    trials = Trials(check)
    for part in PARTS[at::of]:
        part(trials)


def check_same(trials):
    """The images of the story are what its log makes."""
    between = trials.image(trials.first), trials.image(trials.last)
    output = trials.audited("the story", 0, "alike: ", "--from", between[0], "--to", between[1], trials.whole)
    makes = f"the image of TXID {trials.last} is what the log makes of the image of TXID {trials.first}\n"
    same = "the same in names, kinds, replication, blocks, open files, attributes; not compared: 25 items of 12 kinds\n"
    trials.check.holds("the verdict on the story", output.endswith(makes + same), output)
    members = "3 (NEWBLOCK 2, TIMESTAMP 1)"
    for said in ("inode/mtime 10", "1 (OP_TIMES 1)", members, "no record tells: 4 (policy 2, xattr 2)"):
        trials.check.contains("what is not compared", output, said)


def check_unwritten(trials):
    """An output that can't be written is one of which nothing was said, also where nobody hears why."""
    words = [path_of_command("audit"), "--program", trials.check.program, "--from", trials.image(trials.first)]
    words += ["--to", trials.image(trials.last), trials.whole]
    # Python may hold back what it writes to standard error.
    held_back = {name: value for name, value in os.environ.items() if name != "PYTHONUNBUFFERED"}
    with open("/dev/full", "wb") as full:
        for errors in (subprocess.PIPE, full):
            for how in (os.environ, held_back):
                status = subprocess.run(words, stdout=full, stderr=errors, env=how).returncode
                trials.check.same("an output that is full", status, 2)


def check_damages(trials):
    first = trials.image(trials.first)
    for name, damage, begin in DAMAGES:
        second = trials.image(trials.last, damage)
        output = trials.audited(name, 1, begin, "--from", first, "--to", second, trials.whole)
        found = by_parts(trials, first, second, trials.whole)
        is_left = found is None and begin.startswith("inconsistent ")
        trials.check.holds(f"{name}, by parts", is_left or found == output, f"{found}\nwanted {output}")
    for name, change in HARMLESS:
        trials.audited(name, 0, "alike: ", "--from", first, "--to", trials.image(trials.last, change), trials.whole)
    length = replaced("<numBytes>41<", "<numBytes>40<")
    damage = several(length, in_inode("spare", "<replication>2<", "<replication>3<"))
    arguments = "--most", "1", "--from", first, "--to", trials.image(trials.last, damage), trials.whole
    output = trials.audited("two damages, of which one is told", 1, 'block "/data/notes"', *arguments)
    trials.check.contains("how many are left", output, "\n.. and 1 more\nalike: ")
    trials.check.contains("how many there are", output, "image of TXID 18: block 1, replication 1\n")


def check_scope(trials):
    """The last line says what was compared in this run, and `--json` prints the same as one object."""
    for name, policy, compared in (
        ("a file", 0, "names, kinds, replication, blocks, open files, attributes"),
        ("a striped file", 1, "names, kinds, attributes"),
        ("a file without blocks", None, "names, kinds, replication, open files, attributes"),
        ("no path", ..., "attributes"),
    ):
        cluster = Cluster()
        cluster.begin_segment()
        first = cluster.txid
        if policy is not ...:
            file = cluster.create(cluster.root, "f", policy=policy or 0)
            if policy is not None:
                cluster.add_block(file)
        cluster.end_segment()
        cluster.keep_image()
        images = [trials.check.file(cluster.images[txid]) for txid in (first, cluster.txid)]
        words = "--from", images[0], "--to", images[1], trials.log(*(text for _, text in cluster.records))
        last = trials.audited(f"the scope of {name}", 0, "alike: ", *words).splitlines()[-1]
        trials.check.same(f"the words of {name}", last.partition("; ")[0], f"the same in {compared}")
        found = object_of(trials, 0, *words)
        trials.check.same(f"the object of {name}", found["verdict"], last)
        left = found["not_compared"]
        told = f"not compared: {sum(left.values()):,} items of {len(left):,} kinds"
        trials.check.same(f"what is left of {name}", last.partition("; ")[2], told)
    wrong = trials.image(trials.last, in_inode("spare", "<replication>2<", "<replication>3<"))
    words = "--from", trials.image(trials.first), "--to", wrong, trials.whole
    found = object_of(trials, 1, *words)
    got = found["status"], found["differences"], found["alike"]["files"], found["from"], found["to"]
    wanted = "differs", ['replication "/data/spare" 2 3'], 4, trials.first, trials.last
    trials.check.same("the object of a difference", got, wanted)
    trials.refused("no object where nothing can be said", "there is no file or folder nothing", "--json", "--from", "nothing", *words[2:])


def object_of(trials, status, *words):
    """The object that an audit prints, which ends with this status."""
    got, output, errors = trials.run("--json", *words)
    trials.check.same("an audit with --json", (got, output.count("\n"), errors), (status, 1, ""))
    return json.loads(output)


def check_lost(trials):
    """An edit is lost, and a record without effect stands in its place."""
    images = "--from", trials.image(trials.first), "--to", trials.image(trials.last)
    for opcode, txid, begin in LOST:
        lost = trials.records[txid - 1]
        trials.check.contains(f"the record of TXID {txid}", lost, f"<OPCODE>{opcode}<")
        records = [*trials.records[: txid - 1], record("OP_TIMES", txid), *trials.records[txid:]]
        trials.audited(f"a lost {opcode}", int(not begin.startswith("alike")), begin, *images, trials.log(*records))


def check_forms(trials):
    """Real clusters have more than a standby here can hold. It is taken, and it is said how."""
    for form in (form for forms in FORMS for form in forms()):
        cluster = form.cluster
        cluster.keep_image()
        first, last = (trials.check.file(cluster.images[txid]) for txid in (form.first, cluster.txid))
        log = trials.log(*(text for _, text in cluster.records))
        begin = "alike: " if form.is_same else form.said
        output = trials.audited(form.name, int(not form.is_same), begin, "--from", first, "--to", last, log)
        trials.check.contains(f"what is said of {form.name}", output, form.said)


def check_replications(trials):
    """512 different replications have numbers, and one more has none."""
    for cluster, first, count in many_replications():
        cluster.keep_image()
        images = [trials.check.file(cluster.images[txid]) for txid in (first, cluster.txid)]
        words = "--from", images[0], "--to", images[1], trials.log(*(text for _, text in cluster.records))
        if count == 512:
            trials.audited("512 replications", 0, "alike: ", *words)
        else:
            trials.refused("513 replications", "more than 512 different replications and kinds of files: 1511", *words)


def check_table(trials):
    """A name or a number means the same at each link of a chain, also where the table has grown."""
    cluster, txids = own_settings_in_chain()
    log = trials.log(*(text for _, text in cluster.records))
    images = [trials.check.file(cluster.images[txid]) for txid in txids]
    state = os.path.join(trials.check.folder, "table")
    words = ["--state", state, "--from", images[0]]
    for place, image in enumerate(images[1:], 1):
        if place == 2:
            other = cluster.images[txids[2]].replace("<replication>600<", "<replication>601<")
            copy = shutil.copytree(state, f"{state}-{place}")
            begin = 'replication "/d/' + "n" * 300 + '" 600 601\n'
            damaged = trials.check.file(other)
            trials.audited("a chain with a table, and a damage", 1, begin, "--state", copy, "--to", damaged, log)
        trials.audited(f"a chain with a table, {place}", 0, "alike: ", *words, "--to", image, log)
        words = ["--state", state]
    with open(os.path.join(state, "state")) as file:
        found = json.loads(file.readline())
    numbers = found["replications"]
    trials.check.same("its replications", (numbers["3"], numbers["600"], numbers["700"]), (3, 512, 511))
    trials.check.same("its names", (found["names"][0], "\u4e2d" * 85 in found["names"]), ("n" * 300, True))


def check_long_in_chain(trials):
    """A chain goes on behind a rename that makes a path too long, also where the image of then does not show it."""
    cluster, txids = long_in_chain()
    log = trials.log(*(text for _, text in cluster.records))
    images = [cluster.images[txid] for txid in txids]
    torn = images[1].replace("<numInodes>", "<numInodes>1")
    state = os.path.join(trials.check.folder, "long")
    first, second = trials.check.file(images[0]), trials.check.file(torn)
    trials.audited("a chain with a contradiction", 1, "inconsistent numInodes is ", "--state", state, "--from", first, "--to", second, log)
    copy = shutil.copytree(state, f"{state}-copy")
    other = trials.check.file(images[2].replace("<replication>7<", "<replication>8<"))
    output = trials.audited("a damage of a long path in a chain", 1, "replication ", "--state", copy, "--to", other, log)
    trials.check.contains("its words", output, '/f" 7 8\n')
    for txid, image in zip(txids[2:], images[2:]):
        trials.audited(f"a chain with a long path, {txid}", 0, "alike: ", "--state", state, "--to", trials.check.file(image), log)


def check_marks(trials):
    """A name that is what another one is called in short is not mixed up with that one, in a chain neither."""
    cluster, txids = marks_in_chain()
    log = trials.log(*(text for _, text in cluster.records))
    state = os.path.join(trials.check.folder, "marks")
    words = ["--state", state, "--from", trials.check.file(cluster.images[txids[0]])]
    for place, txid in enumerate(txids[1:], 1):
        if place == 2:
            text = cluster.images[txid].replace("<name>\x7f0<", "<name>other<").replace(f"<name>{'n' * 300}<", "<name>\x7f0<")
            swapped = trials.check.file(text.replace("<name>other<", f"<name>{'n' * 300}<").replace(*children_of_marks(text)))
            copy = shutil.copytree(state, f"{state}-{place}")
            trials.audited("two names that are swapped", 1, f'state "/d/{"n" * 300}" closed open\n', "--state", copy, "--to", swapped, log)
        trials.audited(f"a chain with marks in names, {place}", 0, "alike: ", *words, "--to", trials.check.file(cluster.images[txid]), log)
        words = ["--state", state]


def children_of_marks(text):
    """The children of a directory of two, and these in the other order."""
    found = re.search("(<child>[0-9]+</child>)(<child>[0-9]+</child>)</directory>", text)
    return found[0], f"{found[2]}{found[1]}</directory>"


def check_layouts(trials):
    """The images and the log may have different layouts, and an image of an older oiv is named as such."""
    layouts = replaced("layoutVersion>-66<", "layoutVersion>-63<"), replaced("layoutVersion>-66<", "layoutVersion>-67<")
    first, last = trials.image(trials.first, layouts[0]), trials.image(trials.last, layouts[1])
    log = trials.check.file(document(*trials.records, layout=-64))
    trials.audited("three layouts", 0, "alike: ", "--from", first, "--to", last, log)
    old = trials.image(trials.last, lambda text: re.sub("<(version|namespaceId)>.*?</\\1>", "", text))
    trials.refused("an image of an older oiv", "an oiv of before Hadoop 2.8", "--from", first, "--to", old, log)


def check_nothing_said(trials):
    first, last, whole = trials.image(trials.first), trials.image(trials.last), trials.whole
    torn = trials.image(trials.last, lambda text: text[: len(text) // 2])
    other = trials.image(trials.last, replaced("<namespaceId>1523048716<", "<namespaceId>7<"))
    twice = trials.image(trials.first, in_inode("spare", ">spare<", ">old<"))
    block = trials.image(trials.first, replaced(f"<id>{BLOCKS[2]}<", f"<id>{BLOCKS[1]}<"))
    in_two = f'block {BLOCKS[1]} is in two files, "/data/draft" and "/data/notes"'
    low = trials.image(trials.first, replaced("V2>1003<", "V2>1002<"))
    ends = trials.log(*trials.records[:-1])
    gap = trials.log(*trials.records[:30], *trials.records[31:])
    symlink = trials.log(*trials.records[:32], record("OP_SYMLINK", 33), *trials.records[33:])
    later = trials.log(*trials.records[20:])
    for name, reason, arguments in (
        ("a torn image", "ends in the middle", ["--from", first, "--to", torn, whole]),
        ("a torn first image", "ends in the middle", ["--from", torn, "--to", last, whole]),
        ("a torn log", "ends in the middle", ["--from", first, "--to", last, trials.check.file("<EDITS>")]),
        ("two clusters", "two clusters: namespaceId 1523048716, and 7", ["--from", first, "--to", other, whole]),
        ("an image before the first", "log goes on behind TXID 58", ["--from", last, "--to", first, whole]),
        ("an image twice", "the log goes on behind TXID 18", ["--from", first, "--to", first, whole]),
        ("a first image with a name twice", 'itself: "/data": two', ["--from", twice, "--to", last, whole]),
        ("a first image with a block in two files", f"itself: {in_two}", ["--from", block, "--to", last, whole]),
        ("a first image with a low stamp", "1002, below that of a block, 1003", ["--from", low, "--to", last, whole]),
        ("a gap", "TXID 32: a gap, since TXID 31 is next", ["--from", first, "--to", last, gap]),
        ("a gap behind the image", "TXID 21: a gap, since TXID 19 is next", ["--from", first, "--to", last, later]),
        ("a log that ends too soon", "the log ends at TXID 57, and", ["--from", first, "--to", last, ends]),
        ("a record that is refused", "OP_SYMLINK, TXID 33: ", ["--from", first, "--to", last, symlink]),
        ("no first image", "--from FROM has to name", ["--to", last, whole]),
        ("no file", "there is no file or folder nothing", ["--from", "nothing", "--to", last, whole]),
        ("no program", "there is no program", ["--from", first, "--to", last, whole, "--program", "nothing"]),
    ):
        trials.refused(name, reason, *arguments)
    trials.check.same("an audit without arguments", trials.check.run("audit")[0], 2)


def check_texts(trials):
    """What is no dump is told as what it is, a file's name comes once, and what is missing is told in words."""
    first, last, whole = trials.image(trials.first), trials.image(trials.last), trials.whole
    binary = trials.check.file("HDFSIMG1\0\0\0")
    segment = os.path.join(trials.check.folder, "segment")
    put(segment, b"\xff\xff\xff\xbe\x00\x00")
    packed = os.path.join(trials.check.folder, "packed")
    put(packed, gzip.compress(b"<fsimage/>"))
    nowhere = os.path.join(trials.check.folder, "no", "program")
    for name, reason, words in (
        ("a binary image", f"{binary} is a binary image: run `hdfs oiv -p XML` on it", ["--to", binary, whole]),
        ("a binary log", f"{segment} is a binary edit log: run `hdfs oev -p XML` on", ["--to", last, segment]),
        ("an image that is compressed", f"{packed} is compressed by gzip: run `gunzip` on it", ["--to", packed, whole]),
        ("a missing image", "said: there is no file or folder no image\n", ["--to", "no image", whole]),
        ("a folder as an image", f"said: this is a folder: {trials.check.folder}\n", ["--to", trials.check.folder, whole]),
        ("a missing program", f"there is no program {nowhere}: a release has it in bin/", ["--to", last, whole, "--program", nowhere]),
    ):
        trials.refused(name, reason, "--from", first, *words)
    torn = trials.image(trials.last, lambda text: text[: len(text) // 2])
    errors = trials.run("--from", first, "--to", torn, whole)[2]
    trials.check.same("how often a file is named", errors.count(torn), 1)


def check_places(trials):
    """Bad input gets one line, with its file, its line and what was expected. Nothing is written then, also in a chain."""
    lines = [f"\n{text}" for text in trials.records]
    last = trials.images[trials.last].replace("<inode>", "\n<inode>")
    begin = last[: last.index("<name>spare<")].count("\n") + 1
    stamp = several(replaced(f"<BLOCK_ID>{BLOCKS[3]}</BLOCK_ID><NUM_BYTES>0<", f"<BLOCK_ID>{BLOCKS[3]}</BLOCK_ID><NUM_BYTES>-1<"))
    for name, log, image, reason in (
        ("nothing", None, None, None),
        ("a length that is no number", stamp, None, "{0}, line 25: OP_ADD_BLOCK, TXID 24: NUM_BYTES: '-1' is not a number from 0 to "),
        ("a record that is refused", replaced(">OP_TIMES<", ">OP_SYMLINK<"), None, "{0}, line 34: OP_SYMLINK, TXID 33: there are no"),
        ("a record that comes back", replaced("<TXID>32<", "<TXID>30<"), None, "{0}, line 31: OP_DELETE, TXID 30, comes behind"),
        ("a gap", replaced("<TXID>32<", "<TXID>33<"), None, "{0}, line 33: OP_DELETE, TXID 33: a gap, since TXID 32 is next"),
        ("a tag that ends nowhere", replaced("<OPCODE>OP_TIMES</OPCODE>", "<OPCODE>OP_TIMES"), None, "{0}, line 34: this is no XML"),
        ("a replication that is no number", None, in_inode("spare", "<replication>2<", "<replication>x<"), f"{{1}}, line {begin}: inode {SPARE}: replication: 'x' is not"),
        ("a link", None, in_inode("spare", ">FILE<", ">SYMLINK<"), f"{{1}}, line {begin}: inode {SPARE}: its type is 'SYMLINK', and there are no"),
        ("another count", None, lambda text: re.sub("<numInodes>[0-9]+", "<numInodes>x", text), "{1}, line 3: numInodes: 'x' is not a number"),
        ("a tag", None, in_inode("spare", "</name>", ""), f"{{1}}, line {begin}: this is no XML"),
    ):
        edits = trials.check.file((log or str)(document(*lines)))
        second, state = trials.check.file((image or str)(last)), os.path.join(trials.check.folder, f"places-{name}")
        words = "--from", trials.image(trials.first), "--to", second, edits
        if reason is None:
            trials.audited("a dump in lines", 0, "alike: ", *words)
            continue
        trials.refused(f"the place of {name}", f"nothing can be said: {reason.format(edits, second)}", "--state", state, *words)
        trials.check.same(f"what is kept behind {name}", os.listdir(state), ["lock"])


def check_deep_moves(trials):
    """A rename between a path of more than 1,000 names and a shorter one leaves nothing to be said: what moves is not held."""
    first, last, deep = trials.image(trials.first), trials.image(trials.last), "/a" * 1001
    for name, source, target in (("down", "/data/spare", deep), ("up", deep, "/data/other"), ("below", f"{deep}/x", f"{deep}/y")):
        log = trials.log(*trials.records[:-1], rename(trials.last, source, target))
        words = "--from", first, "--to", last, log
        if name == "below":
            trials.audited("a move of what is deep on both sides", 0, "alike: ", *words)
        else:
            reason = f"OP_RENAME_OLD, TXID {trials.last}: a path of more than 1,000 names, and one that is none: what moves is not known"
            trials.refused(f"a move {name}", reason, *words)


    cluster, first, moved, closed = moved_down()
    cluster.touch(moved)
    cluster.keep_image()
    down = cluster.txid
    cluster.touch(cluster.root)
    cluster.keep_image()
    later = cluster.txid
    cluster.delete(closed)
    cluster.rename(moved, cluster.root, "w")
    cluster.keep_image()
    images = {txid: trials.check.file(cluster.images[txid]) for txid in (first, down, later, cluster.txid)}
    log = trials.log(*(text for _, text in cluster.records))
    reason = f"OP_RENAME_OLD, TXID {cluster.txid}: " + f'"{"/v" + "/e" * 500}/u" may have paths of more than 1,000 names, which come up: what moves is'
    state = os.path.join(trials.check.folder, "deep")
    trials.audited("a chain down", 0, "alike: ", "--state", state, "--from", images[first], "--to", images[down], log)
    copy = shutil.copytree(state, f"{state}-copy")
    trials.audited("a chain down that goes on", 0, "alike: ", "--state", copy, "--to", images[later], log)
    for name, words in (
        ("behind a record that names it", ["--from", images[first]]),
        ("that the first image has", ["--from", images[down]]),
        ("that a chain had", ["--state", state]),
    ):
        trials.refused(f"something deep comes up, {name}", reason, *words, "--to", images[cluster.txid], log)


def check_progress(trials):
    """How far an audit is comes after two seconds, once in half a second, and is taken away in the end."""
    now, stream, note = [100.0], io.StringIO(), os.path.join(trials.check.folder, "note")
    progress = Progress(stream, note, lambda: now[0])
    name = os.path.join(trials.check.folder, "large")
    put(name, bytes(10_000_000))
    with progress.open(name) as file:
        for seconds in (1.9, 0.2, 0.1, 0.5):
            file.read(1_000_000)
            now[0] += seconds
        file.read(1_000_000)
    progress.clear()
    shown = stream.getvalue().split("\r")
    wanted = ["", "reading large: 3 of 10 MB, 1.4 MB/s, 4 s left", "reading large: 5 of 10 MB, 1.9 MB/s, 2 s left"]
    trials.check.same("what is shown", shown[:3], wanted)
    trials.check.same("what is left of it", (shown[3].strip(), shown[4:]), ("", [""]))
    with open(note) as file:
        trials.check.same("what who waits reads", file.read(), f"2 {wanted[2]}\n")
    silent = Progress(None, None, lambda: now[0])
    with silent.open(name) as file:
        now[0] += 10
        trials.check.same("a file that is read in silence", len(file.read(10)), 10)
    for words, is_shown in ((["--quiet"], False), ([], True)):
        text = on_terminal(trials, *words)
        trials.check.same(f"an audit on a terminal, {words}", ("MB/s" in text, "nothing can be said" in text), (is_shown, True))


class Jumping:
    """A clock that goes on by three seconds each time it is asked."""

    def __init__(self):
        self.now = 0

    def __call__(self):
        self.now += 3
        return self.now


def check_steps(trials):
    """What is shown of each step of an audit, and while the program works; and nothing where it stands still."""
    stream = io.StringIO()
    audit = audit_in_process(trials, trials.image(trials.first), trials.image(trials.last))
    audit.progress = Progress(stream, None, Jumping())
    with contextlib.redirect_stdout(io.StringIO()):
        audit.run()
    trials.check.same("what lies in TMPDIR behind an audit", sorted(os.listdir(audit.folder)), ["lines", "map"])
    for what in ("reading 0", "giving the image to the program", "giving the log to the program", "comparing the images"):
        trials.check.contains("a step of an audit", stream.getvalue(), what)
    slow = trials.check.file("#!/bin/sh\ncat > /dev/null\nsleep 1.3\nprintf 'fault 62 image line 2\\n'\n")
    os.chmod(slow, 0o755)
    for name, moves, wanted in (("works", 1, "the program works: "), ("stands still", 0, "")):
        stream, seconds = io.StringIO(), iter(range(0, 1000 * moves + 1, moves or 1))
        running = Running(Program(slow))
        running.seconds = lambda seconds=seconds: next(seconds, 0)
        running.program = SimpleNamespace(fault=lambda words: words[1])
        running.ask()
        trials.check.same(f"a program that {name}", running.fault(Progress(stream, None, Jumping())), "62")
        running.end()
        trials.check.holds(f"what is shown while it {name}", (wanted in stream.getvalue()) and bool(stream.getvalue()) == bool(wanted), stream.getvalue())


def audit_in_process(trials, first, last):
    """An audit of two images of the story, in this process."""
    options = SimpleNamespace(start=first, to=last, files=[trials.whole], state=None, most=20, json=False, quiet=True, progress=None, strict=False)
    return Audit(Program(trials.check.program), tempfile.mkdtemp(dir=trials.check.folder), options)


def check_second(trials):
    """The second image may come through a pipe, and the process that reads it may be killed."""
    first, pipe = trials.image(trials.first), os.path.join(trials.check.folder, "pipe")
    os.mkfifo(pipe)
    giver = threading.Thread(target=put, args=(pipe, trials.images[trials.last].encode()))
    giver.start()
    trials.audited("a second image through a pipe", 0, "alike: ", "--from", first, "--to", pipe, trials.whole)
    giver.join()
    read, Side.read = Side.read, lambda _side: os._exit(9)
    try:
        audit_in_process(trials, first, trials.image(trials.last)).run()
        told = "nothing"
    except Refused as reason:
        told = str(reason)
    finally:
        Side.read = read
    trials.check.contains("the process of the second image is gone", told, " was ended")


def on_terminal(trials, *words):
    """What an audit of an image that comes slowly through a pipe tells on a terminal."""
    master, terminal = pty.openpty()
    slow = os.path.join(trials.check.folder, f"slow-{len(words)}")
    os.mkfifo(slow)
    words = [path_of_command("audit"), "--program", trials.check.program, "--from", slow, "--to", trials.image(trials.last), trials.whole, *words]
    child = subprocess.Popen(words, stdout=subprocess.DEVNULL, stderr=terminal)
    os.close(terminal)
    with open(slow, "wb") as pipe:
        pipe.write(b"<fsimage>" + b" " * 70_000)
        pipe.flush()
        time.sleep(2.2)
        with contextlib.suppress(BrokenPipeError):
            pipe.write(b" " * 200_000)
    told = b""
    with contextlib.suppress(OSError):
        while piece := os.read(master, 65_536):
            told += piece
    os.close(master)
    child.wait()
    return told.decode()


def check_failing(trials):
    arguments = "--from", trials.image(trials.first), "--to", trials.image(trials.last), trials.whole
    for name, text, reason in FAILING:
        program = trials.check.file(text)
        os.chmod(program, 0o755)
        trials.refused(name, reason, *arguments, "--program", program)


def check_chain(trials):
    """A chain goes on from what the program had, so that a wrong image is not what the next one is compared with."""
    state = os.path.join(trials.check.folder, "chain")
    first, second, last = map(trials.image, (trials.first, trials.second, trials.last))
    wrong = trials.image(trials.second, in_inode("spare", "<replication>2<", "<replication>3<"))
    later = trials.log(*trials.records[trials.second :])
    begin = 'replication "/data/spare" 2 3'
    output = trials.audited("a chain", 1, begin, "--state", state, "--from", first, "--to", wrong, trials.whole)
    trials.check.contains("where it stands", output, "chain: TXID 18 (first image) .. 34, 1 audits\n")
    check_kept(trials, first)
    for name, reason, arguments in (
        ("an image of before", "and the log goes on behind TXID 34", ["--to", second, trials.whole]),
        ("a gap behind the chain", "TXID 36: a gap", ["--to", last, trials.log(*trials.records[trials.second + 1 :])]),
        ("a first image for a chain that stands", "goes on from TXID 34", ["--from", first, "--to", last, later]),
    ):
        trials.refused(name, reason, "--state", state, *arguments)
    damaged = trials.image(trials.last, in_inode("spare", "<replication>2<", "<replication>3<"))
    copy = os.path.join(trials.check.folder, "copy")
    os.makedirs(copy)
    for name in (os.path.join(copy, "state"), os.path.join(trials.check.folder, "chain-34")):
        shutil.copy(os.path.join(state, "state"), name)
    trials.audited("a chain in which an image stays wrong", 1, begin, "--state", copy, "--to", damaged, later)
    output = trials.audited("a chain that goes on", 0, "alike: ", "--state", state, "--to", last, later)
    stands = f"chain: TXID {trials.first} (first image) .. {trials.last}, 2 audits\n"
    trials.check.contains("where it stands then", output, stands)
    check_state(trials, copy, last)
    check_found(trials, state)


def check_found(trials, folder):
    """A state is read once, until another file takes its place or it is changed."""
    chain, read = Chain(folder), []
    reads = chain.read_state
    chain.read_state = lambda file: read.append(1) or reads(file)
    stands = chain.found()
    trials.check.same("where a chain stands, asked again", (chain.found(), len(read)), (stands, 1))
    shutil.copy(chain.name, f"{chain.name}.copy")
    os.replace(f"{chain.name}.copy", chain.name)
    trials.check.same("where a chain stands in another file", (chain.found(), len(read)), (stands, 2))
    with open(chain.name, "r+b") as file:
        file.seek(-20, os.SEEK_END)
        file.write(b"x")
    os.utime(chain.name, ns=(0, 0))
    try:
        told = str(chain.found())
    except Refused as reason:
        told = str(reason)
    trials.check.contains("where a chain stands in a file that was changed", told, "is damaged, since its SHA-256")
    chain.lock.close()


def check_state(trials, folder, last):
    """A state that was changed is refused, and one of the form before is taken once, and said to be such."""
    name = os.path.join(folder, "state")
    words = "--state", folder, "--to", last, trials.log(*trials.records[trials.second :])
    with open(os.path.join(trials.check.folder, "chain-34"), "rb") as file:
        whole = file.read()
    damaged = "is damaged, since its SHA-256 is not that of its first line: bring it back from a copy"
    for what, old, new, reason in (
        ("with another digit in its image", b'"len":200', b'"len":201', damaged),
        ("with another digit in its first line", b'"audits":1', b'"audits":2', damaged),
        ("with another end", b'{"end":', b'{"enf":', damaged),
        ("of another form", b"hdfs-audit-3", b"hdfs-audit-4", "is no state of an audit"),
        ("that says it is of the form before", b"hdfs-audit-3", b"hdfs-audit-2", "is no state of an audit"),
        ("that says it is of the first form", b"hdfs-audit-3", b"hdfs-audit", "is no state of an audit"),
        ("with another owner in its first line", b'"owner":"hdfs"', b'"owner":"root"', damaged),
        ("with another count of inodes", b'"inodes":', b'"inodes":1', damaged),
        ("with a kind that there is not", b'"bare":{}', b'"bare":{"/data/notes":"no"}', "is no state of an audit"),
        ("that is torn", whole, b"{}", "is no state of an audit"),
    ):
        put(name, whole.replace(old, new, 1))
        trials.refused(f"a state {what}", reason, *words)
    head, rest = whole.split(b"\n", 1)
    members = {name: it for name, it in json.loads(head).items() if name not in ("sha256", *OF_INODES)}
    rest = rest[json.loads(head)["inodes"] * INODE_BYTES :]
    found = hashlib.sha256(to_json({name: it for name, it in members.items() if name != "form"}).encode() + rest).hexdigest()
    before = {**members, "form": "hdfs-audit-2", "sha256": found}
    first = {**{name: it for name, it in members.items() if name not in ("names", "replications")}, "form": "hdfs-audit", "bare": []}
    for form, said in ((before, "has no attributes yet, which were not compared: "), (first, "has no sum yet, and is taken as it is: ")):
        put(name, json.dumps(form).encode() + b"\n" + rest)
        output = trials.audited("a state of a form before", 0, "alike: ", *words)
        trials.check.contains("that it is", output, f"{name} {said}")
        with open(name, "rb") as file:
            members = json.loads(file.readline())
        whole = {key: members[key] for key in ("form", "inodes")}
        trials.check.same("the state behind it", (whole, len(members["sets"]) > 1), ({"form": "hdfs-audit-3", "inodes": 10}, True))


def put(name, content):
    with open(name, "wb") as file:
        file.write(content)


def check_kept(trials, first):
    """A file is bare in a chain only if the log or the first image has it so, and not because a wrong image has."""
    state = os.path.join(trials.check.folder, "kept")
    striped = in_inode("spare", "<replication>", "<blockType>STRIPED</blockType><replication>")
    second, begin = trials.image(trials.second, striped), 'kind "/data/spare" file striped'
    trials.audited("a chain", 1, begin, "--state", state, "--from", first, "--to", second, trials.whole)
    with open(os.path.join(state, "state")) as file:
        trials.check.contains("the bare files of a chain", file.readline(), '"bare":{}')


def check_random(trials):
    """What a cluster does at random is what its log makes, from any TXID to any later one, and on in a chain."""
    program = Program(trials.check.program)
    for seed in range(CLUSTERS):
        cluster, chance = cluster_at_random(seed, STEPS), random.Random(seed)
        for first, last in pairs_of(cluster, chance, seed < WHOLE_CLUSTERS):
            at_once(trials.check, program, cluster, first, last, f"cluster {seed}")
        state = os.path.join(trials.check.folder, f"chain-{seed}")
        links = sorted(chance.sample(range(1, cluster.txid + 1), 4))
        for first, last in zip(links, links[1:]):
            at_once(trials.check, program, cluster, first, last, f"chain of cluster {seed}", state)


def pairs_of(cluster, chance, is_whole):
    """The TXIDs of two images."""
    firsts = range(1, cluster.txid) if is_whole else chance.sample(range(1, cluster.txid), AUDITS_OF_A_CLUSTER)
    pairs = [(first, chance.randrange(first + 1, cluster.txid + 1)) for first in firsts]
    return pairs + [(chance.randrange(1, last), last) for last in range(2, cluster.txid + 1) if is_whole]


def at_once(check, program, cluster, first, last, name, state=None):
    """Audits an undamaged image in this process."""
    names = [os.path.join(check.folder, name) for name in ("first", "last", "log")]
    records = [text for txid, text in cluster.records if first - 2 < txid < last + 3]
    for path, text in zip(names, (cluster.images[first], cluster.images[last], document(*records))):
        with open(path, "w", encoding="utf-8", newline="") as file:
            file.write(text)
    start = None if state and os.path.exists(state) else names[0]
    options = SimpleNamespace(start=start, to=names[1], files=names[2:], state=state, most=20)
    options.__dict__.update(json=False, quiet=True, progress=None, strict=False)
    said = said_in_process(program, options, whole=True)
    check.holds(f"{name} from TXID {first} to {last}", "\nthe same in " in said, said)
    options.state = state and f"{state}-parts"
    part = said_in_process(program, options, whole=False)
    check.same(f"{name} from TXID {first} to {last}, by a part", (WAYS.search(part) is not None, WAYS.sub("", part)), (True, said))
    if state is not None:
        check.same(f"what is kept of {name} at {last}", kept_in(options.state), kept_in(state))


def said_in_process(program, options, whole):
    """What an audit in this process says, by one of both ways."""
    options.whole, options.sparse, output = whole, not whole, io.StringIO()
    with contextlib.redirect_stdout(output), tempfile.TemporaryDirectory() as folder:
        try:
            audited(program, folder, options)
        except Refused as refused:
            print(f"refused: {refused}")
    return output.getvalue()


PARTS = (
    check_same,
    check_unwritten,
    check_damages,
    check_scope,
    check_lost,
    check_forms,
    check_replications,
    check_table,
    check_long_in_chain,
    check_marks,
    check_layouts,
    check_nothing_said,
    check_texts,
    check_places,
    check_deep_moves,
    check_progress,
    check_steps,
    check_second,
    check_failing,
    check_chain,
    check_random,
    check_attributes,
    check_parts,
)
