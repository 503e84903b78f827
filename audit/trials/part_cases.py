"""Trials of audits by a part: what no record names is compared by sums, and both ways say the same."""
import contextlib
import io
import json
import os
import re
import shutil
import tempfile
from array import array
from types import SimpleNamespace

from audit.comparing.auditing import audited_by_parts
from audit.program.proved import Program
from audit.trials.audit_damages import in_inode, replaced, several, without_inode, written
from audit.trials.cases import record
from audit.trials.cluster import Cluster
from hdfs.formats import Refused

WAYS_TO_GO = "--sparse", "--whole"
WAYS = re.compile(r"; files through the program: ([0-9,]+), by sums: ([0-9,]+)$", re.MULTILINE)

# Names whose characters the dumps of an image and of a log may have otherwise.
ODD_NAMES = ["a&b", "a<b", "a>b", 'a"b', "a'b", "a\nb", "a\U0001f600b", "é", "&amp;", "a\\b", "a b"]


class Warehouse:
    """Directories with files that no record of the log names, and its images at two TXIDs."""

    def __init__(self):
        self.cluster = cluster = Cluster()
        cluster.begin_segment()
        self.table = cluster.make_directory(cluster.root, "table")
        self.parts = [cluster.make_directory(self.table, name) for name in ("one", "two", "three")]
        for part in self.parts:
            for name in ("x", "y", "z"):
                written(cluster, part, f"{part.name}-{name}", 10, 20)
        cluster.set_owner(self.parts[0].children["one-x"], "ada")
        self.striped = cluster.create(self.table, "striped", policy=1)
        cluster.add_block(self.striped)
        cluster.close(self.striped, 5)
        self.open = cluster.create(self.table, "open")
        cluster.add_block(self.open)
        self.deleted = written(cluster, self.table, "deleted", 7)
        cluster.delete(self.deleted)
        self.first = cluster.txid

    def end(self):
        """The log ends, and the second image is kept."""
        self.cluster.end_segment()
        self.cluster.keep_image()
        return self


def quiet():
    """A log that names a file alone."""
    story = Warehouse()
    written(story.cluster, story.cluster.root, "new", 5)
    return story.end()


def deleted():
    """A log that deletes a directory of files that it does not name."""
    story = Warehouse()
    story.cluster.delete(story.parts[1])
    return story.end()


def moved():
    """A log that moves such a directory, and makes and deletes others."""
    story = Warehouse()
    cluster = story.cluster
    old = cluster.make_directory(cluster.root, "old")
    cluster.rename(story.parts[0], old, "ein")
    cluster.rename(story.parts[1], cluster.root, "zwei", "NONE")
    cluster.delete(old)
    cluster.make_directory(story.table, "one")
    return story.end()


def held():
    """A log behind a snapshot, which holds what is deleted, and refers to what is moved."""
    story = Warehouse()
    cluster = story.cluster
    cluster.create_snapshot(story.table)
    cluster.rename(story.parts[0].children["one-x"], cluster.root, "x")
    cluster.rename(story.parts[2], story.parts[0], "drei")
    cluster.delete(story.parts[1])
    return story.end()


def referred():
    """A snapshot refers to files that the log does not name."""
    story = Warehouse()
    cluster = story.cluster
    cluster.create_snapshot(story.table)
    cluster.rename(story.parts[0].children["one-x"], cluster.root, "x")
    story.first = cluster.txid
    cluster.delete(story.parts[1])
    written(cluster, cluster.root, "new", 5)
    return story.end()


def odd_names():
    """A log that names files of odd names, beside ones that it does not name."""
    story = Warehouse()
    cluster = story.cluster
    files = [written(cluster, story.table, name, 7) for name in ODD_NAMES]
    more = [written(cluster, story.table, f"{name}-still", 7) for name in ODD_NAMES]
    cluster.touch(more[0])
    story.first = cluster.txid
    for file in files:
        cluster.set_replication(file, 2)
        cluster.rename(file, story.table, f"{file.name}-moved")
    return story.end()


# A story, and how many of its files are compared by sums.
STORIES = [(quiet, 11), (deleted, 8), (moved, 8), (held, 7), (referred, 8), (odd_names, 22)]

# A damage of what the quiet log does not name, and what is told of it.
DAMAGES = [
    ("a replication", in_inode("two-y", "<replication>3<", "<replication>2<"), 'replication "/table/two/two-y" 3 2\n'),
    ("a length", in_inode("two-y", "<numBytes>20<", "<numBytes>21<"), 'block "/table/two/two-y" 1 '),
    ("a stamp", in_inode("two-y", "<genstamp>1010<", "<genstamp>1001<"), 'block "/table/two/two-y" 1 '),
    ("an owner", in_inode("one-x", ">ada:", ">hdfs:"), 'attribute "/table/one/one-x" "owner" "ada" "hdfs"\n'),
    ("a mode", in_inode("three-z", ":0755<", ":0700<"), 'attribute "/table/three/three-z" "mode" "0755" "0700"\n'),
    ("an open file that is closed", in_inode("open", "<file-under-construction><clientName>c</clientName></file-under-construction>", ""), 'state "/table/open" open closed\n'),
    ("a block group", in_inode("striped", "<numBytes>5<", "<numBytes>6<"), 'block "/table/striped" 0 '),
    ("a file of another kind", in_inode("striped", "<erasureCodingPolicyId>1</erasureCodingPolicyId><blockType>STRIPED</blockType>", ""), 'kind "/table/striped" striped old\n'),
    ("another name", in_inode("three-z", "three-z", "three-zz"), 'extra "/table/three/three-zz" file\n'),
    ("a file that is lost", lambda text: without_inode("three-z")(without_child("three-z")(text)), 'missing "/table/three/three-z" file\n'),
    ("a file in another directory", lambda text: shifted(text, "two-x", "one-z"), 'moved "/table/two/two-x" "/table/one/two-x"\n'),
    ("a directory in another directory", lambda text: shifted(text, "two", "one-z"), 'missing "/table/two" directory and 3 below\n'),
    ("another name of a directory", in_inode("two", ">two<", ">twp<"), 'extra "/table/twp" directory and 3 below\n'),
    ("a directory that is lost with its files", lambda text: lost(text, "two", "two-x", "two-y", "two-z"), 'missing "/table/two" directory and 3 below\n'),
    ("the ids of two files", lambda text: exchanged(text, "one-z", "two-x"), 'moved "/table/one/one-z" "/table/two/one-z"\n'),
    ("a name out of order", in_inode("two-y", ">two-y<", ">two-zz<"), "inconsistent "),
    ("a name that another one has", in_inode("two-y", ">two-y<", ">two-z<"), "inconsistent "),
    ("a block that another file has", lambda text: with_block_of(text, "two-y", "three-y"), "inconsistent block "),
    ("a block that a deleted file had", in_inode("two-y", "<id>1073741834<", "<id>1073741844<"), 'block "/table/two/two-y" 1 '),
]


def shifted(text, name, beside):
    """A damage that takes a node behind another one, which may be in another directory."""
    child = f"<child>{id_of(text, name)}</child>"
    return replaced(f"<child>{id_of(text, beside)}</child>", f"<child>{id_of(text, beside)}</child>{child}")(text.replace(child, ""))


def lost(text, *names):
    """A damage that takes out a directory with its files."""
    text = re.sub(f"<directory><parent>{id_of(text, names[0])}</parent>.*?</directory>", "", text)
    for name in names:
        text = re.sub(f"<child>{id_of(text, name)}</child>", "", text)
        text = without_inode(name)(text)
    return text


def exchanged(text, one, other):
    """A damage that gives two files one another's ids, where the inodes stand."""
    ids = id_of(text, one), id_of(text, other)
    return several(*(replaced(f"<inode><id>{of}<", f"<inode><id>{to}<") for of, to in zip((*ids, "x"), ("x", ids[0], ids[1]))))(text)


def with_block_of(text, name, other):
    """A damage that gives a file the first block of another one in place of its own."""
    blocks = [re.search(f"<name>{of}<.*?<block><id>([0-9]+)<", text)[1] for of in (name, other)]
    return in_inode(name, f"<id>{blocks[0]}<", f"<id>{blocks[1]}<")(text)


def without_child(name):
    """A damage that takes a file out of its directory."""

    def damage(text):
        return replaced(f"<child>{id_of(text, name)}</child>", "")(text)

    return damage


def id_of(text, name):
    """The id of an inode, by its name."""
    return re.search(f"<inode><id>([0-9]+)</id><type>[A-Z]+</type><name>{name}<", text)[1]


def log_of(trials, story, lost=None, escape=str):
    """The log of a story as a file, where a record may be lost."""
    texts = (record("OP_TIMES", txid) if txid == lost else escape(text) for txid, text in story.cluster.records)
    return trials.log(*texts)


def both_ways(trials, name, status, by_sums, *words, state=None):
    """Both ways have to end with this status, and to say the same. Answers what they say. Each has a state of its own."""
    said = [trials.run(way, *words, *(("--state", state + way) if state else ())) for way in WAYS_TO_GO]
    found = WAYS.search(said[0][1])
    trials.check.same(f"{name}: the status both ways", [it[0] for it in said], [status, status])
    trials.check.same(f"{name}: both ways say the same", (WAYS.sub("", said[0][1]), said[0][2]), said[1][1:])
    if by_sums is not None:
        trials.check.same(f"{name}: how many files are compared by sums", found and int(found[2].replace(",", "")), by_sums)
    return said[1][1]


def check_parts(trials):
    """A part is enough where all is the same, and both ways say the same where it is not."""
    for make, by_sums in STORIES:
        story = make()
        first, second = (trials.check.file(story.cluster.images[txid]) for txid in (story.first, story.cluster.txid))
        words = "--from", first, "--to", second
        both_ways(trials, make.__doc__, 0, by_sums, *words, log_of(trials, story))
        if make is odd_names:
            quoted = log_of(trials, story, escape=lambda text: text.replace('"', "&quot;").replace("'", "&apos;"))
            both_ways(trials, f"{make.__doc__} with quotes as entities", 0, by_sums, *words, quoted)
    check_damages_of_rest(trials)
    check_left_behind(trials)
    check_order(trials)
    check_overwrite(trials)
    check_odd_rest(trials)
    check_chain_of_parts(trials)


def check_damages_of_rest(trials):
    """A wider part tells each damage, but where an image contradicts itself."""
    story = quiet()
    first, log = trials.check.file(story.cluster.images[story.first]), log_of(trials, story)
    for name, damage, told in DAMAGES:
        second = trials.check.file(damage(story.cluster.images[story.cluster.txid]))
        output = both_ways(trials, f"{name} of what no record names", 1, None, "--from", first, "--to", second, log)
        trials.check.contains(f"what is told of {name}", output, told)
        trials.check.same(f"{name} by parts alone", by_parts(trials, first, second, log), None if told.startswith("inconsistent ") else output)


def by_parts(trials, first, second, log):
    """What an audit says without the whole, or None where it leaves all to that."""
    options = SimpleNamespace(start=first, to=second, files=[log], state=None, most=100, json=False, quiet=True, progress=None, strict=False)
    output = io.StringIO()
    with contextlib.redirect_stdout(output), tempfile.TemporaryDirectory() as folder, contextlib.suppress(Refused):
        audited_by_parts(Program(trials.check.program), folder, options, None)
    return output.getvalue() or None


def check_left_behind(trials):
    """One of the files of a directory that is deleted is still there."""
    story = deleted()
    first, log = trials.check.file(story.cluster.images[story.first]), log_of(trials, story)
    before, after = (story.cluster.images[txid] for txid in (story.first, story.cluster.txid))
    inode = re.search("<inode><id>([0-9]+)</id><type>FILE</type><name>two-y</name>.*?</inode>", before)
    said = int(re.search("<numInodes>([0-9]+)<", after)[1])
    child = "<directory><parent>16385</parent>"
    left = several(
        replaced("</INodeSection>", f"{inode[0]}</INodeSection>"),
        replaced(f"<numInodes>{said}<", f"<numInodes>{said + 1}<"),
        lambda text: re.sub(f"({child}(?:<child>[0-9]+</child>)*)", rf"\1<child>{inode[1]}</child>", text),
    )
    output = both_ways(trials, "a file that is left behind", 1, None, "--from", first, "--to", trials.check.file(left(after)), log)
    trials.check.contains("what is told of it", output, 'extra "/two-y"')


def check_order(trials):
    """What is new, or a directory, stands in order among files that no record names, or at another place."""
    story = Warehouse()
    cluster = story.cluster
    cluster.make_directory(story.parts[0], "one-xx")
    first = cluster.txid
    written(cluster, story.parts[0], "one-yy", 5)
    cluster.rename(story.parts[1].children["two-y"], story.parts[0], "one-a&b")
    story.end()
    log, last = log_of(trials, story), cluster.images[cluster.txid]
    words = "--from", trials.check.file(cluster.images[first]), "--to"
    both_ways(trials, "what is new stands in order", 0, 10, *words, trials.check.file(last), log)
    for name, beside in (("one-yy", "one-z"), ("one-xx", "one-y"), ("one-a&amp;b", "one-x"), ("one-yy", "one-x")):
        damaged = trials.check.file(shifted(last, name, beside))
        output = both_ways(trials, f"{name} behind {beside}", 1, None, *words, damaged, log)
        trials.check.contains("what is told of it", output, 'inconsistent "/table/one": the child ')


def check_overwrite(trials):
    """A lost OP_DELETE before a rename that may overwrite: a directory of files that no record names is not empty."""
    story = Warehouse()
    cluster = story.cluster
    new = cluster.make_directory(cluster.root, "new")
    cluster.delete(story.parts[1])
    lost = cluster.txid
    cluster.rename(new, story.table, "two", "OVERWRITE")
    story.end()
    words = "--from", trials.check.file(cluster.images[story.first]), "--to", trials.check.file(cluster.images[cluster.txid])
    both_ways(trials, "a rename to where a directory was", 0, 8, *words, log_of(trials, story))
    output = both_ways(trials, "a lost OP_DELETE before a rename", 1, None, *words, log_of(trials, story, lost))
    trials.check.contains("what is told of it", output, f"fault TXID {cluster.txid - 1}: ")


def check_odd_rest(trials):
    """What is odd in a file that no record names is told as in the whole."""
    story = quiet()
    images = story.cluster.images[story.first], story.cluster.images[story.cluster.txid]
    log = log_of(trials, story)
    ids = [id_of(images[1], name) for name in ("two-x", "two-y", "three-x")]
    for name, status, damage in (
        ("a link", 2, in_inode("two-y", ">FILE<", ">SYMLINK<")),
        ("a file twice in its directory", 1, replaced(f"<child>{ids[0]}</child>", f"<child>{ids[0]}</child>" * 2)),
        ("a file in two directories", 1, replaced(f"<child>{ids[0]}</child>", f"<child>{ids[0]}</child><child>{ids[2]}</child>")),
        ("a file in no directory", 1, replaced(f"<child>{ids[0]}</child>", "")),
        ("files out of order", 1, replaced(f"<child>{ids[0]}</child><child>{ids[1]}</child>", f"<child>{ids[1]}</child><child>{ids[0]}</child>")),
        ("a file that is missing", 1, replaced(f"<id>{ids[0]}<", "<id>99999<")),
        ("a file of an id that comes twice", 1, replaced(f"<id>{ids[0]}<", f"<id>{ids[1]}<")),
        ("a file with children", 1, replaced("</INodeDirectorySection>", f"<directory><parent>{ids[0]}</parent></directory></INodeDirectorySection>")),
        ("a low last inode", 1, lambda text: re.sub("lastInodeId>[0-9]+<", "lastInodeId>16390<", text)),
        ("another count", 1, lambda text: re.sub("numInodes>[0-9]+<", "numInodes>7<", text)),
        ("a block above the last id", 1, in_inode("two-y", "</numBytes></block></blocks>", "</numBytes></block><block><id>2147483648</id><genstamp>1001</genstamp><numBytes>1</numBytes></block></blocks>")),
    ):
        first, second = trials.check.file(images[0]), trials.check.file(damage(images[1]))
        both_ways(trials, f"{name}, which no record names", status, None, "--from", first, "--to", second, log)


def chain_of_parts():
    """Files that are made at the first link and named no more, a concat and a striped one among them; and four TXIDs."""
    story = Warehouse()
    cluster, txids = story.cluster, [story.first]
    made, whole, more = (written(cluster, story.parts[0], name, 9) for name in ("made", "whole", "more"))
    cluster.set_permissions(made, 0o600)
    cluster.concat(whole, [more])
    groups = cluster.create(story.parts[0], "groups", policy=1)
    cluster.add_block(groups)
    cluster.close(groups, 8)
    for name in ODD_NAMES:
        written(cluster, story.parts[2], name, 4)
    txids.append(cluster.txid)
    cluster.rename(story.parts[0], story.parts[1], "e\u00edn")
    cluster.set_replication(story.parts[2].children["three-y"], 5)
    txids.append(cluster.txid)
    cluster.delete(story.parts[2])
    cluster.touch(cluster.root)
    cluster.rename(story.parts[0], cluster.root, "one")
    txids.append(cluster.txid)
    story.end()
    return story, txids


def check_chain_of_parts(trials):
    """A chain says the same and keeps the same by both ways, link after link, and a damage of an old file is told."""
    story, txids = chain_of_parts()
    log, state = log_of(trials, story), os.path.join(trials.check.folder, "parts")
    images = [story.cluster.images[txid] for txid in txids]
    words = ["--from", trials.check.file(images[0])]
    for place, by_sums in enumerate((11, 23, 10), 1):
        if place == 3:
            check_damages_in_chain(trials, state, images[place], log)
        both_ways(trials, f"a chain of parts, {place}", 0, by_sums, *words, "--to", trials.check.file(images[place]), log, state=state)
        kept = [kept_in(f"{state}{way}") for way in WAYS_TO_GO]
        trials.check.same(f"what is kept by both ways, {place}", kept[0], kept[1])
        words = []


def check_damages_in_chain(trials, state, image, log):
    damages = [
        ("a replication", in_inode("made", "<replication>3<", "<replication>4<"), 'replication "/one/made" 3 4\n'),
        ("a mode", in_inode("made", ":0600<", ":0644<"), 'attribute "/one/made" "mode" "0600" "0644"\n'),
        ("a block group", in_inode("groups", "<numBytes>8<", "<numBytes>7<"), 'block "/one/groups" 0 '),
        ("a block behind a concat", lambda text: re.sub("(<name>whole<.*?)<block>.*?</block>", r"\1", text, count=1), 'block "/one/whole" 0 '),
    ]
    for name, damage, told in damages:
        for way in WAYS_TO_GO:
            shutil.copytree(f"{state}{way}", f"{state}-copy{way}")
        output = both_ways(trials, f"{name} in a chain", 1, None, "--to", trials.check.file(damage(image)), log, state=f"{state}-copy")
        trials.check.contains(f"what is told of {name} in a chain", output, told)
        for way in WAYS_TO_GO:
            shutil.rmtree(f"{state}-copy{way}")


def kept_in(folder):
    """What a state has: its first line, the ids and the attributes of all inodes, and the image."""
    with open(os.path.join(folder, "state"), "rb") as file:
        members = json.loads(file.readline())
        ids, sets = array("q"), array("I")
        ids.fromfile(file, members["inodes"])
        sets.fromfile(file, members["inodes"])
        known = members.pop("sets")
        del members["sha256"]
        return members, ids, [known[number] for number in sets], file.read()
