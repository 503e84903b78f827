"""What the trials of audits plant: a story of a cluster, damages of its image, and edits that its log loses."""
import re

from audit.trials.cases import document, member
from audit.trials.cluster import FIRST_ID, Cluster


def story():
    """A log with each opcode that has an effect, and the TXIDs of three images of it."""
    cluster = Cluster()
    cluster.begin_segment()
    data = cluster.make_directory(cluster.root, "data")
    old, empty = cluster.make_directory(data, "old"), cluster.make_directory(cluster.root, "empty")
    notes, draft = written(cluster, data, "notes", 200, 300), cluster.create(data, "draft")
    cluster.add_block(draft)
    spare = written(cluster, data, "spare")
    first = cluster.txid
    cluster.append(notes)
    cluster.add_block(notes, 500)
    cluster.close(notes, 41)
    cluster.rename(old, cluster.root, "moved")
    cluster.rename(empty, data, "empty", "NONE")
    cluster.set_replication(spare, 2)
    cluster.make_directory(data, "new")
    cluster.delete(written(cluster, data, "gone"))
    cluster.touch(notes)
    cluster.end_segment()
    second = cluster.txid
    cluster.begin_segment()
    cut = written(cluster, cluster.root, "cut", 700)
    cluster.truncate(cut, 600)
    cluster.close(cut, 600)
    one, other = written(cluster, cluster.root, "one", 10), written(cluster, cluster.root, "other", 20)
    cluster.concat(one, [other])
    cluster.append(cut)
    cluster.end_segment()
    cluster.keep_image()
    return cluster, first, second


def files_of_story():
    """The story as files, by their names: two images, and the log."""
    cluster, first, _ = story()
    records = [text for _, text in cluster.records]
    images = {f"fsimage_{txid}.xml": cluster.images[txid] for txid in (first, cluster.txid)}
    return {**images, f"edits_1-{cluster.txid}.xml": document(*(f"\n{text}" for text in records))}


def written(cluster, directory, name, *lengths):
    """A file that was closed with blocks of these lengths."""
    file = cluster.create(directory, name)
    for before, _ in zip((0, *lengths), lengths):
        cluster.add_block(file, before)
    cluster.close(file, lengths[-1] if lengths else 0)
    return file


def replaced(old, new, count=1):
    """A damage that puts a text in the place of another one, which comes so often."""

    def damage(text):
        assert text.count(old) == count, (old, text.count(old))
        return text.replace(old, new)

    return damage


def in_inode(name, old, new):
    """A damage of one inode, by its name."""

    def damage(text):
        inode = re.search(f"<inode><id>[0-9]+</id><type>[A-Z]+</type><name>{name}</name>.*?</inode>", text)[0]
        assert inode.count(old) == 1, (old, inode)
        return text.replace(inode, inode.replace(old, new))

    return damage


def without_inode(name):
    """A damage that takes an inode away, with the count of the inodes as it is then."""

    def damage(text):
        left = re.sub(f"<inode><id>[0-9]+</id><type>[A-Z]+</type><name>{name}</name>.*?</inode>", "", text)
        said = int(re.search("<numInodes>([0-9]+)<", text)[1])
        return left.replace(f"<numInodes>{said}<", f"<numInodes>{said - 1}<")

    return damage


def several(*damages):
    def damage(text):
        for one in damages:
            text = one(text)
        return text

    return damage


# The ids of the inodes of the story.
DATA, OLD, EMPTY, NOTES, DRAFT, SPARE, NEW = range(16386, 16393)
CHILDREN = [f"<child>{inode_id}</child>" for inode_id in (DRAFT, EMPTY, NEW, NOTES, SPARE)]
CHILD_DRAFT, CHILD_EMPTY, CHILD_NEW, CHILD_NOTES, CHILD_SPARE = CHILDREN
BLOCKS = [FIRST_ID + place for place in range(8)]
LAST = "</INodeDirectorySection>"
SPARE_IN_OLD = f"<directory><parent>{OLD}</parent>{CHILD_SPARE}</directory>{LAST}"
ROOT = "<inode><id>16385<"
Z = "<inode><id>99999</id><type>DIRECTORY</type><name>z</name></inode>"

REFERENCE = "<ref><referredId>{}</referredId></ref>"
FIRST_REFERENCE = member("refChild", 0)
SNAPSHOTTABLE = "<SnapshotSection><snapshottableDir><dir>{}</dir></snapshottableDir></SnapshotSection>"
CHANGED_DIRECTORY = (
    "<SnapshotDiffSection><dirDiffEntry><inodeId>{}</inodeId><count>1</count><dirDiff><snapshotId>0</snapshotId>"
    "<deletedInode>{}</deletedInode></dirDiff></dirDiffEntry></SnapshotDiffSection>"
)
CHANGED_FILE = (
    "<SnapshotDiffSection><fileDiffEntry><inodeId>{}</inodeId><count>0</count></fileDiffEntry></SnapshotDiffSection>"
)
OPEN_FILE = (
    "<FileUnderConstructionSection><inode><id>{}</id><path>/data/draft</path></inode></FileUnderConstructionSection>"
)
LOW_INODE = "inconsistent lastInodeId is 16391, and there is an inode 16395\n"


def section(name, text):
    """A change that puts something into a section that is empty."""
    return replaced(f"<{name}></{name}>", f"<{name}>{text}</{name}>")


def sections(text):
    """A change that puts further sections behind all others."""
    return replaced("</fsimage>", f"{text}</fsimage>")


def away(below, other):
    """A change that puts two directories away from the root, with what each lists, and a snapshot that may hold them."""
    inodes = "".join(Z.replace("99999", str(inode_id)) for inode_id in (99998, 99999))
    listed = f"<directory><parent>99998</parent>{below}</directory><directory><parent>99999</parent>{other}</directory>"
    return several(
        replaced(ROOT, inodes + ROOT),
        replaced("<numInodes>10<", "<numInodes>12<"),
        replaced("lastInodeId>16396<", "lastInodeId>99999<"),
        replaced("<numSnapshots>0<", "<numSnapshots>1<"),
        replaced(LAST, listed + LAST),
    )


def missing(called):
    return f"inconsistent inode 99 is missing, {called}"


# A name, and a change of the second image that is none of what is compared. The status is 0.
HARMLESS = [
    ("a last inode that is higher", replaced("lastInodeId>16396<", "lastInodeId>99999<")),
    ("a reference to an inode", section("INodeReferenceSection", REFERENCE.format(NEW))),
    ("a snapshottable directory", sections(SNAPSHOTTABLE.format(NEW))),
    ("a changed directory and a child of it", sections(CHANGED_DIRECTORY.format(NEW, SPARE))),
    ("a changed file", sections(CHANGED_FILE.format(SPARE))),
    ("an open file", sections(OPEN_FILE.format(DRAFT))),
    ("directories away from the root", away(member("child", 99999), "")),
    (
        "a directory that two others away from the root have",
        several(section("INodeReferenceSection", REFERENCE.format(99999)), away(FIRST_REFERENCE, "")),
    ),
]

# A name, a damage of the second image, and how the first line begins. The status is 1.
DAMAGES = [
    (
        "a stamp",
        replaced(f"<id>{BLOCKS[3]}</id><genstamp>1005<", f"<id>{BLOCKS[3]}</id><genstamp>1004<"),
        f'block "/data/notes" 2 {BLOCKS[3]}:1005:41 {BLOCKS[3]}:1004:41',
    ),
    (
        "a length",
        replaced("<numBytes>41<", "<numBytes>40<"),
        f'block "/data/notes" 2 {BLOCKS[3]}:1005:41 {BLOCKS[3]}:1005:40',
    ),
    (
        "the ids of two blocks",
        several(
            replaced(f"<id>{BLOCKS[3]}<", "<id>other<"),
            replaced(f"<id>{BLOCKS[2]}<", f"<id>{BLOCKS[3]}<"),
            replaced("<id>other<", f"<id>{BLOCKS[2]}<"),
        ),
        f'block "/data/draft" 0 {BLOCKS[2]}:1003:0 {BLOCKS[3]}:1003:0',
    ),
    (
        "a block that is left out",
        replaced(f"<block><id>{BLOCKS[3]}</id><genstamp>1005</genstamp><numBytes>41</numBytes></block>", ""),
        f'block "/data/notes" 2 {BLOCKS[3]}:1005:41 -',
    ),
    ("a replication", in_inode("spare", "<replication>2<", "<replication>3<"), 'replication "/data/spare" 2 3'),
    ("a name", in_inode("spare", ">spare<", ">spark<"), 'missing "/data/spare" file'),
    ("the name of a file with blocks", in_inode("notes", ">notes<", ">notez<"), 'missing "/data/notes" file'),
    (
        "a file in another directory",
        several(replaced(CHILD_SPARE, ""), replaced(LAST, SPARE_IN_OLD)),
        'missing "/data/spare" file',
    ),
    (
        "a file that is open and should not be",
        in_inode("spare", "<replication>", "<file-under-construction></file-under-construction><replication>"),
        'state "/data/spare" closed open',
    ),
    (
        "a file that is closed and should not be",
        in_inode("draft", "<file-under-construction><clientName>c</clientName></file-under-construction>", ""),
        'state "/data/draft" open closed',
    ),
    ("a kind", in_inode("spare", ">FILE<", ">DIRECTORY<"), 'kind "/data/spare" file directory'),
    ("a file that is gone", several(without_inode("spare"), replaced(CHILD_SPARE, "")), 'missing "/data/spare" file'),
    (
        "a directory too many",
        several(
            replaced(ROOT, Z + ROOT),
            replaced(CHILD_SPARE, f"{CHILD_SPARE}<child>99999</child>"),
            replaced("<numInodes>10<", "<numInodes>11<"),
        ),
        'extra "/data/z" directory',
    ),
    ("the last id", replaced(f"Id>{BLOCKS[6]}<", f"Id>{BLOCKS[7]}<"), f"last_block {BLOCKS[6]} {BLOCKS[7]}"),
    (
        "a last id below the least",
        replaced(f"Id>{BLOCKS[6]}<", "Id>7<"),
        f"inconsistent /cut has the block id {BLOCKS[4]}, above the last one, 7",
    ),
    ("a last stamp that was not issued", replaced("V2>1010<", "V2>1011<"), "last_gen 1010 1011"),
    ("a last stamp below that of a block", replaced("V2>1010<", "V2>1009<"), "last_gen 1010 1009"),
    (
        "a striped file that should not be one",
        in_inode("spare", "<replication>", "<blockType>STRIPED</blockType><replication>"),
        'kind "/data/spare" file striped',
    ),
    (
        "a file of an old layout that should not be one",
        replaced(f"<id>{BLOCKS[2]}<", "<id>77<"),
        'kind "/data/draft" file old',
    ),
    ("a last inode that is too low", replaced("lastInodeId>16396<", "lastInodeId>16391<"), LOW_INODE),
    ("a reference to no inode", section("INodeReferenceSection", REFERENCE.format(99)), missing("what a reference ")),
    ("a snapshottable directory that is none", sections(SNAPSHOTTABLE.format(99)), missing("a snapshottable")),
    ("a changed directory that is none", sections(CHANGED_DIRECTORY.format(99, NEW)), missing("a directory that")),
    ("a changed file that is none", sections(CHANGED_FILE.format(99)), missing("a file that a snap")),
    ("a deleted child that is none", sections(CHANGED_DIRECTORY.format(NEW, 99)), missing("a child that only")),
    ("an open file that is none", sections(OPEN_FILE.format(99)), missing("a file under")),
    (
        "directories in themselves, away from the root",
        away(member("child", 99999), member("child", 99998)),
        "inconsistent inode 9999",
    ),
    (
        "directories in themselves by a reference, away from the root",
        several(section("INodeReferenceSection", REFERENCE.format(99998)), away(FIRST_REFERENCE, "<child>99999</child>")),
        "inconsistent inode 9999",
    ),
    ("an inode that is missing", without_inode("spare"), f"inconsistent inode {SPARE} is missing"),
    (
        "an inode in two directories",
        replaced(LAST, SPARE_IN_OLD),
        f"inconsistent inode {SPARE} is in two directories",
    ),
    ("an inode in no directory", replaced(CHILD_SPARE, ""), f"inconsistent inode {SPARE} is in no directory"),
    (
        "two children of one name",
        in_inode("spare", ">spare<", ">notes<"),
        'inconsistent "/data": two children have the name "notes"',
    ),
    (
        "children out of order",
        replaced(CHILD_NEW + CHILD_NOTES, CHILD_NOTES + CHILD_NEW),
        'inconsistent "/data": the child "new" is behind "notes", out of order',
    ),
    (
        "a reference to nothing",
        replaced(CHILD_SPARE, f"{CHILD_SPARE}<refChild>5</refChild>"),
        f"inconsistent inode {DATA} has the refChild 5, and the references are 0",
    ),
    ("another count of inodes", replaced("<numInodes>10<", "<numInodes>11<"), "inconsistent numInodes is 11, and"),
    (
        "a block in two files",
        replaced(f"<id>{BLOCKS[2]}<", f"<id>{BLOCKS[3]}<"),
        f'inconsistent block {BLOCKS[3]} is in two files, "/data/draft" and "/data/notes"',
    ),
    (
        "a block above the last id",
        replaced(f"Id>{BLOCKS[6]}<", f"Id>{BLOCKS[3]}<"),
        f"inconsistent /cut has the block id {BLOCKS[4]}, above the last one, {BLOCKS[3]}",
    ),
]

# An opcode, the TXID of its record, and how the first line begins where a record without effect stands there.
LOST = [
    ("OP_APPEND", 19, "fault TXID 21: "),
    ("OP_ALLOCATE_BLOCK_ID", 22, "fault TXID 24: "),
    ("OP_SET_GENSTAMP_V2", 23, "fault TXID 24: "),
    ("OP_ADD_BLOCK", 24, "fault TXID 25: "),
    ("OP_CLOSE", 25, 'state "/data/notes" open closed\nblock "/data/notes" 2 1073741828:1005:0 1073741828:1005:41\n'),
    ("OP_RENAME_OLD", 26, 'missing "/data/old" directory\nextra "/moved" directory\n'),
    ("OP_RENAME", 27, 'extra "/data/empty" directory\nmissing "/empty" directory\n'),
    ("OP_SET_REPLICATION", 28, 'replication "/data/spare" 3 2\n'),
    ("OP_MKDIR", 29, 'extra "/data/new" directory\n'),
    ("OP_ADD", 30, "fault TXID 31: "),
    ("OP_DELETE", 32, 'missing "/data/gone" file\n'),
    ("OP_END_LOG_SEGMENT", 34, "alike: 4 directories, 5 files with 5 blocks\n"),
    ("OP_START_LOG_SEGMENT", 35, "fault TXID 36: "),
    ("OP_TRUNCATE", 42, "fault TXID 43: "),
    ("OP_CONCAT_DELETE", 54, f'block "/one" 1 - {BLOCKS[6]}:1009:20\nmissing "/other" file\n'),
    ("OP_UPDATE_BLOCKS", 57, f'block "/cut" 0 {BLOCKS[4]}:1007:600 {BLOCKS[4]}:1010:600\n'),
    ("OP_TIMES", 33, "alike: 4 directories, 5 files with 5 blocks\n"),
]
