"""Trials of the quick readers: dumps with one byte changed are read the same by them and by expat, refusals too.

`quick_cases.py COUNT SEED` tries so many images and as many logs, and prints how many there were and how many differ.
"""
import io
import random
import sys

from audit.converting.audited import TAKEN, Audited
from audit.converting.inode_ids import Followed, inode_of
from audit.converting.shortways import ShortWays
from audit.converting.table import Table
from audit.reading.checkpoint import Checkpoint, pieces_of
from audit.reading.listed import ListedTree
from audit.trials.cases import add, block, close, document, end, mkdir, path, record, rename, start
from audit.trials.image_cases import FIRST_ID, ROOT, directory, image, inode, member
from hdfs.converting.bare import bare_paths
from hdfs.converting.conversion import Conversion, records_of
from hdfs.converting.log import Log, Map, Whole
from hdfs.formats import Refused
from hdfs.reading import dumps

INODES = 24
CHANGED = 600
TURNS = 3
# So many bytes come at a time, so that expat stops between two inodes often.
PIECE_BYTES = 700
# What is put in place of what, everywhere, and where it stands last.
FORMS = {
    "images": [
        (b"<name>", b"<name a='b'>"),
        (b"<name>", b"<name><![CDATA[x]]>"),
        (b"</name>", b"&amp;</name>"),
        (b"</inode>", b"<!-- --></inode>"),
        (b"</inode>", b"</inode>x"),
        (b"</inode>", b"<name>y</name></inode>"),
        (b"<replication>3<", b"<replication>0003<"),
        (b"<replication>3<", b"<replication>9223372036854775808<"),
        (b"<blocks>", b"<blocks></blocks><blocks>"),
        (b"<type>FILE<", b"<type>SYMLINK<"),
        (b"<id>20007<", b"<id>20006<"),
        (b"<child>20007<", b"<child>20006<"),
        (b"<child>", b"<refChild>0</refChild><child>"),
        (b"<genstamp>1001<", b"<genstamp>5<"),
        (b"<mtime>7</mtime>", b"<mtime><x>7</x></mtime>"),
        (b"<mtime>7</mtime>", b"<mtime/>"),
        (b"ada:staff:0644", b"ada:staff:u"),
        (b"ada:staff:0644", b"ad\\0041;:staff:00644"),
        (b"ada:staff:0644", b"ad\\:staff:0644"),
        (b"<permission>ada:staff:0644</permission>", b""),
        (b"<storagePolicyId>0<", b"<storagePolicyId>15<"),
        (b"<storagePolicyId>0<", b"<storagePolicyId>x<"),
        (b"<storagePolicyId>0</storagePolicyId>", b""),
        (b"<nsquota>-1<", b"<nsquota>007<"),
        (b"<dsquota>-1</dsquota>", b""),
        (b"<preferredBlockSize>134217728<", b"<preferredBlockSize><"),
    ],
    "logs": [
        (b">OP_TIMES<", b">OP_[\\G<"),
        (b">OP_TIMES<", b">OP_.<"),
        (b">OP_TIMES<", b">OP_CREATE_SNAPSHOT<"),
        (b"<PATH>", b"<PATH a='b'>"),
        (b"<PATH>", b"<PATH><!-- -->"),
        (b"/04 d/new/f1._COPYING_<", b"/04 d/new/f&#233;<"),
        (b"/04 d/new", b"/04 d/./new"),
        (b"/04 d/new", b"/04 d//new"),
        (b"/04 d/new/f1", b"/04 d/new/" + b"f" * 255),
        (b"/04 d/new/f1", b"/04 d/new/\x7ff1"),
        (b"/04 d/new/f1", b"/04 d/new/" + b"f" * 256),
        (b"/04 d/new", b"/04 d/new" + b"/a" * 1000),
        (b"._COPYING_<", b"\\005c;<"),
        (b"<RPC_CLIENTID/>", b"<PATH>/x</PATH>"),
        (b"</DATA>", b"</DATA><DATA></DATA>"),
        (b"</DATA>", b"<ERASURE_CODING_POLICY_ID>0</ERASURE_CODING_POLICY_ID></DATA>"),
        (b"</DATA>", b"<ERASURE_CODING_POLICY_ID>1</ERASURE_CODING_POLICY_ID></DATA>"),
        (b"</DATA>", b"<BLOCK/></DATA>"),
        (b"<REPLICATION>", b"<REPLICATION>00"),
        (b"<REPLICATION>2<", b"<REPLICATION>600<"),
        (b"<GENSTAMP>", b"<GENSTAMP>-"),
        (b"<BLOCK_ID>1073742", b"<BLOCK_ID>1"),
        (b"<NUM_BYTES>", b"<NUM_BYTES> "),
        (b">OVERWRITE<", b">OVERWRITE|TO_TRASH<"),
        (b">OVERWRITE<", b">NO_SUCH<"),
        (b"<SRC>/04 d<", b"<SRC>/04 d<x/><"),
        (b"</RECORD>", b"</RECORD>x"),
        (b"<MODE>420<", b"<MODE>x<"),
        (b"<MODE>420<", b"<MODE>9999<"),
        (b"<USERNAME>ada<", b"<USERNAME>a\\0041;<"),
        (b"<USERNAME>ada<", b"<USERNAME><"),
        (b"</PERMISSION_STATUS>", b"<USERNAME>x</USERNAME></PERMISSION_STATUS>"),
        (b"</PERMISSION_STATUS>", b"</PERMISSION_STATUS><USERNAME>x</USERNAME>"),
        (b"</PERMISSION_STATUS>", b"</PERMISSION_STATUS><XATTR><NAMESPACE>USER</NAMESPACE><NAME>k</NAME></XATTR>"),
        (b"<INODEID>", b"<INODEID>-"),
        (b"<INODEID>30001</INODEID>", b""),
        (b"<BLOCKSIZE>134217728<", b"<BLOCKSIZE>0<"),
    ],
}
BYTES = b"<>&/;:.\\]\"'=-_ \t\r\n\0\x01\x7f\x80\xc3\xff0159az"


def common_dump():
    """A dump whose inodes are of the forms that `hdfs oiv` prints of most, open files and several blocks among them."""
    inodes = [ROOT]
    for place in range(INODES):
        times = member("mtime", 7), member("atime", 8), member("preferredBlockSize", 134217728)
        blocks = "".join(
            member("block", member("id", FIRST_ID + 3 * place + at) + member("genstamp", 1001) + member("numBytes", 5)) + "\n"
            for at in range(place % 4)
        )
        opened = member("file-under-construction", member("clientName", "c 1") + member("clientMachine", "h"))
        owner = member("permission", "ada:staff:0644")
        if place % 5 == 4:
            quotas = member("nsquota", -1), member("dsquota", -1)
            inodes.append(inode(20000 + place, "DIRECTORY", f"{place:02} d", member("mtime", 7), owner, *quotas))
            continue
        listed = member("blocks", blocks) if blocks else ""
        members = member("replication", 3), *times, owner, listed, member("storagePolicyId", 0)
        inodes.append(inode(20000 + place, "FILE", f"{place:02}-f", *members, opened if place % 7 == 3 else ""))
    lists = [directory(16385, *range(20000, 20020)), directory(20004, *range(20020, 20020 + INODES - 20))]
    text = image([f"{it}\n" for it in inodes], [f"{it}\n" for it in lists], last_block=FIRST_ID + 200)
    return text.replace("<NameSection>", "<NameSection><namespaceId>7</namespaceId>").encode()


def outcome(data, is_quick):
    """What a dump is read as, or why it is refused."""
    file = io.BytesIO(data)
    file.name = "dump"
    dump = Checkpoint(Table())
    dump.is_quick = is_quick
    try:
        dump.read(file)
    except Refused as reason:
        return type(reason).__name__, str(reason)
    inodes = dump.inodes
    arrays = inodes.ids, inodes.names, inodes.name_ends, inodes.kinds, inodes.replications, inodes.blocks, inodes.block_ends
    greatest = dump.greatest_block, dump.greatest_gen, dump.with_line_feeds, [dump.sets.all[number] for number in inodes.sets]
    return arrays, dump.children.owners, dump.child_rows, dump.children.ends, dict(dump.passed), greatest


def common_log():
    """A log behind the image of `common_dump`, whose records are of the forms that most have, as `hdfs oev` lays them out."""
    owner = member("PERMISSION_STATUS", member("USERNAME", "ada") + member("GROUPNAME", "staff") + member("MODE", 420))
    records = [start(8), record("OP_MKDIR", 9, member("INODEID", 30000), path("/04 d/new"), owner)]

    def put(make, *words):
        records.append(make(8 + len(records), *words))

    for turn in range(TURNS):
        ids, name = [FIRST_ID + 201 + 2 * turn, FIRST_ID + 202 + 2 * turn], f"/04 d/new/f{turn}"
        stamps = [1101 + 2 * turn, 1102 + 2 * turn]
        put(add, name + "._COPYING_", "true", member("INODEID", 30001 + turn), member("BLOCKSIZE", 134217728), owner)
        for at in range(1 + turn % 2):
            put(of("OP_ALLOCATE_BLOCK_ID", member("BLOCK_ID", ids[at])))
            put(of("OP_SET_GENSTAMP_V2", member("GENSTAMPV2", stamps[at])))
            before = [block(ids[0], stamps[0], 7 * (turn % 3))] if at else []
            put(of("OP_ADD_BLOCK", path(name + "._COPYING_"), *before, block(ids[at], stamps[at]), "<RPC_CLIENTID/>"))
            put(of("OP_UPDATE_BLOCKS", path(name + "._COPYING_"), *before, block(ids[at], stamps[at], 7)))
        put(close, name + "._COPYING_", *(block(ids[at], stamps[at], 7) for at in range(1 + turn % 2)))
        put(rename, name + "._COPYING_", name, *(["OVERWRITE"] if turn % 3 == 2 else []))
        put(of("OP_TIMES", member("LENGTH", 0), path(f"/{turn:02}-f"), member("MTIME", 1)))
        put(of("OP_SET_REPLICATION", path(f"/{turn:02}-f"), member("REPLICATION", 2)))
        put(of("OP_SET_OWNER", member("SRC", "/04 d"), member("USERNAME", f"ada{turn}")))
        put(of("OP_SET_PERMISSIONS", member("SRC", name), member("MODE", 384 + turn)))
        put(of("OP_DELETE", member("LENGTH", 0), path(f"/{turn + 10:02}-f")))
    put(end)
    return document(*(text.replace("><", ">\n    <") for text in records)).encode()


def of(opcode, *members):
    """What makes a record, from its TXID."""
    return lambda txid: record(opcode, txid, *members)


def outcome_of_log(data, is_quick, dump):
    """What a log behind an image becomes, and why it is refused, if it is."""
    file = io.BytesIO(data)
    file.name = "dump"
    dump.use(Table(), {})
    tree, lines, numbers = ListedTree(dump), io.BytesIO(), io.StringIO()
    followed = Followed(tree, dump.sets, {})
    audited = Audited(1001, dump.table, (), followed)
    ways, log = ShortWays(audited), Log(Whole(lines, 2_000), 7, 2, Map(numbers))
    conversion, reason = Conversion(tree, log, (), audited.edits_of, ways.take, audited.behind), None
    conversion.begin_after(7)
    try:
        for found in records_of(file, is_quick):
            conversion.take(found)
        conversion.finish()
    except Refused as refused:
        reason = type(refused).__name__, str(refused)
    counts = dict(conversion.kept), dict(conversion.left_out), dict(audited.passed + ways.passed(TAKEN)), audited.carriage_returns
    stamps = audited.first_issued, sorted(audited.given), audited.table.members()
    return reason, lines.getvalue(), numbers.getvalue(), counts, stamps, names_in(tree, followed), bare_paths(tree)


def names_in(tree, followed):
    """What the log made of a tree: the paths of what it changed, each with what is known of it and of its inode."""
    found, ahead = {}, [("", tree.root)]
    while ahead:
        above, names = ahead.pop()
        for name, node in names.items():
            if node is None:
                continue
            inode = inode_of(node)
            known = (node.closed, list(node.blocks)) if hasattr(node, "blocks") else ()
            found[f"{above}/{name}"] = *known, inode is not None and (followed.id_of(inode), followed.attributes_in(inode))
            if isinstance(node, dict):
                ahead.append((f"{above}/{name}", node))
    return found


def changed(whole, count, seed):
    """So many dumps with one byte changed, each with the place and the byte."""
    chance = random.Random(seed)
    for _ in range(count):
        at = chance.randrange(len(whole))
        other = bytes([chance.choice(BYTES) if chance.random() < 0.8 else chance.randrange(256)])
        yield at, other, whole[:at] + other + whole[at + 1 :]


def differing(whole, read, count, seed):
    """The dumps of so many with one byte changed that are read differently, and how many are refused."""
    refused, found = 0, []
    for at, other, data in changed(whole, count, seed):
        one, two = read(data, True), read(data, False)
        refused += is_refused(one)
        if one != two:
            found.append((at, other, one, two))
    return found, refused


def is_refused(outcome):
    return isinstance(outcome[0], str) or isinstance(outcome[0], tuple) and isinstance(outcome[0][0], str)


def readers():
    """The whole dumps, with what reads each of them quickly and by expat."""
    file = io.BytesIO(common_dump())
    file.name = "dump"
    dump = Checkpoint(Table()).read(file)
    for _ in pieces_of(dump):
        pass
    yield "images", common_dump(), outcome
    yield "logs", common_log(), lambda data, is_quick: outcome_of_log(data, is_quick, dump)


def check_quick(check):
    before, dumps.CHUNK_BYTES = dumps.CHUNK_BYTES, PIECE_BYTES
    try:
        for what, whole, read in readers():
            check.same(f"{what} of common forms", read(whole, True), read(whole, False))
            check.holds(f"{what} of common forms are taken", not is_refused(read(whole, True)), read(whole, True)[0])
            for old, new in FORMS[what]:
                check.holds(f"{what} have {old}", old in whole)
                for data in (whole.replace(old, new), new.join(whole.rsplit(old, 1))):
                    check.same(f"{what} with {new[:80]} for {old}", read(data, True), read(data, False))
            found, refused = differing(whole, read, CHANGED, 1)
            check.same(f"{what} with one byte changed that are read differently", found[:2], [])
            check.holds(f"some {what} are refused, and some are not", 0 < refused < CHANGED, refused)
    finally:
        dumps.CHUNK_BYTES = before


def main():
    dumps.CHUNK_BYTES = PIECE_BYTES
    count, seed = map(int, sys.argv[1:])
    for what, whole, read in readers():
        found, refused = differing(whole, read, count, seed)
        print(f"{count:,} {what} with one byte changed: {refused:,} are refused, {len(found)} are read differently", flush=True)
        for at, other, one, two in found[:3]:
            print(at, other, one, two, sep="\n")


if __name__ == "__main__":
    main()
