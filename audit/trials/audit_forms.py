"""Forms of real clusters that the trials of audits try one by one. Each is a cluster, and the TXIDs of two images."""
from typing import NamedTuple

from audit.trials.cases import member, record
from audit.trials.cluster import FIRST_ID, FULL, Cluster, block_member, named


class Form(NamedTuple):
    name: str
    cluster: Cluster
    first: int
    # What is said of it, and whether the images are what the log makes.
    said: str = ""
    is_same: bool = True


def begun(is_late=False):
    """A cluster with a directory that has a closed file and an open one, each with a block."""
    cluster = Cluster(is_late)
    cluster.begin_segment()
    directory = cluster.make_directory(cluster.root, "d")
    files = [cluster.create(directory, name) for name in ("closed", "open")]
    for file in files:
        cluster.add_block(file)
    cluster.close(files[0], 100)
    return cluster, directory, files


def stamps():
    """A standby learns of a stamp when a block comes with it."""
    cluster, _, (closed, opened) = begun(is_late=True)
    first = cluster.txid
    cluster.begin_recovery(opened)
    yield Form("a stamp that no block has at the second image", cluster, first, "1002 in the image, 1003 in the log")

    cluster, _, (closed, opened) = begun(is_late=True)
    cluster.begin_recovery(opened)
    first = cluster.txid
    cluster.close(opened, 7)
    yield Form("a stamp that no block has at the first image", cluster, first, ", 1002, is taken as 1003: ")

    cluster, _, (closed, opened) = begun(is_late=True)
    cluster.begin_recovery(opened)
    first = cluster.txid
    cluster.append(closed)
    cluster.close(opened, 7)
    yield Form("such a stamp behind another one", cluster, first, ", 1002, is taken as 1003: ")

    cluster, _, (closed, opened) = begun()
    first = cluster.txid
    cluster.append(closed)
    opened.recovery = 1009
    cluster.close(opened, 7)
    yield Form("a stamp that was never issued", cluster, first, f"fault TXID {cluster.txid}: ", is_same=False)


def truncates():
    for length, what in ((40, "inside a block"), (100, "between two blocks"), (0, "to nothing")):
        cluster, _, (closed, _) = begun()
        cluster.append(closed)
        cluster.add_block(closed, 100)
        cluster.close(closed, 60)
        first = cluster.txid
        cluster.truncate(closed, length)
        yield Form(f"a truncate {what}", cluster, first)

    cluster, directory, (closed, _) = begun()
    cluster.create_snapshot(directory)
    first = cluster.txid
    cluster.truncate(closed, 40)
    yield Form("a truncate of a block that a snapshot has", cluster, first)
    assert closed.blocks[0][0] != FIRST_ID and closed.blocks[0][2] == 40

    cluster, _, (closed, _) = begun()
    first = cluster.txid
    cluster.truncate(closed, 70)
    cluster.images[first] = cluster.images[first].replace("<numBytes>100<", "<numBytes>50<")
    said = f'fault OP_TRUNCATE, TXID {cluster.txid}: the file "/d/closed" has 50 bytes, and is cut to 70\n'
    yield Form("a truncate of a file that was shorter", cluster, first, said, is_same=False)


ALIKE = "alike: "
NOT_KNOWN = "not compared, files whose blocks no record tells: 1\n"


def old_layouts():
    for name, block, limit in (
        ("a file of an old layout", [77, 5, 10], 0),
        ("a file of an old layout with a negative id", [-77, 5, 10], 0),
        ("a file of an old layout with a great id", [2**40, 500, 10], 1000),
    ):
        cluster, directory, (closed, _) = begun()
        closed.blocks, cluster.stamp_limit = [block], limit
        cluster.last_stamp = cluster.seen_stamp = 3000
        first = cluster.txid
        cluster.set_replication(closed, 2)
        cluster.append(closed)
        cluster.add_block(closed, 20)
        cluster.close(closed, 30)
        cluster.rename(closed, cluster.root, "moved")
        yield Form(name, cluster, first, ALIKE)


def outgrown():
    """A cluster with an open file that has more blocks than a line."""
    cluster, _, (_, opened) = begun()
    ids = range(cluster.last_block + 1, cluster.last_block + 1501)
    opened.blocks = [*opened.blocks, *([block_id, 1002, FULL] for block_id in ids)]
    cluster.last_block = ids[-1]
    return cluster, opened


def two_closed():
    """A cluster with two closed files in a directory."""
    cluster, directory, (closed, _) = begun()
    other = cluster.create(directory, "other")
    cluster.add_block(other)
    cluster.close(other, 5)
    return cluster, closed, other


def bare_files():
    """Other files whose blocks can't be held here."""
    cluster, directory, _ = begun()
    striped = cluster.create(directory, "striped", policy=1)
    first = cluster.txid
    cluster.add_block(striped)
    cluster.close(striped, 7)
    cluster.set_replication(striped, 2)
    cluster.create(directory, "closed", policy=1)
    yield Form("a striped file, and one over another file", cluster, first, ALIKE)

    cluster, opened = outgrown()
    first = cluster.txid
    for _ in range(20):
        cluster.add_block(opened, FULL - 1)
    cluster.close(opened, 9)
    yield Form("a file that outgrows a line", cluster, first, ALIKE)

    cluster, closed, other = two_closed()
    first = cluster.txid
    cluster.concat(closed, [other])
    cluster.set_replication(closed, 2)
    yield Form("a concat", cluster, first, ALIKE)


def kinds():
    """Files of some kind in the log and of another one in the second image, each beside one of the same kind."""
    for name, policy, there, blocks, said in (
        ("a striped file that is replicated in the second image", 1, 0, [], "striped file\n"),
        ("a striped file that is of an old layout there", 1, 0, [[77, 5, 7]], "striped old\n"),
        ("a replicated file that is striped there", 0, 1, [[-16, 1003, 7]], "file striped\n"),
    ):
        cluster, directory, _ = begun()
        first = cluster.txid
        file = cluster.create(directory, "f", policy=policy)
        cluster.add_block(file)
        cluster.close(file, 7)
        file.policy, file.blocks = there, blocks
        yield Form(name, cluster, first, f'kind "/d/f" {said}', is_same=False)

    for name, change, said in (
        ("a concat, to a file that is striped there", lambda file: setattr(file, "policy", 1), "replicated striped\n"),
        ("a concat, to a file with a block of an old layout", lambda file: file.blocks.append([77, 5, 7]), None),
    ):
        cluster, closed, other = two_closed()
        first = cluster.txid
        cluster.concat(closed, [other])
        change(closed)
        yield Form(name, cluster, first, f'kind "/d/closed" {said}' if said else 'block "/d/closed" 2 - 77:5:7\n', is_same=False)

    for name, is_old, said in (("a file of an old layout that is of this one there", False, 'kind "/d/closed" old file\n'), ("one that is of it", True, ALIKE)):
        cluster, _, (closed, _) = begun()
        blocks, closed.blocks, cluster.last_stamp = closed.blocks, [[77, 5, 10]], 3000
        first = cluster.txid
        cluster.set_replication(closed, 2)
        closed.blocks = closed.blocks if is_old else blocks
        yield Form(name, cluster, first, said, is_same=is_old)

    for name, count, said in (
        ("a file that outgrows a line, of few blocks there", 9, 'kind "/d/open" long file\n'),
        ("a file that outgrows a line, with other blocks there", 1300, 'block "/d/open" 1300 '),
    ):
        cluster, opened = outgrown()
        first = cluster.txid
        cluster.add_block(opened, FULL - 1)
        cluster.close(opened, 9)
        opened.blocks = opened.blocks[:count]
        yield Form(name, cluster, first, said, is_same=False)


def given_ids():
    """Records that give a file an id that no block of its kind has."""
    for name, block_id, is_same in (
        ("an id of an old layout", 77, False),
        ("a negative id", -77, False),
        ("another id of this layout, with another length", FIRST_ID, True),
    ):
        cluster, _, (closed, _) = begun()
        first = cluster.txid
        cluster.append(closed)
        closed.blocks = [[block_id, closed.blocks[0][1], 100]]
        cluster.close(closed, 12345)
        said = "alike: " if is_same else f"fault OP_CLOSE, TXID {cluster.txid}: " + TOLD_OLD.format(block_id)
        yield Form(f"{name} in an OP_CLOSE", cluster, first, said, is_same)

    cluster, opened = outgrown()
    first = cluster.txid
    cluster.add_block(opened, FULL - 1)
    cluster.log_path("OP_ADD_BLOCK", opened, block_member([-16, 1003, 0]))
    said = f"fault OP_ADD_BLOCK, TXID {cluster.txid}: "
    yield Form("a negative id for a file that outgrew a line", cluster, first, said, is_same=False)

    cluster, _, (closed, _) = begun()
    closed.blocks, cluster.last_stamp = [[77, 5, 10]], 3000
    first = cluster.txid
    cluster.truncate(closed, 0)
    yield Form("a truncate of a file of an old layout to nothing", cluster, first, NOT_KNOWN)


TOLD_OLD = '"/d/closed" has no block of an old layout and is not striped, and is given {}\n'


def before_new():
    """What an OP_ADD_BLOCK has of the block before the new one."""
    for is_lost in (False, True):
        cluster, _, (closed, _) = begun()
        first = cluster.txid
        cluster.append(closed)
        txid = cluster.txid
        cluster.add_block(closed, 200)
        if is_lost:
            cluster.records[txid - 1] = txid, record("OP_TIMES", txid)
        said = f'fault OP_ADD_BLOCK, TXID {cluster.txid}: "/d/closed": the block before the new one, {FIRST_ID}, has '
        name = "an append, and a new block" + ", where the new stamp is lost" * is_lost
        yield Form(name, cluster, first, said if is_lost else "alike: ", not is_lost)

    stamp = 1003
    before = block_member([FIRST_ID, stamp, 200])
    for name, there, said in (
        ("another id", block_member([FIRST_ID + 1, stamp, 200]), None),
        ("another length", block_member([FIRST_ID, stamp, 150]), f'block "/d/closed" 0 {FIRST_ID}:{stamp}:150 {FIRST_ID}:{stamp}:200\n'),
        ("no block", "", f'"/d/closed": the record lacks the block before the new one, {FIRST_ID}\n'),
    ):
        cluster, _, (closed, _) = begun()
        first = cluster.txid
        cluster.append(closed)
        cluster.add_block(closed, 200)
        changed(cluster, before, there)
        applies = said is not None and said.startswith("block ")
        said = said if applies else f"fault OP_ADD_BLOCK, TXID {cluster.txid}: {said}" if said else f"fault TXID {cluster.txid}: "
        yield Form(f"{name} before the new one", cluster, first, said, is_same=False)

    for name, length, said in (("a new block with a length", 9, None), ("such a block, without it in the image", 0, f'block "/d/f" 0 {FIRST_ID + 2}:1003:9 {FIRST_ID + 2}:1003:0\n')):
        cluster, directory, _ = begun()
        first = cluster.txid
        file = cluster.create(directory, "f")
        cluster.add_block(file)
        changed(cluster, block_member(file.blocks[0]), block_member([*file.blocks[0][:2], 9]))
        file.blocks[0][2] = length
        yield Form(name, cluster, first, said or "alike: ", is_same=not said)


def changed(cluster, old, new):
    """The last record has another text in the place of one."""
    txid, text = cluster.records[-1]
    assert old in text, (old, text)
    cluster.records[-1] = txid, text.replace(old, new)


def no_files():
    """Records that name a directory, or nothing, where a file has to be."""
    old, many = block_member([77, 5, 10]), [block_member([FIRST_ID, 1001, FULL])] * 2000
    sources = member("SOURCES", named("SOURCE1", "/d")), member("SOURCES", named("SOURCE1", "/d/closed"))
    for name, opcode, *members in (
        ("a block of an old layout for a directory", "OP_CLOSE", named("PATH", "/d"), old),
        ("more blocks than a line holds for a directory", "OP_CLOSE", named("PATH", "/d"), *many),
        ("a concat of a directory", "OP_CONCAT_DELETE", named("TRG", "/d/closed"), sources[0]),
        ("a concat to a directory", "OP_CONCAT_DELETE", named("TRG", "/d"), sources[1]),
        ("a truncate of nothing", "OP_TRUNCATE", named("SRC", "/d/nothing"), member("NEWLENGTH", 0)),
    ):
        cluster, _, _ = begun()
        first = cluster.txid
        cluster.log(opcode, *members)
        yield Form(name, cluster, first, f"fault TXID {cluster.txid}: ", is_same=False)


def names():
    cluster, directory, (closed, _) = begun()
    cluster.rename(closed, directory, "a\rb")
    first = cluster.txid
    cluster.rename(closed, directory, "a\r\nb")
    cluster.set_replication(closed, 2)
    yield Form("a carriage return in a name", cluster, first, "in a name, taken as a line feed: 2\n")


def own_settings():
    """What an operator's own settings allow, and this project's limits do not."""
    long, wide = "n" * 300, "\u4e2d" * 85
    cluster, directory, (closed, opened) = begun()
    named_long = cluster.create(cluster.make_directory(directory, long), f"\x7f{long}", 600)
    first = cluster.txid
    cluster.set_replication(closed, 1000)
    cluster.rename(named_long, directory, f"{long}x")
    cluster.rename(closed, directory, f"{long}/".strip("/") + "y")
    cluster.close(opened, 9)
    yield Form("names that are too long, and high replications", cluster, first)
    opened.replication, named_long.replication = 700, 600
    yield Form("a high replication that no record gave", cluster, first, 'replication "/d/open" 3 700\n', is_same=False)
    opened.replication, named_long.name = 3, f"{long}z"
    directory.children[f"{long}z"] = directory.children.pop(f"{long}x")
    said = f'missing "/d/{long}x" file\nextra "/d/{long}z" file\n'
    yield Form("a long name that is another one", cluster, first, said, is_same=False)

    for kind, said in (("striped", None), ("replicated", f'kind "/d/{long}" striped file\n')):
        cluster, directory, (closed, _) = begun()
        striped = cluster.create(directory, long, policy=1)
        first = cluster.txid
        cluster.set_replication(striped, 2)
        striped.policy *= said is None
        yield Form(f"a striped file of a long name, {kind} there", cluster, first, said or ALIKE, is_same=not said)

    for depth, name in ((33, wide), (1000, "e")):
        for is_same in (True, False):
            cluster, directory, (closed, _) = begun()
            cluster.keep_image()
            first, place = cluster.txid, cluster.make_directories(cluster.root, name, depth - 1)
            cluster.rename(closed, place, "f")
            cluster.set_replication(closed, 9)
            moved = cluster.make_directory(directory, wide)
            cluster.rename(moved, place.parent, f"{wide}2")
            closed.replication += not is_same
            path = closed.path()
            said = "alike: " if is_same else f'replication "{path}" 9 10\n'
            yield Form(f"a path of {len(path.encode()):,} bytes, {is_same}", cluster, first, said, is_same)

    cluster, _, (closed, _) = begun()
    place = cluster.make_directories(cluster.root, wide, 40)
    first = cluster.txid
    cluster.rename(place.parent, cluster.root, "up")
    yield Form("an image with a path that is too long", cluster, first)

    cluster, _, (closed, _) = begun()
    inside = place = cluster.make_directory(cluster.root, "x")
    place = cluster.make_directories(inside, "d", 998)
    cluster.make_directory(place, "e")
    first = cluster.txid
    cluster.make_directory(place.children["e"], "f")
    cluster.touch(inside)
    deepest = place.children["e"].path()
    yield Form("a path of too many names", cluster, first, f"not compared, below {deepest}: 1 paths of too many names\n")


def moved_down():
    """A cluster in which a rename takes paths down so far that some have too many names; and what moves, whither, and a file."""
    cluster, _, (closed, _) = begun()
    moved = cluster.make_directory(cluster.root, "u")
    deep = cluster.make_directories(moved, "d", 600)
    cluster.rename(closed, deep, "f")
    cluster.create(deep, "striped", policy=1)
    place = cluster.make_directories(cluster.make_directory(cluster.root, "v"), "e", 500)
    cluster.keep_image()
    first = cluster.txid
    cluster.rename(moved, place, "u")
    return cluster, first, moved, closed


def deep_by_rename():
    """Directories that a rename takes below 1,000 names, and up again."""
    cluster, first, moved, _ = moved_down()
    fits = "/v" + "/e" * 500 + "/u" + "/d" * 498
    cluster.touch(moved)
    yield Form("paths that a rename takes too far down", cluster, first, f"not compared, below {fits}: 104 paths of too many names\n")
    cluster.rename(moved, cluster.root, "w")
    yield Form("paths that come up again", cluster, first)
    cluster, first, moved, _ = moved_down()
    other = cluster.make_directory(moved, "x")
    cluster.touch(other)
    cluster.keep_image()
    cluster.images[cluster.txid] = cluster.images[cluster.txid].replace("<name>x<", "<name>y<")
    cluster.image = lambda: cluster.images[cluster.txid]
    said = f'missing "{other.path()}" directory\nextra "{moved.path()}/y" directory\n'
    yield Form("another name where paths are too far down", cluster, first, said, is_same=False)
    cluster, first, moved, closed = moved_down()
    cluster.touch(moved)
    cluster.keep_image()
    deep = moved
    while deep.path().count("/") < 1000:
        deep = next(iter(deep.children.values()))
    deep.children.clear()
    yield Form("an image that lacks what is too far down", cluster, first, "not compared, paths of more than 1,000 names: 104\n")
    cluster, first, moved, closed = moved_down()
    cluster.delete(closed)
    cluster.delete(moved)
    yield Form("what is too far down is deleted", cluster, first)


def own_settings_in_chain():
    """A cluster, and TXIDs of images: a long name and a high replication come, then another one and too long a path."""
    cluster, directory, (closed, _) = begun()
    txids = [cluster.txid]
    cluster.rename(closed, directory, "n" * 300)
    cluster.set_replication(closed, 600)
    cluster.create(directory, "\u4e2d" * 85, 5)
    txids.append(cluster.txid)
    cluster.create(directory, "more", 700)
    cluster.keep_image()
    txids.append(cluster.txid)
    place = cluster.make_directories(cluster.root, "\u4e2d" * 85, 35)
    cluster.create(place, "f", 600)
    cluster.keep_image()
    txids.append(cluster.txid)
    return cluster, txids


def marks_in_chain():
    """A cluster with a long name, then with one that is what this project calls it in short, and the TXIDs of images."""
    cluster, directory, (closed, opened) = begun()
    txids = [cluster.txid]
    for step in (
        lambda: cluster.rename(closed, directory, "n" * 300),
        lambda: cluster.rename(opened, directory, "\x7f0"),
        lambda: cluster.set_replication(opened, 9),
        lambda: cluster.rename(closed, cluster.root, "\x7f0"),
    ):
        step()
        cluster.keep_image()
        txids.append(cluster.txid)
    return cluster, txids


def long_in_chain():
    """A cluster in which a rename makes a path too long, and the TXIDs of images before it, behind it and later."""
    cluster, _, (closed, opened) = begun()
    moved = cluster.make_directory(cluster.root, "u")
    cluster.rename(closed, cluster.make_directories(moved, "\u4e2d" * 85, 20), "f")
    place = cluster.make_directories(cluster.root, "\u4e2d" * 85, 20)
    cluster.touch(place)
    txids = [cluster.txid - 1]
    for last in (lambda: cluster.rename(moved, place, "u"), lambda: cluster.set_replication(closed, 7), lambda: cluster.close(opened, 9)):
        last()
        cluster.touch(place)
        txids.append(cluster.txid - 1)
    return cluster, txids


def many_replications():
    """So many different replications."""
    for count in (512, 513):
        cluster, directory, (closed, _) = begun()
        first = cluster.txid
        for replication in range(1000, 1000 + count - 1):
            cluster.set_replication(closed, replication)
        yield cluster, first, count


def snapshots():
    cluster, directory, (closed, opened) = begun()
    first = cluster.txid
    cluster.create_snapshot(directory)
    cluster.rename(closed, cluster.root, "moved")
    cluster.delete(opened)
    yield Form("a snapshot", cluster, first, "not compared, inodes that only snapshots hold: 1\n")
    first = cluster.txid
    cluster.rename(closed, cluster.root, "again")
    cluster.delete(closed)
    yield Form("an image with a snapshot", cluster, first, "not compared, inodes that only snapshots hold: 2\n")


def issued():
    cluster, _, (_, opened) = begun()
    first = cluster.txid + 1
    cluster.add_block(opened)
    yield Form("an image between an id and its block", cluster, first)


FORMS = (stamps, truncates, old_layouts, bare_files, kinds, given_ids, before_new, no_files, names, own_settings, deep_by_rename, snapshots, issued)
