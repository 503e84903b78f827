"""What becomes at once of a record of a common form in an audit, where all is as it mostly is.

Each way here answers whether it went. It goes only where it does what `Audited` would do, the same line and the same
change of the tree, and has done nothing where it does not go.
"""
from collections import Counter

from audit.converting.attributes import SETTING
from hdfs.converting.bare import FEW_BLOCKS, is_bare
from hdfs.converting.edits import LEFT_OUT, SNAPSHOTS
from hdfs.converting.tree import File, Folder, is_directory
from hdfs.formats import FIRST_BLOCK_ID, Block

# A path of so many bytes has neither too many bytes nor too many names.
FEW_BYTES = 1_000

# Lines up to their number, as they are for these members.
ADD = b'{"op":"OP_ADD","path":"%b","replication":%d,"txid":%d}\n'
ADD_BLOCK = b'{"gen":%d,"id":%d,"op":"OP_ADD_BLOCK","path":"%b","txid":%d}\n'
CLOSE = b'{"blocks":[%b],"op":"OP_CLOSE","path":"%b","txid":%d}\n'
UPDATE_BLOCKS = b'{"blocks":[%b],"op":"OP_UPDATE_BLOCKS","path":"%b","txid":%d}\n'
ALLOCATE = b'{"id":%d,"op":"OP_ALLOCATE_BLOCK_ID","txid":%d}\n'
STAMP = b'{"gen":%d,"op":"OP_SET_GENSTAMP_V2","txid":%d}\n'
DELETE = b'{"op":"OP_DELETE","path":"%b","txid":%d}\n'
MKDIR = b'{"op":"OP_MKDIR","path":"%b","txid":%d}\n'
RENAME = b'{"dst":"%b","op":"OP_RENAME","src":"%b","txid":%d}\n'
REPLICATION = b'{"op":"OP_SET_REPLICATION","path":"%b","replication":%d,"txid":%d}\n'
BLOCK = b'{"gen":%d,"id":%d,"len":%d}'

OPTIONS = {b"", b"NONE", b"TO_TRASH", b"OVERWRITE"}


class ShortWays:
    """The short ways of an audit."""

    def __init__(self, audited):
        self.audited = audited
        self.table = audited.table
        # How often a record of each form was kept.
        self.kept = {}
        self.left_out = IS_LEFT_OUT if audited.followed is None else IS_LEFT_OUT - SETTING.keys()

    def take(self, conversion, record):
        """Takes a record. Answers whether that was done."""
        opcode = record.opcode
        if opcode in self.left_out and not record.blocks:
            conversion.log.leave_out(record.txid)
            conversion.left_out[opcode] += 1
            return True
        way = WAYS.get(opcode)
        if way is None or self.table.names or self.audited.has_grown or self.audited.deep:
            return False
        if not way(self, record, conversion.tree, conversion.log):
            return False
        conversion.kept[opcode] += 1
        self.kept[record.form] = self.kept.get(record.form, 0) + 1
        return True

    def passed(self, taken):
        """How often each member of the records that were kept was not taken."""
        passed = Counter()
        for form, count in self.kept.items():
            for name in form.names:
                passed[name] += 0 if name in taken else count
        return +passed

    def made(self, *texts):
        """The inode that a record makes, if inodes are followed."""
        followed = self.audited.followed
        return None if followed is None else followed.made(*texts)

    def note_stamps(self, blocks):
        audited = self.audited
        for gen, _, _ in blocks:
            if gen > audited.last_gen:
                audited.note_stamp(gen)

    # ---- Ways.

    def add(self, record, tree, log):
        path, replication, policy, inode_id, *status, size = record.values
        if record.blocks or replication is None or policy is not None and int(policy) or record.form.has_others:
            return False
        directory, name = place_in(tree, path)
        if directory is None or name in directory:
            return False
        log.write_line(ADD, (path, self.table.number(str(int(replication)))), record.txid)
        directory[name] = File(False, [], self.made(True, inode_id, *status, size))
        return True

    def add_block(self, record, tree, log):
        path, file = record.values[0], file_at(record, tree)
        blocks = record.form.blocks_in(record.blocks) if record.blocks else ()
        if file is None or not 1 <= len(blocks) <= 2 or are_old(blocks) or file.blocks[-1:] != blocks[:-1]:
            return False
        gen, block_id, length = blocks[-1]
        if length:
            return False
        log.write_line(ADD_BLOCK, (gen, block_id, path), record.txid)
        file.blocks.append(Block(gen, block_id, 0))
        self.note_stamps(blocks)
        return True

    def close(self, record, tree, log):
        file = self.with_blocks(CLOSE, record, tree, log)
        if file is not None:
            file.closed = True
        return file is not None

    def update(self, record, tree, log):
        return self.with_blocks(UPDATE_BLOCKS, record, tree, log) is not None

    def with_blocks(self, line, record, tree, log):
        """Gives a file the blocks that a record lists. Answers the file, or None."""
        path, file = record.values[0], file_at(record, tree)
        blocks = record.form.blocks_in(record.blocks) if record.blocks else []
        if file is None or len(blocks) > FEW_BLOCKS or are_old(blocks):
            return None
        log.write_line(line, (b",".join([BLOCK % block for block in blocks]), path), record.txid)
        file.blocks = list(map(Block._make, blocks))
        self.note_stamps(blocks)
        return file

    def allocate(self, record, _tree, log):
        return self.of_number(ALLOCATE, record, log)

    def stamp(self, record, _tree, log):
        went = self.of_number(STAMP, record, log)
        if went and self.audited.first_issued is None:
            self.audited.first_issued = int(record.values[0])
        return went

    def of_number(self, line, record, log):
        """Writes a line that has no more than a number."""
        number = record.values[0]
        if number is None or record.blocks:
            return False
        log.write_line(line, (int(number),), record.txid)
        return True

    def delete(self, record, tree, log):
        directory, name = place_in(tree, record.values[0])
        if record.blocks or directory is None or name not in directory:
            return False
        log.write_line(DELETE, (record.values[0],), record.txid)
        tree.remove(record.values[0].decode())
        return True

    def make(self, record, tree, log):
        directory, name = place_in(tree, record.values[0])
        if record.blocks or directory is None or name in directory or record.form.has_others:
            return False
        log.write_line(MKDIR, (record.values[0],), record.txid)
        directory[name] = Folder(self.made(False, *record.values[1:]))
        return True

    def rename(self, record, tree, log):
        if record.values[2] not in OPTIONS:
            return False
        return self.move(record, tree, log)

    def move(self, record, tree, log):
        source, target = record.values[:2]
        if record.blocks or source is None or target is None or target.startswith(source + b"/") or source == target:
            return False
        directory, name = place_in(tree, target)
        node = tree.find(source.decode()) if len(source) <= FEW_BYTES else None
        if node is None or directory is None or name in directory:
            return False
        log.write_line(RENAME, (target, source), record.txid)
        directory[name] = node
        tree.remove(source.decode())
        return True

    def replicate(self, record, tree, log):
        path, replication = record.values
        directory, name = place_in(tree, path)
        node = None if directory is None else directory.get(name)
        if record.blocks or node is None or replication is None or is_directory(node) or isinstance(node, File) and is_bare(node):
            return False
        log.write_line(REPLICATION, (path, self.table.number(str(int(replication)))), record.txid)
        return True


def place_in(tree, path):
    """The directory that a path lies in, and its last name; or None for a directory, where the way is not for this path."""
    return (None, "") if path is None or len(path) > FEW_BYTES else tree.place(path.decode())


def file_at(record, tree):
    """The file at a record's path, if it is one that the log changed and that has its blocks; or None."""
    directory, name = place_in(tree, record.values[0])
    node = None if directory is None else directory.get(name)
    return node if isinstance(node, File) and not is_bare(node) else None


def are_old(blocks):
    """Whether one of the blocks is of an old layout."""
    return any(block_id < FIRST_BLOCK_ID for _, block_id, _ in blocks)


IS_LEFT_OUT = LEFT_OUT | SNAPSHOTS

WAYS = {
    "OP_ADD": ShortWays.add,
    "OP_ADD_BLOCK": ShortWays.add_block,
    "OP_CLOSE": ShortWays.close,
    "OP_UPDATE_BLOCKS": ShortWays.update,
    "OP_ALLOCATE_BLOCK_ID": ShortWays.allocate,
    "OP_SET_GENSTAMP_V2": ShortWays.stamp,
    "OP_DELETE": ShortWays.delete,
    "OP_MKDIR": ShortWays.make,
    "OP_RENAME": ShortWays.rename,
    "OP_RENAME_OLD": ShortWays.move,
    "OP_SET_REPLICATION": ShortWays.replicate,
}
