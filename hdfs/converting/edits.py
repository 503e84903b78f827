"""What becomes of each record of a log: the edits of this project that it stands for, none, or a refusal.

docs/HDFS.md has the same as a table. What a record means depends on what exists, so each function here is given the
tree beside the record. It answers edits as dictionaries of a line's members, and changes nothing.
"""
from hdfs.converting.tree import is_directory
from hdfs.formats import Block, DoesNotApply, Refused, check_path, to_json

# A standby holds nothing of these here.
LEFT_OUT = frozenset(
    """
    OP_TIMES OP_SET_OWNER OP_SET_PERMISSIONS OP_SET_ACL OP_SET_XATTR OP_REMOVE_XATTR
    OP_GET_DELEGATION_TOKEN OP_RENEW_DELEGATION_TOKEN OP_CANCEL_DELEGATION_TOKEN OP_UPDATE_MASTER_KEY
    OP_REASSIGN_LEASE OP_SET_GENSTAMP_V1
    OP_SET_NS_QUOTA OP_CLEAR_NS_QUOTA OP_SET_QUOTA OP_SET_QUOTA_BY_STORAGETYPE
    OP_ADD_CACHE_DIRECTIVE OP_MODIFY_CACHE_DIRECTIVE OP_REMOVE_CACHE_DIRECTIVE
    OP_ADD_CACHE_POOL OP_MODIFY_CACHE_POOL OP_REMOVE_CACHE_POOL
    OP_SET_STORAGE_POLICY OP_ROLLING_UPGRADE_START OP_ROLLING_UPGRADE_FINALIZE
    OP_ALLOW_SNAPSHOT OP_DISALLOW_SNAPSHOT
    OP_ADD_ERASURE_CODING_POLICY OP_ENABLE_ERASURE_CODING_POLICY
    OP_DISABLE_ERASURE_CODING_POLICY OP_REMOVE_ERASURE_CODING_POLICY
    """.split()
)

# A file that is deleted behind a snapshot keeps its blocks in HDFS.
OF_SNAPSHOTS = "there are no snapshots here, and blocks that one holds would be ordered deleted"
SNAPSHOTS = {"OP_CREATE_SNAPSHOT", "OP_DELETE_SNAPSHOT", "OP_RENAME_SNAPSHOT"}

# A standby would have to hold something that this project has no edit for.
REFUSED = {
    "OP_CONCAT_DELETE": "blocks would move from one file to another",
    "OP_SYMLINK": "there are no symbolic links here",
    **dict.fromkeys(sorted(SNAPSHOTS), OF_SNAPSHOTS),
}


def edits_of(record, tree):
    """The edits that a record stands for, in order. There are none where it is left out."""
    if record.opcode in LEFT_OUT:
        return []
    if record.opcode in REFUSED:
        raise Refused(REFUSED[record.opcode])
    if record.opcode not in KEPT:
        raise Refused("no such opcode is known")
    return KEPT[record.opcode](record.data, tree)


def edits_beside_snapshots(record, tree):
    """The same, where snapshots are passed over: then no delete order of the standby is to be trusted."""
    return [] if record.opcode in SNAPSHOTS else edits_of(record, tree)


# What an operator may say of snapshots, and what makes the edits then.
EDITS_OF = {"refuse": edits_of, "pass": edits_beside_snapshots}


def start_mark(_data=None, _tree=None):
    return [{"op": "OP_START_LOG_SEGMENT"}]


def end_mark(_data=None, _tree=None):
    return [{"op": "OP_END_LOG_SEGMENT"}]


def make_directory(data, _tree):
    return [{"op": "OP_MKDIR", "path": path_in(data, "PATH")}]


def delete(data, _tree):
    return [{"op": "OP_DELETE", "path": path_in(data, "PATH")}]


def allocate_block_id(data, _tree):
    return [{"op": "OP_ALLOCATE_BLOCK_ID", "id": data.block_id("BLOCK_ID")}]


def set_genstamp(data, _tree):
    return [{"op": "OP_SET_GENSTAMP_V2", "gen": data.number("GENSTAMPV2")}]


def set_replication(data, _tree):
    return [{"op": "OP_SET_REPLICATION", "path": path_in(data, "PATH"), "replication": data.number("REPLICATION")}]


def update_blocks(data, _tree):
    return [{"op": "OP_UPDATE_BLOCKS", "path": path_in(data, "PATH"), "blocks": blocks_in(data)}]


def close(data, _tree):
    return [{"op": "OP_CLOSE", "path": path_in(data, "PATH"), "blocks": blocks_in(data)}]


def add(data, tree):
    """A new file. It may take the place of one that exists."""
    path = path_in(data, "PATH")
    if data.find("ERASURE_CODING_POLICY_ID") and data.number("ERASURE_CODING_POLICY_ID") != 0:
        raise Refused(f"the file {path} is striped")
    if data.all("BLOCK"):
        raise Refused(f"the file {path} begins with blocks, as old layouts have it")
    edits = [{"op": "OP_ADD", "path": path, "replication": data.number("REPLICATION")}]
    if not tree.find_file(path):
        return edits
    if not data.boolean("OVERWRITE"):
        raise Refused(f"the file {path} exists and is not overwritten: an append of old layouts")
    return [{"op": "OP_DELETE", "path": path}, *edits]


def add_block(data, tree):
    """A new block. Where there are two, the first is the block before it, of which only the length may differ."""
    path = path_in(data, "PATH")
    blocks = blocks_in(data)
    if len(blocks) not in (1, 2):
        raise Refused(f"{len(blocks)} blocks, where 1 or 2 are allowed")
    *before, new = blocks
    made = [{"op": "OP_ADD_BLOCK", "path": path, "id": new.id, "gen": new.gen}]
    file = tree.find_file(path)
    if file and file.blocks[-1:] != before:
        check_before(path, file.blocks[-1:], before)
        made.insert(0, update(path, file.blocks[:-1] + before))
    if new.len:
        # A line of it has no length.
        made.append(update(path, [*(file.blocks[:-1] if file else ()), *blocks]))
    return made


def check_before(path, last, before):
    """Refuses another stamp of a file's last block, and a record without it. Another block is for the program to refuse."""
    if not before:
        raise DoesNotApply(f"{to_json(path)}: the record lacks the block before the new one, {last[0].id}")
    for block, told in zip(last, before):
        if block.id == told.id and block.gen != told.gen:
            stamps = f"the stamp {told.gen}, and the file has it with {block.gen}"
            raise DoesNotApply(f"{to_json(path)}: the block before the new one, {block.id}, has {stamps}")


def append(data, tree):
    """A closed file is opened again. Nothing is done to a file that is open, as in Hadoop's loader."""
    path = path_in(data, "PATH")
    file = tree.find_file(path)
    return [] if file and not file.closed else [{"op": "OP_APPEND", "path": path}]


def rename_old(data, tree):
    """A rename without options. It may move into a directory, as in Hadoop's loader."""
    source, target = path_in(data, "SRC"), path_in(data, "DST")
    if source == target:
        # The NameNode logs this for a file, and its loader does nothing.
        return []
    if is_directory(tree.find(target)):
        target = target.rstrip("/") + source[source.rindex("/") :]
        check_path(target)
    return [rename_edit(source, target)]


def rename(data, tree):
    """A rename with options. It may take the place of a file or of an empty directory."""
    source, target = path_in(data, "SRC"), path_in(data, "DST")
    options = data.string("OPTIONS").split("|")
    unknown = set(options) - {"", "NONE", "TO_TRASH", "OVERWRITE"}
    if unknown:
        raise Refused(f"the option {min(unknown)!r} is not known")
    edits = [rename_edit(source, target)]
    existing = tree.find(target)
    # An empty directory is an empty dictionary.
    if "OVERWRITE" in options and existing is not None and not (is_directory(existing) and existing):
        edits.insert(0, {"op": "OP_DELETE", "path": target})
    return edits


def rename_edit(source, target):
    return {"op": "OP_RENAME", "src": source, "dst": target}


def path_in(data, name):
    path = data.string(name)
    check_path(path)
    return path


def blocks_in(data):
    return [block.block("BLOCK_ID", "GENSTAMP", "NUM_BYTES") for block in data.all("BLOCK")]


def truncate(data, tree):
    """A file loses bytes from its end. Its blocks behind the new end leave it, one after another.

    Where the new end lies inside a block, the file stays open until an OP_CLOSE has the block's new stamp and length. A
    block that a snapshot has too is copied: the record's BLOCK has another id, and the length behind the cut.
    """
    path, length = path_in(data, "SRC"), data.number("NEWLENGTH")
    file = tree.find_file(path)
    opened = {"op": "OP_APPEND", "path": path}
    if file is None or not file.closed:
        # The program says why it can't be opened.
        return [opened]
    kept, size = 0, 0
    while kept < len(file.blocks) and size < length:
        size += file.blocks[kept].len
        kept += 1
    if size < length:
        raise DoesNotApply(f"the file {to_json(path)} has {size} bytes, and is cut to {length}")
    last = new_last(blocks_in(data), file.blocks[:kept], size - length)
    left = kept - len(last)
    lists = [file.blocks[:count] for count in range(len(file.blocks) - 1, left - 1, -1)]
    made = [opened, *(update(path, blocks) for blocks in lists)]
    if size == length:
        return [*made, {"op": "OP_CLOSE", "path": path, "blocks": file.blocks[:kept]}]
    for block in last:
        made.append({"op": "OP_ADD_BLOCK", "path": path, "id": block.id, "gen": block.gen})
        made.append(update(path, [*file.blocks[:left], block]))
    return made


def new_last(named_blocks, blocks, cut):
    """In a list of one, the block that takes the last one's place. There is none where that is cut in place."""
    if not cut or not named_blocks or named_blocks[0].id == blocks[-1].id:
        return []
    return [Block(named_blocks[0].gen, named_blocks[0].id, blocks[-1].len - cut)]


def update(path, blocks):
    return {"op": "OP_UPDATE_BLOCKS", "path": path, "blocks": blocks}


KEPT = {
    "OP_TRUNCATE": truncate,
    "OP_START_LOG_SEGMENT": start_mark,
    "OP_END_LOG_SEGMENT": end_mark,
    "OP_MKDIR": make_directory,
    "OP_DELETE": delete,
    "OP_ALLOCATE_BLOCK_ID": allocate_block_id,
    "OP_SET_GENSTAMP_V2": set_genstamp,
    "OP_SET_REPLICATION": set_replication,
    "OP_ADD": add,
    "OP_ADD_BLOCK": add_block,
    "OP_UPDATE_BLOCKS": update_blocks,
    "OP_CLOSE": close,
    "OP_APPEND": append,
    "OP_RENAME": rename,
    "OP_RENAME_OLD": rename_old,
}
