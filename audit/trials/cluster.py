"""A NameNode for the trials of audits. It makes the records of a log, and the image that a standby has at each TXID.

It does with each record what Hadoop's loader does, and shares no code with the converters but the elements of dumps.
"""
from xml.sax.saxutils import escape

from audit.trials.cases import member, record

CLUSTER = 1_523_048_716
ROOT_ID = 16_385
FIRST_ID = 1_073_741_825
FIRST_STAMP = 1_001
FULL = 134_217_728


class Inode:
    def __init__(self, inode_id, name, parent):
        self.id = inode_id
        self.name = name
        self.parent = parent
        # Whether a snapshot has it, and whether it has it under another name, so that its directory refers to it.
        self.in_snapshot = False
        self.is_referred = False
        self.owner, self.group, self.mode = "hdfs", "supergroup", 0o755
        # The entries of its ACL that are no bits of its mode, and its extended attributes, each by its namespace and name.
        self.acl = []
        self.xattrs = {}

    def path(self):
        names, node = [], self
        while node.parent is not None:
            names.append(node.name)
            node = node.parent
        return "".join(f"/{name}" for name in reversed(names))


class Directory(Inode):
    def __init__(self, *inode):
        super().__init__(*inode)
        self.children = {}
        self.quotas = {}


class File(Inode):
    def __init__(self, *inode):
        super().__init__(*inode)
        self.replication = 3
        self.closed = False
        self.policy = 0
        self.block_size, self.storage_policy = FULL, 0
        # Each block is a list of its id, stamp and length.
        self.blocks = []
        # The stamp of a recovery that was begun, and the length that it will give the last block.
        self.recovery = None


def escaped(text):
    """A name as `hdfs oiv` prints it: a carriage return stands there as such."""
    return escape(text.replace("\\", "\\005c;"))


def named(name, text):
    """A member that has a path, as `hdfs oev` prints it."""
    return member(name, escaped(text).replace("\r", "&#13;"))


class Cluster:
    """The namespace, with its records and its images so far. `is_late` is a standby that learns of stamps by blocks."""

    def __init__(self, is_late=False):
        self.is_late = is_late
        self.txid = 0
        self.root = Directory(ROOT_ID, "", None)
        self.last_inode = ROOT_ID
        self.last_block = FIRST_ID - 1
        self.last_stamp = FIRST_STAMP - 1
        self.seen_stamp = FIRST_STAMP - 1
        self.snapshots = 0
        # Inodes that only snapshots hold.
        self.deleted = []
        # Blocks of old layouts have stamps below this one.
        self.stamp_limit = 0
        self.records = []
        self.images = {}

    def log(self, opcode, *members):
        """Writes a record. The image at the TXID before it is what was made by then."""
        self.keep_image()
        self.txid += 1
        self.records.append((self.txid, record(opcode, self.txid, *members)))

    def keep_image(self):
        if self.txid:
            self.images[self.txid] = self.image()

    def log_path(self, opcode, node, *members):
        self.log(opcode, named("PATH", node.path() or "/"), *members)

    def begin_segment(self):
        self.log("OP_START_LOG_SEGMENT")

    def end_segment(self):
        self.log("OP_END_LOG_SEGMENT")

    def new_id(self):
        self.last_inode += 1
        return self.last_inode

    def make_directory(self, parent, name):
        node = Directory(self.new_id(), name, parent)
        self.log_path("OP_MKDIR", node, member("TIMESTAMP", 1), member("INODEID", node.id), status_member(node))
        parent.children[name] = node
        return node

    def make_directories(self, parent, name, count):
        """Directories of a name, one in another. Answers the last one. No image is kept of the TXIDs between."""
        self.keep_image = lambda: None
        for _ in range(count):
            parent = self.make_directory(parent, name)
        del self.keep_image
        return parent

    def create(self, parent, name, replication=3, policy=0):
        node = File(self.new_id(), name, parent)
        node.replication, node.policy = replication, policy
        members = member("INODEID", node.id), member("REPLICATION", 0 if policy else replication), member("BLOCKSIZE", node.block_size)
        members = *members, member("OVERWRITE", "true"), status_member(node)
        self.log_path("OP_ADD", node, *members, member("ERASURE_CODING_POLICY_ID", policy))
        if name in parent.children:
            self.forget(parent.children[name])
        parent.children[name] = node
        return node

    def new_stamp(self):
        self.log("OP_SET_GENSTAMP_V2", member("GENSTAMPV2", self.last_stamp + 1))
        self.last_stamp += 1
        return self.last_stamp

    def new_block_id(self, is_striped=False):
        if is_striped:
            group = -(2**63) + 16 * self.txid
            self.log("OP_ALLOCATE_BLOCK_ID", member("BLOCK_ID", group))
            return group
        self.log("OP_ALLOCATE_BLOCK_ID", member("BLOCK_ID", self.last_block + 1))
        self.last_block += 1
        return self.last_block

    def give(self, *blocks):
        """A standby learns of the stamps of blocks."""
        self.seen_stamp = max([self.seen_stamp, *(stamp for _, stamp, _ in blocks)])

    def add_block(self, file, length_before=FULL):
        """A new last block. The one before it gets its length."""
        block_id = self.new_block_id(bool(file.policy))
        new = [block_id, self.new_stamp(), 0]
        before = [[block_id, stamp, length_before] for block_id, stamp, _ in file.blocks[-1:]]
        self.log_path("OP_ADD_BLOCK", file, *map(block_member, [*before, new]))
        file.blocks[-1:] = [*before, new]
        self.give(new)

    def close(self, file, length):
        """The last block gets its length, and the stamp of a recovery where one was begun."""
        blocks = [list(block) for block in file.blocks]
        if blocks:
            stamp = file.recovery or blocks[-1][1]
            blocks[-1] = [blocks[-1][0], stamp, length]
        self.log_path("OP_CLOSE", file, *map(block_member, blocks))
        file.blocks, file.closed, file.recovery = blocks, True, None
        self.give(*blocks)

    def append(self, file):
        self.log_path("OP_APPEND", file, member("NEWBLOCK", "false"))
        file.closed = False
        if file.blocks:
            self.update(file)

    def update(self, file):
        """A pipeline begins anew: the last block gets a new stamp, one of old layouts if the block is of one."""
        block_id, stamp, length = file.blocks[-1]
        if stamp < self.stamp_limit:
            self.log("OP_SET_GENSTAMP_V1", member("GENSTAMP", stamp + 1))
        blocks = [*file.blocks[:-1], [block_id, stamp + 1 if stamp < self.stamp_limit else self.new_stamp(), length]]
        self.log_path("OP_UPDATE_BLOCKS", file, *map(block_member, blocks))
        file.blocks = blocks
        self.give(*blocks)

    def begin_recovery(self, file):
        """The lease of a file is recovered: a stamp is issued, and comes with the block when the file is closed."""
        file.recovery = self.new_stamp()

    def truncate(self, file, length):
        """A file is cut. Inside a block it stays open, until a DataNode has cut the block."""
        kept, size = 0, 0
        while size < length:
            size += file.blocks[kept][2]
            kept += 1
        names = named("SRC", file.path()), member("NEWLENGTH", length)
        if size == length:
            self.log("OP_TRUNCATE", *names)
            file.blocks = file.blocks[:kept]
            return
        last = file.blocks[kept - 1]
        block_id = self.new_block_id() if file.in_snapshot else last[0]
        new = [block_id, self.new_stamp(), last[2] - (size - length)]
        self.log("OP_TRUNCATE", *names, block_member([*new[:2], 0 if file.in_snapshot else last[2]]))
        file.closed = False
        if file.in_snapshot:
            file.blocks = [*file.blocks[: kept - 1], new]
            self.give(new)
        else:
            file.blocks = file.blocks[:kept]
            file.recovery = new[1]

    def concat(self, target, sources):
        names = "".join(named(f"SOURCE{place}", file.path()) for place, file in enumerate(sources, 1))
        self.log("OP_CONCAT_DELETE", named("TRG", target.path()), member("SOURCES", names))
        for source in sources:
            target.blocks += source.blocks
            del source.parent.children[source.name]

    def rename(self, node, parent, name, options=None):
        names = named("SRC", node.path()), named("DST", f"{parent.path()}/{name}")
        if options is None:
            self.log("OP_RENAME_OLD", *names)
        else:
            self.log("OP_RENAME", *names, member("OPTIONS", options))
        node.is_referred = node.in_snapshot
        if name in parent.children:
            self.forget(parent.children[name])
        del node.parent.children[node.name]
        node.parent, node.name = parent, name
        parent.children[name] = node

    def delete(self, node):
        self.log_path("OP_DELETE", node)
        self.forget(node)

    def forget(self, node):
        """A node leaves the live names. A snapshot may hold it, or what lies below it."""
        self.hold(node)
        del node.parent.children[node.name]

    def hold(self, node):
        if node.in_snapshot:
            self.deleted.append(node)
        else:
            for child in getattr(node, "children", {}).values():
                self.hold(child)

    def set_replication(self, file, replication):
        self.log_path("OP_SET_REPLICATION", file, member("REPLICATION", replication))
        file.replication = replication

    # ---- Attributes.

    def log_source(self, opcode, node, *members):
        self.log(opcode, named("SRC", node.path() or "/"), *members)

    def set_owner(self, node, owner=None, group=None):
        members = [member(name, escaped(text)) for name, text in (("USERNAME", owner), ("GROUPNAME", group)) if text is not None]
        self.log_source("OP_SET_OWNER", node, *members)
        node.owner, node.group = owner or node.owner, group or node.group

    def set_permissions(self, node, mode):
        self.log_source("OP_SET_PERMISSIONS", node, member("MODE", mode))
        node.mode = mode

    def set_acl(self, node, user, group, other, named_users=(), mask="rwx", default=()):
        """An ACL whose mask stands in the group's bits. With neither named users nor defaults there is none any more."""
        access = [("ACCESS", "USER", "", user), *(("ACCESS", "USER", *one) for one in named_users), ("ACCESS", "GROUP", "", group)]
        access += [("ACCESS", "MASK", "", mask)] * bool(named_users) + [("ACCESS", "OTHER", "", other)]
        self.log_source("OP_SET_ACL", node, *map(entry_member, [*access, *default]))
        middle = mask if named_users else group
        node.mode = node.mode & 0o1000 | int("".join("01"[letter != "-"] for letter in user + middle + other), 2)
        kept = [entry for entry in access if entry[2]] + [entry for entry in access if entry[1] == "GROUP"] if named_users else []
        node.acl = [*kept, *default]

    def remove_acl(self, node):
        self.log_source("OP_SET_ACL", node)
        for entry in node.acl:
            if entry[:3] == ("ACCESS", "GROUP", ""):
                node.mode = node.mode & ~0o70 | int("".join("01"[letter != "-"] for letter in entry[3]), 2) << 3
        node.acl = []

    def set_xattr(self, node, space, name, value):
        self.log_source("OP_SET_XATTR", node, xattr_member(space, name, value))
        node.xattrs[space, name] = value

    def remove_xattr(self, node, space, name):
        self.log_source("OP_REMOVE_XATTR", node, xattr_member(space, name, b""))
        node.xattrs.pop((space, name), None)

    def set_quota(self, directory, names, space):
        """A quota of 2^63 - 1 keeps what there is, and -1 takes it away."""
        self.log_source("OP_SET_QUOTA", directory, member("NSQUOTA", names), member("DSQUOTA", space))
        for key, quota in (("nsquota", names), ("dsquota", space)):
            if quota != 2**63 - 1:
                directory.quotas[key] = quota

    def set_quota_by_type(self, directory, kind, space):
        self.log_source("OP_SET_QUOTA_BY_STORAGETYPE", directory, member("STORAGETYPE", kind), member("DSQUOTA", space))
        directory.quotas[kind] = space

    def set_policy(self, node, policy):
        self.log_path("OP_SET_STORAGE_POLICY", node, member("POLICYID", policy))
        if isinstance(node, File):
            node.storage_policy = policy
        elif policy:
            node.xattrs["SYSTEM", "hsm.block.storage.policy.id"] = bytes((policy,))
        else:
            node.xattrs.pop(("SYSTEM", "hsm.block.storage.policy.id"), None)

    def create_snapshot(self, directory):
        self.log("OP_ALLOW_SNAPSHOT", named("SNAPSHOTROOT", directory.path()))
        self.log("OP_CREATE_SNAPSHOT", named("SNAPSHOTROOT", directory.path()), member("SNAPSHOTNAME", "s"))
        self.snapshots += 1
        for node in below(directory):
            node.in_snapshot = True

    def touch(self, node):
        """A record that changes nothing here."""
        self.log_path("OP_TIMES", node, member("MTIME", 1), member("ATIME", 1))

    def image(self):
        return Dump(self).text()


class Dump:
    """An image as `hdfs oiv -p XML` prints it."""

    def __init__(self, cluster):
        self.cluster = cluster
        live = [cluster.root, *below(cluster.root)]
        self.nodes = live + [node for top in cluster.deleted for node in (top, *below(top))]
        self.referred = [node for node in self.nodes if node.is_referred]

    def text(self):
        stamp = self.cluster.seen_stamp if self.cluster.is_late else self.cluster.last_stamp
        numbers = member("namespaceId", CLUSTER) + member("genstampV1", 1000) + member("genstampV2", stamp)
        numbers += member("genstampV1Limit", self.cluster.stamp_limit)
        numbers += member("lastAllocatedBlockId", self.cluster.last_block)
        inodes = "\n".join(map(inode_member, self.nodes))
        head = member("lastInodeId", self.cluster.last_inode) + member("numInodes", len(self.nodes))
        parts = (
            member("version", member("layoutVersion", -66) + member("onDiskVersion", 1)),
            member("NameSection", numbers + member("txid", self.cluster.txid)),
            member("INodeSection", head + inodes),
            member("INodeReferenceSection", "".join(map(self.references_of, self.referred))),
            member("SnapshotSection", member("snapshotCounter", 9) + member("numSnapshots", self.cluster.snapshots)),
            member("INodeDirectorySection", "\n".join(filter(None, map(self.directory, self.nodes)))),
            member("SecretManagerSection", member("currentId", 0) + member("numTokens", 0)),
        )
        return member("fsimage", "\n".join(parts))

    @staticmethod
    def references_of(node):
        """A snapshot refers to an inode by the name that it has there, and the directory that has it now without."""
        return member("ref", member("referredId", node.id) + member("name", "x")) + member(
            "ref", member("referredId", node.id) + member("dstSnapshotId", 1)
        )

    def directory(self, node):
        if not isinstance(node, Directory) or not node.children:
            return ""
        # A NameNode compares the bytes of names as signed.
        names = sorted(node.children, key=lambda name: [(byte + 128) % 256 for byte in name.encode()])
        children = [node.children[name] for name in names]
        listed = "".join(member("child", child.id) for child in children if not child.is_referred)
        referred = [2 * self.referred.index(child) + 1 for child in children if child.is_referred]
        listed += "".join(member("refChild", place) for place in referred)
        return member("directory", member("parent", node.id) + listed)


def below(directory):
    """All that lies below a directory, each behind the directory that has it."""
    ahead = [directory]
    while ahead:
        node = ahead.pop()
        if node is not directory:
            yield node
        ahead += reversed(list(getattr(node, "children", {}).values()))


def block_member(block):
    block_id, stamp, length = block
    return member("BLOCK", member("BLOCK_ID", block_id) + member("NUM_BYTES", length) + member("GENSTAMP", stamp))


def status_member(node):
    names = member("USERNAME", escaped(node.owner)) + member("GROUPNAME", escaped(node.group))
    return member("PERMISSION_STATUS", names + member("MODE", node.mode))


def entry_member(entry):
    scope, kind, name, permission = entry
    named_entry = member("NAME", escaped(name)) if name else ""
    return member("ENTRY", member("SCOPE", scope) + member("TYPE", kind) + named_entry + member("PERM", permission))


def words_of_entry(entry):
    scope, kind, name, permission = entry
    return f"{'default:' * (scope == 'DEFAULT')}{kind.lower()}:{name}:{permission}"


def xattr_member(space, name, value):
    members = member("NAMESPACE", space) + member("NAME", escaped(name))
    return member("XATTR", members + (member("VALUE", f"0x{value.hex()}") if value else ""))


def xattr_in_image(pair):
    """An image has a text where the value is one, and else hexadecimal digits."""
    (space, name), value = pair
    is_text = value.isascii() and value.decode("ascii").isprintable()
    found = member("val", escaped(value.decode())) if is_text else member("valHex", value.hex())
    return member("xattr", member("ns", space) + member("name", escaped(name)) + (found if value else ""))


def inode_member(node):
    head = member("id", node.id) + member("type", type(node).__name__.upper()) + member("name", escaped(node.name))
    more = member("permission", f"{escaped(node.owner)}:{escaped(node.group)}:{node.mode:04o}")
    more += member("xattrs", "".join(map(xattr_in_image, node.xattrs.items()))) if node.xattrs else ""
    more += member("acls", "".join(member("acl", escaped(words_of_entry(entry))) for entry in node.acl)) if node.acl else ""
    if isinstance(node, Directory):
        quotas = "".join(member(key, node.quotas.get(key, -1)) for key in ("nsquota", "dsquota"))
        types = ((kind, space) for kind, space in node.quotas.items() if kind.isupper() and space != -1)
        quotas += "".join(member("typeQuota", member("type", kind) + member("quota", space)) for kind, space in types)
        return member("inode", head + member("mtime", 1) + more + quotas)
    members = head + member("replication", 0 if node.policy else node.replication) + member("mtime", 1)
    members += member("preferredBlockSize", node.block_size) + more
    blocks = "".join(
        member("block", member("id", block_id) + member("genstamp", stamp) + member("numBytes", length))
        for block_id, stamp, length in node.blocks
    )
    members += member("blocks", blocks) if blocks else ""
    members += member("storagePolicyId", node.storage_policy)
    if node.policy:
        members += member("erasureCodingPolicyId", node.policy) + member("blockType", "STRIPED")
    if not node.closed:
        members += member("file-under-construction", member("clientName", "c"))
    return member("inode", members)
