"""What a cluster does at random, for the trials of audits."""
import random

from audit.trials.cluster import Cluster, Directory, File, below


class Client:
    """Does at random what a cluster does. Each step is one call of it, with all its records."""

    NAMES = ["a", "b", "B", "é", "a b", "a\\b", "<&>", "c\rd", "\U0001f600"]

    def __init__(self, chance, cluster):
        self.chance = chance
        self.cluster = cluster
        # Directories that have a snapshot, and those above them, stay where they are.
        self.fixed = set()

    def step(self):
        """One thing that can be done now."""
        often = (self.make, self.write, self.end, self.rename)
        steps = (*often, *often, self.write, self.append, self.delete, self.replicate, self.touch, self.recover)
        while not self.chance.choice((*steps, self.cut, self.join, self.snapshot, self.own, self.own, self.allow, self.mark, self.bound))():
            pass

    def pick(self, wanted):
        """One of the nodes that are wanted, or None."""
        nodes = [self.cluster.root, *below(self.cluster.root)]
        found = [node for node in nodes if wanted(node)]
        return self.chance.choice(found) if found else None

    def file(self, wanted=lambda file: True):
        return self.pick(lambda node: isinstance(node, File) and not node.policy and wanted(node))

    def place(self):
        """A directory, and a name that is free in it or that a file has."""
        parent = self.pick(lambda node: isinstance(node, Directory) and node.path().count("/") < 4)
        name = self.chance.choice(self.NAMES)
        return None if isinstance(parent.children.get(name), Directory) else (parent, name)

    def make(self):
        place = self.place()
        if place is None or place[1] in place[0].children:
            return False
        self.cluster.make_directory(*place)
        return True

    def write(self):
        """A file is begun, or goes on."""
        file = self.file(lambda file: not file.closed and not file.recovery)
        if file and self.chance.random() < 0.7:
            self.cluster.add_block(file, self.chance.randrange(1, 999))
            return True
        place = self.place()
        if place is None:
            return False
        policy = int(self.chance.random() < 0.1)
        file = self.cluster.create(*place, self.chance.randrange(1, 4), policy)
        if policy:
            self.cluster.add_block(file)
            self.cluster.close(file, 777)
        return True

    def end(self):
        """A file is closed, by its client or because its recovery has ended."""
        file = self.file(lambda file: not file.closed)
        if file:
            self.cluster.close(file, self.chance.randrange(1, 999))
        return bool(file)

    def append(self):
        file = self.file(lambda file: file.closed)
        if file:
            self.cluster.append(file)
        return bool(file)

    def recover(self):
        file = self.file(lambda file: not file.closed and file.blocks and not file.recovery)
        if file:
            self.cluster.begin_recovery(file)
        return bool(file)

    def rename(self):
        node, place = self.pick(lambda node: node.parent and node not in self.fixed), self.place()
        if node is None or place is None or f"{place[0].path()}/".startswith(f"{node.path()}/"):
            return False
        parent, name = place
        if name in parent.children and (parent.children[name] is node or isinstance(node, Directory)):
            return False
        options = "OVERWRITE" if name in parent.children else self.chance.choice((None, "NONE", "TO_TRASH"))
        self.cluster.rename(node, parent, name, options)
        return True

    def delete(self):
        node = self.pick(lambda node: node.parent and node not in self.fixed)
        if node and self.chance.random() < 0.5:
            self.cluster.delete(node)
            return True
        return False

    def replicate(self):
        file = self.file()
        if file:
            self.cluster.set_replication(file, self.chance.randrange(1, 9))
        return bool(file)

    def touch(self):
        self.cluster.touch(self.pick(lambda node: True))
        return True

    def own(self):
        """An owner, a group or a mode."""
        node, chance = self.pick(lambda node: True), self.chance
        if chance.random() < 0.5:
            self.cluster.set_permissions(node, chance.randrange(0o2000))
        else:
            self.cluster.set_owner(node, chance.choice((None, "ada", "b\\c", "é")), chance.choice((None, "staff")))
        return True

    def allow(self):
        """An ACL, or none any more."""
        node, chance = self.pick(lambda node: True), self.chance
        permissions = ["rwx", "r-x", "r--", "---"]
        if chance.random() < 0.3:
            self.cluster.remove_acl(node)
            return True
        users = [(name, chance.choice(permissions)) for name in ("ada", "bob")[: chance.randrange(3)]]
        default = [("DEFAULT", "USER", "", "rwx"), ("DEFAULT", "GROUP", "", "r-x"), ("DEFAULT", "OTHER", "", "---")] * (isinstance(node, Directory) and chance.random() < 0.4)
        self.cluster.set_acl(node, *(chance.choice(permissions) for _ in range(3)), users, chance.choice(permissions), default)
        return True

    def mark(self):
        """An extended attribute, or a storage policy."""
        node, chance = self.pick(lambda node: True), self.chance
        if chance.random() < 0.3:
            self.cluster.set_policy(node, chance.choice((0, 2, 12)))
        elif chance.random() < 0.3:
            self.cluster.remove_xattr(node, "USER", chance.choice("xy"))
        else:
            self.cluster.set_xattr(node, "USER", chance.choice("xy"), chance.choice((b"", b"plain", b"\0\xff", b"a\rb")))
        return True

    def bound(self):
        """A quota."""
        directory, chance = self.pick(lambda node: isinstance(node, Directory)), self.chance
        is_root = directory.parent is None
        if chance.random() < 0.3:
            self.cluster.set_quota_by_type(directory, chance.choice(("SSD", "DISK")), chance.choice((-1, 7)))
        else:
            self.cluster.set_quota(directory, chance.choice((5, 2**63 - 1) if is_root else (-1, 5, 2**63 - 1)), chance.choice((-1, 9)))
        return True

    def cut(self):
        file = self.file(lambda file: file.closed and file.blocks)
        if file:
            self.cluster.truncate(file, self.chance.randrange(sum(length for _, _, length in file.blocks)))
        return bool(file)

    def join(self):
        files = [self.file(lambda file: file.closed and file.blocks and not file.in_snapshot) for _ in range(2)]
        if None in files or files[0] is files[1] or self.chance.random() < 0.7:
            return False
        self.cluster.concat(files[0], files[1:])
        return True

    def snapshot(self):
        directory = self.pick(lambda node: isinstance(node, Directory) and node.parent and node not in self.fixed)
        if directory is None or self.chance.random() < 0.8:
            return False
        self.cluster.create_snapshot(directory)
        while directory.parent:
            self.fixed.add(directory)
            directory = directory.parent
        return True


def cluster_at_random(seed, steps):
    """A cluster that did so many things at random, in segments."""
    chance = random.Random(seed)
    cluster = Cluster(is_late=chance.random() < 0.5)
    client = Client(chance, cluster)
    cluster.begin_segment()
    for _ in range(steps):
        client.step()
        if chance.random() < 0.1:
            cluster.end_segment()
            cluster.begin_segment()
    cluster.end_segment()
    cluster.keep_image()
    return cluster
