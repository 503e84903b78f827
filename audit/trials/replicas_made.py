"""A cluster's DataNodes for the trials of `replicas`: their disks as `find` lists them, and what `hdfs fsck` prints."""
import random

from audit.trials.audit_damages import written
from audit.trials.cluster import FIRST_ID, Cluster, Directory, below

POOL = "BP-1523048716-10.0.0.1-1600000000000"
META_HEAD, CHUNK, SUM = 7, 512, 4


class Site:
    """What the disks of DataNodes have, each file with its size."""

    def __init__(self):
        self.files = {}

    def put(self, node, block, folder="finalized", disk=1, pool=POOL):
        """A replica: a block's file, and its meta file beside it."""
        block_id, stamp, length = block
        self.put_file(node, length, f"blk_{block_id}", folder, disk, pool)
        sums = META_HEAD + SUM * -(-length // CHUNK)
        self.put_file(node, sums, f"blk_{block_id}_{stamp}.meta", folder, disk, pool)

    def put_file(self, node, size, name, folder="finalized", disk=1, pool=POOL):
        block_id = int(name.split("_")[1].split(".")[0])
        below_it = f"/subdir{block_id >> 16 & 31}/subdir{block_id >> 8 & 31}" if "finalized" in folder else ""
        folder = folder if "/" in folder else f"current/{folder}"
        path = f"/hadoop/{disk}/hdfs/current/{pool}/{folder}{below_it}/{name}"
        self.files.setdefault(node, []).append((size, path))

    def listing(self, node):
        """What find prints on a DataNode, in whatever order a disk has it."""
        files = list(self.files.get(node, ()))
        random.Random(node).shuffle(files)
        return "".join(f"{size} {path}\n" for size, path in files)


def files_of(cluster):
    """The path and the file of all files of a cluster."""
    nodes = [node for node in below(cluster.root) if not isinstance(node, Directory)]
    return [(node.path(), node) for node in nodes]


def replicated(cluster, site, nodes):
    """Puts each block of a cluster on as many DataNodes as its file wants, one after another."""
    at = 0
    for _, file in files_of(cluster):
        for block in file.blocks:
            for place in range(file.replication):
                site.put(nodes[(at + place) % len(nodes)], block, "finalized" if file.closed else "rbw")
            at += 1


class Fsck:
    """What fsck prints of a cluster, whose NameNode believes that DataNodes have some blocks."""

    def __init__(self, cluster, believed, old=False, opened=False):
        self.believed = believed
        self.old = old
        self.count = dict.fromkeys(("total", "minimal", "over", "under", "missing", "files"), 0)
        self.lines = []
        for path, file in files_of(cluster):
            if file.closed or opened:
                self.file(path, file)

    def file(self, path, file):
        self.count["files"] += 1
        kind = "" if self.old else f"replicated: replication={file.replication}, "
        if file.policy:
            kind = "erasure-coded: policy=RS-6-3-1024k, "
        size = sum(length for _, _, length in file.blocks)
        opened = "" if file.closed else ", OPENFORWRITE"
        head = f"{path} {size} bytes, {kind}{len(file.blocks)} block(s){opened}: "
        tails = [self.block(place, block, file) for place, block in enumerate(file.blocks)]
        lost = sum("MISSING!" in tail[1] for tail in tails)
        said = "".join(tail[0] for tail in tails) or ("" if lost else " OK\n")
        missing = f" MISSING {lost} blocks of total size 1 B\n" if lost else ""
        self.lines.append(f"{head}{said}{missing}{''.join(tail[1] for tail in tails)}\n")

    def block(self, place, block, file):
        """What is said of a block in the line of its file, and the line of the block."""
        block_id, stamp, length = block
        name = f"{POOL}:blk_{block_id}_{stamp}"
        nodes = self.believed.get(block_id, [])
        if file.policy:
            group = ", ".join(f"blk_{block_id + 1}:DatanodeInfoWithStorage[{node},DS-7c1d,DISK]" for node in nodes)
            return "", f"{place}. {name} len={length} Live_repl={len(nodes)}  [{group}]\n"
        self.count["total"] += 1
        if not file.closed and place == len(file.blocks) - 1:
            line = f"{place}. {name} len={length} Expected_repl={len(nodes)} {self.listed(nodes)}\n"
            return "", f"\nUnder Construction Block:\n{line}"
        self.count["minimal"] += bool(nodes)
        self.count["over"] += len(nodes) > file.replication
        if not nodes:
            self.count["missing"] += 1
            return "", f"{place}. {name} len={length} MISSING!\n"
        few = ""
        if len(nodes) < file.replication:
            self.count["under"] += 1
            few = f" Under replicated {name}. Target Replicas is {file.replication} but found {len(nodes)} live"
            few += " replica(s), 0 decommissioned replica(s), 0 decommissioning replica(s).\n"
        live = "repl" if self.old else "Live_repl"
        return few, f"{place}. {name} len={length} {live}={len(nodes)} {self.listed(nodes)}\n"

    def listed(self, nodes):
        if self.old:
            return f"[{', '.join(nodes)}]"
        return f" [{', '.join(f'DatanodeInfoWithStorage[{node},DS-7c1d,DISK]' for node in nodes)}]"

    def text(self):
        count = self.count
        rate = f"({100 * count['minimal'] / max(1, count['total']):.1f} %)"
        head = "FSCK started by hdfs (auth:SIMPLE) from /10.0.0.1 for path / at Mon Jan 01 00:00:00 UTC\n"
        nodes = len({node for listed in self.believed.values() for node in listed})
        numbers = f" Number of data-nodes:\t{nodes}\n Number of racks:\t\t1\n"
        numbers += " Total dirs:\t\t\t4\n Total symlinks:\t\t0\n"
        blocks = f" Total size:\t9 B\n Total files:\t{count['files']}\n"
        blocks += f" Total blocks (validated):\t{count['total']} (avg. block size 3 B)\n"
        if count["missing"]:
            stars = f"  {'*' * 32}\n"
            blocks += f"{stars}  UNDER MIN REPL'D BLOCKS:\t{count['missing']} {rate}\n"
            blocks += f"  MISSING BLOCKS:\t{count['missing']}\n  MISSING SIZE:\t\t9 B\n{stars}"
        blocks += f" Minimally replicated blocks:\t{count['minimal']} {rate}\n"
        blocks += f" Over-replicated blocks:\t{count['over']} (0.0 %)\n"
        blocks += f" Under-replicated blocks:\t{count['under']} (0.0 %)\n Mis-replicated blocks:\t\t0 (0.0 %)\n"
        blocks += " Default replication factor:\t3\n Average block replication:\t2.5\n"
        blocks += "" if self.old else f" Missing blocks:\t\t{count['missing']}\n"
        blocks += " Corrupt blocks:\t\t0\n Missing replicas:\t\t0 (0.0 %)\n"
        groups = "\nErasure Coded Block Groups:\n Total block groups (validated):\t0\n Missing block groups:\t\t0\n"
        body = f"{blocks}{numbers}" if self.old else f"{numbers}\nReplicated Blocks:\n{blocks}{groups}"
        ended = "FSCK ended at Mon Jan 01 00:00:00 UTC in 4 milliseconds\n\n\n"
        ended += "The filesystem under path '/' is HEALTHY\n"
        return f"{head}\n{''.join(self.lines)}\nStatus: HEALTHY\n{body}{ended}"


def believed(cluster, nodes):
    """What a NameNode believes whose DataNodes have what `replicated` gives them: addresses by block."""
    found, at = {}, 0
    for _, file in files_of(cluster):
        for block_id, _, _ in file.blocks:
            found[block_id] = [nodes[(at + place) % len(nodes)] for place in range(file.replication)]
            at += 1
    return found


def small_cluster():
    """A cluster with closed files, an open one, and a block that no file has any more."""
    cluster = Cluster()
    cluster.begin_segment()
    data = cluster.make_directory(cluster.root, "data")
    written(cluster, data, "notes", 200, 300)
    written(cluster, data, "gone", 50)
    draft = cluster.create(data, "draft")
    cluster.add_block(draft)
    cluster.delete(data.children["gone"])
    written(cluster, data, "spare", 70)
    cluster.end_segment()
    cluster.keep_image()
    return cluster


def story_of_replicas():
    """The cluster of story/ at its first image, and its DataNodes. One has a replica of before an append, too."""
    cluster = Cluster()
    cluster.begin_segment()
    data = cluster.make_directory(cluster.root, "data")
    cluster.make_directory(data, "old")
    cluster.make_directory(cluster.root, "empty")
    written(cluster, data, "notes", 200, 300)
    cluster.add_block(cluster.create(data, "draft"))
    written(cluster, data, "spare")
    nodes = [f"10.0.0.{place}:9866" for place in range(1, 5)]
    site = Site()
    replicated(cluster, site, nodes)
    site.put(nodes[3], (FIRST_ID, 1000, 150))
    return cluster, site, Fsck(cluster, believed(cluster, nodes))


def files_of_replicas():
    """What the DataNodes of the story list, and what fsck prints, as files by their names."""
    _, site, fsck = story_of_replicas()
    listings = {f"dn{place}.find": site.listing(node) for place, node in enumerate(sorted(site.files), 1)}
    return {**listings, "fsck_18.txt": fsck.text()}
