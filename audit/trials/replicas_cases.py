"""Trials of `replicas`: forms of replicas, of listings and of fsck, programs that fail, DataNodes at random."""
import contextlib
import io
import os
import random
import subprocess
from types import SimpleNamespace

from audit.program.proved import Program
from audit.replicas import sorting
from audit.replicas.judging import Judgement
from audit.replicas.namespace import Namespace
from audit.trials.at_random import Client
from audit.trials.audit_damages import files_of_story, written
from audit.trials.cases import document
from audit.trials.cluster import FIRST_ID, Cluster
from audit.trials.replicas_made import POOL, Fsck, Site, believed, files_of, replicated, small_cluster, story_of_replicas
from hdfs.finding import path_of_command
from hdfs.formats import Refused


NODES = ("dn1", "dn2", "dn3", "dn4")
OTHER_POOL = "BP-7-10.0.0.9-1500000000000"
NOTES, LAST_NOTES, GONE, DRAFT, SPARE, NEVER = range(FIRST_ID, FIRST_ID + 6)

# A program that answers all, and judges as many replicas as it is told.
OTHER_LINES = "cat > /dev/null; yes done 17 | head -2; yes replica x | head -12; yes done 17 | head -3"

# What the DataNodes of the small cluster have, as the program judges it.
GOOD = f"""replica {NOTES} dn1 1001 200 received live
replica {NOTES} dn2 1001 200 received live
replica {NOTES} dn3 1001 200 received live
replica {LAST_NOTES} dn2 1002 300 received live
replica {LAST_NOTES} dn3 1002 300 received live
replica {LAST_NOTES} dn4 1002 300 received live
replica {DRAFT} dn1 1004 0 receiving building
replica {DRAFT} dn3 1004 0 receiving building
replica {DRAFT} dn4 1004 0 receiving building
replica {SPARE} dn1 1005 70 received live
replica {SPARE} dn2 1005 70 received live
replica {SPARE} dn4 1005 70 received live
blocks 3 safe 3 needed 2 mode off
total 3
safe 3
under_replicated 0
over_replicated 0
missing 0
replicas: 12 at 4 DataNodes (live 9, building 3, stale 0, ahead 0, wronglength 0, order 0, held 0)
judged by the namespace of TXID 26
"""

FIRST = GOOD.split("\n")[0]
OTHERS = "not judged, replicas of striped files and old layouts"
UNDER = "under_replicated 1 fsck 0 differs"
LOST = "missing 1 fsck 0 corrupt 0 differs"

# What stands beside the counts where fsck says the same.
GOOD_BESIDE = """total 3 fsck 3
safe 3 fsck 3
under_replicated 0 fsck 0
over_replicated 0 fsck 0
missing 0 fsck 0 corrupt 0
mis_replicated - fsck 0
"""


class Trials:
    """The small cluster with its DataNodes, and ways to judge them."""

    def __init__(self, check):
        self.check = check
        self.program = Program(check.program)
        self.cluster = small_cluster()
        self.image = check.file(self.cluster.images[self.cluster.txid])
        self.log = check.file(document(*(text for _, text in self.cluster.records)))
        self.folder = os.path.join(check.folder, "namespace")
        os.makedirs(self.folder)
        self.namespace = Namespace(options(fsimage=self.image), self.folder)

    def site(self):
        site = Site()
        replicated(self.cluster, site, NODES)
        return site

    def disks(self, site):
        """The listing of each DataNode, by its name."""
        return [(node, self.check.file(site.listing(node))) for node in sorted(site.files)]

    def fsck(self, damage=lambda text: text, **form):
        return self.check.file(damage(Fsck(self.cluster, believed(self.cluster, NODES), **form).text()))

    def judge(self, namespace=None, program=None, **said):
        """What is printed, what stands on standard error, and the status, in this process."""
        folder = os.path.join(self.check.folder, f"judged-{self.check.files}-{len(os.listdir(self.check.folder))}")
        os.makedirs(folder)
        output, errors, status = io.StringIO(), io.StringIO(), 2
        with contextlib.redirect_stdout(output), contextlib.redirect_stderr(errors):
            try:
                status = 1 - judged(program or self.program, namespace or self.namespace, folder, options(**said))
            except Refused as reason:
                print(f"nothing can be said: {reason}", file=errors)
        return output.getvalue(), errors.getvalue(), status

    def told(self, name, status, first, *lines, errors="", **said):
        """A judgement has to end with this status, and its first line and others have to be these."""
        output, told, got = self.judge(**said)
        rows = output.split("\n")
        lacking = [line for line in (first, *lines) if line not in rows]
        holds = got == status and rows[0] == first and errors in told and bool(errors) == bool(told) and not lacking
        self.check.holds(f"replicas: {name}", holds, f"{got}\n{output}{told}\nwanted {status} {lacking}")

    def refused(self, name, reason, **said):
        output, errors, status = self.judge(**said)
        is_so = (output, status) == ("", 2) and errors.startswith("nothing can be said") and reason in errors
        self.check.holds(f"no replicas: {name}", is_so, f"{status}\n{output}{errors}\nwanted {reason}")


def judged(program, namespace, folder, said):
    """Whether fsck says the same. The log is converted here, unless it was before."""
    namespace = namespace if isinstance(namespace, Namespace) else Namespace(namespace, folder)
    return Judgement(program, namespace, folder, said).run()


def options(**said):
    default = {"fsimage": None, "files": [], "disk": [], "fsck": None, "pool": None, "most": 100, "skip": [], "snapshots": "refuse"}
    return SimpleNamespace(**{**default, "permille": 999, "min": 1, **said})


def check_replicas(check):
    trials = Trials(check)
    for part in PARTS:
        part(trials)


def check_command(trials):
    """The command itself: its output and its statuses."""
    check, run = trials.check, lambda *words: trials.check.run("replicas", "--program", trials.check.program, *words)
    disks = [word for name, file in trials.disks(trials.site()) for word in ("--disk", f"{name}={file}")]
    image = ["--fsimage", trials.image]
    check.same("replicas by an image", run(*image, *disks), (0, GOOD, ""))
    check.same("replicas by a log", run(*disks, trials.log), (0, GOOD, ""))
    check.same("replicas by both", run(*image, *disks, trials.log), (0, GOOD, ""))
    story = story_of_replicas()[0].image()
    check.same("the image of the story", story, files_of_story()["fsimage_18.xml"])
    status, output, _ = run(*image, *disks, "--fsck", trials.fsck())
    check.same("replicas beside fsck", (status, GOOD_BESIDE in output), (0, True))
    status, output, _ = run(*image, *disks[2:], "--fsck", trials.fsck())
    check.same("replicas that fsck has alone", (status, f"live {NOTES} 2 fsck 3\n" in output), (1, True))
    lacking = "not judged, DataNodes that fsck counts and nobody listed: 1\n"
    check.contains("a DataNode that is not listed", output, lacking)
    differs = "by the namespace of TXID 26: live of 2 blocks, under_replicated\n"
    check.holds("what fsck says otherwise", output.endswith(differs), output)
    for name, reason, words in (
        ("a program that is killed", "program was killed by signal 9", ["--program", failing(trials, "kill -9 $$")]),
        ("no program", "there is no program", ["--program", "nothing"]),
        ("no file", "there is no file or folder nothing", ["--disk", "dn5=nothing"]),
        ("a program that prints other lines", "because of a defect", ["--program", failing(trials, OTHER_LINES)]),
    ):
        status, output, errors = run(*image, *disks, *words)
        told = (status, output) == (2, "") and errors.startswith("replicas: nothing can be said") and reason in errors
        check.holds(f"no replicas: {name}", told, f"{status}\n{output}{errors}")
    with open("/dev/full", "wb") as full:
        words = [path_of_command("replicas"), "--program", check.program, *image, *disks]
        check.same("an output that is full", subprocess.run(words, stdout=full, stderr=subprocess.PIPE).returncode, 2)
    for words in ((), disks, image, [*image, "--disk", "dn1"], [*image, "--disk", "=x"]):
        check.same(f"replicas of {words}", run(*words)[0], 2)


def failing(trials, text):
    """A program that does what a shell does."""
    program = trials.check.file(f"#!/bin/sh\n{text}\n")
    os.chmod(program, 0o755)
    return program


def check_nothing_said(trials):
    """Programs that fail, and namespaces that there are not."""
    disk = trials.disks(trials.site())
    for name, reason, text in (
        ("a program without memory", "the program told fault 55: ", "echo fault 55; exit 1"),
        ("a program that judges nothing", "told 12 replicas, and judged 0", "cat > /dev/null; yes done 17 | head -5"),
        ("a program that prints nothing", "status 0 and did not answer all", "cat > /dev/null"),
        ("a program that loses a line", "did not answer all", f'sed 7d | {trials.check.program} "$@"'),
    ):
        trials.refused(name, reason, program=Program(failing(trials, text)), disk=disk)
    for name, reason, records in (
        ("a later log", "begins at TXID 2, and TXID 1 is next", records_of(trials, 2)),
        ("a log that lacks a record", "a gap, since TXID 9 is next", records_of(trials, 1, 9)),
        ("an edit that does not apply", "the log does not apply at TXID 3: ", without(trials, 2)),
    ):
        log = trials.check.file(document(*records))
        trials.refused(name, reason, namespace=options(files=[log]), disk=disk)
    torn = trials.check.file(trials.cluster.images[26][:-9])
    trials.refused("a torn image", "the document ends in the middle", namespace=options(fsimage=torn), disk=disk)


def records_of(trials, first, lacking=None):
    return [text for txid, text in trials.cluster.records if txid >= first and txid != lacking]


def without(trials, lacking):
    """The records of a log, where one stands that has no effect in the place of one that had."""
    return [text.replace("OP_MKDIR", "OP_TIMES") if txid == lacking else text for txid, text in trials.cluster.records]


def check_forms(trials):
    """Each form that a replica may have."""
    notes = NOTES, 1001, 200
    few = f'unsafe {NOTES} 0 "/data/notes"'
    counts = "missing 1", "under_replicated 0", "blocks 3 safe 2 needed 2 mode off"
    for name, put, kept, lines in (
        ("a stale stamp", (NOTES, 1000, 200), [], [f"replica {NOTES} dn4 1000 200 received stale"]),
        ("a stamp of later", (NOTES, 1009, 200), [], [f"replica {NOTES} dn4 1009 200 received ahead"]),
        ("a wrong length", (NOTES, 1001, 199), [], [f"replica {NOTES} dn4 1001 199 received wronglength"]),
        ("one too many", notes, [], [f"replica {NOTES} dn4 1001 200 received live", "over_replicated 1"]),
        ("a block of no file", (GONE, 1003, 50), [], [f"order {GONE} dn4"]),
        ("a block that the log has not named", (NEVER, 1006, 9), [], [f"held {NEVER} dn4 1006 received"]),
    ):
        site = trials.site()
        site.put("dn4", put)
        trials.told(name, 0, FIRST, *lines, disk=trials.disks(site))
    for name, block, lines in (
        ("half-written ones", (NOTES, 1001, 100), [few, *counts]),
        ("a half-written one of a stale stamp", (NOTES, 1000, 100), [few]),
    ):
        site = Site()
        replicated(trials.cluster, site, NODES)
        forget(site, NOTES)
        site.put("dn9", block, "rbw")
        kind = "building" if block[1] == 1001 else "stale"
        trials.told(name, 0, f"replica {NOTES} dn9 {block[1]} 100 receiving {kind}", *lines, disk=trials.disks(site))
    site = Site()
    site.put("dn1", notes)
    lines = f'unsafe {LAST_NOTES} 0 "/data/notes"', ".. and 1 more", "missing 2", "under_replicated 1", "safe 1"
    trials.told("blocks without a replica", 0, FIRST, *lines, disk=trials.disks(site), most=1)
    lines = "blocks 3 safe 2 needed 3 mode on", f'unsafe {LAST_NOTES} 1 "/data/notes"'
    site = trials.site()
    forget(site, LAST_NOTES)
    site.put("dn1", (LAST_NOTES, 1002, 300))
    trials.told("--min and --permille", 0, FIRST, *lines, disk=trials.disks(site), min=2, permille=1000)


def forget(site, block):
    """No DataNode has a block any more."""
    for node, files in site.files.items():
        site.files[node] = [file for file in files if f"/blk_{block}" not in file[1]]


def check_left_out(trials):
    """What is on a disk and is no replica is counted. What should be one is named too."""
    for name, folder, said in (
        ("a temporary replica", "tmp", "tmp"),
        ("a lazy one", "lazypersist", "lazypersist"),
        ("trash", "trash/finalized", "trash"),
        ("what was before an upgrade", "previous/finalized", "previous"),
        ("another folder", "current/other", "other folders"),
    ):
        site = trials.site()
        site.put("dn4", (NOTES, 1001, 200), folder)
        trials.told(name, 0, FIRST, f"not judged, {said}: 1", "over_replicated 0", disk=trials.disks(site))
    for name, block in (("a striped block", -9223372036854775792), ("a block of an old layout", 77)):
        site = trials.site()
        site.put("dn4", (block, 1001, 200))
        trials.told(name, 0, FIRST, f"{OTHERS}: 1", disk=trials.disks(site))


def check_pairs(trials):
    """A replica is a pair of files, and a DataNode has one of a block."""
    for name, size, file, said in (
        ("a block file alone", 200, f"blk_{NOTES}", "block files without a meta file"),
        ("a meta file alone", 11, f"blk_{NOTES}_1001.meta", "meta files without a block file"),
        ("a file of no block", 11, f"blk_{NOTES}_1001.meta.new", "files that are no block's"),
    ):
        site = Site()
        site.put("dn1", (NOTES, 1001, 200))
        site.put_file("dn4", size, file)
        dn4 = trials.check.file(site.listing("dn4"))
        disk = [*trials.disks(site)[:1], ("dn4", dn4)]
        trials.told(name, 0, FIRST, f"not judged, {said}: 1", disk=disk, errors=f"replicas: {dn4}, line 1: ")
    site = trials.site()
    site.put_file("dn4", 200, f"blk_{NOTES}", disk=2)
    site.put_file("dn4", 11, f"blk_{NOTES}_1001.meta", disk=3)
    lines = "not judged, block files without a meta file: 1", "not judged, meta files without a block file: 1"
    errors = f"{NOTES} is of the meta files without a block file"
    trials.told("halves on two disks", 0, FIRST, *lines, "over_replicated 0", disk=trials.disks(site), errors=errors)
    site = trials.site()
    site.put_file("dn4", 11, f"blk_{SPARE}_1004.meta")
    lines = "not judged, block files with two meta files: 1", "under_replicated 1"
    errors = f"{SPARE} is of the block files with two meta files"
    trials.told("two meta files", 0, FIRST, *lines, disk=trials.disks(site), errors=errors)
    site = trials.site()
    for disk, stamp in ((2, 1000), (3, 1001)):
        site.put("dn1", (NOTES, stamp, 200), disk=disk)
    lines = "not judged, blocks that a DataNode has twice: 2", "over_replicated 0"
    errors = f"block {NOTES} is on another disk of this DataNode too: "
    trials.told("a block on three disks", 0, FIRST, *lines, disk=trials.disks(site), errors=errors)
    site = trials.site()
    whole, disk = site.files["dn1"], trials.disks(site)
    for files in (whole[:3], whole[3:]):
        site.files["dn1"] = files
        disk.insert(0, ("dn1", trials.check.file(site.listing("dn1"))))
    trials.told("a DataNode with two listings", 0, *GOOD.split("\n"), disk=disk[:2] + disk[3:])
    trials.refused("a file in two listings", "it lists the same file as ", disk=disk)
    empty = trials.check.file("")
    disk = [*trials.disks(trials.site()), ("dn5", empty)]
    trials.told("an empty listing", 0, FIRST, disk=disk, errors=f"replicas: {empty} has no line\n")
    disk = [(node, trials.check.file("7 /hadoop/lost+found/blk_1\n" + trials.site().listing(node))) for node in NODES]
    trials.told("files outside of a pool", 0, FIRST, "not judged, files outside of a block pool: 4", disk=disk)


def check_pools(trials):
    """One block pool is looked at."""
    site = trials.site()
    site.put("dn4", (NOTES, 1001, 200), pool=OTHER_POOL)
    disk = trials.disks(site)
    trials.told("a named pool", 0, FIRST, "not judged, other block pools: 1", disk=disk, pool=POOL)
    lines = f"replica {NOTES} dn4 1001 200 received live", "not judged, other block pools: 12", "missing 2"
    trials.told("the other pool", 0, *lines, disk=disk, pool=OTHER_POOL)
    trials.refused("two pools", ": two block pools, BP-", disk=disk)
    trials.refused("a pool that is not there", "no listing has the block pool BP-1", disk=disk, pool="BP-1")
    reason = f"it is of the block pool {POOL}"
    trials.refused("fsck of another pool", reason, disk=disk, pool=OTHER_POOL, fsck=trials.fsck())


def check_listings(trials):
    """Listings that are no whole ones."""
    place = f"/hadoop/1/hdfs/current/{POOL}/current/finalized/subdir0/blk_{NOTES}"
    for name, text, reason in (
        ("a torn listing", f"200 {place}\n11 {place}_10", "line 2: it is torn, and ends the file"),
        ("a line without a size", f"{place}\n", "line 1: '/hadoop/1/hdfs/current/BP-"),
        ("an empty line", f"200 {place}\n\n", "line 2: '' is no size and path"),
        ("a negative size", f"-1 {place}\n", "line 1: '-1 /hadoop"),
        ("a size that is too great", f"{2**63} {place}\n", "line 1: 9223372036854775808 is not a number"),
        ("an id that is too great", f"1 {place[:-10]}{2**63}\n", "line 1: 9223372036854775808 is not a number"),
        ("a stamp that is too great", f"1 {place}_{2**63}.meta\n", "line 1: 9223372036854775808 is not a number"),
        ("a path with a zero byte", f"1 {place}\0\n", "is no size and path"),
        ("a path with a line feed", f"1 /hadoop/blk_1\nb/{place}\n", "line 2: 'b//hadoop"),
        ("a line without an end", "1 /" + "a" * 1_100_000, "line 1: it has more than 1,048,576 bytes"),
        ("a file twice", f"200 {place}\n11 {place}_1001.meta\n200 {place}\n", "line 3: it lists the same file as "),
        ("a meta file twice", f"11 {place}_1001.meta\n11 {place}_1001.meta\n", "line 2: it lists the same file as "),
    ):
        trials.refused(name, reason, disk=[("dn1", trials.check.file(text))])
    trials.refused("a name with a blank", "'dn 1' is no name", disk=[("dn 1", trials.check.file(""))])
    site = Site()
    for node in range(256):
        site.put(f"dn{node:03}", (NOTES, 1001, 200))
    lines = f"replica {NOTES} dn255 1001 200 received live", "over_replicated 1"
    trials.told("256 replicas", 0, f"replica {NOTES} dn000 1001 200 received live", *lines, disk=trials.disks(site))
    site.put("dn256", (NOTES, 1001, 200))
    trials.refused("257 replicas", f"block {NOTES} has more than 256 replicas: one at dn256", disk=trials.disks(site))
    lines = [f"{place} /{POOL}/current/finalized/{place}/blk_{NOTES}" for place in range(10_000)]
    hostile = trials.check.file("".join(f"{line}\n11 {line.partition(' ')[2]}_1001.meta\n" for line in lines))
    lines = f"replica {NOTES} dn1 1001 9999 received wronglength", "not judged, blocks that a DataNode has twice: 9,999"
    trials.told("a block on 10,000 disks", 0, *lines, disk=[("dn1", hostile)], errors="replicas: .. and 9,899 more\n")


def check_fsck(trials):
    """fsck in its forms, as the only source and beside disks."""
    disk = trials.disks(trials.site())
    lines = GOOD_BESIDE.strip().split("\n")
    count = "replicas: 9 at 4 DataNodes (live 9, building 0, stale 0, ahead 0, wronglength 0, order 0, held 0)"
    for name, fsck in (
        ("fsck of Hadoop 3", trials.fsck()),
        ("fsck of Hadoop 2", trials.fsck(old=True)),
        ("fsck with details", trials.fsck(lambda text: text.replace(",DISK]", ",DISK](LIVE)"))),
        ("fsck with racks", trials.fsck(with_racks)),
    ):
        begin = FIRST.replace("dn1", "/r/dn1") if "racks" in name else FIRST
        trials.told(f"{name} alone", 0, begin, *lines, count, fsck=fsck)
        trials.told(f"{name} beside disks", 0, FIRST, *lines, fsck=fsck, disk=disk)
    opened = "not compared, as fsck counts them too, open files: 1", "total 3 fsck 4"
    opened += (f"replica {DRAFT} dn1 1004 0 receiving building",)
    trials.told("fsck with open files", 0, FIRST, *opened, fsck=trials.fsck(opened=True))
    leaving = trials.fsck(lambda text: text.replace("Live_repl=3", "Live_repl=2", 1))
    trials.told("a replica that is decommissioned", 0, FIRST, *lines, fsck=leaving, disk=disk)
    corrupt = trials.fsck(lambda text: text.replace("[dn1,DS-7c1d,DISK]", "[dn1,DS-7c1d,DISK](CORRUPT)", 1))
    lines = "not judged, replicas that fsck calls corrupt: 1", f"live {NOTES} 2 fsck 3", UNDER
    trials.told("a corrupt replica", 1, f"replica {NOTES} dn2 1001 200 received live", *lines, fsck=corrupt)
    older = trials.fsck(lambda text: text.replace(f"{LAST_NOTES}_1002 len=300", f"{LAST_NOTES}_1001 len=30"))
    lines = f"live {LAST_NOTES} 0 fsck 3", f"replica {LAST_NOTES} dn2 1001 30 received stale", LOST
    trials.told("fsck of another time", 1, FIRST, *lines, fsck=older)
    stranger = trials.fsck(lambda text: text.replace(f"blk_{SPARE}_", f"blk_{GONE}_"))
    trials.told("fsck with a block of no file", 1, FIRST, f"order {GONE} dn4", f"live {GONE} 0 fsck 3", fsck=stranger)
    twice = trials.fsck(lambda text: text.replace("[dn2,", "[dn1,", 1))
    errors = f"block {NOTES} is 2 times at dn1"
    trials.told("a DataNode twice", 1, FIRST, f"live {NOTES} 2 fsck 3", fsck=twice, errors=errors)


def with_racks(text):
    return text.replace("DatanodeInfoWithStorage[", "/r/").replace(",DS-7c1d,DISK]", "")


def check_beside(trials):
    """What disks have and fsck does not say, and what a NameNode believes and disks do not have."""
    fsck = trials.fsck()
    notes, stale, gone = (NOTES, 1001, 200), (NOTES, 1000, 200), (GONE, 1003, 50)
    for name, damage, status, lines in (
        ("a lost replica", lambda site: lose(site, "dn3", NOTES), 1, [f"live {NOTES} 2 fsck 3", UNDER]),
        ("one that fsck lacks", lambda site: site.put("dn4", notes), 1, ["over_replicated 1 fsck 0 differs"]),
        ("a stale one beside good ones", lambda site: site.put("dn4", stale), 0, GOOD_BESIDE.strip().split("\n")),
        ("a block of no file", lambda site: site.put("dn4", gone), 0, [f"order {GONE} dn4"]),
        ("a lost block", lambda site: forget(site, SPARE), 1, [LOST, "safe 2 fsck 3 differs"]),
    ):
        site = trials.site()
        damage(site)
        trials.told(f"{name}, beside fsck", status, FIRST, *lines, disk=trials.disks(site), fsck=fsck)
    for old in (False, True):
        known = believed(trials.cluster, NODES)
        known[SPARE], known[NOTES] = [], known[NOTES][:2]
        text = trials.check.file(Fsck(trials.cluster, known, old=old).text())
        site = trials.site()
        forget(site, SPARE)
        lose(site, "dn3", NOTES)
        lines = "missing 1 fsck 1 corrupt 0", "under_replicated 1 fsck 1", "safe 2 fsck 2"
        trials.told("what both say is lost", 0, FIRST, *lines, disk=trials.disks(site), fsck=text)
        lines = f"live {NOTES} 3 fsck 2", f"live {SPARE} 3 fsck 0", "missing 0 fsck 1 corrupt 0 differs"
        trials.told("what fsck alone says is lost", 1, FIRST, *lines, disk=trials.disks(trials.site()), fsck=text)


def check_corrupt(trials):
    """A block of which fsck calls all replicas corrupt: it is missing here, as none of them is live."""
    known = believed(trials.cluster, NODES)
    known[SPARE], places = [], ", ".join(f"DatanodeInfoWithStorage[{node},DS-7c1d,DISK]" for node in known[SPARE])
    name = f"{POOL}:blk_{SPARE}_1005 len=70"
    text = Fsck(trials.cluster, known).text()
    for old, new in (
        (" MISSING 1 blocks of", f"\n/data/spare: CORRUPT blockpool {POOL} block blk_{SPARE}\n CORRUPT 1 blocks of"),
        (f"{name} MISSING!", f"{name} Live_repl=0  [{places}]"),
        ("MISSING BLOCKS:\t1", "CORRUPT BLOCKS: \t1"),
        ("Missing blocks:\t\t1", "Missing blocks:\t\t0"),
        ("Corrupt blocks:\t\t0", "Corrupt blocks:\t\t1"),
    ):
        trials.check.same(f"how often fsck says {old}", text.count(old), 1)
        text = text.replace(old, new)
    site = trials.site()
    forget(site, SPARE)
    for node in NODES[:2]:
        site.put(node, (SPARE, 1005, 69))
    lines = "missing 1 fsck 0 corrupt 1", f"replica {SPARE} dn1 1005 69 received wronglength", "safe 2 fsck 2"
    trials.told("a corrupt block", 0, FIRST, *lines, disk=trials.disks(site), fsck=trials.check.file(text))


def lose(site, node, block):
    site.files[node] = [file for file in site.files[node] if f"/blk_{block}" not in file[1]]


def check_fsck_texts(trials):
    """Texts that are no whole output of fsck."""
    for name, old, new, reason in (
        ("torn", "is HEALTHY\n", "is HEA", "it is torn, and ends the file"),
        ("without its end", "FSCK ended", "FSCK", "at its end: it does not say that fsck ended"),
        ("of a folder", "for path / at", "for path /data at", "line 1: it is of the path '/data', and not of /"),
        ("without blocks", "0. BP-", "BP-", "block 1, where no file has so many or block 0 is next"),
        ("that lacks the last block", "1. BP-", "BP-", "1 blocks of the file before it are not there"),
        ("without a file", "/data/notes 500 bytes", "/data/notes", "block 0, where no file has so many"),
        ("without locations", "Live_repl=3  [", "Live_repl=3\n[", "it lists no replicas: say -files -blocks"),
        ("with another location", "[dn1,DS-7c1d,DISK]", "[dn1]", "is no DataNode"),
        ("with another count", "(validated):\t3", "(validated):\t4", "at its end: it counts 4 blocks, and lists 3"),
        ("with a word", "len=200 Live_repl=3", "len=200 Repl=3", "says neither MISSING! nor how many"),
        ("with a length", "len=200", "len=x", "is no block"),
        ("with a great number", "len=200", f"len={2**63}", "is not a number from 0"),
        ("with a block twice", f"{LAST_NOTES}_1002", f"{NOTES}_1001", f"block {NOTES} is in two files"),
        ("of two pools", f"1. {POOL}", "1. BP-2", "two block pools, "),
    ):
        fsck = trials.fsck(lambda text: text.replace(old, new))
        trials.refused(f"fsck {name}", reason, fsck=fsck)


def check_many(trials):
    """300 DataNodes, each of which has its own name behind whatever lane."""
    cluster = Plain()
    cluster.begin_segment()
    directory = cluster.make_directory(cluster.root, "d")
    for place in range(400):
        file = cluster.create(directory, f"f{place}")
        cluster.add_block(file)
        cluster.close(file, place)
    nodes = [f"host-{place:03}.example:9866" for place in range(300)]
    site = Site()
    replicated(cluster, site, nodes)
    folder = os.path.join(trials.check.folder, "many")
    os.makedirs(folder)
    namespace = Namespace(options(fsimage=trials.check.file(cluster.image())), folder)
    fsck = trials.check.file(Fsck(cluster, believed(cluster, nodes)).text())
    output, errors, status = trials.judge(namespace, disk=trials.disks(site), fsck=fsck)
    wanted = [
        f"replica {FIRST_ID + place} {node} {1001 + place} {place} received live"
        for place in range(400)
        for node in sorted(nodes[(place + at) % 300] for at in range(3))
    ]
    trials.check.same("300 DataNodes", (status, errors, output.split("\n")[:1200]), (0, "", wanted))
    trials.check.contains("300 DataNodes beside fsck", output, "\nthe same: ")


def check_parts(trials):
    """A log that is cut into parts. All replicas are judged by its last line."""
    cluster = Plain()
    cluster.begin_segment()
    directory = cluster.root
    for _ in range(30):
        directory = cluster.make_directory(directory, "n" * 250)
    file = cluster.create(directory, "f")
    cluster.add_block(file)
    cluster.close(file, 5)
    for place in range(2150):
        cluster.log_path("OP_SET_REPLICATION", file, f"<REPLICATION>{3 - place % 2}</REPLICATION>")
    cluster.append(file)
    cluster.close(file, 7)
    cluster.end_segment()
    folder = os.path.join(trials.check.folder, "parts-of-a-log")
    os.makedirs(folder)
    log = trials.check.file(document(*(text for _, text in cluster.records)))
    namespace = Namespace(options(files=[log]), folder)
    trials.check.same("the parts of a log", len(namespace.parts), 2)
    site = Site()
    site.put("dn1", (FIRST_ID, 1002, 7))
    site.put("dn2", (FIRST_ID, 1001, 5))
    output, errors, status = trials.judge(namespace, disk=trials.disks(site))
    rows = f"replica {FIRST_ID} dn1 1002 7 received live\nreplica {FIRST_ID} dn2 1001 5 received stale\nblocks 1 safe 1"
    as_wanted = output.startswith(rows) and output.endswith(f"judged by the namespace of TXID {cluster.txid}\n")
    trials.check.holds("a log in parts", (status, errors, as_wanted) == (0, "", True), output)


def striped(cluster):
    file = cluster.create(cluster.root, "striped", policy=1)
    cluster.add_block(file)
    cluster.close(file, 7)
    return file.blocks


def old_layout(cluster):
    """A file of an old layout, which got a block since."""
    file = written(cluster, cluster.root, "old", 10)
    file.blocks[:0] = [[77, 5, 10]]
    return file.blocks


def old_stamp(cluster):
    """A block of an old layout, of which no file is left."""
    cluster.stamp_limit = 1000
    return [[2**40, 500, 10]]


def snapshot(cluster):
    """A file that a snapshot has alone."""
    directory = cluster.make_directory(cluster.root, "kept")
    file = written(cluster, directory, "old", 10)
    cluster.create_snapshot(directory)
    cluster.delete(file)
    return file.blocks


def check_images(trials):
    """Images of real clusters: what can't be held here is left out, and a snapshot may have a block of no file."""
    held_alone = "not judged, blocks of no file, which a snapshot may have: 1"
    told = " at 4 DataNodes (live 9, building 3, stale 0, ahead 0, wronglength 0, order 0, held 0)"
    too = "not compared, as fsck counts them too, blocks of old layouts: 2"
    for name, change, count, lines in (
        ("a striped file", striped, 12, [f"{OTHERS}: 1", *GOOD_BESIDE.strip().split("\n")]),
        ("a file of an old layout", old_layout, 12, [f"{OTHERS}: 2", too, "total 3 fsck 5"]),
        ("a deleted file of an old layout", old_stamp, 12, [f"{OTHERS}: 1"]),
        ("a snapshot", snapshot, 13, [held_alone]),
    ):
        cluster, site = small_cluster(), Site()
        replicated(cluster, site, NODES)
        known = believed(cluster, NODES)
        for block in change(cluster):
            site.put("dn4", block)
            known[block[0]] = ["dn4"]
        said = {"disk": trials.disks(site), "fsck": trials.check.file(Fsck(cluster, known).text())}
        image = options(fsimage=trials.check.file(cluster.image()))
        lines = [f"replicas: {count}{told}", *lines]
        trials.told(f"an image with {name}", 0, FIRST, *lines, namespace=image, **said)
    image = trials.cluster.image().replace("<genstampV2>1005<", "<genstampV2>1004<")
    image = options(fsimage=trials.check.file(image))
    trials.refused("an image with a low stamp", "contradicts itself: ", namespace=image, disk=trials.disks(site))


class Plain(Cluster):
    """A cluster of replicated files, of which the last image is wanted alone."""

    def keep_image(self):
        pass

    def create(self, parent, name, replication=3, policy=0):
        return super().create(parent, name, replication)


class PlainClient(Client):
    """Does what a log of replicas may have. A dump of an image has no carriage returns in names."""

    NAMES = [name for name in Client.NAMES if "\r" not in name]

    def cut(self):
        return False

    join = snapshot = cut


def check_random(trials):
    """Replicas at random, in small parts, as a model of a few lines judges them, and as fsck counts them."""
    whole = sorting.PART_BYTES
    for seed in range(9):
        chance = random.Random(seed)
        cluster, namespace, awaiting = namespace_at_random(trials, chance, seed)
        site, wanted, live = replicas_at_random(cluster, chance, awaiting)
        sorting.PART_BYTES = chance.choice((300, 3_000, whole))
        said = {"disk": trials.disks(site), "fsck": trials.check.file(Fsck(cluster, live).text())}
        output, errors, status = trials.judge(namespace, **said)
        sorting.PART_BYTES = whole
        rows = [row for row in output.split("\n") if row.startswith(("replica ", "order ", "held "))]
        trials.check.same(f"replicas at random, {seed}", (status, errors, sorted(rows)), (0, "", sorted(wanted)))
        trials.check.contains(f"what fsck counts of them, {seed}", output, f" of TXID {cluster.txid}\n")
        closed = [block for _, file in files_of(cluster) if file.closed for block, _, _ in file.blocks if live[block]]
        for lost in closed[:1]:
            live[lost].append("dn999")
            said["fsck"] = trials.check.file(Fsck(cluster, live).text())
            output, _, status = trials.judge(namespace, **said)
            told = f"live {lost} {len(live[lost]) - 1} fsck {len(live[lost])}\n"
            trials.check.same(f"one more that fsck has, {seed}", (status, told in output), (1, True))


def namespace_at_random(trials, chance, seed):
    """What a cluster did, by a log, an image, or both; and the last id of the image, if no file had it there."""
    cluster = Plain()
    client = PlainClient(chance, cluster)
    begin = (0, 30, 60)[seed % 3]
    said, awaiting = {}, None
    cluster.begin_segment()
    for step in range(61):
        if step == begin and begin:
            said["fsimage"] = trials.check.file(cluster.image())
            has_last = any(block[0] == cluster.last_block for _, file in files_of(cluster) for block in file.blocks)
            awaiting = None if has_last else cluster.last_block
        if step == begin == 60:
            break
        client.step()
    else:
        cluster.end_segment()
        said["files"] = [trials.check.file(document(*(text for _, text in cluster.records)))]
    folder = os.path.join(trials.check.folder, f"random-{seed}")
    os.makedirs(folder)
    return cluster, Namespace(options(**said), folder), awaiting


def replicas_at_random(cluster, chance, awaiting):
    """DataNodes with replicas, a line for each as it has to be judged, and where each block has live ones."""
    site, wanted = Site(), []
    blocks = {block[0]: block for _, file in files_of(cluster) for block in file.blocks}
    live = {block_id: [] for block_id in blocks}
    for block_id in range(FIRST_ID, cluster.last_block + 3):
        _, stamp, length = blocks.get(block_id, (block_id, 1001, 10))
        for node in chance.sample(range(300), chance.randrange(5)):
            gen, size = stamp + chance.choice((-1, 0, 0, 0, 1)), length + chance.choice((0, 0, 0, 1))
            folder = chance.choice(("finalized", "finalized", "rbw"))
            site.put(f"dn{node}", (block_id, gen, size), folder)
            kind = "received" if folder == "finalized" else "receiving"
            if block_id in blocks:
                word = "stale" if gen < stamp else "ahead" if gen > stamp else "building" if folder == "rbw" else None
                word = word or ("live" if size == length else "wronglength")
                wanted.append(f"replica {block_id} dn{node} {gen} {size} {kind} {word}")
                live[block_id] += [f"dn{node}"] * (word == "live")
            elif block_id == awaiting or block_id > cluster.last_block:
                wanted.append(f"held {block_id} dn{node} {gen} {kind}")
            else:
                wanted.append(f"order {block_id} dn{node}")
    return site, wanted, live


PARTS = (
    check_command,
    check_nothing_said,
    check_forms,
    check_left_out,
    check_pairs,
    check_pools,
    check_listings,
    check_fsck,
    check_beside,
    check_corrupt,
    check_fsck_texts,
    check_images,
    check_many,
    check_parts,
    check_random,
)
