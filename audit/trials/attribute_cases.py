"""Trials of attributes: damages of what an audit compares beside names and blocks, each with a change that is none."""
import os
import shutil

from audit.trials.audit_damages import in_inode, written
from audit.trials.cases import record
from audit.trials.cluster import Cluster

ZONE = b"\x0a\x05zone1"
KEY = b"\0\x01\xfe"
FIRST_FILE = 'attribute "/zone/f" '
NEW = 'attribute "/zone/new" '


class Story:
    """A cluster with attributes, its images at two TXIDs, and its log."""

    def __init__(self):
        self.cluster = cluster = Cluster()
        cluster.begin_segment()
        self.zone = cluster.make_directory(cluster.root, "zone")
        self.file = written(cluster, self.zone, "f", 10)
        self.still = written(cluster, self.zone, "still", 20)
        cluster.set_xattr(self.zone, "RAW", "hdfs.crypto.encryption.zone", ZONE)
        cluster.set_xattr(self.still, "USER", "origin", b"a & b")
        self.whole, self.parts = written(cluster, self.zone, "whole", 40), [written(cluster, self.zone, name, 50) for name in ("p1", "p2")]
        self.groups = written_striped(cluster, self.zone, "groups")
        self.first = cluster.txid
        self.log()
        cluster.end_segment()
        cluster.keep_image()

    def log(self):
        """What the log does between the two images."""
        cluster, zone, file = self.cluster, self.zone, self.file
        cluster.set_owner(file, "ada")
        cluster.set_owner(zone, group="staff")
        cluster.set_permissions(zone, 0o1770)
        cluster.set_permissions(file, 0o640)
        cluster.set_acl(file, "rw-", "r--", "---", [("bob", "rwx")], "r-x")
        cluster.set_acl(zone, "rwx", "r-x", "---", default=[("DEFAULT", "USER", "", "rwx"), ("DEFAULT", "OTHER", "", "---")])
        cluster.set_xattr(file, "USER", "key", KEY)
        cluster.set_quota(zone, 100, 2**63 - 1)
        cluster.set_quota_by_type(zone, "SSD", 7)
        cluster.set_policy(zone, 12)
        cluster.set_policy(file, 2)
        self.new = written(cluster, zone, "new", 30)
        cluster.set_permissions(self.new, 0o600)
        self.moved = cluster.make_directory(zone, "moved")
        cluster.rename(self.still, self.moved, "still")
        self.striped = written_striped(cluster, zone, "striped")
        cluster.append(self.groups)
        cluster.add_block(self.groups, 900)
        cluster.close(self.groups, 901)
        cluster.concat(self.whole, self.parts)
        cluster.append(self.whole)
        cluster.add_block(self.whole, 60)
        cluster.close(self.whole, 70)

    def image(self, txid=None):
        return self.cluster.images[txid or self.cluster.txid]


def written_striped(cluster, directory, name):
    file = cluster.create(directory, name, policy=1)
    cluster.add_block(file)
    cluster.close(file, 5)
    return file


def member_of(block):
    """A block as an image has it."""
    block_id, stamp, length = block
    return f"<block><id>{block_id}</id><genstamp>{stamp}</genstamp><numBytes>{length}</numBytes></block>"


def words_of(block):
    block_id, stamp, length = block
    return f"{block_id}:{stamp}:{length}"


def swapped(one, other):
    """A damage that exchanges two inode ids."""

    def damage(text):
        for old, new in ((f"<id>{one}<", "<id>other<"), (f"<id>{other}<", f"<id>{one}<"), ("<id>other<", f"<id>{other}<")):
            assert text.count(old) == 1, (old, text.count(old))
            text = text.replace(old, new)
        for old, new in ((f"<child>{one}<", "<child>other<"), (f"<child>{other}<", f"<child>{one}<"), ("<child>other<", f"<child>{other}<")):
            text = text.replace(old, new)
        return text

    return damage


def damages(story):
    """A name, a damage of the second image, and what is told of it."""
    still, new = story.still.id, story.new.id
    striped, groups, whole = story.striped.blocks, story.groups.blocks, story.whole.blocks
    return [
        ("a mode", in_inode("f", ":0650<", ":0640<"), FIRST_FILE + '"mode" "0650" "0640"\n'),
        ("the mode of what no record names", in_inode("still", ":0755<", ":0777<"), '"/zone/moved/still" "mode" "0755" "0777"\n'),
        ("a sticky bit", in_inode("zone", ":1750<", ":0750<"), 'attribute "/zone" "mode" "1750" "0750"\n'),
        ("an owner", in_inode("f", ">ada:", ">hdfs:"), FIRST_FILE + '"owner" "ada" "hdfs"\n'),
        ("a group", in_inode("zone", ":staff:", ":supergroup:"), '"/zone" "group" "staff" "supergroup"\n'),
        ("the mode of a new file", in_inode("new", ":0600<", ":0755<"), NEW + '"mode" "0600" "0755"\n'),
        ("an entry of an ACL", in_inode("f", "user:bob:rwx", "user:bob:r-x"), FIRST_FILE + '"acl" "group::r--,user:bob:rwx" '),
        ("a lost ACL", in_inode("f", "<acls><acl>user:bob:rwx</acl><acl>group::r--</acl></acls>", ""), FIRST_FILE + '"acl" '),
        ("a default entry of an ACL", in_inode("zone", "default:other::---", "default:other::r--"), '"/zone" "acl" "default:other::---'),
        (
            "the attribute of an encryption zone",
            in_inode("zone", ZONE.hex(), ZONE.hex()[:-1] + "2"),
            f'"/zone" "xattr RAW hdfs.crypto.encryption.zone" "{ZONE.hex()}" ',
        ),
        ("an attribute that was set", in_inode("f", KEY.hex(), KEY.hex()[:-1] + "f"), FIRST_FILE + '"xattr USER key" "0001fe" "0001ff"\n'),
        ("an attribute that no record sets", in_inode("still", "a &amp; b", "a &amp; c"), '"/zone/moved/still" "xattr USER origin" '),
        ("a quota of names", in_inode("zone", "<nsquota>100<", "<nsquota>101<"), '"/zone" "quota-names" "100" "101"\n'),
        ("a quota of bytes", in_inode("zone", "<dsquota>-1<", "<dsquota>5<"), '"/zone" "quota-bytes" "-" "5"\n'),
        ("a quota of a storage type", in_inode("zone", "<quota>7<", "<quota>8<"), '"/zone" "quota-SSD" "7" "8"\n'),
        ("the policy of a directory", in_inode("zone", "<valHex>0c<", "<valHex>02<"), '"/zone" "xattr SYSTEM hsm.block.storage.policy.id" "0c" "02"\n'),
        ("the policy of a file", in_inode("f", "PolicyId>2<", "PolicyId>0<"), FIRST_FILE + '"policy" "2" "0"\n'),
        ("an EC policy", in_inode("striped", "PolicyId>1<", "PolicyId>2<"), 'attribute "/zone/striped" "ec" "1" "2"\n'),
        ("a block size of 0", in_inode("new", "<preferredBlockSize>134217728<", "<preferredBlockSize>0<"), NEW + '"block-size" "134217728" "0"\n'),
        ("the ids of two inodes", swapped(still, new), f'inode "/zone/moved/still" {still} {new}\n'),
        ("a striped file without its block group", without_block("striped", striped[0]), f'block "/zone/striped" 0 {words_of(striped[0])} -\n'),
        ("a block group that was added", without_block("groups", groups[1]), f'block "/zone/groups" 1 {words_of(groups[1])} -\n'),
        ("another length of a block group", in_inode("groups", ">901<", ">902<"), f'block "/zone/groups" 1 {words_of(groups[1])} '),
        ("a block that is lost behind a concat", without_block("whole", whole[1]), f'block "/zone/whole" 1 {words_of(whole[1])} '),
        ("a block of another stamp behind a concat", in_inode("whole", f">{whole[2][1]}<", ">1001<"), f'block "/zone/whole" 2 {words_of(whole[2])} '),
    ]


def without_block(name, block):
    return in_inode(name, member_of(block), "")


HARMLESS = [
    ("the order of an ACL", in_inode("f", "<acl>user:bob:rwx</acl><acl>group::r--</acl>", "<acl>group::r--</acl><acl>user:bob:rwx</acl>")),
    ("zeros before a mode", in_inode("f", ":0650<", ":00650<")),
    ("a value as digits with 0x", in_inode("f", f"<valHex>{KEY.hex()}<", f"<valHex>0x{KEY.hex().upper()}<")),
    ("a value that is a text, as digits", in_inode("still", "<val>a &amp; b</val>", f"<valHex>{b'a & b'.hex()}</valHex>")),
    ("no quotas", in_inode("moved", "<nsquota>-1</nsquota><dsquota>-1</dsquota>", "")),
    ("quotas of types in one element", in_inode("zone", "<typeQuota><type>SSD</type><quota>7</quota></typeQuota>", "<typeQuotas><typeQuota><type>SSD</type><quota>7</quota></typeQuota></typeQuotas>")),
    ("a policy 0 of erasure coding", in_inode("new", "<storagePolicyId>", "<erasureCodingPolicyId>0</erasureCodingPolicyId><storagePolicyId>")),
    ("an unknown attribute of a new file", in_inode("new", "<storagePolicyId>", "<xattrs><xattr><ns>RAW</ns><name>k</name><valHex>01</valHex></xattr></xattrs><storagePolicyId>")),
    ("an unknown policy of a new file", in_inode("new", "PolicyId>0<", "PolicyId>15<")),
    ("another time", in_inode("f", "<mtime>1<", "<mtime>2<")),
]

# What `--strict` tells, and what else is none.
STRICT = {"an unknown attribute of a new file": NEW + '"xattr RAW k" "-" "01"\n', "an unknown policy of a new file": NEW + '"policy" "0" "15"\n'}

# A record that is lost, by its opcode and how many of its kind come before it, and what is told then.
LOST = [
    ("OP_SET_OWNER", 0, FIRST_FILE + '"owner" "hdfs" "ada"\n'),
    ("OP_SET_PERMISSIONS", 0, '"/zone" "mode" "0750" "1750"\n'),
    ("OP_SET_ACL", 0, FIRST_FILE + '"acl" "-" '),
    ("OP_SET_XATTR", 0, FIRST_FILE + '"xattr USER key" "-" "0001fe"\n'),
    ("OP_SET_QUOTA", 0, '"/zone" "quota-names" "-" "100"\n'),
    ("OP_SET_QUOTA_BY_STORAGETYPE", 0, '"/zone" "quota-SSD" "-" "7"\n'),
    ("OP_SET_STORAGE_POLICY", 0, '"/zone" "xattr SYSTEM hsm.block.storage.policy.id" "-" "0c"\n'),
]


def check_attributes(trials):
    """Each damage of an attribute is told, also in a chain, and no harmless form of one is."""
    story = Story()
    log = trials.log(*(text for _, text in story.cluster.records))
    first = trials.check.file(story.image(story.first))
    states = os.path.join(trials.check.folder, "attributes")
    trials.audited("attributes", 0, "alike: ", "--from", first, "--to", trials.check.file(story.image()), log)
    for name, damage, told in damages(story):
        second = trials.check.file(damage(story.image()))
        for words in ((), ("--state", f"{states}-{name}")):
            output = trials.audited(name, 1, "", "--from", first, "--to", second, *words, log)
            trials.check.contains(f"what is told of {name}", output, told)
    for name, change in HARMLESS:
        second = trials.check.file(change(story.image()))
        trials.audited(f"{name}, which is none", 0, "alike: ", "--from", first, "--to", second, log)
        output = trials.audited(f"{name}, with --strict", int(name in STRICT), "", "--strict", "--from", first, "--to", second, log)
        trials.check.contains(f"what --strict tells of {name}", output, STRICT.get(name, "alike: "))
    check_lost_attributes(trials, story, first)
    check_trusted(trials, story, first, log)


def check_lost_attributes(trials, story, first):
    records = story.cluster.records
    last = trials.check.file(story.image())
    for opcode, before, told in LOST:
        txid = [txid for txid, text in records if txid > story.first and f">{opcode}<" in text][before]
        log = trials.log(*(record("OP_TIMES", at) if at == txid else text for at, text in records))
        output = trials.audited(f"a lost {opcode}", 1, "", "--from", first, "--to", last, log)
        trials.check.contains(f"what is told of a lost {opcode}", output, told)
    nothing = record("OP_SET_OWNER", story.cluster.txid, "<SRC>/none</SRC><USERNAME>ada</USERNAME>")
    log = trials.log(*(text for at, text in records if at < story.cluster.txid), nothing)
    told = f"fault OP_SET_OWNER, TXID {story.cluster.txid}: there is nothing at \"/none\"\n"
    trials.audited("an owner of nothing", 1, told, "--from", first, "--to", last, log)


def check_trusted(trials, story, first, log):
    """What no record tells is taken into a chain from the second image, and holds at the next link."""
    state = os.path.join(trials.check.folder, "trusted")
    given = in_inode("new", "PolicyId>0<", "PolicyId>15<")
    words = "--state", state, "--from", first, "--to", trials.check.file(given(story.image())), log
    output = trials.audited("a policy that no record tells", 0, "alike: ", *words)
    trials.check.contains("what is taken on trust", output, "taken on trust into the chain: attributes of 2 inodes")
    cluster = story.cluster
    cluster.begin_segment()
    cluster.set_permissions(story.still, 0o700)
    cluster.end_segment()
    cluster.keep_image()
    log = trials.log(*(text for _, text in cluster.records))
    shutil.copytree(state, f"{state}-before")
    lost = without_block("whole", story.whole.blocks[1])
    output = trials.audited("a block lost behind a concat, in a chain", 1, "", "--state", shutil.copytree(state, f"{state}-copy"), "--to", trials.check.file(lost(given(story.image()))), log)
    trials.check.contains("what is told then", output, 'block "/zone/whole" 1 ')
    for name, status, image in (("another one", 1, story.image()), ("the same", 0, given(story.image()))):
        output = trials.audited(f"a policy that was taken, and {name}", status, "", "--state", state, "--to", trials.check.file(image), log)
        if status:
            trials.check.contains("what is told then", output, NEW + '"policy" "15" "0"\n')
            # What follows goes on from the same state.
            shutil.rmtree(state)
            shutil.copytree(f"{state}-before", state)
