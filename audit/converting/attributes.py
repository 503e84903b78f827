"""Attributes: what an inode has beside its name, its kind and its blocks, as an image shows it, and as records set it.

An attribute is a text under a name. One that nothing says is UNKNOWN, and is like everything: the XML of an OP_ADD has
neither extended attributes nor a storage policy. What is said of Hadoop is from knowledge of its code.
"""
import re

from hdfs.formats import Refused
from hdfs.reading.dumps import unescaped
from hdfs.reading.inodes import DIRECTORY
from hdfs.reading.walk import ROOT

UNKNOWN = None
NOTHING_KNOWN = {}

# The members of an inode of an image from which its attributes are read.
OF_INODE = (
    "type", "permission", "preferredBlockSize", "storagePolicyId", "erasureCodingPolicyId", "nsquota", "dsquota", "typeQuota", "typeQuotas", "acls", "xattrs"
)

# The extended attributes of a file, of which nothing is known where this one is UNKNOWN.
XATTR = "xattr"
# The one in which a directory has its storage policy.
POLICY_OF_DIRECTORY = "xattr SYSTEM hsm.block.storage.policy.id"

OCTAL, DECIMAL = re.compile("[0-7]{1,8}"), re.compile("-?[0-9]{1,19}")

NO_QUOTA, KEPT_QUOTA = "-1", str((1 << 63) - 1)
STORAGE_TYPES = "RAM_DISK", "SSD", "DISK", "ARCHIVE", "PROVIDED", "NVDIMM"

STICKY, ALL_BITS = 0o1000, 0o1777
# What stands for the owner, the mask and the others in an ACL is bits of the mode, and no entry.
IN_MODE = {("USER", ""), ("MASK", ""), ("OTHER", "")}
# An ACL of no more entries is the mode alone.
FEW_ENTRIES = 3

# So many texts of sets are kept, with the numbers of these.
KEPT_TEXTS = 10_000


class Sets:
    """The different sets of attributes of an image, each once. Nothing is known of set 0."""

    def __init__(self, known=()):
        self.all = []
        self.numbers = {}
        # The numbers of sets by what dumps have of them.
        self.texts = {}
        self.of_columns = OfColumns(self)
        for attributes in known or [NOTHING_KNOWN]:
            self.number(attributes)

    def number(self, attributes):
        """The number of these attributes, which are not changed from now on."""
        key = frozenset(attributes.items())
        if key not in self.numbers:
            self.numbers[key] = len(self.all)
            self.all.append(attributes)
        return self.numbers[key]

    def kept(self, texts, make):
        """The number of the attributes that have these texts. They are made if the texts are new."""
        number = self.texts.get(texts)
        if number is None:
            if len(self.texts) == KEPT_TEXTS:
                self.texts.clear()
            number = self.texts[texts] = self.number(make())
        return number


class OfColumns(dict):
    """The numbers of sets by the kind of an inode and the texts of its attributes, as a quick reader has them."""

    def __init__(self, sets):
        super().__init__()
        self.sets = sets

    def __missing__(self, columns):
        kind, *texts = columns
        if len(self) == KEPT_TEXTS:
            self.clear()
        permission, size, policy, owner, names, space = (text and text.decode() for text in texts)
        is_file = kind != DIRECTORY
        self[columns] = self.sets.number(of_texts(is_file, permission if is_file else owner, size, policy, names, space))
        return self[columns]


# ---- An image.


def of_texts(is_file, permission, size, policy, names, space):
    """The attributes of a common inode, by its texts. One that is missing, None, has the value that a loader gives it."""
    found = of_permission(permission)
    if is_file:
        found["block-size"] = plain(size or "0")
        found["policy"] = plain(policy or "0")
        found["ec"] = "0"
        return found
    for name, quota in (("quota-names", names), ("quota-bytes", space)):
        if quota not in (None, NO_QUOTA):
            found[name] = plain(quota)
    return found


def of_permission(text):
    """The owner, the group and the mode in an element of an image, such as `hdfs:supergroup:0755`."""
    parts = unescaped("permission", text).rsplit(":", 2) if text is not None else ()
    if len(parts) != 3:
        return {"owner": UNKNOWN, "group": UNKNOWN, "mode": UNKNOWN}
    owner, group, mode = parts
    return {"owner": owner, "group": group, "mode": octal(mode)}


def octal(text):
    """A mode, as four octal digits. What is none is compared as it stands."""
    return f"{int(text, 8) & ALL_BITS:04o}" if OCTAL.fullmatch(text) else text


def plain(text):
    """A number, without zeros before it. What is none is compared as it stands."""
    return str(int(text)) if DECIMAL.fullmatch(text) else text


def of_inode(inode):
    """The attributes of an inode of an image."""
    is_file = inode.text_of("type") == "FILE"
    texts = (text_in(inode, name) for name in ("permission", "preferredBlockSize", "storagePolicyId", "nsquota", "dsquota"))
    found = of_texts(is_file, *texts)
    if is_file:
        found["ec"] = plain(text_in(inode, "erasureCodingPolicyId") or "0")
    found.update(quotas_of_types(inode))
    acls = inode.find("acls")
    if acls is not None and acls.all("acl"):
        found["acl"] = ",".join(sorted(unescaped("an ACL", acl.text) for acl in acls.all("acl")))
    xattrs = inode.find("xattrs")
    for xattr in xattrs.all("xattr") if xattrs is not None else ():
        found[f"{XATTR} {xattr.string('ns')} {xattr.string('name')}"] = value_in_image(xattr)
    return found


def text_in(element, name):
    found = element.find(name)
    return None if found is None else found.text


def quotas_of_types(inode):
    """The quotas of storage types: an element for each, or one for all, as releases of Hadoop have it."""
    for outer in (*inode.all("typeQuota"), *inode.all("typeQuotas")):
        for quota in outer.all("typeQuota") or [outer]:
            yield f"quota-{quota.string('type')}", plain(quota.text_of("quota"))


def value_in_image(xattr):
    """The value of an extended attribute in hexadecimal digits. A line feed may stand there for a carriage return."""
    digits = text_in(xattr, "valHex")
    if digits is not None:
        return in_one_form(digits)
    return normal(xattr.string("val").encode()) if xattr.find("val") else ""


def in_one_form(digits):
    """Hexadecimal digits, which may begin with `0x`."""
    try:
        return normal(bytes.fromhex(digits[2 * digits.startswith("0x") :]))
    except ValueError:
        raise Refused(f"an extended attribute's value {digits[:40]!r} is none in hexadecimal digits") from None


def normal(value):
    """A value, as it is where XML was between: it reads each end of a line as a line feed."""
    return value.replace(b"\r\n", b"\n").replace(b"\r", b"\n").hex()


# ---- A log.

# The records that set something, each with the member that has the path.
SETTING = {
    "OP_SET_PERMISSIONS": "SRC",
    "OP_SET_OWNER": "SRC",
    "OP_SET_ACL": "SRC",
    "OP_SET_XATTR": "SRC",
    "OP_REMOVE_XATTR": "SRC",
    "OP_SET_QUOTA": "SRC",
    "OP_SET_NS_QUOTA": "SRC",
    "OP_CLEAR_NS_QUOTA": "SRC",
    "OP_SET_QUOTA_BY_STORAGETYPE": "SRC",
    "OP_SET_STORAGE_POLICY": "PATH",
}


def of_record(data, is_file):
    """The attributes of what an OP_ADD or an OP_MKDIR makes."""
    status, texts = data.find("PERMISSION_STATUS"), (None, None, None)
    if status is not None:
        texts = status.string("USERNAME"), status.string("GROUPNAME"), status.number("MODE")
    size = text_in(data, "BLOCKSIZE")
    made = of_members(is_file, *texts, size)
    if is_file:
        made["ec"] = plain(text_in(data, "ERASURE_CODING_POLICY_ID") or "0")
    entries = entries_in(data)
    if entries:
        set_acl(made, entries)
    made.update(xattrs_in(data))
    return made


def of_texts_of_record(is_file, *texts):
    """The attributes of what a common record makes, by the bytes of its texts, which have no escapes."""
    return of_members(is_file, *(text if text is None else text.decode() for text in texts))


def of_members(is_file, owner, group, mode, size):
    """Those of a file that is replicated, or of a directory. A file has extended attributes and a policy of which nothing is told."""
    made = {"owner": owner, "group": group, "mode": UNKNOWN if mode is None else f"{int(mode) & ALL_BITS:04o}"}
    if is_file:
        made.update({"block-size": plain(size or "0"), "ec": "0", "policy": UNKNOWN, XATTR: UNKNOWN})
    return made


def change(attributes, record, inode_id):
    """Does to attributes what a record says."""
    CHANGES[record.opcode](attributes, record.data, inode_id)


def set_permissions(attributes, data, _inode_id):
    attributes["mode"] = f"{data.number('MODE') & ALL_BITS:04o}"


def set_owner(attributes, data, _inode_id):
    """Either may be missing, and is kept."""
    for key, name in (("owner", "USERNAME"), ("group", "GROUPNAME")):
        if data.find(name) is not None:
            attributes[key] = data.string(name)


def entries_in(data):
    """The entries of an ACL, each with its scope, its type, its name and its permission."""
    members = "SCOPE", "TYPE", "NAME", "PERM"
    return [tuple(entry.string(name) if entry.find(name) else "" for name in members) for entry in data.all("ENTRY")]


def acl(attributes, data, _inode_id):
    entries = entries_in(data)
    if entries:
        set_acl(attributes, entries)
    else:
        remove_acl(attributes)


def set_acl(attributes, entries):
    """The entries of the owner, of the mask, or the group if there is none, and of the others are bits of the mode."""
    access = {(kind, name): perm for scope, kind, name, perm in entries if scope != "DEFAULT"}
    kept = [entry for entry in entries if entry[0] == "DEFAULT"]
    group = ("GROUP", "")
    if len(access) > FEW_ENTRIES:
        kept += [entry for entry in entries if entry[0] != "DEFAULT" and entry[1:3] not in IN_MODE]
        group = ("MASK", "")
    if access:
        mode = attributes.get("mode")
        # Nobody knows the sticky bit of a mode that is not known.
        bits = [bits_of(access.get(key, "---")) for key in (("USER", ""), group, ("OTHER", ""))]
        attributes["mode"] = UNKNOWN if mode is UNKNOWN else f"{int(mode, 8) & STICKY | bits[0] << 6 | bits[1] << 3 | bits[2]:04o}"
    put(attributes, "acl", ",".join(sorted(map(text_of_entry, kept))))


def remove_acl(attributes):
    """The group's own bits come back from its entry."""
    entries = attributes.pop("acl", "")
    for entry in entries.split(",") if entries else ():
        if entry.startswith("group::") and attributes.get("mode") is not UNKNOWN:
            mode = int(attributes["mode"], 8) & ~0o070 | bits_of(entry[len("group::") :]) << 3
            attributes["mode"] = f"{mode:04o}"


def bits_of(permission):
    """The bits of a permission such as `r-x`."""
    return sum(bit for bit, letter in zip((4, 2, 1), permission) if letter != "-")


def text_of_entry(entry):
    """An entry of an ACL, as an image has it."""
    scope, kind, name, permission = entry
    return f"{'default:' if scope == 'DEFAULT' else ''}{kind.lower()}:{name}:{permission}"


def put(attributes, key, value):
    """Sets an attribute, or takes it away if its value is empty."""
    attributes.pop(key, None)
    if value:
        attributes[key] = value


def xattrs_in(data):
    """The extended attributes of a record, each with its value."""
    for xattr in data.all("XATTR"):
        yield f"{XATTR} {xattr.string('NAMESPACE')} {xattr.string('NAME')}", in_one_form(text_in(xattr, "VALUE") or "")


def set_xattr(attributes, data, _inode_id):
    attributes.update(xattrs_in(data))


def remove_xattr(attributes, data, _inode_id):
    """What was never seen may have been there, if nothing is known of the others."""
    for name, _ in xattrs_in(data):
        attributes.pop(name, None)
        if XATTR in attributes:
            attributes[name] = GONE


# What stands for an extended attribute that was taken away from those of which nothing is known.
GONE = "-"


def set_policy(attributes, data, _inode_id):
    policy = data.number("POLICYID")
    if "policy" in attributes:
        attributes["policy"] = str(policy)
    else:
        put(attributes, POLICY_OF_DIRECTORY, f"{policy:02x}" if policy else "")


def set_quota(attributes, data, inode_id):
    """An OP_CLEAR_NS_QUOTA has no number."""
    set_one(attributes, "quota-names", text_in(data, "NSQUOTA") or NO_QUOTA, inode_id == ROOT)
    if data.find("DSQUOTA") is not None:
        set_one(attributes, "quota-bytes", data.text_of("DSQUOTA"), False)


def set_quota_of_type(attributes, data, _inode_id):
    """The type is its name, or its place among them."""
    kind = data.string("STORAGETYPE")
    if DECIMAL.fullmatch(kind):
        kind = dict(enumerate(STORAGE_TYPES)).get(int(kind), kind)
    set_one(attributes, f"quota-{kind}", data.text_of("DSQUOTA"), False)


def set_one(attributes, key, quota, is_names_of_root):
    """Sets a quota. The root keeps one for its names."""
    if quota == KEPT_QUOTA or quota == NO_QUOTA and is_names_of_root:
        return
    put(attributes, key, "" if quota == NO_QUOTA else plain(quota))


CHANGES = {
    "OP_SET_PERMISSIONS": set_permissions,
    "OP_SET_OWNER": set_owner,
    "OP_SET_ACL": acl,
    "OP_SET_XATTR": set_xattr,
    "OP_REMOVE_XATTR": remove_xattr,
    "OP_SET_QUOTA": set_quota,
    "OP_SET_NS_QUOTA": set_quota,
    "OP_CLEAR_NS_QUOTA": set_quota,
    "OP_SET_QUOTA_BY_STORAGETYPE": set_quota_of_type,
    "OP_SET_STORAGE_POLICY": set_policy,
}


# ---- Comparing.


def differing(ours, theirs, open_keys):
    """The attributes that differ, each with both values. What is not known is noted in `open_keys`, and is like everything."""
    for key in sorted(ours.keys() | theirs.keys()):
        one, other = ours.get(key, GONE), theirs.get(key, GONE)
        if one is UNKNOWN or other is UNKNOWN or key not in ours and XATTR in ours and key.startswith(XATTR):
            open_keys[key.split()[0]] += 1
        elif one != other:
            yield key, one, other


def differing_strictly(ours, theirs, open_keys):
    """The same, where what no record tells is taken as not set: a file has no extended attributes then, and the policy 0."""
    known = {key: value for key, value in ours.items() if key != XATTR}
    if known.get("policy", GONE) is UNKNOWN:
        known["policy"] = "0"
    return differing(known, theirs, open_keys)
