"""What `check` tries of images: small dumps, each with what the converter has to make of it."""
import re

from audit.trials.cases import FIRST_ID, LAYOUT, LAYOUTS, document, member


def inode(inode_id, kind, name, *members):
    return member("inode", member("id", inode_id) + member("type", kind) + member("name", name) + "".join(members))


def directory(parent, *children, reference="child"):
    return member("directory", member("parent", parent) + "".join(member(reference, child) for child in children))


def image(inodes, directories, *sections, last_block=FIRST_ID, layout=LAYOUT, count=None):
    """A dump of an image of TXID 7. It says how many inodes it has, or that it has another count."""
    version = member("version", member("layoutVersion", layout))
    numbers = member("genstampV2", 1001) + member("lastAllocatedBlockId", last_block) + member("txid", 7)
    said = member("numInodes", len(inodes) if count is None else count)
    return member(
        "fsimage",
        version
        + member("NameSection", numbers)
        + member("INodeSection", said + "".join(inodes))
        + "".join(sections)
        + member("INodeDirectorySection", "".join(directories)),
    )


def image_block(block_id):
    return member("blocks", member("block", member("id", block_id) + member("genstamp", 1001) + member("numBytes", 5)))


ROOT = inode(16385, "DIRECTORY", "")
FILE = member("replication", 3)
NO_ID = FIRST_ID - 1


def file_image(*members, last_block=FIRST_ID):
    """A dump of an image with a file that has these members."""
    file = inode(16386, "FILE", "f", FILE, *members)
    return image([ROOT, file], [directory(16385, 16386)], last_block=last_block)


def children_image(*names):
    """A dump of an image with directories of these names in the root, in this order."""
    inodes = [inode(inode_id, "DIRECTORY", name) for inode_id, name in enumerate(names, 16386)]
    below = directory(16385, *range(16386, 16386 + len(names)))
    return image([ROOT, *inodes], [below], last_block=NO_ID)


def lines(*rows, last_block=FIRST_ID, awaiting=""):
    """The image that is made of a dump of `image`, with these rows."""
    header = f'"awaiting":[{awaiting}],"image":"hdfs-standby","last_block":{last_block},"last_gen":1001'
    return f'{{{header},"profile":1,"txid":7,"version":2}}\n{"".join(rows)}{{"end":{len(rows)}}}\n'


def file_lines(*ids, **header):
    blocks = ",".join(f'{{"gen":1001,"id":{block_id},"len":5}}' for block_id in ids)
    return lines(f'{{"blocks":[{blocks}],"closed":true,"path":"/f","replication":3,"type":"file"}}\n', **header)


def children_lines(*names):
    return lines(*(f'{{"path":"/{name}","type":"dir"}}\n' for name in names), last_block=NO_ID)


# So many inodes that a dump of them is read in several pieces, each in its own line, and the image of them.
MANY = [f"d{number:04}" for number in range(3000)]
MANY_LINES = children_lines(*MANY)
SOME_PLACES = (9, 2000, 2001, 2900)


def many_image(words):
    """A dump of many directories. Those at some places stand in other words."""
    inodes = [inode(number, "DIRECTORY", name, member("mtime", number)) for number, name in enumerate(MANY, 16386)]
    for place, text in words.items():
        inodes[place] = text(inodes[place])
    below = directory(16385, *range(16386, 16386 + len(MANY)))
    return image([f"{text}\n" for text in [ROOT, *inodes]], [below], last_block=NO_ID)


# Other words for an inode that mean the same.
OTHER_WORDS = [
    lambda text: text.replace("<name>", "<name><!-- > -->"),
    lambda text: text.replace("<name>d", "<name>&#100;"),
    lambda text: text.replace("<name>d", "<name>\\0064;"),
    lambda text: text.replace("<name>d", "<name><![CDATA[d]]>"),
    lambda text: text.replace("<inode>", "<inode a='>'>"),
    lambda text: text.replace("</id>", "</id >\n\t"),
    lambda text: text.replace("</name>", "</name><name2>a > b</name2>"),
    lambda text: text.replace("</name>", "</name><mtime/><é>é</é>"),
    lambda text: f"<!-- {inode(16385, 'FILE', 'a')} -->{text}",
    lambda text: f"<other>{inode(16385, 'FILE', 'a')}</other>{text}",
    lambda text: f"<![CDATA[{inode(16385, 'FILE', 'a')}]]>{text}",
    lambda text: f"<?p {inode(16385, 'FILE', 'a')}?>{text}",
]


def sections(text):
    """The sections of a dump, in its order."""
    names = "version|NameSection|INodeSection|SnapshotSection|INodeDirectorySection"
    return [found[0] for found in re.finditer(rf"<({names})>.*?</\1>", text)]


# A name, a dump of an image, and the image.
CONVERTED_IMAGES = [
    ("many inodes", many_image({}), MANY_LINES),
    *(
        (f"many inodes, some in other words, {number}", many_image(dict.fromkeys(SOME_PLACES, text)), MANY_LINES)
        for number, text in enumerate(OTHER_WORDS, 1)
    ),
    (
        "many inodes in other words, one behind another",
        many_image({300 + place: OTHER_WORDS[place % len(OTHER_WORDS)] for place in range(2600)}),
        MANY_LINES,
    ),
    (
        "sections in another order",
        member("fsimage", "".join(reversed(sections(file_image(image_block(FIRST_ID)))))),
        file_lines(FIRST_ID),
    ),
    (
        "children in two lists of a directory, of which one is before the inodes",
        image(
            [inode(16390, "DIRECTORY", "c"), inode(16386, "DIRECTORY", "a"), ROOT],
            [directory(16385, 16390), directory(16386)],
            last_block=NO_ID,
        ).replace("<INodeSection>", f"{member('INodeDirectorySection', directory(16385, 16386))}<INodeSection>"),
        children_lines("a", "c"),
    ),
    ("no id was issued", image([ROOT], [], last_block=NO_ID), lines(last_block=NO_ID)),
    ("an id that was issued, and no file has it", image([ROOT], []), lines(awaiting=FIRST_ID)),
    ("an id that was issued, and a file has it", file_image(image_block(FIRST_ID)), file_lines(FIRST_ID)),
    (
        "an id that was issued behind that of a file",
        file_image(image_block(FIRST_ID), last_block=FIRST_ID + 2),
        file_lines(FIRST_ID, last_block=FIRST_ID + 2, awaiting=FIRST_ID + 2),
    ),
    (
        "a file that is CONTIGUOUS",
        file_image(image_block(FIRST_ID), member("blockType", "CONTIGUOUS")),
        file_lines(FIRST_ID),
    ),
    (
        "a file of the policy 0",
        file_image(image_block(FIRST_ID), member("erasureCodingPolicyId", 0)),
        file_lines(FIRST_ID),
    ),
    (
        "children in the order of their names",
        children_image("A", "a", "a-", "aa", "b"),
        children_lines("A", "a", "a-", "aa", "b"),
    ),
    (
        "children in the order of their names, whose bytes are signed in Hadoop",
        children_image("é", "\U0001f600", "a"),
        children_lines("a", "é", "\U0001f600"),
    ),
    (
        "a name with a carriage return, which XML reads as a line feed",
        children_image("a\\000b;", "a\r", "b"),
        children_lines("a\\n", "a\\u000b", "b"),
    ),
    *(
        (
            f"the layout {layout}",
            image([ROOT], [], last_block=NO_ID, layout=layout),
            lines(last_block=NO_ID),
        )
        for layout in LAYOUTS
    ),
]

# What is wrong with an inode far behind, and the reason.
WRONG = [
    ("an inode twice", lambda text: text + ROOT, "inode 16385 comes twice"),
    ("an id that is no number", lambda text: text.replace("<id>", "<id> "), "id: ' 18386' is not a number"),
    ("a name that no path may have", lambda text: text.replace("d2000", ".."), 'inode 18386: the name ".."'),
    ("a name of 256 bytes", lambda text: text.replace("d2000", "n" * 256), "inode 18386: a name of 256 bytes"),
    ("an inode without a name", lambda text: text.replace("name", "other"), "inode 18386: name is missing"),
    ("two names", lambda text: text.replace("<mtime>", "<name/><mtime>"), "inode 18386: name comes 2 times"),
    ("a name out of order", lambda text: text.replace("d2000", "d3"), 'the child "d2001" is behind "d3", out of order'),
    ("tags that do not match", lambda text: text.replace("</id>", "</ie>"), "line 2002: this is no XML (mismatched"),
    ("a sign of a tag", lambda text: text.replace("d2000", "d<2000"), "line 2002: this is no XML (not well"),
    ("the end of a section", lambda text: text.replace("d2000", "d]]>"), "line 2002: this is no XML (not well"),
    ("a byte that no text has", lambda text: text.replace("d2000", "d\x01"), "line 2002: this is no XML (not well"),
    ("a deep nest of tags", lambda text: text.replace("<name>", "<a>" * 40), "line 2002: elements nest deeper than 32"),
]

# A name, a dump of an image, and what the reason has in it.
REFUSED_IMAGES = [
    *((f"{name} among many", many_image({2000: text}), reason) for name, text, reason in WRONG),
    ("a symbolic link", image([ROOT, inode(16386, "SYMLINK", "l")], []), "inode 16386: its type is 'SYMLINK'"),
    ("a striped file", file_image(member("erasureCodingPolicyId", 1)), "inode 16386: the file is striped"),
    ("a file of block groups", file_image(member("blockType", "STRIPED")), "the file is striped"),
    (
        "a striped file that is CONTIGUOUS",
        file_image(member("blockType", "CONTIGUOUS") + member("erasureCodingPolicyId", 1)),
        "the file is striped",
    ),
    ("a file of another kind", file_image(member("blockType", "OTHER")), "inode 16386: its blockType is 'OTHER'"),
    ("a policy that is no number", file_image(member("erasureCodingPolicyId", "x")), "erasureCodingPolicyId: 'x'"),
    ("a child of a snapshot", image([ROOT], [directory(16385, 0, reference="refChild")]), "refChild"),
    ("a snapshot", image([ROOT], [], member("SnapshotSection", member("numSnapshots", 1))), "no snapshots"),
    ("a negative block id", file_image(image_block(-5)), "the negative block id -5"),
    ("a block id of old layouts", file_image(image_block(77)), "the block id 77, of an old layout"),
    (
        "a block id that was not issued",
        file_image(image_block(FIRST_ID + 1)),
        f"/f has the block id {FIRST_ID + 1}, above the last one, {FIRST_ID}",
    ),
    ("a name with a colon", image([ROOT, inode(16386, "DIRECTORY", "a:b")], []), "inode 16386: the name"),
    ("a name that is empty", image([ROOT, inode(16386, "DIRECTORY", "")], []), "inode 16386: a name of 0 bytes"),
    ("an inode in no directory", image([ROOT, inode(16386, "DIRECTORY", "d")], []), "inode 16386 is in no directory"),
    ("a directory without its inode", image([ROOT], [directory(16386, 16387)]), "inode 16386 is missing"),
    (
        "an inode in two directories",
        image([ROOT, inode(16386, "DIRECTORY", "d")], [directory(16385, 16386), directory(16386, 16386)]),
        "inode 16386 is in two directories",
    ),
    ("a directory in itself", image([ROOT], [directory(16385, 16385)]), "inode 16385 is in two directories"),
    ("a child that is missing", image([ROOT], [directory(16385, 16386)]), "inode 16386 is missing"),
    (
        "a child of a file",
        image(
            [ROOT, inode(16386, "FILE", "f", FILE), inode(16387, "FILE", "g", FILE)],
            [directory(16385, 16386), directory(16386, 16387)],
        ),
        "a file with children",
    ),
    ("children out of order", children_image("a", "c", "b"), '"/": the child "b" is behind "c", out of order'),
    (
        "children out of order, whose bytes are signed in Hadoop",
        children_image("a", "é"),
        '"/": the child "é" is behind "a", out of order',
    ),
    (
        "children out of order, further below",
        image(
            [ROOT, *(inode(16386 + place, "DIRECTORY", name) for place, name in enumerate("dba"))],
            [directory(16385, 16386), directory(16386, 16387, 16388)],
        ),
        '"/d": the child "a" is behind "b", out of order',
    ),
    (
        "children out of order, one of which may have a carriage return",
        children_image("a", "b\n", "a\n"),
        '"/": the child "a\\n" is behind "b\\n", out of order',
    ),
    ("two children of one name", children_image("a", "a"), '"/": two children have the name "a"'),
    (
        "two children of one name, or of two with a carriage return",
        children_image("a\n", "a\n"),
        '"/": two children have the name "a\\n", or have a carriage return there',
    ),
    (
        "an inode twice in a directory",
        image([ROOT, inode(16386, "DIRECTORY", "d")], [directory(16385, 16386, 16386)]),
        '"/": inode 16386 is there twice',
    ),
    ("an inode twice", image([ROOT, ROOT], []), "inode 16385 comes twice"),
    ("no root", image([], []), "inode 16385 is missing"),
    ("fewer inodes than it says", image([ROOT], [], count=2), "numInodes is 2, and the inodes are 1"),
    ("more inodes than it says", children_image("a").replace("numInodes>2<", "numInodes>1<"), "and the inodes are 2"),
    ("no count of inodes", image([ROOT], []).replace(member("numInodes", 1), ""), "numInodes is missing"),
    ("a layout before Hadoop 2.7", image([ROOT], [], layout=-62), "layoutVersion is '-62', and -63 to -67 are"),
    ("a layout of the future", image([ROOT], [], layout=-68), "layoutVersion is '-68', and -63 to -67 are"),
    ("a layout that is no number", image([ROOT], [], layout="x"), "layoutVersion is 'x', and -63 to -67 are"),
    ("no layout", image([ROOT], []).replace("layoutVersion", "other"), "no layoutVersion: an oiv of before Hadoop 2.8"),
    ("no NameSection", image([ROOT], []).replace("NameSection", "other"), "no NameSection"),
    ("a dump of edits", document(), "the document's element is 'EDITS'"),
    ("an image that ends in the middle", image([ROOT], [])[:-9], "ends in the middle"),
    ("an entity", f"<!DOCTYPE fsimage [<!ENTITY a 'a'>]>{image([ROOT], [])}", "a document type"),
]


def too_long():
    """Elements of more than 64 MB: of each its name, and the text of a dump."""
    begin = f"<fsimage><INodeSection>{ROOT}<inode>"
    yield "an inode of long tags", begin + 6_800 * f"<a b='{'c' * 10_000}'/>"
    yield "an inode of a long text", begin + 68_000_000 * "a"


def files_image(count):
    """A dump of an image with so many files in one directory, each with a block, in pieces."""
    below = directory(16385, *range(16386, 16386 + count))
    begin, end = image([ROOT, "|"], [below], last_block=NO_ID + count).split("|")
    yield begin.replace("numInodes>2<", f"numInodes>{count + 1}<")
    for place in range(count):
        members = FILE, member("mtime", 1_699_990_300_000 + place), image_block(FIRST_ID + place)
        yield inode(16386 + place, "FILE", f"part-{place:07}", *members)
    yield end


def files_lines(count):
    """The lines of that image."""
    header, end = lines(last_block=NO_ID + count).splitlines(True)
    yield header
    for place in range(count):
        blocks = f'[{{"gen":1001,"id":{FIRST_ID + place},"len":5}}]'
        yield f'{{"blocks":{blocks},"closed":true,"path":"/part-{place:07}","replication":3,"type":"file"}}\n'
    yield end.replace("0", str(count))
