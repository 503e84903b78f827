"""What `check` tries: small dumps, each with what the converter has to make of it."""

FIRST_ID = 1_073_741_825
LAYOUT = -66
LAYOUTS = range(-67, -62)


def member(name, value):
    return f"<{name}>{value}</{name}>"


def record(opcode, txid, *members):
    data = "".join((member("TXID", txid), *members))
    return f"<RECORD>{member('OPCODE', opcode)}{member('DATA', data)}</RECORD>"


def document(*records, layout=LAYOUT):
    version = member("EDITS_VERSION", layout)
    return f"<?xml version='1.0' encoding='UTF-8'?><EDITS>{version}{''.join(records)}</EDITS>"


def path(text):
    return member("PATH", text)


def block(block_id, stamp=1001, length=0):
    return member("BLOCK", member("BLOCK_ID", block_id) + member("NUM_BYTES", length) + member("GENSTAMP", stamp))


def add(txid, text, overwrite="true", *members):
    return record("OP_ADD", txid, path(text), member("REPLICATION", 3), member("OVERWRITE", overwrite), *members)


def close(txid, text, *blocks):
    return record("OP_CLOSE", txid, path(text), *blocks)


def rename(txid, source, target, options=None):
    names = [member("SRC", source), member("DST", target)]
    if options is None:
        return record("OP_RENAME_OLD", txid, *names)
    return record("OP_RENAME", txid, *names, member("OPTIONS", options))


def mkdir(txid, text):
    return record("OP_MKDIR", txid, path(text))


def start(txid):
    return record("OP_START_LOG_SEGMENT", txid)


def end(txid):
    return record("OP_END_LOG_SEGMENT", txid)


def line(op, txid, **members):
    """A line, whose other members are given as JSON texts."""
    members.update(op=f'"{op}"', txid=txid)
    return "{" + ",".join(f'"{name}":{members[name]}' for name in sorted(members)) + "}\n"


def made(op, txid, text):
    return line(op, txid, path=f'"{text}"')


START = line("OP_START_LOG_SEGMENT", 1, profile=2)


def ended(*lines):
    """The lines of a log that begins with a start mark and is given an end mark."""
    return START + "".join(lines) + line("OP_END_LOG_SEGMENT", len(lines) + 2)


# A name of 247 bytes, each of which takes six in a line, and a path of 7,936 bytes.
LONG_NAME = "/" + "\\0001;" * 247
LONG = LONG_NAME * 32


def renamed(source):
    """The line of a rename from this path to the long one."""
    as_json = [f'"{text}"'.replace("\\0001;", "\\u0001") for text in (LONG, source)]
    return line("OP_RENAME", 2, dst=as_json[0], src=as_json[1])


def source_of(size):
    """A path of which a rename to the long one makes a line of so many bytes, without its line feed."""
    shorter = LONG_NAME * 11
    names, last = divmod(size + 1 - len(renamed(shorter)), 201)
    return shorter + ("/" + "n" * 200) * names + "/" + "n" * (last - 1)


AT_THE_LIMIT, TOO_LONG = source_of(65_536), source_of(65_537)
ADDED = line("OP_ADD", 2, path='"/f"', replication=3)
BLOCK_ADDED = line("OP_ADD_BLOCK", 3, gen=1001, id=FIRST_ID, path='"/f"')
ADD_BLOCK = record("OP_ADD_BLOCK", 3, path("/f"), block(FIRST_ID))



def cut(txid, length, *blocks):
    return record("OP_TRUNCATE", txid, member("SRC", "/f"), member("NEWLENGTH", length), *blocks)


def listed(*blocks):
    """The JSON of blocks, of each its id and its length."""
    texts = (f'{{"gen":1001,"id":{block_id},"len":{length}}}' for block_id, length in blocks)
    return f"[{','.join(texts)}]"


def of_blocks(op, txid, *blocks):
    return line(op, txid, blocks=listed(*blocks), path='"/f"')


# A file of two blocks, of 5 and 7 bytes, and its lines.
TWO_BLOCKS = [add(2, "/f"), close(3, "/f", block(FIRST_ID, length=5), block(FIRST_ID + 1, length=7))]
TWO_LINES = ADDED, of_blocks("OP_CLOSE", 3, (FIRST_ID, 5), (FIRST_ID + 1, 7))
APPENDED = made("OP_APPEND", 4, "/f")

# A name, the records behind a start mark with TXID 1, and the lines.
CONVERTED = [
    (
        "a truncate between two blocks",
        [*TWO_BLOCKS, cut(4, 5)],
        ended(
            *TWO_LINES,
            APPENDED,
            of_blocks("OP_UPDATE_BLOCKS", 5, (FIRST_ID, 5)),
            of_blocks("OP_CLOSE", 6, (FIRST_ID, 5)),
        ),
    ),
    ("a truncate to the same length", [*TWO_BLOCKS, cut(4, 12)], ended(*TWO_LINES, APPENDED, of_blocks("OP_CLOSE", 5, (FIRST_ID, 5), (FIRST_ID + 1, 7)))),
    ("a truncate inside a block", [*TWO_BLOCKS, cut(4, 8, block(FIRST_ID + 1, 1002, 7))], ended(*TWO_LINES, APPENDED)),
    (
        "a truncate inside a block that a snapshot has",
        [*TWO_BLOCKS, cut(4, 8, block(FIRST_ID + 2))],
        ended(
            *TWO_LINES,
            APPENDED,
            of_blocks("OP_UPDATE_BLOCKS", 5, (FIRST_ID, 5)),
            line("OP_ADD_BLOCK", 6, gen=1001, id=FIRST_ID + 2, path='"/f"'),
            of_blocks("OP_UPDATE_BLOCKS", 7, (FIRST_ID, 5), (FIRST_ID + 2, 3)),
        ),
    ),
    ("a truncate of nothing is for the program to refuse", [cut(2, 5)], ended(made("OP_APPEND", 2, "/f"))),
    ("an overwrite of nothing", [add(2, "/f")], ended(ADDED)),
    ("an OP_ADD without OVERWRITE", [record("OP_ADD", 2, path("/f"), member("REPLICATION", 3))], ended(ADDED)),
    (
        "an overwrite of a directory is for the program to refuse",
        [mkdir(2, "/f"), add(3, "/f")],
        ended(made("OP_MKDIR", 2, "/f"), line("OP_ADD", 3, path='"/f"', replication=3)),
    ),
    (
        "an overwrite of a file that is open",
        [add(2, "/f"), add(3, "/f")],
        ended(ADDED, made("OP_DELETE", 3, "/f"), line("OP_ADD", 4, path='"/f"', replication=3)),
    ),
    (
        "a block before the new one, with the length that the file has",
        [add(2, "/f"), ADD_BLOCK, record("OP_ADD_BLOCK", 4, path("/f"), block(FIRST_ID), block(FIRST_ID + 1))],
        ended(ADDED, BLOCK_ADDED, line("OP_ADD_BLOCK", 4, gen=1001, id=FIRST_ID + 1, path='"/f"')),
    ),
    (
        "another block before the new one is for the program to refuse",
        [add(2, "/f"), ADD_BLOCK, record("OP_ADD_BLOCK", 4, path("/f"), block(7), block(FIRST_ID + 1))],
        ended(
            ADDED,
            BLOCK_ADDED,
            line("OP_UPDATE_BLOCKS", 4, blocks='[{"gen":1001,"id":7,"len":0}]', path='"/f"'),
            line("OP_ADD_BLOCK", 5, gen=1001, id=FIRST_ID + 1, path='"/f"'),
        ),
    ),
    (
        "a new block that has a length",
        [add(2, "/f"), ADD_BLOCK, record("OP_ADD_BLOCK", 4, path("/f"), block(FIRST_ID), block(FIRST_ID + 1, length=9))],
        ended(
            ADDED,
            BLOCK_ADDED,
            line("OP_ADD_BLOCK", 4, gen=1001, id=FIRST_ID + 1, path='"/f"'),
            of_blocks("OP_UPDATE_BLOCKS", 5, (FIRST_ID, 0), (FIRST_ID + 1, 9)),
        ),
    ),
    (
        "a new block that has a length, of a file that is not there, is for the program to refuse",
        [record("OP_ADD_BLOCK", 2, path("/f"), block(FIRST_ID, length=9))],
        ended(line("OP_ADD_BLOCK", 2, gen=1001, id=FIRST_ID, path='"/f"'), of_blocks("OP_UPDATE_BLOCKS", 3, (FIRST_ID, 9))),
    ),
    (
        "a block that no OP_ALLOCATE_BLOCK_ID issued is for the program to refuse",
        [add(2, "/f"), close(3, "/f", block(FIRST_ID))],
        ended(ADDED, line("OP_CLOSE", 3, blocks=f'[{{"gen":1001,"id":{FIRST_ID},"len":0}}]', path='"/f"')),
    ),
    (
        "a file that is not there is for the program to refuse",
        [record("OP_APPEND", 2, path("/f")), rename(3, "/g", "/h"), record("OP_DELETE", 4, path("/i"))],
        ended(made("OP_APPEND", 2, "/f"), line("OP_RENAME", 3, dst='"/h"', src='"/g"'), made("OP_DELETE", 4, "/i")),
    ),
    ("an append of a file that is open", [add(2, "/f"), record("OP_APPEND", 3, path("/f"))], ended(ADDED)),
    (
        "an append of a file that was closed",
        [add(2, "/f"), close(3, "/f"), record("OP_APPEND", 4, path("/f")), record("OP_APPEND", 5, path("/f"))],
        ended(ADDED, line("OP_CLOSE", 3, blocks="[]", path='"/f"'), made("OP_APPEND", 4, "/f")),
    ),
    (
        "a rename into a directory",
        [mkdir(2, "/d"), mkdir(3, "/e"), rename(4, "/d", "/e"), rename(5, "/e/d", "/")],
        ended(
            made("OP_MKDIR", 2, "/d"),
            made("OP_MKDIR", 3, "/e"),
            line("OP_RENAME", 4, dst='"/e/d"', src='"/d"'),
            line("OP_RENAME", 5, dst='"/d"', src='"/e/d"'),
        ),
    ),
    (
        "a rename of a directory below itself is for the program to refuse, and changes no name",
        [mkdir(2, "/d"), add(3, "/d/f"), rename(4, "/d", "/d/e"), add(5, "/d/f")],
        ended(
            made("OP_MKDIR", 2, "/d"),
            line("OP_ADD", 3, path='"/d/f"', replication=3),
            line("OP_RENAME", 4, dst='"/d/e"', src='"/d"'),
            made("OP_DELETE", 5, "/d/f"),
            line("OP_ADD", 6, path='"/d/f"', replication=3),
        ),
    ),
    ("a rename to itself", [mkdir(2, "/d"), rename(3, "/d", "/d")], ended(made("OP_MKDIR", 2, "/d"))),
    (
        "a rename with options that change nothing",
        [
            mkdir(2, "/d"),
            rename(3, "/d", "/e", "NONE|TO_TRASH"),
            rename(4, "/e", "/d", ""),
            rename(5, "/d", "/e", "OVERWRITE"),
        ],
        ended(
            made("OP_MKDIR", 2, "/d"),
            line("OP_RENAME", 3, dst='"/e"', src='"/d"'),
            line("OP_RENAME", 4, dst='"/d"', src='"/e"'),
            line("OP_RENAME", 5, dst='"/e"', src='"/d"'),
        ),
    ),
    (
        "a rename over an empty directory, and one over a directory that is not empty",
        [
            mkdir(2, "/d"),
            mkdir(3, "/e"),
            rename(4, "/d", "/e", "OVERWRITE"),
            mkdir(5, "/e/f"),
            rename(6, "/g", "/e", "OVERWRITE"),
        ],
        ended(
            made("OP_MKDIR", 2, "/d"),
            made("OP_MKDIR", 3, "/e"),
            made("OP_DELETE", 4, "/e"),
            line("OP_RENAME", 5, dst='"/e"', src='"/d"'),
            made("OP_MKDIR", 6, "/e/f"),
            line("OP_RENAME", 7, dst='"/e"', src='"/g"'),
        ),
    ),
    (
        "a directory of files that is renamed and then written to",
        [mkdir(2, "/d"), add(3, "/d/f"), rename(4, "/d", "/e"), add(5, "/e/f"), add(6, "/d/f")],
        ended(
            made("OP_MKDIR", 2, "/d"),
            line("OP_ADD", 3, path='"/d/f"', replication=3),
            line("OP_RENAME", 4, dst='"/e"', src='"/d"'),
            made("OP_DELETE", 5, "/e/f"),
            line("OP_ADD", 6, path='"/e/f"', replication=3),
            line("OP_ADD", 7, path='"/d/f"', replication=3),
        ),
    ),
    ("blanks around a name", [mkdir(2, "/ a \t")], ended(made("OP_MKDIR", 2, "/ a \\t"))),
    ("entities that XML itself has", [mkdir(2, "/&lt;&amp;&quot;&#10;")], ended(made("OP_MKDIR", 2, '/<&\\"\\n'))),
    ("a backslash", [mkdir(2, "/a\\005c;b")], ended(made("OP_MKDIR", 2, "/a\\\\b"))),
    (
        "characters that XML can't hold",
        [mkdir(2, "/\\0000;\\001F;\\ffff;")],
        ended(made("OP_MKDIR", 2, "/\\u0000\\u001f\uffff")),
    ),
    ("characters that JSON does not escape", [mkdir(2, "/\x7f\u2028é")], ended(made("OP_MKDIR", 2, "/\x7f\u2028é"))),
    ("two halves of a character", [mkdir(2, "/\\d83d;\\de00;")], ended(made("OP_MKDIR", 2, "/\U0001f600"))),
    ("a name in a section of CDATA", [mkdir(2, "/<![CDATA[<x>]]>")], ended(made("OP_MKDIR", 2, "/<x>"))),
    ("a name of 255 bytes", [mkdir(2, "/" + "n" * 255)], ended(made("OP_MKDIR", 2, "/" + "n" * 255))),
    ("a line of 65,536 bytes", [rename(2, AT_THE_LIMIT, LONG)], ended(renamed(AT_THE_LIMIT))),
    (
        "the greatest number",
        [record("OP_SET_GENSTAMP_V2", 2, member("GENSTAMPV2", 2**63 - 1))],
        ended(line("OP_SET_GENSTAMP_V2", 2, gen=2**63 - 1)),
    ),
    ("comments and instructions", ["<!-- c --><?p i?>", mkdir(2, "/d")], ended(made("OP_MKDIR", 2, "/d"))),
]

# More blocks than a line holds, and more than a record has in one piece.
MANY_BLOCKS = [block(FIRST_ID + place) for place in range(7_000)]

# A name, the records behind a start mark with TXID 1, and what the reason has in it. The start mark's line is written.
REFUSED = [
    ("a truncate of no length", [record("OP_TRUNCATE", 2, member("SRC", "/f"))], "OP_TRUNCATE, TXID 2: NEWLENGTH is"),
    ("a truncate beyond the end", [*TWO_BLOCKS, cut(4, 13)], 'the file "/f" has 12 bytes, and is cut to 13'),
    (
        "another stamp of the block before the new one",
        [*TWO_BLOCKS, record("OP_ADD_BLOCK", 4, path("/f"), block(FIRST_ID + 1, 1002), block(FIRST_ID + 2))],
        f'"/f": the block before the new one, {FIRST_ID + 1}, has the stamp 1002, and the file has it with 1001',
    ),
    (
        "no block before the new one, and the file has one",
        [*TWO_BLOCKS, record("OP_ADD_BLOCK", 4, path("/f"), block(FIRST_ID + 2))],
        f'"/f": the record lacks the block before the new one, {FIRST_ID + 1}',
    ),
    ("an append of old layouts", [add(2, "/f"), add(3, "/f", "false")], "OP_ADD, TXID 3: the file /f exists"),
    (
        "a file that begins with blocks",
        [add(2, "/f", "true", block(FIRST_ID))],
        "OP_ADD, TXID 2: the file /f begins with blocks",
    ),
    (
        "a striped file",
        [add(2, "/f", "true", member("ERASURE_CODING_POLICY_ID", 1))],
        "OP_ADD, TXID 2: the file /f is striped",
    ),
    ("an overwrite that is neither true nor false", [add(2, "/f"), add(3, "/f", "yes")], "OVERWRITE is 'yes'"),
    (
        "an option of a rename",
        [rename(2, "/a", "/b", "OVERWRITE|LATER")],
        "OP_RENAME, TXID 2: the option 'LATER' is not known",
    ),
    (
        "a rename without OPTIONS",
        [record("OP_RENAME", 2, member("SRC", "/a"), member("DST", "/b"))],
        "OPTIONS is missing",
    ),
    ("no block to add", [record("OP_ADD_BLOCK", 2, path("/f"))], "0 blocks"),
    ("three blocks to add", [record("OP_ADD_BLOCK", 2, path("/f"), *[block(FIRST_ID)] * 3)], "3 blocks"),
    (
        "a block group of a striped file",
        [record("OP_ALLOCATE_BLOCK_ID", 2, member("BLOCK_ID", -(2**63)))],
        "negative block id",
    ),
    ("a block with a negative id", [close(2, "/f", block(-7))], "OP_CLOSE, TXID 2: the negative block id -7"),
    (
        "a block without a length",
        [close(2, "/f", member("BLOCK", member("BLOCK_ID", 7) + member("GENSTAMP", 7)))],
        "NUM_BYTES is missing",
    ),
    ("a negative length", [close(2, "/f", block(FIRST_ID, 1001, -1))], "NUM_BYTES: '-1' is not a number"),
    (
        "a number above the greatest",
        [record("OP_SET_GENSTAMP_V2", 2, member("GENSTAMPV2", 2**63))],
        "GENSTAMPV2: '9223372036854775808'",
    ),
    (
        "a number with blanks",
        [record("OP_SET_GENSTAMP_V2", 2, member("GENSTAMPV2", " 7"))],
        "GENSTAMPV2: ' 7' is not a number",
    ),
    ("a number of other digits", [record("OP_SET_GENSTAMP_V2", 2, member("GENSTAMPV2", "١"))], "is not a number"),
    ("no number", [record("OP_SET_GENSTAMP_V2", 2, "<GENSTAMPV2/>")], "GENSTAMPV2: '' is not a number"),
    ("no path", [record("OP_MKDIR", 2)], "OP_MKDIR, TXID 2: PATH is missing"),
    ("two paths", [record("OP_MKDIR", 2, path("/a"), path("/b"))], "PATH comes 2 times"),
    ("an empty path", [mkdir(2, "")], "does not begin with a slash"),
    ("a path without a slash", [mkdir(2, "a")], "does not begin with a slash"),
    ("a path with a slash at its end", [mkdir(2, "/a/")], "a name of 0 bytes"),
    ("a name with a colon", [mkdir(2, "/a:b")], 'the name "a:b"'),
    ("a name of two dots", [mkdir(2, "/..")], 'the name ".."'),
    ("a name of 256 bytes", [mkdir(2, "/" + "n" * 256)], "a name of 256 bytes"),
    ("a name of 256 bytes in fewer characters", [mkdir(2, "/" + "é" * 128)], "a name of 256 bytes"),
    ("a path of 1,001 names", [mkdir(2, "/n" * 1001)], "more than 1000 names or 8000 bytes"),
    ("a path of 8,001 bytes", [mkdir(2, "/" + "/".join(["n" * 199] * 40) + "n")], "more than 1000 names or 8000 bytes"),
    ("half of a character", [mkdir(2, "/\\d800;")], "half of a surrogate pair"),
    ("the halves of a character in the wrong order", [mkdir(2, "/\\de00;\\d83d;")], "half of a surrogate pair"),
    ("an escape of three digits", [mkdir(2, "/\\05c;")], "a backslash that begins no escape"),
    ("an escape with another letter", [mkdir(2, "/\\00g0;")], "a backslash that begins no escape"),
    ("an escape without its end", [mkdir(2, "/\\005c")], "a backslash that begins no escape"),
    ("a target that no path can be", [rename(2, "/a", "/b:c")], 'OP_RENAME_OLD, TXID 2: the name "b:c"'),
    ("a file of 1,500 blocks", [close(2, "/f", *[block(FIRST_ID, 1001, 134217728)] * 1500)], '"/f" has 1,500 blocks'),
    ("two paths of characters that JSON escapes", [rename(2, LONG, f"{LONG}a")], "its line would have 9"),
    ("a line of 65,537 bytes", [rename(2, TOO_LONG, LONG)], "its line would have 65,537 bytes, and 65,536 are allowed"),
    ("a gap", [mkdir(2, "/a"), mkdir(4, "/b")], "OP_MKDIR, TXID 4: a gap, since TXID 3 is next"),
    (
        "a record without TXID",
        ["<RECORD><OPCODE>OP_MKDIR</OPCODE><DATA><PATH>/a</PATH></DATA></RECORD>"],
        "OP_MKDIR without a TXID: TXID is missing",
    ),
    ("a TXID above the greatest", [mkdir(2**63, "/a")], "TXID: '9223372036854775808' is not a number"),
    ("a record without DATA", ["<RECORD><OPCODE>OP_MKDIR</OPCODE></RECORD>"], "DATA is missing"),
    ("a record without OPCODE", ["<RECORD><DATA><TXID>2</TXID></DATA></RECORD>"], "OPCODE is missing"),
    (
        "an opcode that is not known",
        [record("OP_FROM_THE_FUTURE", 2)],
        "OP_FROM_THE_FUTURE, TXID 2: no such opcode is known",
    ),
    ("an entity that nobody declared", [mkdir(2, "/&a;")], "undefined entity"),
    ("tags that do not match", ["<RECORD></DATA>"], "mismatched tag"),
    ("bytes that are no UTF-8", [mkdir(2, "/\udcff")], "not well-formed"),
    ("a deep nest of tags", ["<A>" * 1_000_000], "nest deeper than 32"),
    ("an id that is none, far behind", [close(2, "/f", *MANY_BLOCKS, block("x"))], "OP_CLOSE, TXID 2: BLOCK_ID: 'x'"),
    ("a block far behind without an id", [close(2, "/f", *MANY_BLOCKS, "<BLOCK/>")], "TXID 2: BLOCK_ID is missing"),
]

ENTITIES = "".join(f'<!ENTITY a{n} "{f"&a{n - 1};" * 10}">' for n in range(1, 10))

# A name, a whole document, and what the reason has in it.
NO_DUMPS = [
    ("nothing", "", "ends in the middle"),
    ("no XML", '{"op":"OP_MKDIR"}', "this is no XML"),
    ("another document", "<fsimage></fsimage>", "the document's element is 'fsimage', and not 'EDITS'"),
    ("entities of entities", f'<!DOCTYPE EDITS [<!ENTITY a0 "a">{ENTITIES}]><EDITS>&a9;</EDITS>', "a document type"),
    (
        "an external entity",
        '<!DOCTYPE EDITS [<!ENTITY a SYSTEM "file:///etc/hostname">]><EDITS>&a;</EDITS>',
        "a document type",
    ),
    ("an entity of parameters", '<!DOCTYPE EDITS [<!ENTITY % a SYSTEM "a.dtd">%a;]><EDITS/>', "a document type"),
    ("an external document type", '<!DOCTYPE EDITS SYSTEM "a.dtd"><EDITS/>', "a document type"),
    ("a layout before Hadoop 2.7", document(start(1), layout=-62), "EDITS_VERSION is '-62', and -63 to -67 are known"),
    ("a layout of the future", document(start(1), layout=-68), "EDITS_VERSION is '-68', and -63 to -67 are known"),
    ("a layout that is no number", document(start(1), layout="x"), "EDITS_VERSION is 'x', and -63 to -67 are known"),
    ("no layout", f"<EDITS>{start(1)}</EDITS>", "no EDITS_VERSION before its first RECORD"),
    ("neither layout nor record", "<EDITS></EDITS>", "no EDITS_VERSION before its first RECORD"),
]
