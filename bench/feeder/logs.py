"""Logs and reports of the feeder that is driven."""
import json

FIRST_ID = 1_073_741_825


def name_of(first, last, suffix=""):
    return f"edits_{first:019}-{last:019}{suffix}"


def edit(op, txid, **members):
    return json.dumps({"op": op, "txid": txid, **members}) + "\n"


def segment(first, *edits):
    """The lines of a segment: marks around edits, which are given as an operation and its members."""
    named = [("OP_START_LOG_SEGMENT", {"profile": 2}), *edits, ("OP_END_LOG_SEGMENT", {})]
    return [edit(op, txid, **members) for txid, (op, members) in enumerate(named, first)]


def file_edits(index):
    """The edits of a closed file with one block."""
    path, block, stamp = f"/f{index}", FIRST_ID + index, 1001 + index
    return [
        ("OP_SET_GENSTAMP_V2", {"gen": stamp}),
        ("OP_ALLOCATE_BLOCK_ID", {"id": block}),
        ("OP_ADD", {"path": path, "replication": 3}),
        ("OP_ADD_BLOCK", {"path": path, "id": block, "gen": stamp}),
        ("OP_CLOSE", {"path": path, "blocks": [{"id": block, "gen": stamp, "len": 5}]}),
    ]


def files(first, begin, count):
    """A segment of files: 5 transactions each, and two marks."""
    return segment(first, *(made for index in range(begin, begin + count) for made in file_edits(index)))


def directories(first, count, *more, length=100):
    """A segment of directories with long names, and of more edits."""
    paths = (f"/d{first}-{index}-".ljust(length, "x") for index in range(count))
    return segment(first, *(("OP_MKDIR", {"path": path}) for path in paths), *more)


def report(dn, index, kind="received"):
    return {"dn": dn, "block": FIRST_ID + index, "gen": 1001 + index, "len": 5, "kind": kind}


def full_report(dn, *indexes):
    listed = [report(dn, index, "listed") for index in indexes]
    return [report(dn, 0, "report_begin"), *listed, report(dn, 0, "report_end")]


def lines_of(reports):
    return "".join(f"{json.dumps(members)}\n" for members in reports)
