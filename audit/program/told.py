"""What is told of a line of an image that the program refuses."""
import itertools
import json

from hdfs.formats import to_json


def told_of(fault, lines):
    """The line of an image that a fault is about, and what the fault means. `lines` answers the image's lines anew."""
    line = next(itertools.islice(lines(), fault.line - 1, None), None)
    if line is None:
        return fault.meaning
    twice = block_above(line, itertools.islice(lines(), fault.line - 1))
    return twice or f"{line[:300].decode('utf-8', 'replace').strip()}: {fault.meaning}"


def block_above(line, above):
    """That a line has a block that one above it has too, with the paths of both; or None."""
    row = json.loads(line)
    ids = [b'"id":%d,' % block["id"] for block in row.get("blocks", ())]
    for other in above if ids else ():
        for at, text in enumerate(ids):
            if text in other:
                paths = to_json(json.loads(other)["path"]), to_json(row["path"])
                return f"block {row['blocks'][at]['id']} is in two files, {paths[0]} and {paths[1]}"
    return None


def lines_in(pieces):
    """The lines of a text that comes in pieces."""
    held = b""
    for piece in pieces:
        *lines, held = (held + piece).split(b"\n")
        for line in lines:
            yield line + b"\n"
    if held:
        yield held
