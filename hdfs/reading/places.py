"""Where something stands in a dump. Its file is read once more for that, where something is told of it."""
import os
from functools import partial
from xml.sax.saxutils import escape

from hdfs.formats import DoesNotApply, Refused
from hdfs.reading.dumps import Element

CHUNK_BYTES = 1 << 20
LINE_FEED = b"\n"


def taken(conversion, record):
    """Lets a conversion take a record. What can't be converted is told with its file and its line."""
    try:
        conversion.take(record)
    except DoesNotApply:
        raise
    except Refused as refused:
        place = place_of(record.dump, f"<TXID>{record.txid}</TXID>")
        raise Refused(f"{place}: {without_name(record.dump, refused)}") from None


def told_in(name, element, refused):
    """A reason why an element of a dump can't be read, with its file and its line."""
    if not isinstance(element, Element) or not isinstance(name, str) or str(refused).startswith(name):
        return str(refused)
    return f"{place_of(name, beginning_of(element))}: {refused}"


def beginning_of(element):
    """How an element begins in a dump, up to its first text."""
    tags = [element.name, *element.shape.tags]
    depth = tags.index(None) if None in tags else 1
    text = escape(element.texts[0]) if element.texts else ""
    return "".join(f"<{tag}>" for tag in tags[:depth]) + f"{text}</{tags[depth - 1]}>"


def place_of(name, text):
    """The name of a dump, with the line in which a text stands first, if that can be found."""
    if not os.path.isfile(name):
        return name
    wanted, held, line = text.encode("utf-8", "surrogateescape"), b"", 1
    with open(name, "rb") as file:
        for chunk in iter(partial(file.read, CHUNK_BYTES), b""):
            held += chunk
            at = held.find(wanted)
            if at >= 0:
                return f"{name}, line {line + held.count(LINE_FEED, 0, at)}"
            passed = max(0, len(held) - len(wanted))
            line += held.count(LINE_FEED, 0, passed)
            held = held[passed:]
    return name


def without_name(name, refused):
    """A reason without the name of its file in front."""
    text, begin = str(refused), f"{name}: "
    return text[len(begin) :] if text.startswith(begin) else text
