"""Reads a dump as a stream, and notes the elements in it that are wanted.

Expat reads the document. Where an element has ended and another one of its name follows, there is a short way: if
its tags are the same bytes as those of one that expat has read, they mean the same, and only its texts are taken.
"""
from operator import itemgetter
from xml.parsers import expat

from hdfs.formats import Refused
from hdfs.reading.shapes import Shape

DEPTH = 32
# What stands behind the place of a piece that is not the first of its element.
MORE = "more"
# What stands behind the place of elements that were taken together.
COMMON = "common"
TOO_DEEP = f"elements nest deeper than {DEPTH}"

# So many shapes are kept for the elements that are to come, and only those with so few tags.
SHAPES = 500
SHAPE_TAGS = 500

# So many bytes of an element that has not ended wait for the rest.
HELD_BYTES = 65_536

# An element that may be very long is given in pieces of so many texts.
PIECE_TEXTS = 20_000

# What the short way takes beside the signs of tags. Such characters mean what they are.
PLAIN = b"\n" + bytes(set(range(0x20, 0x7F)) - set(b"&<>"))


class Reading:
    """Notes the wanted elements of a document while expat reads it.

    `pieces` has the places of those that come in pieces if they are long, each with how many elements are open in it
    where it is cut. Where none is, each piece may have the most bytes. The place of a later piece ends with MORE.
    `quick` has what takes the elements of a place that are of common forms. Its `take` is given data and a place in it,
    and answers what it took, or None, and the place behind. What it took is noted with COMMON behind its place, and has no
    shape. Its `learn` is given what expat read there: an element's bytes, up to its end tag, and its shape.
    """

    def __init__(self, root, wanted, most, passed, pieces, quick):
        self.root = root
        self.wanted = wanted
        self.most = most
        self.passed = passed
        self.pieces = pieces
        self.quick = quick
        # How many elements are open where the wanted one is cut, or None; and the first texts of one that was cut.
        self.cut_inside = None
        self.first_texts = None
        # The names of the open elements outside of a wanted one and of that itself, and how many elements are open.
        self.place = []
        self.depth = 0
        # The place of the wanted element, what is in it, as its shape has it, and the texts there.
        self.wanted_place = None
        self.tags = []
        self.texts = []
        # The text since the last element began. It is that element's own if no other is in it.
        self.text = []
        # Where the wanted element begins, or None outside of one. What expat was fed before the last piece, and that.
        self.begun = None
        self.fed = 0
        self.piece = b""
        self.done = []
        self.shapes = {}
        self.repeats = Repeats()
        # The tags of the wanted element that ended last, and whether that was the last that expat read.
        self.start_tag = self.end_tag = b""
        self.is_between = False
        # What waits to be read, and the lines that expat was not fed.
        self.held = b""
        self.lines_passed = 0
        self.parser = expat.ParserCreate("UTF-8")
        self.parser.buffer_text = True
        self.parser.StartElementHandler = self.start_outside
        self.parser.EndElementHandler = self.end_outside
        self.parser.CharacterDataHandler = self.text.append
        self.parser.StartDoctypeDeclHandler = refuse_document_type

    def line(self):
        """The line that was reached."""
        return self.parser.CurrentLineNumber + self.lines_passed

    def taken(self):
        """The wanted elements that ended since this was asked before: of each its place, its shape and its texts.

        Those that were taken together have no shape, and are what took them answered.
        """
        done, self.done = self.done, []
        return done

    def feed(self, chunk):
        """Reads a chunk. Answers what is wrong, or None."""
        try:
            self.read(chunk)
        except Refused as refused:
            return refused
        except expat.ExpatError as error:
            return f"this is no XML ({expat.ErrorString(error.code)})"
        if self.fed - (self.parser.CurrentByteIndex if self.begun is None else self.begun) > self.most:
            return self.too_long()
        if self.begun is None:
            self.text.clear()
        return None

    def end_document(self):
        """The document ends. Answers what is wrong, or None."""
        fault = self.feed(b"")
        if fault is not None:
            return fault
        try:
            self.parser.Parse(b"", True)
        except Refused as refused:
            return refused
        except expat.ExpatError as error:
            return f"the document ends in the middle ({expat.ErrorString(error.code)})"
        return None

    def read(self, chunk):
        """Reads what is held, and a chunk. The beginning of an element that may repeat another one is held."""
        data, at = self.held + chunk, 0
        self.held = b""
        if not self.is_between and self.end_tag:
            at = self.parse_element(data, at)
        while self.is_between:
            at = self.read_repeats(data, at)
            behind = self.parse_element(data, at)
            if behind == at:
                break
            at = behind
        if self.is_between and chunk and len(data) - at <= HELD_BYTES:
            self.held = data[at:]
        else:
            self.parse(data[at:])

    def parse_element(self, data, at):
        """Parses up to where the next element of the last name ends. Answers that place, or `at` if there is none."""
        end = data.find(self.end_tag, at)
        if end < 0:
            return at
        end += len(self.end_tag)
        self.parse(data[at:end])
        return end

    def parse(self, piece):
        """Lets expat read a piece. `is_between` says then whether a wanted element ends with it."""
        self.is_between = False
        self.piece = piece
        self.parser.Parse(piece, False)
        self.fed += len(piece)

    def read_repeats(self, data, at):
        """Reads the elements of common forms, and those that repeat others. Answers the place behind them."""
        quick = self.quick.get(self.wanted_place)
        while True:
            begin = at
            if quick is not None:
                taken, at = quick.take(data, at)
                if taken is not None:
                    self.done.append(((*self.wanted_place, COMMON), None, taken))
            at = self.read_repeat(data, at)
            if at == begin:
                return at
            self.lines_passed += data.count(b"\n", begin, at)

    def read_repeat(self, data, at):
        """Reads an element that repeats another one. Answers the place behind it, or `at` if there is none."""
        begin = data.find(b"<", at)
        if not data.startswith(self.start_tag, begin) or data[at:begin].strip(b"\n "):
            return at
        end = data.find(self.end_tag, begin)
        found = self.repeats.find(data[begin:end]) if end > 0 else None
        if found is None:
            return at
        self.done.append((self.wanted_place, *found))
        return end + len(self.end_tag)

    def start_outside(self, name, _attributes):
        if self.depth == DEPTH:
            raise Refused(TOO_DEEP)
        if not self.place and name != self.root:
            raise Refused(f"the document's element is {name[:40]!r}, and not {self.root!r}")
        self.depth += 1
        self.place.append(name)
        place = tuple(self.place[1:])
        if place in self.wanted:
            self.begin(place)
        elif len(place) == 2:
            self.passed["/".join(place)] += 1

    def end_outside(self, _name):
        self.depth -= 1
        self.place.pop()

    def begin(self, place):
        """A wanted element begins."""
        self.begun = self.parser.CurrentByteIndex
        self.wanted_place = place
        self.tags = []
        self.texts = []
        self.first_texts = None
        self.cut_inside = self.pieces.get(place)
        self.text.clear()
        self.parser.StartElementHandler = self.start
        self.parser.EndElementHandler = self.end

    def start(self, name, _attributes):
        if self.depth == DEPTH:
            raise Refused(TOO_DEEP)
        self.depth += 1
        self.tags.append(name)
        if self.text:
            self.text.clear()

    def end(self, _name):
        tags = self.tags
        # An element without elements ends right behind its beginning.
        if not tags or tags[-1] is not None:
            self.texts.append("".join(self.text))
        self.depth -= 1
        if self.depth >= len(self.place):
            tags.append(None)
            if len(self.texts) >= PIECE_TEXTS and self.depth - len(self.place) == self.cut_inside:
                self.cut()
        else:
            self.finish()

    def cut(self):
        """Gives what was read of the wanted element. The next piece begins with the elements that are open."""
        tags, texts = self.tags, self.texts
        inside = open_in(tags)
        self.done.append((self.piece_place(), Shape(self.place[-1], tags + [None] * len(inside)), texts))
        self.first_texts = self.first_texts or texts[:2]
        self.tags, self.texts = inside, []
        if not inside:
            self.begun = self.parser.CurrentByteIndex

    def too_long(self):
        return f"an element, a tag or a comment has more than {self.most:,} bytes{self.named()}"

    def piece_place(self):
        return self.wanted_place if self.first_texts is None else (*self.wanted_place, MORE)

    def named(self):
        """The opcode and the TXID of the record that is read, or nothing."""
        texts = self.first_texts or self.texts
        is_record = self.begun is not None and self.wanted_place[-1] == "RECORD" and len(texts) > 1
        return f": {texts[0][:40]}, TXID {texts[1][:40]}" if is_record else ""

    def finish(self):
        """A wanted element ends."""
        ends = self.parser.CurrentByteIndex
        if ends + len(f"</{self.place[-1]}>") - self.begun > self.most:
            raise Refused(self.too_long())
        name, shape = self.place.pop(), self.shape()
        self.done.append((self.piece_place(), shape, self.texts))
        if self.begun >= self.fed and self.first_texts is None:
            self.learn(self.piece[self.begun - self.fed : ends - self.fed], shape)
        self.start_tag, self.end_tag = f"<{name}>".encode(), f"</{name}>".encode()
        self.is_between = ends + len(self.end_tag) == self.fed + len(self.piece)
        self.begun = None
        self.parser.StartElementHandler = self.start_outside
        self.parser.EndElementHandler = self.end_outside

    def learn(self, element, shape):
        """Takes the bytes of an element, up to its end tag, with the shape that expat found."""
        self.repeats.learn(element, shape)
        if self.wanted_place in self.quick:
            self.quick[self.wanted_place].learn(element, shape)

    def shape(self):
        """The shape of the wanted element. Small ones are kept, but not very many."""
        name, tags = self.wanted_place[-1], self.tags
        if len(tags) > SHAPE_TAGS:
            return Shape(name, tags)
        return kept(self.shapes, (name, *tags), lambda: Shape(name, tags))


def open_in(tags):
    """The names of the elements that began and have not ended."""
    names = []
    for tag in tags:
        if tag is None:
            names.pop()
        else:
            names.append(tag)
    return names


def kept(shapes, key, make):
    """What is kept under a key, or is made and kept now."""
    if key not in shapes:
        if len(shapes) == SHAPES:
            shapes.clear()
        shapes[key] = make()
    return shapes[key]


class Repeats:
    """The tags of elements that were read, each with their shape and the places of their texts."""

    def __init__(self):
        self.known = {}

    def learn(self, element, shape):
        """Takes the bytes of an element, up to its end tag, with the shape that expat found."""
        parts = parts_of(element) if len(shape.tags) <= SHAPE_TAGS else None
        places = parts and places_of_texts(parts[3::2], shape.tags)
        if places and parts[1] == shape.name:
            kept(self.known, tuple(parts[1::2]), lambda: (shape, picker(places)))

    def find(self, element):
        """The shape and the texts of an element, by its bytes up to its end tag, or None if no such one was read."""
        parts = parts_of(element)
        found = self.known.get(tuple(parts[1::2])) if parts else None
        return found and (found[0], found[1](parts))


def parts_of(element):
    """What stands before the first tag of an element, that tag, what stands between it and the next one, and so on.

    There are none, None, where a text has more than plain characters.
    """
    signs = element.translate(None, PLAIN)
    if signs != b"<>" * (len(signs) // 2):
        return None
    return element.decode("ascii").replace(">", "<").split("<")


def places_of_texts(tags, wanted):
    """The places of the texts among the parts of an element, or None if expat found other tags than these in it."""
    found, places = [], []
    for place, tag in enumerate(tags, 1):
        if tag.startswith("/"):
            if found and found[-1] is not None:
                places.append(2 * place)
            found.append(None)
        elif tag.endswith("/"):
            # No text is in it, and none is before all tags.
            found += tag[:-1], None
            places.append(0)
        else:
            found.append(tag)
    if found != wanted:
        return None
    return places or [2]


def picker(places):
    """A function that answers the parts at these places."""
    if len(places) > 1:
        return itemgetter(*places)
    return lambda parts: [parts[place] for place in places]


def refuse_document_type(*_declared):
    raise Refused("a document type: a dump has none, and no entity is followed")
