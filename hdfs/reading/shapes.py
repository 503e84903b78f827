"""The shapes of the elements of a dump. Most elements have one of a few, and only their texts differ."""


class Shape:
    """The names in an element, which many elements have in common, so that they are looked up once for all of them.

    `tags` has what is in the element, in order: a name where an element begins, and None where it ends. An element in
    which there is none has a text. Texts are counted through the outermost element: `first` is the place of the first.
    """

    __slots__ = ("name", "tags", "first", "_answers")

    def __init__(self, name, tags, first=0):
        self.name = name
        self.tags = tags
        self.first = first
        self._answers = {}

    def of(self, question):
        """What a function answers of this shape. It is asked once."""
        answer = self._answers.get(question)
        if answer is None:
            answer = self._answers[question] = question(self)
        return answer

    def split(self):
        """Yields the shapes of the elements in it."""
        begin, first, open_tags, texts = 0, self.first, 0, 0
        for place, tag in enumerate(self.tags):
            if tag is not None:
                open_tags += 1
                continue
            # An element without elements ends right behind its beginning, and has a text.
            texts += self.tags[place - 1] is not None
            open_tags -= 1
            if open_tags == 0:
                yield Shape(self.tags[begin], self.tags[begin + 1 : place], first)
                begin, first, texts = place + 1, first + texts, 0


def children_of(shape):
    """The shapes of the elements in it."""
    return list(shape.split())


def named(shape):
    """The shapes of the elements in it, by their names."""
    found = {}
    for child in shape.of(children_of):
        found.setdefault(child.name, []).append(child)
    return found


def only_places(shape):
    """The place of the text of each element in it that is the only one of its name and has no elements in it."""
    found = shape.of(named).items()
    return {name: children[0].first for name, children in found if len(children) == 1 and not children[0].tags}


def texts_in(shape):
    """How many texts an element of a shape has."""
    return sum(tag is None and (at == 0 or shape.tags[at - 1] is not None) for at, tag in enumerate(shape.tags)) or 1
