"""The table of an audit: short names and numbers for what the program can't hold as it is, one for both images and the log.

A name that is too long, or that makes a path too long, gets a short one that no other has. Each replication, and each
kind of bare files, gets a number of those that the program takes as replications. The table only grows, and is kept in
a chain's state, so that a name or a number means the same at the next link.
"""
import re

from hdfs.formats import (
    GREATEST_REPLICATION,
    NAME_BYTES,
    PATH_BYTES,
    PATH_NAMES,
    Refused,
    check_characters,
    check_name,
    to_json,
)

# A short name begins so. A name that begins so has a short one too, so that both are never mixed up.
MARK = "\x7f"
DIGITS = "0123456789abcdefghijklmnopqrstuvwxyz"
SHORT = re.compile(rf"(?<=/){MARK}([0-9a-z]+)(?=[/\" ]|$)")
# 1,000 names of so many bytes, each with its slash, are a path.
SHORT_BYTES = PATH_BYTES // PATH_NAMES - 1


class Grew(Exception):
    """The table got names that had been taken as they are: what was made by it has to be made anew."""


class Table:
    """Short names by names, and numbers by the words for replications."""

    def __init__(self, names=(), replications=()):
        self.names = {}
        # The bytes of each name.
        self.encoded = set()
        self.full = []
        for name in names:
            self.add(name)
        self.replications = dict(replications)
        self.words = {number: word for word, number in self.replications.items()}

    def members(self):
        """What a state keeps of it."""
        return {"names": self.full, "replications": self.replications}

    # ---- Names.

    def add(self, name):
        """Gives a name a short one, if it has none."""
        if name not in self.names:
            self.names[name] = MARK + digits_of(len(self.full))
            self.encoded.add(name.encode())
            self.full.append(name)

    def short(self, name):
        """The name that the program has for a name."""
        if name not in self.names and is_odd(name):
            self.add(name)
        return self.names.get(name, name)

    def full_name(self, name):
        """The name of the cluster for one that the program has."""
        return self.full[number_of(name[len(MARK) :])] if name.startswith(MARK) else name

    def short_path(self, path):
        """The path that the program has for a path."""
        return "/".join(map(self.short, path.split("/")))

    def short_again(self, path):
        """The path that the program has, for one that it had when the table was smaller."""
        return "/".join(self.names.get(name, name) for name in map(self.full_name, path.split("/")))

    def shorten(self, path):
        """Gives short names to those of a path that is too long. Its names are full or short."""
        for name in path.split("/"):
            if len(name.encode()) > SHORT_BYTES:
                self.add(name)

    def in_words(self, text):
        """A text that is told, with the cluster's own names."""
        return SHORT.sub(lambda found: to_json(self.full[number_of(found[1])])[1:-1], text) if self.full else text

    def check_name(self, name):
        if not name:
            check_name(name)
        check_characters(name)
        self.short(name)

    # ---- Replications.

    def number(self, word):
        """The number of a replication or of a kind of bare files: its own, if that is free."""
        if word not in self.replications:
            self.give(word, self.free_number(word))
        return self.replications[word]

    def give(self, word, number):
        self.replications[word] = number
        self.words[number] = word

    def free_number(self, word):
        own = int(word) if word.isdigit() and len(word) < 4 else 0
        for number in (own, *range(GREATEST_REPLICATION, 0, -1)):
            if 1 <= number <= GREATEST_REPLICATION and number not in self.words:
                return number
        raise Refused(f"more than {GREATEST_REPLICATION} different replications and kinds of files: {word} is one more")


class Exact:
    """In place of a table, where replications have to be what they are."""

    names = {}
    encoded = frozenset()
    check_name = staticmethod(check_name)

    def number(self, word):
        if not word.isdigit():
            return 1
        if int(word) > GREATEST_REPLICATION:
            raise Refused(f"the replication {word}, and {GREATEST_REPLICATION} is the most here")
        return int(word)


def is_odd(name):
    """Whether a name has a short one, wherever it stands."""
    return name.startswith(MARK) or len(name) > NAME_BYTES // 4 and len(name.encode()) > NAME_BYTES


def digits_of(number):
    digits = ""
    while number or not digits:
        number, digit = divmod(number, len(DIGITS))
        digits = DIGITS[digit] + digits
    return digits


def number_of(digits):
    return int(digits, len(DIGITS))
