"""What a program for x86-64 takes from the libraries of the system: the names, and the versions that these have there."""
import struct

X86_64 = (b"\x7fELF\x02\x01", 62)
DYNSYM, VERSION_NEEDED, VERSIONS = 11, 0x6FFFFFFE, 0x6FFFFFFF


class NoProgram(Exception):
    """Why a file is no program for Linux on x86-64."""


class Program:
    """A program's file, read as far as its dynamic symbols go."""

    def __init__(self, data):
        if data[:6] != X86_64[0] or data[18] != X86_64[1]:
            raise NoProgram("the program is not one for Linux on x86-64")
        self.data = data
        place, (size, count) = struct.unpack_from("<Q", data, 40)[0], struct.unpack_from("<HH", data, 58)
        rows = (struct.unpack_from("<IIQQQQIIQQ", data, place + at * size) for at in range(count))
        # Of each section its kind, and where its bytes are; and which section has its texts.
        self.sections = [(row[1], row[4], row[5], row[6]) for row in rows]

    def section(self, kind):
        """The bytes of the section of this kind, and where its texts begin."""
        for its_kind, at, size, texts in self.sections:
            if its_kind == kind:
                return self.data[at : at + size], self.sections[texts][1]
        raise NoProgram("the program has no dynamic symbols")

    def text(self, at):
        return self.data[at : self.data.index(b"\0", at)].decode()

    def names_of_versions(self):
        """The name of each version that it needs, by its number."""
        rows, texts = self.section(VERSION_NEEDED)
        names, at = {}, 0
        while True:
            _, count, _, first, ahead = struct.unpack_from("<HHIII", rows, at)
            place = at + first
            for _ in range(count):
                _, _, number, name, more = struct.unpack_from("<IHHII", rows, place)
                names[number] = self.text(texts + name)
                place += more
            if not ahead:
                return names
            at += ahead

    def taken(self):
        """The names that it takes from libraries, each with its version or an empty text."""
        rows, texts = self.section(DYNSYM)
        numbers, _ = self.section(VERSIONS)
        versions, taken = self.names_of_versions(), {}
        for at in range(1, len(rows) // 24):
            name, _, _, section = struct.unpack_from("<IBBH", rows, at * 24)
            if section == 0:
                number = struct.unpack_from("<H", numbers, at * 2)[0] & 0x7FFF
                taken[self.text(texts + name)] = versions.get(number, "")
        return taken


def glibc_of(data):
    """The least glibc that has all that a program takes, as (2, 17)."""
    versions = Program(data).names_of_versions().values()
    return max(tuple(map(int, it.partition("_")[2].split("."))) for it in versions if it.startswith("GLIBC_2"))
