"""Puts lines in order that may be more than memory holds: in parts, each sorted in a file, which are merged."""
import contextlib
import heapq
import os

# The lines of a part, with what Python takes for each. Three hundred million lines make some five hundred parts, and as
# many files that are open at a time.
PART_BYTES = 64_000_000
OVERHEAD_BYTES = 41


class Sorted:
    """Lines in the order of their bytes, each with its line feed."""

    def __init__(self, folder, name):
        self.folder = folder
        self.name = name
        self.parts = []
        self.held = []
        self.bytes = 0

    def put(self, line):
        self.held.append(line)
        self.bytes += len(line) + OVERHEAD_BYTES
        if self.bytes > PART_BYTES:
            self.end_part()

    def end_part(self):
        """Writes what is held to a file."""
        name = os.path.join(self.folder, f"{self.name}-{len(self.parts):05}")
        with open(name, "wb") as part:
            part.writelines(sorted(self.held))
        self.parts.append(name)
        self.held = []
        self.bytes = 0

    def lines(self):
        """All lines, in order. It may be asked again, once no more are put."""
        self.held.sort()
        with contextlib.ExitStack() as opened:
            parts = [opened.enter_context(open(name, "rb")) for name in self.parts]
            yield from heapq.merge(*parts, self.held)
