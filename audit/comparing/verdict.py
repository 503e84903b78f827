"""The verdict of an audit: what it says, and of what. It is printed as lines, or as one object of JSON."""
import json
from collections import Counter
from typing import NamedTuple, Optional

from hdfs.converting.conversion import counted


class Scope(NamedTuple):
    """What an audit compared, and what it did not."""

    # How many directories, files and blocks are alike, how many of these files are bare, and of how many inodes more was compared.
    alike: Counter
    bare: int
    inodes: int
    # What was not compared: titles, each with counts by kind, and counts beside them.
    left: dict
    others: Counter
    # How many files were compared by sums alone, if not all went through the program.
    by_sums: Optional[int] = None

    def compared(self):
        """What was compared in this run, in the order in which it is told."""
        files = self.alike["files"] - self.bare
        names = self.alike["directories"] + self.alike["files"]
        count = {"names": names, "kinds": names, "replication": files, "blocks": self.alike["blocks"], "open files": files}
        count["attributes"] = self.inodes
        return [what for what, number in count.items() if number > 0]

    def not_compared(self):
        """How many items were not compared, by their kinds."""
        every = (*self.left.values(), self.others)
        return {kind: count for counts in every for kind, count in sorted(counts.items())}

    def words(self):
        left = self.not_compared()
        said = ", ".join(self.compared()) or "the last id and stamp"
        return f"{said}; not compared: {sum(left.values()):,} items of {len(left):,} kinds{self.ways()}"

    def ways(self):
        """How many files went which way, where not all went through the program."""
        if self.by_sums is None:
            return ""
        return f"; files through the program: {self.alike['files'] - self.by_sums:,}, by sums: {self.by_sums:,}"

    def lines(self):
        count = {name: f"{self.alike[name]:,}" for name in ("directories", "files", "blocks")}
        yield f"alike: {count['directories']} directories, {count['files']} files with {count['blocks']} blocks"
        for title, counts in self.left.items():
            yield counted(f"not compared, {title}", counts)
        for what, number in self.others.items():
            yield f"not compared, {what}: {number:,}"


class Verdict(NamedTuple):
    """What an audit found."""

    first: int
    last: int
    # Whether the log applies, how the images differ, by kind, and what was compared, if anything was.
    applies: bool
    differences: str
    scope: Optional[Scope]

    @property
    def is_same(self):
        return not self.differences

    def line(self):
        """The last line."""
        if self.is_same:
            return f"the same in {self.scope.words()}"
        if not self.applies:
            return f"differs: the log does not apply to the image of TXID {self.first}"
        makes = f"is not what the log makes of the image of TXID {self.first}"
        return f"differs: the image of TXID {self.last} {makes}: {self.differences}"


class Printed:
    """Prints what an audit says, once it is known that something can be said."""

    def __init__(self):
        self.told = []

    def tell(self, *words):
        self.told.append(" ".join(map(str, words)))

    def end(self, verdict, behind):
        """The differences, lines that stand behind them, and the verdict."""
        for line in self.told:
            print(line)
        for line in verdict.scope.lines() if verdict.scope else ():
            print(line)
        for line in behind:
            print(line)
        if verdict.is_same:
            print(f"the image of TXID {verdict.last} is what the log makes of the image of TXID {verdict.first}")
        print(verdict.line())


class AsObject(Printed):
    """Prints one object of JSON."""

    def end(self, verdict, behind):
        scope = verdict.scope
        members = {
            "status": "same" if verdict.is_same else "differs",
            "verdict": verdict.line(),
            "from": verdict.first,
            "to": verdict.last,
            "differences": self.told,
            "alike": dict(sorted(scope.alike.items())) if scope else {},
            "compared": scope.compared() if scope else [],
            "not_compared": scope.not_compared() if scope else {},
            "notes": behind,
        }
        print(json.dumps(members, ensure_ascii=False))
