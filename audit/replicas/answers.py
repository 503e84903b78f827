"""Runs the proved program as a service, on a namespace and on reports, and keeps what it answers.

A service takes input of any length. So nothing is cut into slices: the image and the log are given once, and all
reports stand behind the last line of the log. None of them waits for an edit that a later part would bring.
"""
from audit.program.proved import chunks_of
from hdfs.formats import Refused

# What is asked, in this order. What waits for the log is asked before the promotion, which processes it.
HELD, PROMOTED, TABLES, UNSAFE, STATUS = range(5)


class Answers:
    """What the program printed, in a file: an answer to each word."""

    def __init__(self, program, arguments, name):
        self.program = program
        self.arguments = arguments
        self.name = name
        # How many lines the program was given behind the image.
        self.lines = 0
        # Where each answer begins.
        self.begins = [0]

    def ask(self, namespace, reports, most):
        """Gives the program all lines, and then the words. It has to judge each replica."""
        words = "held", f"promote {namespace.number}", "tables", f"unsafe {most}", "status"
        arguments = [*self.arguments, *(["--from-image"] if namespace.image else [])]
        status = self.program.serve(arguments, self.given(namespace, reports, words), self.name)
        judged, last = self.find_answers(namespace)
        if status or len(self.begins) != len(words) + 1 or last != b"done %d\n" % self.lines:
            raise Refused(f"the program ended with status {status} and did not answer all")
        if judged != reports.count:
            raise Refused(f"the program was told {reports.count:,} replicas, and judged {judged:,}")

    def given(self, namespace, reports, words):
        """What the program is given: the image, the log, the reports and the words. Counts the lines behind the image."""
        for name in namespace.files():
            with open(name, "rb") as piece:
                for chunk in chunks_of(piece):
                    self.lines += chunk.count(b"\n") if name != namespace.image else 0
                    yield chunk
        for message in reports.messages():
            self.lines += 1
            yield message
        self.lines += len(words)
        yield "".join(f"{word}\n" for word in words).encode()

    def find_answers(self, namespace):
        """Finds where each answer begins. Answers how many replicas are judged, and the last line.

        A fault leaves nothing to be said.
        """
        place, judged, line = 0, 0, b""
        with open(self.name, "rb") as printed:
            for line in printed:
                place += len(line)
                if line.startswith(b"fault "):
                    raise Refused(self.meaning(line.decode("ascii", "replace").split(), namespace))
                if line.startswith(b"done "):
                    self.begins.append(place)
                judged += line.startswith((b"replica ", b"order "))
        return judged, line

    def meaning(self, words, namespace):
        told = self.program.explained(words[1])
        if words[2:3] == ["txid"]:
            return f"the log does not apply at TXID {namespace.txid_of(words[3])}: {told}"
        return f"the program told {' '.join(words)}: {told}"

    def rows(self, answer, kind):
        """The words of each line of this kind in an answer: the first three, and the rest."""
        begin = f"{kind} ".encode()
        with open(self.name, "rb") as printed:
            printed.seek(self.begins[answer])
            for line in printed:
                if line.startswith(b"done "):
                    return
                if line.startswith(begin):
                    yield line.decode()[:-1].split(" ", 3)

    def figures(self):
        """What the status counts, by name."""
        with open(self.name, "rb") as printed:
            printed.seek(self.begins[STATUS])
            rows = [line.decode().split() for line in printed]
        return {row[0]: int(row[1]) for row in rows if len(row) == 2 and row[1].isdigit()}
