"""The proved program, as a service, and what its faults mean.

What it tells may be a finding, of an image or of a log. Whatever else keeps it from what it is asked for leaves nothing to
be said, and is Refused.
"""
import contextlib
import os
import subprocess
from typing import NamedTuple, Optional

from hdfs.finding import find_program, is_program, no_program, tell_if_unproved
from hdfs.formats import Refused

PROGRAM = find_program()

CHUNK_BYTES = 1 << 20

# A line of the image has no JSON, or more than it may have in a namespace: its paths, its blocks, their order.
OF_IMAGES = {"62", "63"}


class Fault(NamedTuple):
    """What the program told of an image or a log, and what it means."""

    meaning: str
    # What it is about: the line of an image, or the number of a transaction of a log, or one of its segments.
    line: Optional[int] = None
    txid: Optional[int] = None
    segment: Optional[int] = None


class Program:
    """The program, by the name of its file."""

    def __init__(self, name):
        self.name = os.path.abspath(name)
        if not is_program(self.name):
            raise Refused(no_program(name))
        tell_if_unproved(self.name)

    def serve(self, arguments, given, printed):
        """Runs the program as a service: writes it these texts, and what it prints to a file. Answers its status.

        It may end before it has read them all, and its answer says why.
        """
        with open(printed, "wb") as output:
            child = subprocess.Popen([self.name, "--live", *arguments], stdin=subprocess.PIPE, stdout=output)
            with contextlib.suppress(BrokenPipeError), child.stdin as pipe:
                for text in given:
                    pipe.write(text)
            status = child.wait()
        if status < 0:
            raise Refused(f"the program was killed by signal {-status}")
        return status

    def fault(self, words):
        number, place = words[1], words[2:]
        meaning = self.explained(number)
        if number in OF_IMAGES and place[:2] == ["image", "line"]:
            return Fault(meaning, line=int(place[2]))
        if place[:1] == ["txid"]:
            return Fault(meaning, txid=int(place[1]))
        if place[:1] == ["segment"]:
            return Fault(meaning, segment=int(place[1]))
        raise Refused(f"the program told {' '.join(words)}: {meaning}")

    def explained(self, number):
        told = subprocess.run([self.name, "--explain", number], stdout=subprocess.PIPE, stderr=subprocess.PIPE)
        return told.stdout.decode().strip() or f"{number}, which it does not explain"


def chunks_of(file):
    """The bytes of a file from where it is read."""
    while chunk := file.read(CHUNK_BYTES):
        yield chunk
