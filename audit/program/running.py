"""The program at work in an audit: it is given an image and lines through a pipe, and prints an image into another one.

It prints nothing until it has read them all, unless it tells a fault. Two of it stand side by side, and what they print
is compared as it comes.
"""
import contextlib
import json
import os
import select
import subprocess

from audit.program.progress import STEP_SECONDS
from hdfs.formats import PATH_NAMES, Refused, image_end

CHUNK_BYTES = 1 << 16
HEADER = b'"image":"hdfs-standby"'
END = b'{"end":'
# The lines that end an image and an answer have fewer bytes.
END_BYTES = 200
# The line of a path of too many names has more bytes.
DEEP_BYTES = 2 * PATH_NAMES
TICKS = os.sysconf("SC_CLK_TCK")


class Feed:
    """What a program reads. It may end before it has read all, and its answer says why."""

    def __init__(self, file):
        self.file = file
        self.is_read = True
        self.size = 0

    def write(self, text):
        self.size += len(text)
        if self.is_read:
            try:
                self.file.write(text)
            except BrokenPipeError:
                self.is_read = False

    def close(self):
        with contextlib.suppress(BrokenPipeError):
            self.file.close()


class Running:
    """One run of the program, which has this name, as a service."""

    def __init__(self, program):
        self.program = program
        words = [program.name, "--live", "--from-image"]
        self.child = subprocess.Popen(words, bufsize=CHUNK_BYTES, stdin=subprocess.PIPE, stdout=subprocess.PIPE)
        self.feed = Feed(self.child.stdin)
        # The first line that it printed, and what was read behind it.
        self.first = None
        self.held = bytearray()
        # Whether all of it came, and the line that ends the image.
        self.has_ended = False
        self.line_of_end = b""
        # How many paths were left out.
        self.left_out = 0

    def ask(self):
        """Asks for the image. Nothing is given any more."""
        self.feed.write(b"checkpoint\n")
        self.feed.close()

    def end(self):
        """Ends the program, whatever it does."""
        if self.child.returncode is None:
            self.child.kill()
            self.child.wait()
        self.child.stdout.close()
        self.feed.close()

    def seconds(self):
        """How many seconds of a processor it took, or 0 where the system does not say."""
        with contextlib.suppress(OSError, ValueError), open(f"/proc/{self.child.pid}/stat") as file:
            return sum(map(int, file.read().rpartition(")")[2].split()[11:13])) // TICKS
        return 0

    def fault(self, progress):
        """The fault of an image or of a log, or None where the first line of an image came."""
        while b"\n" not in self.held and self.read(progress):
            pass
        first, line_feed, self.held = self.held.partition(b"\n")
        self.first = bytes(first + line_feed)
        if self.first.startswith(b"fault "):
            while self.read(progress):
                self.held.clear()
            self.wait()
            return self.program.fault(self.first.decode("ascii", "replace").split())
        if HEADER not in self.first:
            raise self.no_image()
        return None

    def piece(self, progress):
        """The next lines of paths of the image, or nothing behind all. Paths of too many names are left out."""
        while True:
            piece = self.next_piece(progress)
            if len(piece) > DEEP_BYTES and max(map(len, piece.split(b"\n"))) > DEEP_BYTES:
                kept = [line + b"\n" for line in piece.split(b"\n")[:-1] if line.count(b"/") <= PATH_NAMES]
                self.left_out += piece.count(b"\n") - len(kept)
                piece = b"".join(kept)
                if not kept:
                    continue
            return piece

    def next_piece(self, progress):
        """The next lines as the program prints them."""
        begin = 0
        while not self.has_ended:
            end = len(self.held) - END_BYTES
            cut = self.held.rfind(b"\n", begin, end) + 1 if end > begin else 0
            if cut:
                piece = bytes(self.held[:cut])
                del self.held[:cut]
                return piece
            begin = max(0, end)
            if not self.read(progress):
                return self.last_piece()
        return b""

    def read(self, progress):
        """Reads more of what it prints. Answers whether there was more."""
        seconds = self.seconds()
        while progress and not select.select([self.child.stdout], [], [], STEP_SECONDS)[0]:
            # What stands still is seen to: only a program that works moves.
            if self.seconds() > seconds:
                seconds = self.seconds()
                progress.show_work(seconds)
        data = os.read(self.child.stdout.fileno(), CHUNK_BYTES)
        self.held += data
        return bool(data)

    def last_piece(self):
        """The last lines. The image and the answer have to end behind them."""
        self.has_ended = True
        at = self.held.rfind(END)
        lines = bytes(self.held[at:]).split(b"\n") if at >= 0 else []
        if self.wait() or len(lines) != 3 or not lines[1].startswith(b"done ") or lines[2]:
            raise self.no_image()
        self.line_of_end = lines[0] + b"\n"
        return bytes(self.held[:at])

    def take_end(self):
        """The line that ends the image, once."""
        line, self.line_of_end = self.line_of_end, b""
        return image_end(json.loads(line)["end"] - self.left_out) if line and self.left_out else line

    def wait(self):
        status = self.child.wait()
        if status < 0:
            raise Refused(f"the program was killed by signal {-status}")
        return status

    def no_image(self):
        return Refused(f"the program ended with status {self.wait()} and printed no whole image")
