"""How far an audit is, in a line that moves on a terminal, and in a file for who waits for it.

The line comes after two seconds: what is read, how much of it, how fast, and how long the rest takes.
"""
import contextlib
import os
import time

FIRST_SECONDS = 2
STEP_SECONDS = 0.5


class Progress:
    """Shows how files are read. Nothing is shown without a stream, and nothing written without a name."""

    def __init__(self, stream=None, note=None, clock=time.monotonic):
        self.stream = stream
        self.note = note
        self.clock = clock
        self.begun = self.next = clock() + FIRST_SECONDS
        self.width = 0
        self.count = 0

    @contextlib.contextmanager
    def open(self, name, what="reading"):
        """A file to be read, whose reading is shown."""
        with open(name, "rb") as file:
            yield self.watched(file, f"{what} {os.path.basename(name)}")

    def watched(self, file, what):
        """A file from where it is read, whose reading is shown."""
        return Watched(file, self.task(what, size_of(file)))

    def task(self, what, size=None):
        """What is done with so many bytes, if that is known."""
        return Task(what, size, self)

    def show_work(self, seconds):
        """Shows that the program works."""
        self.show(lambda _now: f"the program works: {time_words(seconds)} of a processor")

    def show(self, line):
        """Shows a line, which is a function of the time, if it is time."""
        now = self.clock()
        if now < self.next:
            return
        self.next = now + STEP_SECONDS
        text = line(now)
        if self.note:
            self.count += 1
            with open(self.note, "w") as file:
                file.write(f"{self.count} {text}\n")
        if self.stream:
            self.stream.write(f"\r{text.ljust(self.width)}")
            self.stream.flush()
            self.width = len(text)

    def clear(self):
        """Takes the line away."""
        if self.stream and self.width:
            self.stream.write(f"\r{' ' * self.width}\r")
            self.stream.flush()
            self.width = 0


class Task:
    """What is done with bytes, and with how many since when."""

    def __init__(self, what, size, progress):
        self.what = what
        self.size = size
        self.progress = progress
        self.done = 0
        self.begun = progress.clock()

    def add(self, count):
        self.done += count
        self.progress.show(self.line)

    def line(self, now):
        rate = self.done / max(now - self.begun, 1e-3)
        if self.size is None:
            return f"{self.what}: {self.done / 1e6:,.0f} MB, {rate / 1e6:,.1f} MB/s"
        left = time_words(max(0, self.size - self.done) / max(rate, 1))
        done = f"{self.done / 1e6:,.0f} of {self.size / 1e6:,.0f} MB"
        return f"{self.what}: {done}, {rate / 1e6:,.1f} MB/s, {left} left"


class Watched:
    """A file that is read, and the task that this is."""

    def __init__(self, file, task):
        self.file = file
        self.name = file.name
        self.task = task

    def read(self, size):
        data = self.file.read(size)
        self.task.add(len(data))
        return data


def size_of(file):
    """The bytes from where a file is read to its end, or None where that is not known."""
    if not file.seekable():
        return None
    place = file.tell()
    size = file.seek(0, os.SEEK_END) - place
    file.seek(place)
    return size


def time_words(seconds):
    minutes, seconds = divmod(int(seconds), 60)
    hours, minutes = divmod(minutes, 60)
    if hours:
        return f"{hours} h {minutes:02} min"
    return f"{minutes} min {seconds:02} s" if minutes else f"{seconds} s"
