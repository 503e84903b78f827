"""The folders that a watch looks into: one with images, and a JournalNode's with the finalized segments of its log.

A file is binary, as a cluster has it, or a dump of that, with `.xml` behind its name. Where both are there, the dump is
taken. All other files are passed over, and none is changed.
"""
import contextlib
import os
import re
import shlex
import signal
import subprocess
from typing import NamedTuple

from hdfs.formats import Refused

IMAGE = re.compile(r"fsimage_([0-9]{1,19})(\.xml)?")
SEGMENT = re.compile(r"edits_([0-9]{1,19})-([0-9]{1,19})(\.xml)?")
IN_PROGRESS = re.compile(r"edits_inprogress_([0-9]{1,19})(\.xml)?")

DUMP = ".xml"
REASON_LETTERS = 300


class Waits(Refused):
    """An image whose last records are in a segment in progress."""


class Segment(NamedTuple):
    first: int
    last: int
    path: str


def images_in(folder):
    """The path of each image in a folder, by its TXID."""
    return dict(sorted((txid, path) for (txid,), path in files_of(folder, IMAGE).items()))


def files_of(folder, form):
    """The files whose names have a form, by the numbers in their names."""
    found = {}
    # A dump comes behind what it is a dump of.
    for name in sorted(os.listdir(folder), key=lambda name: (name.endswith(DUMP), name)):
        named = form.fullmatch(name)
        path = os.path.join(folder, name)
        if named and os.path.isfile(path):
            found[tuple(map(int, named.groups()[:-1]))] = path
    return found


def segments_between(folder, after, until):
    """The finalized segments with the TXIDs behind `after` up to `until`. None of these may lack."""
    # A segment that is finalized meanwhile is seen as such.
    in_progress = [first for (first,) in files_of(folder, IN_PROGRESS)]
    every = sorted(Segment(*numbers, path) for numbers, path in files_of(folder, SEGMENT).items())
    wanted = [segment for segment in every if segment.last > after and segment.first <= until]
    lacking = after + 1
    for segment in wanted:
        if segment.first > lacking:
            break
        lacking = max(lacking, segment.last + 1)
    if lacking > until:
        return wanted
    if any(first <= lacking for first in in_progress) and not any(segment.last >= lacking for segment in every):
        raise Waits(f"the image of TXID {until} waits for TXID {lacking}, which is in a segment in progress")
    raise Refused(f"no finalized segment in {folder} has TXID {lacking}, and the image is of TXID {until}")


class Commands:
    """Runs commands, each of which may take so many seconds and holds the lock of the watch for as long as it lives."""

    def __init__(self, hdfs, seconds, lock, folder):
        self.hdfs = shlex.split(hdfs)
        self.seconds = seconds
        self.lock = lock
        self.folder = folder

    def dump(self, tool, path):
        """The dump of a file: itself, or what `hdfs oiv` or `hdfs oev` makes of it."""
        if path.endswith(DUMP):
            return path
        made = os.path.join(self.folder, os.path.basename(path) + DUMP)
        status, _, errors = self.run([*self.hdfs, tool, "-p", "XML", "-i", path, "-o", made])
        if status or not os.path.isfile(made):
            raise Refused(f"hdfs {tool} makes no dump of {path}: status {status}: {last_line(errors)}")
        return made

    def run(self, words, shown=None):
        """The status of a command, its output and its errors. What it starts ends with it.

        It may take so many seconds, or be silent so long if it writes to the file `shown` how far it is.
        """
        given = {"stdin": subprocess.DEVNULL, "stdout": subprocess.PIPE, "stderr": subprocess.PIPE}
        surroundings = {**os.environ, "TMPDIR": self.folder}
        try:
            child = subprocess.Popen(words, **given, env=surroundings, start_new_session=True, pass_fds=[self.lock])
        except FileNotFoundError as reason:
            if reason.filename == os.devnull:
                raise
            raise Refused(f"there is no command {words[0]}") from None
        try:
            output, errors = self.waited(child, shown)
        except subprocess.TimeoutExpired:
            end_group(child)
            told = "took" if shown is None else "did nothing for"
            raise Refused(f"{' '.join(words[:2])} {told} more than {self.seconds} seconds, and was ended") from None
        except BaseException:
            end_group(child)
            raise
        return child.returncode, output.decode("utf-8", "replace"), errors.decode("utf-8", "replace")


    def waited(self, child, shown):
        """What a command prints until it ends. As long as it goes on with what is left, it has time for that."""
        seen = None
        while True:
            try:
                return child.communicate(timeout=self.seconds)
            except subprocess.TimeoutExpired:
                now = text_of(shown)
                if now == seen:
                    raise
                seen = now


def text_of(name):
    """What a file has, or None where there is none."""
    with contextlib.suppress(FileNotFoundError, TypeError), open(name) as file:
        return file.read()
    return None


def end_group(child):
    """Ends a command and all that it started."""
    with contextlib.suppress(ProcessLookupError, PermissionError):
        os.killpg(child.pid, signal.SIGKILL)
    with contextlib.suppress(subprocess.TimeoutExpired):
        child.wait(timeout=10)


def last_line(text):
    lines = text.strip().splitlines() or ["it says nothing"]
    return lines[-1][:REASON_LETTERS]
