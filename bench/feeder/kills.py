"""Cases of the feeder that is driven: kill -9 of the program and of the feeder, while they wait, inside a segment and a checkpoint."""
import http.client
import os
import random
import re
import signal
import tempfile
import time

from driving import SECONDS, Failed, Feed, Place, Tally, has_ended, until
from logs import directories, files, full_report, lines_of, name_of, report

TRIES = 8


class Kills:
    """A log that grows by large segments, and kills in the middle of each."""

    def __init__(self, tally, place):
        self.tally = tally
        self.place = place
        self.log = []
        self.next = 1
        self.feed = None

    def start(self):
        self.feed = Feed(self.place, "--checkpoint", "9000")

    def grow(self, lines):
        self.log += lines
        self.next += len(lines)
        self.place.put_segment(lines)

    def grow_much(self):
        self.grow(directories(self.next, 9_000, length=180))

    def kill(self, which):
        """Kills the program, and the feeder ends; or the feeder, and the program ends."""
        child = self.feed.child
        os.kill(child if which == "program" else self.feed.process.pid, signal.SIGKILL)
        status = self.feed.ended()
        until("the program's end", lambda: has_ended(child))
        return status

    def restart(self, name, status, which):
        """All that the log has is had again."""
        self.start()
        told = until("what the feeder goes on from", lambda: re.search(r"goes on from TXID (\d+)\s", self.feed.told()))
        got = self.feed.reaches(self.next - 1)
        wanted = 1 if which == "program" else -signal.SIGKILL, self.next - 1, 0, {}
        self.tally.same(name, (status, got["txid"], got["lag"], got["faults"]), wanted)
        return int(told[1])

    def in_segment(self, which):
        """A kill while the program has some of a segment's lines, and not all."""
        for _ in range(TRIES):
            child = self.feed.child
            before, size = bytes_read(child), None
            known = self.next
            self.grow_much()
            size = os.path.getsize(os.path.join(self.place.edits, name_of(known, self.next - 1)))
            end = time.monotonic() + SECONDS
            while bytes_read(child) - before < 65_536 and time.monotonic() < end:
                pass
            os.kill(child, signal.SIGSTOP)
            read = bytes_read(child) - before
            if 65_536 <= read < size:
                if which == "feeder":
                    os.kill(self.feed.process.pid, signal.SIGSTOP)
                    os.kill(child, signal.SIGCONT)
                status = self.kill(which)
                begun = self.restart(f"kill -9 of the {which} in the middle of a segment", status, which)
                self.tally.holds(f"the {which} had not followed it", begun < known, f"{begun}")
                return
            os.kill(child, signal.SIGCONT)
            self.feed.reaches(self.next - 1)
        raise Failed("no kill came in the middle of a segment")

    def in_checkpoint(self, which):
        """A kill while a checkpoint is written."""
        for _ in range(TRIES):
            child, known = self.feed.child, self.next
            self.grow_much()
            writing = os.path.join(self.place.checkpoints, f"writing_fsimage_{self.next - 1:019}")
            end = time.monotonic() + SECONDS
            while not (is_begun(writing) or writing[-19:] in str(self.place.images())) and time.monotonic() < end:
                pass
            process = child if which == "program" else self.feed.process.pid
            os.kill(process, signal.SIGSTOP)
            time.sleep(0.1)
            if is_begun(writing):
                status = self.kill(which)
                self.tally.holds(f"the {which} left a torn checkpoint", is_begun(writing))
                begun = self.restart(f"kill -9 of the {which} in the middle of a checkpoint", status, which)
                self.tally.holds("an older one was taken", begun < known, f"{begun}")
                return
            os.kill(process, signal.SIGCONT)
            self.feed.reaches(self.next - 1)
        raise Failed("no kill came in the middle of a checkpoint")


def bytes_read(process):
    """How many bytes a process has read."""
    with open(f"/proc/{process}/io") as file:
        return int(file.readline().split()[1])


def is_begun(name):
    try:
        return os.path.getsize(name) > 0
    except FileNotFoundError:
        return False


def check_kills(tally, place):
    """Each restart goes on from a checkpoint, and in the end the tables are those of the whole log."""
    kills = Kills(tally, place)
    kills.grow(files(kills.next, 0, 3))
    kills.start()
    kills.feed.report(*full_report(1, 0, 1, 2))
    for which in ("program", "feeder"):
        kills.feed.reaches(kills.next - 1)
        kills.restart(f"kill -9 of the {which} while it waits", kills.kill(which), which)
        kills.feed.report(*full_report(1, 0, 1))
        kills.in_segment(which)
        kills.feed.report(*full_report(2, 2))
        kills.in_checkpoint(which)
    reports = [*full_report(1, 0, 2), *full_report(3, 1, 2), report(2, 7)]
    kills.feed.report(*reports)
    tally.same("the promotion in the end", kills.feed.promote(kills.next - 1)[0], 200)
    whole = "".join(kills.log) + lines_of(reports)
    tally.same("the tables are those of the batch", kills.feed.tables(), place.batch(whole))


class ManyKills(Kills):
    """Kills at random moments, while a log grows by small and large segments and three DataNodes report."""

    def __init__(self, tally, place, seed=7):
        super().__init__(tally, place)
        self.random = random.Random(seed)
        self.began = 0

    def work(self):
        """Some of a log, and reports that may be cut off."""
        for _ in range(self.random.randint(1, 4)):
            self.grow(files(self.next, self.began, 4))
            self.began += 4
        if self.random.random() < 0.2:
            self.grow(directories(self.next, 3_000, length=180))
        try:
            self.feed.report(*full_report(self.random.randint(1, 3), *range(self.began)[-50:]))
        except (OSError, http.client.HTTPException):
            pass

    def one(self):
        self.work()
        time.sleep(self.random.random() * 0.3)
        child, which = self.feed.child, self.random.choice(("feeder", "program", "both"))
        for process in {"feeder": [self.feed.process.pid], "program": [child], "both": [child, self.feed.process.pid]}[which]:
            os.kill(process, signal.SIGKILL)
        self.feed.ended()
        until("the program's end", lambda: has_ended(child))
        self.start()

    def play(self, count):
        self.grow(files(self.next, self.began, 4))
        self.began += 4
        self.start()
        for _ in range(count):
            self.one()
        self.feed.reaches(self.next - 1)
        reports = [line for dn in (1, 2, 3) for line in full_report(dn, *range(dn, self.began, 3))]
        self.tally.same("full reports in the end", self.feed.report(*reports)[0], 200)
        self.tally.same("the promotion", self.feed.promote(self.next - 1), (200, "active"))
        whole = "".join(self.log) + lines_of(reports)
        self.tally.same(f"the tables behind {count} kills are those of the batch", self.feed.tables(), self.place.batch(whole))


def many_kills(program, count):
    """Answers how many cases failed."""
    tally = Tally()
    with tempfile.TemporaryDirectory() as folder:
        place = Place(folder, program)
        try:
            ManyKills(tally, place).play(count)
        except Failed as fault:
            tally.holds("it ended early", False, f"{fault}\n{place.running[-1].told()[-2000:]}")
        finally:
            place.end()
    print(f"{tally.passed} passed, {tally.failed} failed")
    return tally.failed
