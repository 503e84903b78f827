"""Judges the feeder as it runs: each system call on its folder and its disk fails in turn, by strace, over a scenario of some seconds.

The laws are those of the model, as a caller sees them: nothing is promoted below what was seen, what is known is known over
a restart, all is followed once the fault is over, nothing is left on the disk, and it ends with 0 when it is told to.
"""
import concurrent.futures
import os
import random
import re
import shutil
import subprocess
import tempfile
import time
from collections import Counter

from driving import FEED, Failed, Feed, Place, preloaded
from logs import files, full_report
from modules import faults

ERRORS = {
    "openat": ("EIO", "ENOSPC", "ESTALE", "EACCES", "EINTR", "ENOENT"),
    "read": ("EIO", "ESTALE", "EINTR"),
    "write": ("EIO", "ENOSPC", "EINTR"),
    "fsync": ("EIO", "ENOSPC", "EINTR"),
    "rename": ("EIO", "ENOSPC", "EACCES", "ENOENT"),
    "unlink": ("EIO", "EACCES", "ENOENT"),
    "getdents64": ("EIO", "ESTALE"),
    "newfstatat": ("EIO", "ESTALE", "EACCES", "ENOENT"),
    "statx": ("EIO", "ESTALE", "EACCES", "ENOENT"),
    "close": ("EIO",),
    "mkdir": ("EACCES", "ENOSPC"),
    "flock": ("EINTR", "EIO"),
}
CALL = re.compile(r"^(\d+) +(\w+)\(")
# What a call can be refused for until the fault is over.
PASSING = ("folder_unreadable", "not_kept", "late", "loading")
WAIT = 8
IMAGES = (7, 14, 21)
SIDE_BY_SIDE = 4


class Broken(Exception):
    """A law that does not hold."""


class Traced(Feed):
    """A feeder under strace, with one fault, or with a list of its calls."""

    wrap = ()
    environment = None

    def command(self, place, *arguments):
        return [*self.wrap, *super().command(place, *arguments)]


def paths_of(place):
    """All that the scenario touches. strace looks at each path by itself."""
    names = ["", *(f"{mark}{name}" for name in ("state", *map(image, IMAGES), *(f"{image(it)}.sha256" for it in IMAGES)) for mark in ("", "writing_"))]
    edits = ["", *(f"edits_{first:019}-{first + 6:019}" for first in (1, 8, 15)), f"edits_inprogress_{15:019}"]
    return [os.path.join(place.checkpoints, name).rstrip("/") for name in names] + [os.path.join(place.edits, name).rstrip("/") for name in edits]


def image(txid):
    return f"fsimage_{txid:019}"


def strace(place, *more):
    paths = [word for path in paths_of(place) for word in ("-P", path)]
    return ["strace", "-f", "-qq", "-e", "signal=none", *more, *paths]


def soon(what, is_so, seconds=WAIT):
    """Waits for something that has to come once the fault is over."""
    end = time.monotonic() + seconds
    while time.monotonic() < end:
        if found := is_so():
            return found
        time.sleep(0.03)
    raise Broken(f"in {seconds} s it did not come: {what}")


class Scenario:
    """Some seconds of a feeder: segments come and go, reports, checkpoints, promotions."""

    def __init__(self, place, wrap, environment, feed):
        self.place = place
        self.feeds = []
        # A fault of a call at the start may end it.
        self.may_end = wrap[:1] == ["strace"]
        self.kind = type("Wrapped", (Traced,), {"wrap": wrap, "environment": environment, "program_of_feed": feed})
        self.plain = type("Plain", (Traced,), {"program_of_feed": feed})

    def start(self, kind):
        feed = kind(self.place, "--checkpoint", "7", "--keep", "1")
        self.feeds.append(feed)
        return feed

    def begin(self):
        """A fault at the start may end it: then it starts again, as its supervisor would."""
        feed = self.start(self.kind)
        if feed.process.poll() is None and feed.address:
            return feed
        if feed.ended() != 1 or not self.may_end:
            raise Broken(f"it ended with {feed.process.returncode}")
        return self.start(self.plain)

    def play(self):
        place = self.place
        place.put_segment(files(1, 0, 1))
        place.put_segment(files(8, 1, 1))
        feed = self.begin()
        soon("TXID 14", lambda: feed.status().get("txid") == 14)
        feed.report(*full_report(1, 0, 1))
        place.put(f"edits_inprogress_{15:019}", files(15, 2, 1)[0])
        self.is_refused(feed, 14, "edits_above")
        place.put_segment(files(15, 2, 1))
        os.remove(os.path.join(place.edits, f"edits_inprogress_{15:019}"))
        soon("TXID 21", lambda: feed.status().get("txid") == 21)
        self.hide()
        self.is_refused(feed, 14, "ahead")
        if feed.status()["known"] != 21:
            raise Broken(f"it knows {feed.status()['known']}, and 21 was seen")
        soon("the promotion", lambda: self.promoted(feed, 21, 2))
        if (got := feed.promote(21, epoch=1)) != (409, "late_epoch"):
            raise Broken(f"an epoch of before is answered {got}")
        soon("health", lambda: feed.ask("GET", "/health")[0] == 200)
        soon("a clear disk", lambda: not self.left())
        self.end(feed)

    def hide(self):
        """All segments are gone, as from a mount point without its mount."""
        for name in os.listdir(self.place.edits):
            os.remove(os.path.join(self.place.edits, name))

    def is_refused(self, feed, txid, code):
        def refused():
            status, got = feed.promote(txid, epoch=1)
            if status == 200:
                raise Broken(f"promoted at {txid}, where it has to be refused as {code}")
            if got != code and got not in PASSING:
                raise Broken(f"a promotion at {txid} is refused as {got}, and not as {code}")
            return got == code

        soon(f"{code} at {txid}", refused)

    @staticmethod
    def promoted(feed, txid, epoch):
        status, got = feed.promote(txid, epoch=epoch)
        if status != 200 and got not in PASSING:
            raise Broken(f"a promotion at {txid} is refused as {got}")
        return status == 200

    def left(self):
        return [name for name in os.listdir(self.place.checkpoints) if name.startswith("writing_")]

    def end(self, feed):
        feed.ask("POST", "/stop")
        if (status := feed.ended()) != 0:
            raise Broken(f"it ended with {status}")
        feed = self.start(self.plain)
        told = soon("a restart", lambda: (found := feed.status()).get("version") and found)
        if (told["known"], told["epoch"]) != (21, 2):
            raise Broken(f"a restart knows {told['known']} and epoch {told['epoch']}")

    def run(self):
        """What broke, or None."""
        try:
            self.play()
        except (Broken, Failed) as broken:
            return str(broken)
        except (OSError, ValueError, KeyError) as fault:
            return f"{fault!r}"
        finally:
            told = "".join(feed.told() for feed in self.feeds)
            self.place.end()
        return "it raised" if "Traceback" in told else None


class Trials:
    """Plays the scenario with one fault after another, some side by side."""

    def __init__(self, program, folder, feed=None):
        self.program, self.folder = program, folder
        self.feed = feed
        self.count = 0

    def place(self, name):
        return Place(os.path.join(self.folder, name), self.program)

    def recorded(self):
        """How often each call comes, in the thread that makes it most often."""
        place = self.place("recorded")
        log = os.path.join(self.folder, "log")
        why = Scenario(place, strace(place, "-o", log, "-e", f"trace={','.join(ERRORS)}"), None, self.feed).run()
        if why is not None:
            raise Failed(f"without a fault the scenario breaks: {why}")
        with open(log) as rows:
            counts = Counter(found.groups() for found in map(CALL.match, rows) if found)
        most = Counter()
        for (_, call), count in counts.items():
            most[call] = max(most[call], count)
        return most

    def trials(self):
        return [(call, error, at) for call, count in sorted(self.recorded().items()) for at in range(1, count + 1) for error in ERRORS[call]]

    def one(self, trial):
        call, error, at = trial
        place = self.place(f"{call}-{error}-{at}")
        wrap = strace(place, "-o", os.devnull, "-e", f"trace={call}", "-e", f"inject={call}:error={error}:when={at}")
        why = Scenario(place, wrap, None, self.feed).run()
        shutil.rmtree(place.folder, ignore_errors=True)
        return f"{call} fails with {error} at its time {at}", why

    def short(self):
        """All reads and writes are short; and standard error is full."""
        place = self.place("short")
        how = preloaded(self.folder, SHORT_BELOW=place.folder)
        yield "each read and write is short", Scenario(place, (), how, self.feed).run()

    def full(self):
        yield "standard error is full", Scenario(self.place("full"), ("sh", "-c", 'exec "$0" "$@" 2> /dev/full'), None, self.feed).run()

    def run(self, trials):
        with concurrent.futures.ThreadPoolExecutor(SIDE_BY_SIDE) as side_by_side:
            yield from side_by_side.map(self.one, trials)
        if shutil.which("cc"):
            yield from self.short()
        yield from self.full()


# Faults of the feeder that calls show, and the calls that do; without one the scenario alone, or with a full standard error.
SHOWN_BY = {
    "what is known is the folder of now": (),
    "a read error is a bad segment": (("read", "EIO", 1), ("read", "EIO", 2)),
    "what was being written stays": (("write", "ENOSPC", 1), ("write", "ENOSPC", 2)),
    "what is told may end it": (),
}


def planted(fault, folder):
    """A copy of the feeder with a fault. Answers the path of its command."""
    copy = os.path.join(folder, "feed")
    shutil.copytree(os.path.dirname(FEED), copy, ignore=shutil.ignore_patterns("__pycache__"))
    os.symlink(os.path.join(os.path.dirname(FEED), "..", "examples"), os.path.join(folder, "examples"))
    with open(os.path.join(copy, f"{fault.module}.py"), "w", encoding="utf-8") as file:
        file.write(fault.changed())
    return os.path.join(copy, os.path.basename(FEED))


def shown(program, fault):
    """What breaks with a fault of the feeder, or None."""
    with tempfile.TemporaryDirectory() as folder:
        trials = Trials(program, folder, planted(fault, folder))
        alone = Scenario(trials.place("alone"), (), None, trials.feed).run()
        found = [alone, *(trials.one(it)[1] for it in SHOWN_BY[fault.name]), *(why for _, why in trials.full())]
        return next(filter(None, found), None)


def teeth(program):
    """Puts back each of these faults. Answers how many no call shows."""
    missed = 0
    for fault in (it for it in faults() if it.name in SHOWN_BY):
        why = shown(program, fault)
        missed += why is None
        print(f"{fault.name}: {why or 'NOT SEEN'}", flush=True)
    return missed


def can_trace():
    """Whether strace is there, and may trace."""
    return bool(shutil.which("strace")) and subprocess.run(["strace", "-o", os.devnull, "true"], stderr=subprocess.DEVNULL).returncode == 0


def judge(program, count, seed=1, feed=None):
    """Plays so many trials, or all. Answers how many broke a law."""
    if not can_trace():
        print("there is no strace that may trace, and no call was made to fail")
        return 0
    broken = played = 0
    with tempfile.TemporaryDirectory() as folder:
        trials = Trials(program, folder, feed)
        found = trials.trials()
        chosen = found if count is None else random.Random(seed).sample(found, min(count, len(found)))
        for name, why in trials.run(chosen):
            played += 1
            broken += why is not None
            if why is not None:
                print(f"{name}: {why}", flush=True)
    print(f"{len(found)} faults of calls: {played} played, {broken} broken")
    return broken
