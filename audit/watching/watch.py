"""A watch: audits each new image of a folder, one after another, and keeps the chain of audits with their results.

An audit runs beside the chain. Its result is written first, and then the chain moves on: a watch that is stopped
anywhere does the audit again, and no result is lost.
"""
import contextlib
import json
import os
import shutil
import sys
import time

from audit.chain.links import STATE, Chain
from audit.watching.folders import Commands, Waits, images_in, last_line, segments_between
from audit.watching.results import DIFFERS, SAME, UNKNOWN, Results, metrics, put, seconds_of, time_text
from hdfs.commands import in_words
from hdfs.finding import path_of_command
from hdfs.formats import Refused


# Nagios' statuses, and their order from the best to the worst.
OK, WARNING, CRITICAL, NOTHING_SAID = range(4)
NAMES = ["OK", "WARNING", "CRITICAL", "UNKNOWN"]
RANKS = [OK, WARNING, NOTHING_SAID, CRITICAL]
STATUS_OF = {SAME: OK, DIFFERS: CRITICAL, UNKNOWN: NOTHING_SAID}

# So many differences are kept of each audit.
MOST = 20
# What an audit's status means.
WORDS = {0: SAME, 1: DIFFERS}
# The members of an audit's object that a result has too.
FROM_AUDIT = ("verdict", "differences", "compared", "not_compared")
NOTHING = "audit: nothing can be said: "


class Watch:
    """One run, by its options. It holds the lock of the chain until it ends."""

    def __init__(self, options):
        self.options = options
        self.chain = Chain(options.state)
        self.results = Results(options.results or os.path.join(options.state, "results.jsonl"))
        # The folder for dumps, and the state of an audit beside the chain.
        self.work = os.path.join(options.state, "work")
        self.beside = os.path.join(self.work, "beside")
        self.commands = Commands(options.hdfs, options.timeout, self.chain.lock.fileno(), self.work)
        # The results of this run, why it audits no further image, and what failed.
        self.done = []
        self.stopped = self.failed = None

    def run(self):
        """Audits what is new. Answers Nagios' status, and the lines that tell it."""
        try:
            while self.goes_on():
                pass
        except (Refused, OSError) as reason:
            self.failed = reason
        finally:
            self.clear()
        status, text = self.told()
        lines = [line for result in self.done for line in lines_of(result, len(self.done) > 1)]
        if self.options.metrics:
            try:
                put(self.options.metrics, metrics(self.results, status, int(time.time())))
            except OSError as reason:
                lines.append(f"no metrics were written: {in_words(reason)}")
                if status in (OK, WARNING):
                    status, text = NOTHING_SAID, lines[-1]
        return status, [f"{NAMES[status]}: {text}", *lines]

    def clear(self):
        """Takes the dumps away, with those that a watch left which was killed."""
        with contextlib.suppress(FileNotFoundError):
            shutil.rmtree(self.work)

    def goes_on(self):
        """Audits the next image. Answers whether one behind it can be audited."""
        link, _ = self.chain.found()
        images = images_in(self.options.images)
        if link is None and len(images) < 2:
            self.stopped = f"a chain begins with two images, and {self.options.images} has {len(images)}"
            return False
        first = None if link else next(iter(images))
        before = link.txid if link else first
        txid = next((txid for txid in images if txid > before), None)
        if txid is None:
            self.stopped = f"no image is newer than that of TXID {before}"
            return False
        try:
            result = self.audit(before, txid, images[txid], images.get(first))
        except Waits as reason:
            self.stopped = str(reason)
            return False
        self.results.add(result)
        self.done.append(result)
        if not self.has_moved():
            return False
        os.replace(os.path.join(self.beside, STATE), self.chain.name)
        return True

    def audit(self, before, txid, image, first):
        """The result of an audit. The first one has no chain, and goes on from the first image."""
        begun = time.time()
        paths = [path for path in (first, image) if path]
        try:
            segments = segments_between(self.options.edits, before, txid)
            paths += [segment.path for segment in segments]
            audited = self.ask(txid, image, first, segments)
        except Waits:
            raise
        except (Refused, OSError) as reason:
            self.clear()
            told = f"nothing can be said of the image of TXID {txid}: {in_words(reason)}"
            audited = {"status": UNKNOWN, "verdict": told, "differences": [], "compared": [], "not_compared": {}}
        ended = time.time()
        return {
            "time": time_text(ended),
            "from": before,
            "to": txid,
            "status": audited["status"],
            **{name: audited[name] for name in FROM_AUDIT},
            "seconds": round(ended - begun, 3),
            "files": list(map(os.path.basename, paths)),
        }

    def ask(self, txid, image, first, segments):
        """Audits an image beside the chain. Answers the object that the audit prints."""
        self.clear()
        os.makedirs(self.beside)
        if first is None:
            os.symlink(os.path.abspath(self.chain.name), os.path.join(self.beside, STATE))
        words = [sys.executable, path_of_command("audit"), "--program", os.path.abspath(self.options.program)]
        shown = os.path.join(self.work, "progress")
        words += ["--state", self.beside, "--most", str(MOST), "--json", "--progress", shown]
        words += ["--from", self.commands.dump("oiv", first)] if first else []
        link, _ = self.chain.found()
        words += ["--whole"] if is_whole_due(link.audits if link else 0, self.options.whole_every) else []
        words += ["--to", self.commands.dump("oiv", image), "--"]
        words += [self.commands.dump("oev", segment.path) for segment in segments]
        status, output, errors = self.commands.run(words, shown)
        audited = object_in(output)
        if status not in WORDS or audited.get("status") != WORDS[status]:
            raise Refused(reason_in(errors) or f"the audit ended with status {status}: {last_line(errors)}")
        if self.has_moved() and Chain(self.beside).found()[0].txid != txid:
            raise Refused(f"{image} is of another TXID")
        return audited

    def has_moved(self):
        """Whether the chain beside has a new end. It has none where the log does not apply."""
        state = os.path.join(self.beside, STATE)
        return os.path.isfile(state) and not os.path.islink(state)

    def told(self):
        """The worst status that there is, and what is told of it."""
        judged = self.results.last_judged
        told = [told_again(judged)] if judged and judged["status"] == DIFFERS else []
        told += [(STATUS_OF[result["status"]], told_of(result)) for result in self.done]
        if self.failed:
            told.append((NOTHING_SAID, f"nothing can be said: {in_words(self.failed)}"))
        return max(reversed(told or [self.told_idle(judged)]), key=lambda row: RANKS.index(row[0]))

    def told_idle(self, judged):
        """What is told where nothing was audited, and the last image that was had no difference."""
        link, _ = self.chain.found()
        if link is None:
            return NOTHING_SAID, f"nothing can be said: {self.stopped}"
        if judged is None or judged["to"] != link.txid:
            where = f"the chain stands at TXID {link.txid}, of which {self.results.name} has no result"
            return NOTHING_SAID, f"nothing can be said: {where}"
        silent = int(time.time()) - seconds_of(judged)
        if silent > self.options.warn_after:
            return WARNING, f"nothing new for {silent:,} seconds: {self.stopped}"
        return OK, f"nothing new: {self.stopped}; {judged['time']} {told_of(judged)}"


def is_whole_due(audits, every):
    """Whether the next audit of a chain of so many gives the program all of both images. With 0 none has to."""
    return every > 0 and (audits + 1) % every == 0


def told_of(result):
    """A result in a sentence, with the TXID of its image."""
    is_same = result["status"] == SAME and result["verdict"].startswith("the same in ")
    return f"the image of TXID {result['to']} is {result['verdict']}" if is_same else result["verdict"]


def told_again(judged):
    return CRITICAL, f"{judged['time']} {judged['verdict']}; no image since is the same"


def lines_of(result, with_verdict):
    """What is told of an audit behind the first line."""
    return [f"{result['time']} {told_of(result)}"] * with_verdict + result["differences"]


def object_in(output):
    """The object that an audit printed. There is nothing in it if it printed another thing."""
    try:
        found = json.loads(output)
    except ValueError:
        found = None
    return found if type(found) is dict else {}


def reason_in(errors):
    """Why an audit says nothing, or None."""
    return next((line[len(NOTHING) :] for line in errors.splitlines() if line.startswith(NOTHING)), None)
