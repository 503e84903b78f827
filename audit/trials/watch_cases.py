"""Trials of `watch`: a cluster whose images and segments come one after another, with a stand-in for `hdfs`."""
import contextlib
import json
import os
import re
import shutil
import signal
import subprocess
import time

from audit.trials.audit_damages import in_inode, story
from audit.trials.cases import document, record
from audit.watching.folders import Commands
from audit.watching.watch import is_whole_due
from hdfs.commands import in_words
from hdfs.finding import path_of_command
from hdfs.formats import Refused

WATCH = path_of_command("watch")
SECONDS = 30

# The TXIDs of the images, and of the segments that end there.
IMAGES = [18, 34, 58, 61, 64]
SEGMENTS = [(1, 18), (19, 34), (35, 58), (59, 61), (62, 64)]

# Copies its input, which is a dump already, and notes that.
HDFS = """#!/bin/sh
echo "$1 $2 $3 $(basename "$5")" >> "$0.asked"
cp "$5" "$7"
"""
# Waits until it is let go on.
SLOW_HDFS = """#!/bin/sh
echo $$ > "$0.begun.new"
mv "$0.begun.new" "$0.begun"
while [ ! -e "$0.go" ]; do sleep 0.05; done
cp "$5" "$7"
"""
ASKED = """oiv -p XML fsimage_0000000000000000018
oiv -p XML fsimage_0000000000000000034
oev -p XML edits_0000000000000000019-0000000000000000034
"""
FROM_AUDIT = ["verdict", "differences", "compared", "not_compared"]
MEMBERS = ["time", "from", "to", "status", *FROM_AUDIT, "seconds", "files"]
METRIC = re.compile(r'(hdfs_audit_[a-z_]+)(\{(?:verdict|kind)="(?:[^"\\\n]|\\["\\n])*"\})? ([0-9.]+)')

THREE_TIMES = in_inode("spare", "<replication>2<", "<replication>3<")
DIFFERENCE = 'replication "/data/spare" 2 3'


class Cluster:
    """What a cluster writes: the text of each image, and of each segment."""

    def __init__(self):
        cluster, _, _ = story()
        for name in ("later", "latest"):
            cluster.begin_segment()
            cluster.make_directory(cluster.root, name)
            cluster.end_segment()
        cluster.keep_image()
        self.images = cluster.images
        self.records = [text for _, text in cluster.records]

    def segment(self, first, last):
        return document(*self.records[first - 1 : last])


class Place:
    """Folders in which the files of a cluster come, and a watch on them."""

    def __init__(self, check, cluster):
        self.check = check
        self.cluster = cluster
        check.files += 1
        self.folder = os.path.join(check.folder, f"watch-{check.files}")
        self.images, self.edits, self.state = (os.path.join(self.folder, it) for it in ("images", "edits", "state"))
        os.makedirs(self.images)
        os.makedirs(self.edits)
        self.metrics = os.path.join(self.folder, "audit.prom")
        self.results = os.path.join(self.state, "results.jsonl")

    def put(self, folder, name, text):
        path = os.path.join(folder, name)
        with open(path, "w", encoding="utf-8", newline="") as file:
            file.write(text)
        return path

    def image(self, txid, damage=lambda text: text, suffix=".xml"):
        return self.put(self.images, f"fsimage_{txid:019}{suffix}", damage(self.cluster.images[txid]))

    def segment(self, first, last, suffix=".xml"):
        return self.put(self.edits, f"edits_{first:019}-{last:019}{suffix}", self.cluster.segment(first, last))

    def up_to(self, txid, suffix=".xml"):
        """The images and the segments up to a TXID are there."""
        for image, segment in zip(IMAGES, SEGMENTS):
            if image <= txid:
                self.image(image, suffix=suffix)
                self.segment(*segment, suffix=suffix)

    def lock(self):
        """A file that a command may hold."""
        return os.open(self.folder, os.O_RDONLY)

    def tool(self, name, text):
        path = self.put(self.folder, name, text)
        os.chmod(path, 0o755)
        return path

    def words(self, *more):
        folders = "--state", self.state, "--images", self.images, "--edits", self.edits
        return [WATCH, *folders, "--metrics", self.metrics, "--program", self.check.program, *more]

    def watch(self, *more):
        """The status of a run, and what it prints."""
        done = subprocess.run(self.words(*more), stdout=subprocess.PIPE, stderr=subprocess.PIPE, timeout=SECONDS)
        return done.returncode, done.stdout.decode() + done.stderr.decode()

    def tells(self, name, status, part, *more):
        """A run has to end with this status and to have this in its first line. Answers all that it prints."""
        got, output = self.watch(*more)
        first, word = output.partition("\n")[0], ("OK", "WARNING", "CRITICAL", "UNKNOWN")[status]
        told = got == status and first.startswith(f"{word}: ") and part in first and "Traceback" not in output
        self.check.holds(f"a watch: {name}", told, f"{got}\n{output}wanted {status} {part}")
        left = os.path.exists(os.path.join(self.state, "work"))
        self.check.holds(f"a watch leaves no dump: {name}", not left)
        return output

    def stands(self, name, txid, *words):
        """The chain has to stand at a TXID, and these have to be the words of all results."""
        with contextlib.suppress(FileNotFoundError), open(os.path.join(self.state, "state"), "rb") as file:
            got = json.loads(file.readline())["txid"]
            self.check.same(f"where the chain stands: {name}", got, txid)
        with open(self.results) as file:
            self.check.same(f"the results: {name}", [json.loads(line)["status"] for line in file], list(words))

    def grow_old(self, seconds):
        """All results become so much older."""
        with open(self.results) as file:
            text = file.read()
        older = time.strftime("%Y-%m-%dT%H:%M:%SZ", time.gmtime(time.time() - seconds))
        self.put(self.state, "results.jsonl", re.sub('"time":"[^"]*"', f'"time":"{older}"', text))

    def figures(self):
        """The metrics, by their names and labels. Each has to be of the form that Prometheus reads."""
        with open(self.metrics) as file:
            lines = file.read().splitlines()
        named = {name for line in lines for name in re.findall("^# TYPE ([a-z_]+) (?:gauge|counter)$", line)}
        helped = {name for line in lines for name in re.findall("^# HELP ([a-z_]+) [^ ].*$", line)}
        rows = [METRIC.fullmatch(line) for line in lines if not line.startswith("#")]
        self.check.holds("the form of the metrics", all(rows) and named == helped == {row[1] for row in rows}, lines)
        return {(row[1] + (row[2] or "")).replace("hdfs_audit_", ""): float(row[3]) for row in rows}


def check_watch(check):
    """Images that come one after another, and all that may be wrong with them, with the log and with the commands."""
    begun = time.monotonic()
    cluster = Cluster()
    for part in PARTS:
        part(Place(check, cluster))
    print(f"the watch took {time.monotonic() - begun:.0f} s")


def check_begin(place):
    """A chain begins with two images. Each further one is audited once."""
    hdfs = "--hdfs", place.tool("hdfs", HDFS)
    place.tells("no image", 3, "a chain begins with two images", *hdfs)
    place.image(18, suffix="")
    place.tells("one image", 3, "a chain begins with two images", *hdfs)
    place.check.same("the metrics before any audit", place.figures().get("last_txid"), None)
    place.up_to(34, suffix="")
    place.put(place.images, "fsimage_0000000000000000034.md5", "no image")
    place.segment(59, 61)
    before = contents(place)
    place.tells("two images", 0, "the image of TXID 34 is the same in names, kinds, ", *hdfs)
    place.check.same("no file of the operator is changed", contents(place), before)
    with open(f"{hdfs[1]}.asked") as file:
        place.check.same("what hdfs was asked", file.read(), ASKED)
    place.tells("nothing new", 0, "nothing new: no image is newer than that of TXID 34")
    place.up_to(64)
    output = place.tells("three images", 0, "the image of TXID 64 is the same in ")
    place.check.contains("the first of three images", output, "Z the image of TXID 58 is the same in ")
    place.stands("five images", 64, "same", "same", "same", "same")
    due = [is_whole_due(audits, every) for every in (0, 1, 3) for audits in range(3)]
    place.check.same("which audits are of the whole", due, [False] * 3 + [True] * 3 + [False, False, True])
    check_told(place)


def contents(place):
    """The names, texts and times of all files of the operator."""
    found = {}
    for folder in (place.images, place.edits):
        for name in os.listdir(folder):
            path = os.path.join(folder, name)
            with open(path) as file:
                found[path] = file.read(), os.stat(path).st_mtime_ns
    return found


def check_told(place):
    """A result has all its members, and the metrics are those of the results."""
    with open(place.results) as file:
        *_, last = map(json.loads, file)
    place.check.same("the members of a result", list(last), MEMBERS)
    place.check.same("a result", [last[name] for name in ("from", "to", "status", "differences")], [61, 64, "same", []])
    names = ["fsimage_0000000000000000064.xml", "edits_0000000000000000062-0000000000000000064.xml"]
    place.check.same("the files of a result", last["files"], names)
    figures = place.figures()
    times = figures["last_success_timestamp_seconds"], figures["last_run_timestamp_seconds"]
    are_now = all(abs(it - time.time()) < 600 for it in times) and re.fullmatch(r"[-0-9]{10}T[:0-9]{8}Z", last["time"])
    place.check.holds("the time of the last success", are_now, figures)
    got = {name: value for name, value in figures.items() if "seconds" not in name}
    counts = {'runs_total{verdict="same"}': 4, 'runs_total{verdict="differs"}': 0, 'runs_total{verdict="unknown"}': 0}
    kinds = {f'not_compared{{kind="{kind}"}}': count for kind, count in last["not_compared"].items()}
    place.check.same("the metrics", got, {"last_txid": 64, "last_status": 0, **counts, **kinds})
    left = last["not_compared"]
    place.check.same("what a result did not compare", (left["inode/mtime"], "INODEID" in left, len(left)), (12, False, 8))
    end = f"not compared: {sum(left.values())} items of {len(left)} kinds"
    place.check.contains("the verdict in a result", last["verdict"], end)
    place.check.contains("its gauge", kinds, 'not_compared{kind="inode/mtime"}')


def check_age(place):
    """Where nothing is new for too long, that is told."""
    place.up_to(34)
    place.tells("an image", 0, "the same")
    place.grow_old(7200)
    place.tells("nothing new, not for long", 0, "nothing new", "--warn-after", "7300")
    place.tells("nothing new for too long", 1, "nothing new for 7,", "--warn-after", "7100")
    place.check.same("its metric", place.figures()["last_status"], 1)


def check_difference(place):
    """A difference is critical until a newer image is the same."""
    place.up_to(18)
    place.up_to(34)
    place.segment(35, 58)
    place.tells("the first audit", 0, "the image of TXID 34 is the same in ")
    place.image(58, THREE_TIMES)
    output = place.tells("a wrong image", 2, "differs: the image of TXID 58 is not what the log makes of")
    place.check.same("the difference", output.splitlines()[1:], [DIFFERENCE])
    with open(place.results) as file:
        *_, last = map(json.loads, file)
    place.check.same("the difference in the results", last["differences"], [DIFFERENCE])
    place.tells("a wrong image, and nothing new", 2, "Z differs: the image of TXID 58 is not what")
    place.check.same("its metric", place.figures()["last_status"], 2)
    place.image(61)
    place.tells("a wrong image, and a gap", 2, "Z differs: the image of TXID 58 is not what")
    place.segment(59, 61)
    place.tells("a newer image is the same", 0, "the image of TXID 61 is the same in ")
    place.check.same("the metric then", place.figures()["last_status"], 0)
    place.stands("a difference", 61, "same", "differs", "unknown", "same")


def check_among(place):
    """A difference is told by the run that finds it, also where a newer image is the same."""
    place.up_to(61)
    place.image(34, in_inode("spare", "<name>spare<", "<name>sp|re<"))
    output = place.tells("a wrong image among others", 2, "differs: the image of TXID 34 is not")
    place.check.contains("a path with a bar", output, 'extra "/data/sp\\u007cre" file')
    place.check.contains("an image behind a wrong one", output, "the image of TXID 61 is the same in ")
    place.stands("a wrong image among others", 61, "differs", "same", "same")
    place.tells("the run behind that", 0, "nothing new: ")


def check_segments(place):
    """A segment in progress is waited for. A gap is told, until it is filled."""
    place.up_to(34)
    place.tells("before a segment in progress", 0, "the same")
    place.image(58)
    text = place.cluster.segment(35, 58)
    in_progress = place.put(place.edits, "edits_inprogress_0000000000000000035", text)
    place.tells("a segment in progress", 0, "the image of TXID 58 waits for TXID 35")
    place.grow_old(200_000)
    place.tells("a segment in progress for too long", 1, "the image of TXID 58 waits for TXID 35")
    os.remove(in_progress)
    place.tells("no segment", 3, "has TXID 35, and the image is of TXID 58")
    place.check.same("its metric", place.figures()["last_status"], 3)
    place.segment(40, 58)
    place.put(place.edits, "edits_inprogress_0000000000000000030", text)
    place.tells("a gap", 3, "no finalized segment in")
    place.stands("a gap", 34, "same", "unknown", "unknown")
    place.segment(35, 41)
    place.tells("a gap that is filled", 0, "the image of TXID 58 is the same in ")
    place.stands("a gap that is filled", 58, "same", "unknown", "unknown", "same")


def check_no_apply(place):
    """A log that does not apply leaves the chain where it is."""
    place.up_to(58)
    lost = [*place.cluster.records[:18], record("OP_DELETE", 19, "<PATH>/no</PATH>"), *place.cluster.records[19:34]]
    place.put(place.edits, f"edits_{19:019}-{34:019}.xml", document(*lost[18:]))
    for name in ("a log that does not apply", "a log that does not apply, again"):
        output = place.tells(name, 2, "differs: the log does not apply to the image of TXID 18")
        place.check.contains("where it does not", output, "\nfault TXID 19: ")
    place.stands("a log that does not apply", None, "differs", "differs")
    place.up_to(58)
    place.tells("a log that was put right", 0, "the image of TXID 58 is the same in ")


def check_unknown(place):
    """Nothing is said where a command fails, and the chain stays. No image is passed over."""
    place.up_to(58)
    killed = place.tool("killed", "#!/bin/sh\nkill -9 $$\n")
    place.tells("a program that is killed", 3, "the program was killed by signal 9", "--program", killed)
    place.tells("no program", 3, "there is no program", "--program", os.path.join(place.folder, "nothing"))
    torn = place.image(58, lambda text: text[: len(text) // 2])
    place.tells("a torn image", 3, "TXID 58: ")
    place.image(61)
    place.segment(59, 61)
    output = place.tells("a torn image, and one behind it", 3, "ends in the middle")
    place.check.contains("which image is torn", output, torn)
    place.stands("a torn image", 34, "unknown", "unknown", "same", "unknown", "unknown")
    os.remove(torn)
    os.replace(place.image(58, suffix=".other"), os.path.join(place.images, "fsimage_0000000000000000061.xml"))
    place.tells("an image of another TXID", 3, "0000000000000000061.xml is of another TXID")
    place.image(61)
    place.tells("a torn image that is taken away", 0, "the image of TXID 61 is the same in ")
    place.stands("that image", 61, "unknown", "unknown", "same", *["unknown"] * 3, "same")


def check_hdfs(place):
    """What may be wrong with `hdfs`."""
    place.up_to(34, suffix="")
    half = place.tool("half", '#!/bin/sh\nhead -c 900 "$5" > "$7"\n')
    fails = place.tool("fails", "#!/bin/sh\necho more >&2\necho Out of heap. >&2\nexit 7\n")
    sleeps = place.tool("sleeps", "#!/bin/sh\nsleep 600 & echo $! > $0.pid\nwait\n")
    for name, part, command in (
        ("hdfs fails", "fsimage_0000000000000000018: status 7: Out of heap.", fails),
        ("hdfs makes nothing", "status 0: it says nothing", "true"),
        ("there is no hdfs", "there is no command no-hdfs", "no-hdfs --config x"),
        ("hdfs makes half a dump", "ends in the middle", half),
        ("hdfs takes too long", "oiv took more than 1 seconds, and was ended", sleeps),
    ):
        place.tells(name, 3, part, "--hdfs", command, "--timeout", "1" if command == sleeps else "20")
    with open(f"{sleeps}.pid") as file:
        place.check.holds("what hdfs started has ended", has_ended(int(file.read())))
    place.stands("hdfs fails", None, *["unknown"] * 5)
    place.up_to(34)
    place.tells("dumps beside their files", 0, "the same", "--hdfs", fails)


def check_left(place):
    """An audit that goes on with what is left of it has time for that, and one that does nothing is ended."""
    commands, shown = Commands("hdfs", 1, place.lock(), place.folder), os.path.join(place.folder, "shown")
    goes_on = f"for i in 1 2 3 4 5 6; do echo $i > {shown}; sleep 0.4; done; echo done"
    place.check.same("a command that goes on", commands.run(["sh", "-c", goes_on], shown), (0, "done\n", ""))
    for name, text in (("stops", f"echo 1 > {shown}; sleep 600"), ("shows nothing", "sleep 600")):
        begun = time.monotonic()
        told = None
        with contextlib.suppress(FileNotFoundError):
            os.remove(shown)
        try:
            commands.run(["sh", "-c", text], shown)
        except Refused as reason:
            told = str(reason)
        place.check.same(f"a command that {name}", told, "sh -c did nothing for more than 1 seconds, and was ended")
        place.check.holds(f"when a command that {name} is ended", time.monotonic() - begun < SECONDS)


def check_nothing(place):
    """A command is not said to be missing where it is something else that is."""
    commands, before = Commands("hdfs", 1, place.lock(), place.folder), os.devnull
    for name, devnull, words, told in (
        ("a missing command", before, ["no-such-command"], "there is no command no-such-command"),
        ("no /dev/null", os.path.join(place.folder, "null"), ["true"], f"there is no file or folder {place.folder}/null"),
        ("a command that is there", before, ["true"], (0, "", "")),
    ):
        os.devnull = devnull
        try:
            got = commands.run(words)
        except (Refused, OSError) as reason:
            got = in_words(reason)
        finally:
            os.devnull = before
        place.check.same(name, got, told)


def has_ended(process):
    """Whether a process has ended, though nobody may have asked for its status."""
    try:
        with open(f"/proc/{process}/stat") as file:
            return file.read().rpartition(")")[2].split()[0] in "ZX"
    except FileNotFoundError:
        return True


def check_at_once(place):
    """Two runs at once; a run that is ended; one that is killed, whose command lives on."""
    place.up_to(34, suffix="")
    slow = place.tool("slow", SLOW_HDFS)
    with begun(place, slow) as first:
        before = time.monotonic()
        status, output = place.watch("--hdfs", slow)
        told = status == 3 and output.startswith("UNKNOWN: nothing can be said: another audit uses ")
        place.check.holds("two runs at once", told and time.monotonic() - before < 10, output)
        first.send_signal(signal.SIGTERM)
        got = first.communicate(timeout=SECONDS)[0], first.returncode
        place.check.same("a run that is ended", got, (b"UNKNOWN: nothing can be said: signal 15 ended the watch\n", 3))
        place.check.holds("its command has ended", has_ended(process_of(slow)))
        place.check.same("what it leaves", sorted(os.listdir(place.state)), ["lock", "results.jsonl"])
    with begun(place, slow) as first:
        first.kill()
        first.communicate(timeout=SECONDS)
        status, output = place.watch("--hdfs", slow)
        place.check.same("the command of a run that was killed", (status, "another audit uses" in output), (3, True))
        os.kill(process_of(slow), signal.SIGKILL)
    place.put(place.folder, "slow.go", "")
    place.tells("a run behind one that was killed", 0, "the same", "--hdfs", slow)


@contextlib.contextmanager
def begun(place, slow):
    """A run whose first command has begun, and waits."""
    with contextlib.suppress(FileNotFoundError):
        os.remove(f"{slow}.begun")
    words = place.words("--hdfs", slow)
    with subprocess.Popen(words, stdout=subprocess.PIPE, stderr=subprocess.STDOUT) as child:
        try:
            until = time.monotonic() + SECONDS
            while not os.path.exists(f"{slow}.begun") and time.monotonic() < until:
                time.sleep(0.02)
            yield child
        finally:
            child.kill()


def process_of(slow):
    with open(f"{slow}.begun") as file:
        return int(file.read())


def check_results(place):
    """A result that was cut off is written again, and no file of anything else is touched."""
    place.up_to(34)
    place.tells("before a crash", 0, "the same")
    shutil.copy(os.path.join(place.state, "state"), os.path.join(place.folder, "state-34"))
    place.up_to(58)
    place.tells("before another crash", 0, "the same")
    with open(place.results, "rb") as file:
        whole = file.read()
    for name, torn in (("cut off", whole[:-40]), ("of no bytes", whole[: whole.index(b"\n") + 1] + b"\0" * 99)):
        shutil.copy(os.path.join(place.folder, "state-34"), os.path.join(place.state, "state"))
        with open(place.results, "wb") as file:
            file.write(torn)
        place.tells(f"a result that is {name}", 0, "the image of TXID 58 is the same in ")
        place.stands(f"a result that is {name}", 58, "same", "same")
    shutil.copy(os.path.join(place.folder, "state-34"), os.path.join(place.state, "state"))
    place.tells("a crash before the chain moves", 0, "the image of TXID 58 is the same in ")
    place.stands("a crash before the chain moves", 58, "same", "same", "same")
    for text in ("a letter to a friend\n", "a note", '{"status":"same"}\n', "[]\n"):
        other = place.put(place.folder, "other", text)
        place.tells(f"a file of {text!r} for the results", 3, "is no result of an audit", "--results", other)
        with open(other) as file:
            place.check.same("that file then", file.read(), text)
    os.remove(place.results)
    place.tells("no results of a chain", 3, "the chain stands at TXID 58, of which")
    place.tells("no folder for the metrics", 3, "no", "--metrics", os.path.join(place.folder, "no", "a.prom"))
    place.tells("no folder of images", 3, "there is no file or folder ", "--images", os.path.join(place.folder, "no"))
    place.check.same("its metric", place.figures()["last_status"], 3)
    place.tells("a bad argument", 3, "--warn-after", "--warn-after", "-1")


PARTS = (
    check_begin,
    check_age,
    check_difference,
    check_among,
    check_segments,
    check_no_apply,
    check_unknown,
    check_hdfs,
    check_left,
    check_nothing,
    check_at_once,
    check_results,
)
