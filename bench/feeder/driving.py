"""What is driven: a feeder with its program, in folders of its own. And what counts the cases."""
import http.client
import itertools
import json
import os
import re
import signal
import socket
import subprocess
import sys
import threading
import time

from logs import name_of

HERE = os.path.dirname(os.path.realpath(__file__))
FEED = os.path.join(HERE, "..", "..", "feed", "zulurowan-feed")
SECONDS = 20
PAUSE = 0.02


class Failed(Exception):
    """What was waited for did not come."""


class Tally:
    """Counts and prints the cases."""

    def __init__(self):
        self.passed = self.failed = 0

    def same(self, name, got, wanted):
        self.holds(name, got == wanted, f"got    {shortened(got)}\nwanted {shortened(wanted)}")

    def contains(self, name, text, part):
        self.holds(name, part in text, f"got    {shortened(text)}\nwanted {part}")

    def holds(self, name, is_so, otherwise=""):
        if is_so:
            self.passed += 1
        else:
            self.failed += 1
        print(f"{'passed' if is_so else 'FAILED'}: {name}", flush=True)
        if not is_so and otherwise:
            print(otherwise, flush=True)


def shortened(value):
    text = repr(value)
    return text if len(text) <= 2000 else f"{text[:1000]} .. {text[-1000:]}"


def preloaded(folder, **settings):
    """The surroundings of a feeder whose calls go through the library of preloaded.c, which is built into a folder."""
    library = os.path.join(folder, "preloaded.so")
    subprocess.run(["cc", "-shared", "-fPIC", "-O2", "-o", library, os.path.join(HERE, "preloaded.c"), "-ldl"], check=True)
    return {**os.environ, "LD_PRELOAD": library, **settings}


def until(what, is_so):
    """Waits for something, and answers it."""
    end = time.monotonic() + SECONDS
    while time.monotonic() < end:
        if found := is_so():
            return found
        time.sleep(PAUSE)
    raise Failed(f"waited {SECONDS} s for this: {what}")


def child_of(process):
    """The one child of a process, or None where it has none."""
    try:
        with open(f"/proc/{process}/task/{process}/children") as file:
            return int(file.read().split()[0])
    except (OSError, IndexError):
        return None


def has_ended(process):
    """Whether a process is gone, or waits for its parent alone."""
    try:
        with open(f"/proc/{process}/stat") as file:
            return file.read().rpartition(")")[2].split()[0] == "Z"
    except (FileNotFoundError, ProcessLookupError):
        return True


class UnixConnection(http.client.HTTPConnection):
    """A connection to the operators' door."""

    def __init__(self, path):
        super().__init__("feed", timeout=SECONDS)
        self.path = path

    def connect(self):
        self.sock = socket.socket(socket.AF_UNIX, socket.SOCK_STREAM)
        self.sock.settimeout(self.timeout)
        self.sock.connect(self.path)


# What is asked at the reports' door.
OF_REPORTS = ("/report", "/heartbeat", "/health")


class Feed:
    """A feeder on the loopback, whose port is a free one."""

    # Another feeder than that of this repository, and other surroundings.
    program_of_feed = environment = None
    # How long it may take until it prints its address.
    start_seconds = SECONDS

    def __init__(self, place, *arguments):
        self.place, self.child = place, None
        self.errors = open(os.path.join(place.folder, f"errors-{place.started}"), "w+")
        place.started += 1
        command = self.command(place, *arguments)
        self.process = subprocess.Popen(command, stdout=subprocess.PIPE, stderr=self.errors, text=True, env=self.environment)
        place.running.append(self)
        # A feed that says nothing is ended, and then its output ends.
        timer = threading.Timer(self.start_seconds, self.process.kill)
        timer.start()
        self.address = self.process.stdout.readline().strip()
        timer.cancel()
        self.port = int(self.address.rpartition(":")[2].strip("/")) if self.address else None
        if self.address:
            until("it is loaded", self.is_loaded)
            self.child = child_of(self.process.pid)

    def command(self, place, *arguments):
        words = [sys.executable, self.program_of_feed or FEED, place.edits, place.checkpoints]
        return [*words, "--program", place.program, "--poll", str(PAUSE), *arguments]

    def is_loaded(self):
        try:
            return '"loading"' not in self.ask("GET", "/health")[1]
        except OSError:
            return self.process.poll() is not None

    def told(self):
        with open(self.errors.name) as file:
            return file.read()

    def ask(self, method, path, body=None, **headers):
        """The status and the body of an answer. `Content_Type` is that of JSON unless it is said."""
        headers = {"Content_Type": "application/json", **headers}
        headers = {name.replace("_", "-"): text for name, text in headers.items()}
        is_report = path in OF_REPORTS or "Host" in headers
        connection = http.client.HTTPConnection("127.0.0.1", self.port, timeout=SECONDS) if is_report else UnixConnection(self.place.door)
        try:
            connection.request(method, path, body, headers)
            answer = connection.getresponse()
            return answer.status, answer.read().decode()
        finally:
            connection.close()

    def raw(self, data):
        """The first line of what comes back for these bytes."""
        with socket.create_connection(("127.0.0.1", self.port), SECONDS) as connection:
            connection.sendall(data)
            return connection.makefile("rb").readline().decode()

    def status(self):
        return json.loads(self.ask("GET", "/status")[1])

    def tables(self):
        return self.ask("GET", "/tables")[1]

    def report(self, *reports):
        """Reports of one DataNode after another. Answers the last status, how many were taken and the numbers of the faults."""
        status, taken, faults = 200, 0, []
        for _, own in itertools.groupby(reports, lambda report: report["dn"]):
            status, body = self.ask("POST", "/report", json.dumps(list(own)))
            told = json.loads(body)
            taken, faults = taken + told["taken"], faults + [fault["fault"] for fault in told["faults"]]
        return status, taken, faults

    def promote(self, txid, **more):
        """The status, and the code or the state."""
        status, body = self.ask("POST", "/promote", json.dumps({"txid": txid, **more}))
        told = json.loads(body)
        return status, told.get("code") or told["state"]

    def reaches(self, txid):
        """Waits until a TXID is reached, and answers the status."""

        def reached():
            status = self.status()
            return status if status["txid"] >= txid else None

        return until(f"TXID {txid}", reached)

    def told_at_start(self):
        """What it told, once it said from where it goes on."""
        self.tells("goes on from TXID")
        return self.told()

    def tells(self, part, times=1):
        """Waits until a text was told so many times."""
        return until(f"told: {part}", lambda: self.told().count(part) >= times)

    def ended(self):
        """The status with which it ends by itself."""
        try:
            return self.process.wait(SECONDS)
        except subprocess.TimeoutExpired:
            raise Failed("the feeder did not end") from None

    def end(self):
        """Ends it and its program, whatever they do."""
        if self.process.poll() is None:
            self.process.kill()
        self.process.wait()
        if self.child is not None and not has_ended(self.child):
            os.kill(self.child, signal.SIGKILL)
        self.process.stdout.close()
        self.errors.close()

    def stop(self, which=signal.SIGTERM):
        """Ends it, and answers its status."""
        if self.process.poll() is None:
            self.process.send_signal(which)
        return self.ended()


class Place:
    """A folder of segments and one of checkpoints."""

    def __init__(self, folder, program):
        self.folder = folder
        self.program = program
        self.edits = os.path.join(folder, "edits")
        self.checkpoints = os.path.join(folder, "checkpoints")
        self.door = os.path.join(self.checkpoints, "operators")
        self.started = 0
        self.running = []
        os.makedirs(self.edits)

    def within(self, name, program=None):
        """Another place. Its feeds end with those of this one."""
        inner = Place(os.path.join(self.folder, name), program or self.program)
        inner.running = self.running
        return inner

    def put(self, name, text):
        """A file among the segments. It is there at once, and whole."""
        data = text if isinstance(text, bytes) else text.encode()
        writing = os.path.join(self.folder, "writing")
        with open(writing, "wb") as file:
            file.write(data)
        os.rename(writing, os.path.join(self.edits, name))

    def put_segment(self, lines):
        """A segment of these lines, under its name."""
        first, last = (json.loads(line)["txid"] for line in (lines[0], lines[-1]))
        self.put(name_of(first, last), "".join(lines))

    def images(self):
        """The names of the checkpoints, without the files beside them."""
        names = os.listdir(self.checkpoints) if os.path.exists(self.checkpoints) else []
        return sorted(name for name in names if re.fullmatch("fsimage_[0-9]+", name))

    def batch(self, text, *arguments):
        """What the program prints for a whole log and its reports."""
        done = subprocess.run([self.program, *arguments], input=text.encode(), capture_output=True, timeout=3 * SECONDS)
        return done.stdout.decode()

    def end(self):
        for feed in self.running:
            feed.end()
