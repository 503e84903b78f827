"""Measures the feeder, side by side with an earlier one: `bench/feed --measure CHECKOUT`, a checkout whose examples/live has a feeder.

Both have the same program, and take turns. Each row is printed with its goal. An idle machine is needed.
"""
import contextlib
import http.client
import json
import os
import re
import selectors
import socket
import statistics
import subprocess
import sys
import tempfile
import threading
import time

from driving import Feed, Place, child_of, until
from logs import FIRST_ID, files, segment

sys.path.append(os.path.join(os.path.dirname(os.path.realpath(__file__)), ".."))
from scripts import script

TICKS = os.sysconf("SC_CLK_TCK")
TURNS = 3
LISTS, LIST_REPORTS, ONES = 100, 1000, 6000
FLAT_SECONDS = 5
FILES = 1_000_000
IMAGE_TXID, LOAD_SECONDS = 5, 300


class Now(Feed):
    """The feeder, which may take long to load."""

    start_seconds = 300

    def is_loaded(self):
        return True


class Earlier(Now):
    """The feeder of an earlier checkout: one port, and no operators' door."""

    checkout = None

    def command(self, place, *arguments):
        words = [sys.executable, os.path.join(self.checkout, "examples", "live", "feed"), place.edits, place.checkpoints]
        return [*words, "--program", place.program, "--poll", "0.1", *arguments]

    def status(self):
        connection = http.client.HTTPConnection("127.0.0.1", self.port, timeout=60)
        connection.request("GET", "/status")
        answer = connection.getresponse()
        return json.loads(answer.read()) if answer.status == 200 else {}


def seconds_of(process):
    """The processor time that a process took."""
    with open(f"/proc/{process}/stat") as file:
        words = file.read().rpartition(")")[2].split()
    return (int(words[11]) + int(words[12])) / TICKS


class Load:
    """Connections that ask for the same again and again, each as soon as it is answered. One that is closed comes anew."""

    def __init__(self, port, bodies):
        self.port = port
        self.requests = [request(port, body) for body in bodies]
        self.selector = selectors.DefaultSelector()
        self.good = self.bad = self.sent = 0
        self.most = None

    def open(self, number):
        connection = socket.create_connection(("127.0.0.1", self.port), 60)
        connection.setsockopt(socket.IPPROTO_TCP, socket.TCP_NODELAY, 1)
        state = [number, b""]
        self.selector.register(connection, selectors.EVENT_READ, state)
        self.send(connection, state)

    def send(self, connection, state):
        if self.most is not None and self.sent >= self.most:
            self.drop(connection)
            return
        self.sent += 1
        state[1] = b""
        try:
            connection.sendall(self.requests[state[0] % len(self.requests)])
        except OSError:
            pass

    def drop(self, connection):
        self.selector.unregister(connection)
        connection.close()

    def heard(self, connection, state):
        try:
            chunk = connection.recv(65_536)
        except OSError:
            chunk = b""
        state[1] += chunk
        if chunk and not is_whole(state[1]):
            return
        is_good = state[1].startswith(b"HTTP/1.1 200")
        self.good, self.bad = self.good + is_good, self.bad + (not is_good)
        if not chunk or b"\r\nConnection: close" in state[1]:
            self.drop(connection)
            if self.most is None or self.sent < self.most:
                self.open(state[0])
        else:
            self.send(connection, state)

    def run(self, connections, most=None, seconds=None):
        """Plays so many requests, or for so long. Answers the seconds that it took."""
        self.most = most
        begun = time.monotonic()
        for number in range(connections):
            self.open(number)
        while self.selector.get_map() and (seconds is None or time.monotonic() - begun < seconds):
            for key, _ in self.selector.select(1):
                self.heard(key.fileobj, key.data)
        took = time.monotonic() - begun
        for key in list(self.selector.get_map().values()):
            self.drop(key.fileobj)
        return took


def request(port, body):
    head = f"POST /report HTTP/1.1\r\nHost: 127.0.0.1:{port}\r\nContent-Type: application/json\r\nContent-Length: {len(body)}\r\n\r\n"
    return head.encode() + body


def is_whole(data):
    head, end, body = data.partition(b"\r\n\r\n")
    found = re.search(rb"\r\nContent-Length: (\d+)", head)
    return bool(end and found and len(body) >= int(found[1]))


def bodies(count):
    """A body of so many reports for each of 16 DataNodes."""
    made = []
    for dn in range(1, 17):
        reports = [{"dn": dn, "block": FIRST_ID + index, "gen": 1001 + index, "len": 5, "kind": "received"} for index in range(count)]
        made.append(json.dumps(reports if count > 1 else reports[0]).encode())
    return made


@contextlib.contextmanager
def running(kind, program, *arguments):
    with tempfile.TemporaryDirectory() as folder:
        place = Place(folder, program)
        place.put_segment(files(1, 0, LIST_REPORTS))
        try:
            feed = kind(place, *arguments)
            until("the log", lambda: feed.status().get("txid") == 5 * LIST_REPORTS + 2)
            feed.child = feed.child or child_of(feed.process.pid)
            yield feed
        finally:
            place.end()


def processor(kind, program, count, requests):
    """The feeder's processor time for each report, in microseconds, and that of the program."""
    with running(kind, program) as feed:
        load = Load(feed.port, bodies(count))
        load.run(16, most=50)
        before = seconds_of(feed.process.pid), seconds_of(feed.child)
        load = Load(feed.port, bodies(count))
        load.run(16, most=requests)
        after = seconds_of(feed.process.pid), seconds_of(feed.child)
        good = max(load.good, 1) * count
        return [(end - begin) / good * 1e6 for begin, end in zip(before, after)]


def flat_out(kind, program, connections):
    """How many single reports are answered with 200 in a second, the refused ones, and the feeder's part of a processor."""
    with running(kind, program) as feed:
        load = Load(feed.port, bodies(1))
        before = seconds_of(feed.process.pid)
        took = load.run(connections, seconds=FLAT_SECONDS)
        return load.good / took, load.bad / took, (seconds_of(feed.process.pid) - before) / took


def slow_reporters(port, count, is_over):
    """So many callers that send their body a byte at a time."""
    head = f"POST /report HTTP/1.1\r\nHost: 127.0.0.1:{port}\r\nContent-Type: application/json\r\nContent-Length: 60000\r\n\r\n[".encode()
    crowd = [socket.create_connection(("127.0.0.1", port), 60) for _ in range(count)]
    for connection in crowd:
        connection.sendall(head)

    def drip():
        while not is_over.wait(0.05):
            for connection in crowd:
                with contextlib.suppress(OSError):
                    connection.send(b" ")

    threading.Thread(target=drip, daemon=True).start()
    return crowd


def promotion(program):
    """The seconds that a promotion takes under 256 slow reporters, and over the pipe alone."""
    with running(Feed, program) as feed:
        is_over = threading.Event()
        crowd = slow_reporters(feed.port, 256, is_over)
        until("all places are taken", lambda: feed.ask("POST", "/report", "{}")[0] == 503)
        begun = time.monotonic()
        status = feed.promote(5 * LIST_REPORTS + 2, epoch=1)[0]
        took = time.monotonic() - begun
        is_over.set()
        for connection in crowd:
            connection.close()
    return took if status == 200 else None


def answered(process, words):
    """Sends these words, and reads to the end of one answer."""
    process.stdin.write(words)
    process.stdin.flush()
    for line in process.stdout:
        if line.startswith(b"done"):
            break


def own_promotion(program):
    log = "".join(files(1, 0, LIST_REPORTS)).encode()
    with subprocess.Popen([program, "--live"], stdin=subprocess.PIPE, stdout=subprocess.PIPE) as process:
        answered(process, log + b"status\n")
        begun = time.monotonic()
        answered(process, b"promote %d epoch 1\nstatus\n" % (5 * LIST_REPORTS + 2))
        took = time.monotonic() - begun
        process.kill()
    return took


def image():
    return "".join(f"{line}\n" for line in script("images").Image(FILES).lines())


def own_start(program, path):
    """The seconds from nothing to the first answer of the program alone."""
    begun = time.monotonic()
    with open(path, "rb") as file, subprocess.Popen([program, "--live", "--from-image"], stdin=subprocess.PIPE, stdout=subprocess.PIPE) as process:
        for chunk in iter(lambda: file.read(1_048_576), b""):
            process.stdin.write(chunk)
        answered(process, b"status\n")
        took = time.monotonic() - begun
        process.kill()
    return took


def begun_at_image(kind, program, text, *arguments):
    """A feeder at an image, and the seconds until it answers."""
    folder = tempfile.TemporaryDirectory()
    place = Place(folder.name, program)
    os.makedirs(place.checkpoints)
    with open(os.path.join(place.checkpoints, f"fsimage_{IMAGE_TXID:019}"), "w") as file:
        file.write(text)
    begun = time.monotonic()
    feed = kind(place, *arguments)
    while time.monotonic() - begun < LOAD_SECONDS and not is_at(feed, IMAGE_TXID):
        time.sleep(0.02)
    return folder, place, feed, time.monotonic() - begun


def is_at(feed, txid):
    status = feed.status()
    return status.get("txid") == txid and status.get("state") == "standby"


def start(kind, program, text):
    """The seconds until it answers, and the feeder's own processor time."""
    folder, place, feed, took = begun_at_image(kind, program, text)
    own = seconds_of(feed.process.pid)
    place.end()
    folder.cleanup()
    return took, own


def health_in_checkpoint(program, text):
    """The times of health while a checkpoint is written, in milliseconds, and the seconds that the checkpoint took."""
    folder, place, feed, _ = begun_at_image(Now, program, text, "--checkpoint", "1")
    times = []
    connection = http.client.HTTPConnection("127.0.0.1", feed.port, timeout=60)
    connection.request("GET", "/health")
    connection.getresponse().read()
    place.put_segment(segment(IMAGE_TXID + 1, ("OP_MKDIR", {"path": "/a"})))
    writing = os.path.join(place.checkpoints, f"writing_fsimage_{IMAGE_TXID + 3:019}")
    until("it begins", lambda: os.path.exists(writing) or len(place.images()) > 1)
    begun = time.monotonic()
    while len(place.images()) < 2:
        asked = time.monotonic()
        connection.request("GET", "/health")
        connection.getresponse().read()
        times.append((time.monotonic() - asked) * 1000)
        time.sleep(0.002)
    took = time.monotonic() - begun
    place.end()
    folder.cleanup()
    return times, took


def row(what, got, goal):
    print(f"{what}: {got} (goal: {goal})", flush=True)


def measure(program, checkout):
    """Prints all rows. Answers nothing that failed."""
    earlier = type("Old", (Earlier,), {"checkout": os.path.abspath(checkout)})
    print(f"the machine's load is {os.getloadavg()[0]:.1f} at the beginning", flush=True)
    for what, count, requests, goal in (("in lists of 1,000", LIST_REPORTS, LISTS, "half"), ("one by one", 1, ONES, "a third")):
        turns = [(processor(Feed, program, count, requests), processor(earlier, program, count, requests)) for _ in range(TURNS)]
        new, old = (min(turn[at][0] for turn in turns) for at in (0, 1))
        of_program = min(turn[0][1] for turn in turns)
        row(f"reports {what}", f"{new:.2f} us of processor each, before {old:.2f}, {new / old:.2f} of it; the program {of_program:.2f}", goal)
    for connections in (16, 256):
        turns = [(flat_out(Feed, program, connections), flat_out(earlier, program, connections)) for _ in range(TURNS)]
        new, old = (max(turn[at] for turn in turns) for at in (0, 1))
        told = f"{new[0]:,.0f} a second with {new[2]:.2f} of a processor, {new[1]:,.0f} refused; before {old[0]:,.0f} with {old[2]:.2f}, {old[1]:,.0f} refused"
        row(f"reports one by one, {connections} connections", told, "3,000")
    took = [promotion(program) for _ in range(TURNS)]
    own = [own_promotion(program) for _ in range(TURNS)]
    row("a promotion under 256 slow reporters", f"{statistics.median(took):.3f} s, over the pipe {statistics.median(own):.3f} s", "0.2 s more")
    text = image()
    with tempfile.NamedTemporaryFile("w") as file:
        file.write(text)
        file.flush()
        turns = [(start(Now, program, text), own_start(program, file.name), start(earlier, program, text)) for _ in range(TURNS)]
    new, own, old = (min(turn[at] for turn in turns) for at in range(3))
    told = f"{new[0]:.2f} s, {new[1]:.2f} s of them the feeder's processor time, the program's own {own:.2f} s, {new[0] / own:.2f} of it"
    row(f"start at {FILES:,} files", f"{told}; before {old[0]:.2f} s and {old[1]:.2f} s", "1.2")
    runs = [health_in_checkpoint(program, text) for _ in range(TURNS)]
    times = sorted(it for run, _ in runs for it in run)
    took = ", ".join(f"{seconds:.2f}" for _, seconds in runs)
    at = times[len(times) * 99 // 100]
    row("health during a checkpoint", f"at most {times[-1]:.1f} ms, 99 % {at:.1f} ms of {len(times):,}; it took {took} s", "10 ms")
    print(f"the machine's load is {os.getloadavg()[0]:.1f} at the end", flush=True)
    return 0
