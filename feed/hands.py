"""What carries out the core's actions: one thread owns the core and the pipe to the program, others wait for the world.

A reader takes what the program answers; one worker looks at the folder and one reads its segments, and both may hang on a
hard mount; one writes files; one tells. Threads of requests put them here, and wait.
"""
import fcntl
import os
import queue
import re
import selectors
import subprocess
import tempfile
import threading
import time
from collections import deque

from following import Unreadable
from segments import taken
from state import Damaged

CHUNK_BYTES = 1_048_576
SET_PIPE_SIZE = 1031
SECONDS_TO_END = 5
TOLD_LINES = 1000
# What the program tells of an image that it does not take.
OF_IMAGE = re.compile(rb"fault 6[1-6]\b")
ORDER = re.compile(rb"^order .*\n", re.MULTILINE)

clock = time.monotonic


class Ended(Exception):
    """The feeder can't begin. The text is the reason."""


class Worker:
    """A thread that does one thing after another."""

    def __init__(self, most=0):
        self.work = queue.Queue(most)
        threading.Thread(target=self.run, daemon=True).start()

    def run(self):
        while True:
            self.work.get()()

    def do(self, work):
        self.work.put(work)


class Teller:
    """Tells an operator what happens, on standard error. It never raises and never waits: that may be full, or closed."""

    def __init__(self, name):
        self.name = name
        self.worker = Worker(TOLD_LINES)

    def tell(self, text):
        """A text may come from a file of anybody: it gets no second line, and changes no terminal."""
        text = text if text.isprintable() else text.encode("unicode_escape").decode()
        line = f"{time.strftime('%Y-%m-%dT%H:%M:%SZ', time.gmtime())} {self.name}: {text}\n"
        try:
            self.worker.work.put_nowait(lambda: write_all(line))
        except queue.Full:
            pass

    def flush(self):
        """Waits a moment until all is told."""
        done = threading.Event()
        try:
            self.worker.work.put_nowait(done.set)
        except queue.Full:
            return
        done.wait(1)


def write_all(line):
    try:
        os.write(2, line.encode())
    except OSError:
        pass


class Process:
    """The program, from an image or from nothing, and the two ends of its pipes."""

    def __init__(self, program, arguments, image, check):
        command = [program, "--live", *arguments, *["--from-image"] * (image is not None)]
        # In a group of its own, so that a Ctrl-C goes to the feeder alone.
        self.process = subprocess.Popen(command, stdin=subprocess.PIPE, stdout=subprocess.PIPE, bufsize=0, start_new_session=True)
        self.input, self.output = self.process.stdin.fileno(), self.process.stdout.fileno()
        # This end alone does not wait: the program's end of the same pipe does.
        os.set_blocking(self.input, False)
        for descriptor in (self.input, self.output):
            try:
                fcntl.fcntl(descriptor, SET_PIPE_SIZE, CHUNK_BYTES)
            except OSError:
                pass
        self.image = open(image, "rb", buffering=0) if image is not None else None
        self.check = check
        self.image_bytes = os.fstat(self.image.fileno()).st_size if self.image else 0
        self.given = 0
        self.unsent = deque()
        self.is_full = False

    def send(self, data):
        self.unsent.append(memoryview(data))

    def has_unsent(self):
        return self.image is not None or bool(self.unsent)

    def write(self):
        """Hands on what there is room for. Answers whether a byte went."""
        before = self.given
        self.is_full = False
        while self.has_unsent() and not self.is_full:
            if self.image is not None and not (self.unsent and isinstance(self.unsent[0], Chunk)):
                self.next_chunk()
            else:
                self.write_first()
        return self.given != before

    def next_chunk(self):
        chunk = self.image.read(CHUNK_BYTES)
        if chunk:
            self.check.take(chunk)
            self.unsent.appendleft(Chunk(memoryview(chunk)))
        else:
            self.check.finish()
            self.forget_image()

    def forget_image(self):
        if self.image is not None:
            self.image.close()
            self.image = None

    def write_first(self):
        first = self.unsent.popleft()
        data = first.data if isinstance(first, Chunk) else first
        try:
            taken_bytes = os.write(self.input, data)
        except BlockingIOError:
            self.is_full, taken_bytes = True, 0
        self.given += taken_bytes
        if taken_bytes < len(data):
            left = data[taken_bytes:]
            self.unsent.appendleft(Chunk(left) if isinstance(first, Chunk) else left)

    def loaded(self):
        return min(self.given / self.image_bytes, 1.0) if self.image_bytes else 1.0

    def kill(self):
        if self.process.poll() is None:
            self.process.kill()

    def close(self):
        """Ends the program. What it knows is in the log and in the last checkpoint."""
        self.process.terminate()
        try:
            self.process.wait(SECONDS_TO_END)
        except subprocess.TimeoutExpired:
            self.process.kill()
            self.process.wait()


class Chunk:
    """Bytes of the image, which go before all that is sent."""

    def __init__(self, data):
        self.data = data


class Hands:
    """Owns the core: takes events one after another, and carries out what it asks for."""

    def __init__(self, process, store, folder, reader, teller, now):
        self.process, self.store, self.folder, self.reader, self.teller = process, store, folder, reader, teller
        self.core = None
        self.events = deque()
        self.is_woken = False
        self.waking, self.wakes = os.pipe()
        os.set_blocking(self.wakes, False)
        self.selector = selectors.DefaultSelector()
        self.selector.register(self.waking, selectors.EVENT_READ)
        self.is_watching = False
        self.exchanges = queue.SimpleQueue()
        self.looks, self.reads, self.files = Worker(), Worker(), Worker()
        # The images that are being written, by name; the file of another long answer. When a byte moved last.
        self.writing = {}
        self.long = None
        self.moved_at = now
        self.status = None
        # Whether the image is what the program, or its check, did not take.
        self.is_image_bad = False
        self.actions = {
            "list": self.look,
            "read": self.read,
            "send": self.send,
            "save": self.save,
            "finish": self.finish,
            "remove": self.remove,
            "reply": self.reply,
            "tell": teller.tell,
            "kill": process.kill,
            "end": self.end,
        }

    # ---- Events.

    def put(self, *event):
        """From any thread: an event of the core, by its name, with what it is given."""
        self.events.append(event)
        if not self.is_woken:
            self.is_woken = True
            try:
                os.write(self.wakes, b"x")
            except BlockingIOError:
                pass

    def run(self, tick):
        """Plays until the core ends. Answers the status with which the feeder ends."""
        threading.Thread(target=self.read_answers, daemon=True).start()
        next_tick = clock()
        self.act()
        while self.status is None:
            self.wait(max(next_tick - clock(), 0))
            self.take_events()
            if clock() >= next_tick:
                next_tick = clock() + tick
                self.tick()
            self.write()
        return self.status

    def wait(self, seconds):
        if self.process.has_unsent() != self.is_watching:
            self.is_watching = not self.is_watching
            if self.is_watching:
                self.selector.register(self.process.input, selectors.EVENT_WRITE)
            else:
                self.selector.unregister(self.process.input)
        for key, _ in self.selector.select(0 if self.events else seconds):
            if key.fd == self.waking:
                os.read(self.waking, 4096)

    def take_events(self):
        self.is_woken = False
        while self.events:
            name, *given = self.events.popleft()
            self.core.now = clock()
            getattr(self.core, name)(*given)
            self.act()

    def tick(self):
        self.core.now = clock()
        self.core.moved(self.moved_at)
        self.core.loaded(self.process.loaded())
        self.core.looking(self.folder.moves)
        self.core.tick()
        self.act()
        if self.process.process.poll() is not None and self.core.program.under_way is None:
            # Else its reader tells what it said last.
            self.core.end(1, f"the program ended with status {self.process.process.returncode}")
            self.act()

    def act(self):
        out = self.core.out
        while out:
            actions, out[:] = list(out), []
            for name, *given in actions:
                self.actions[name](*given)

    # ---- Actions.

    def look(self, look):
        def work():
            found = []
            fault = fault_of(lambda: found.append(self.folder.look(look)))
            self.put("looked", found[0] if found else None, fault)

        self.looks.do(work)

    def read(self, named, reached):
        path = os.path.join(self.folder.path, named.name)

        def work():
            result = []
            fault = fault_of(lambda: result.append(taken(self.reader, self.folder.system, path, named, reached)))
            self.put("read", named.name, result[0] if result else Unreadable(fault))

        self.reads.do(work)

    def save(self, name, data):
        self.files.do(lambda: self.put("saved", name, fault_of(lambda: self.store.replace(name, data))))

    def finish(self, name, number):
        self.files.do(lambda: self.put("saved", name, fault_of(lambda: self.writing.pop(name).finish(number))))

    def remove(self, name):
        self.files.do(lambda: self.put("removed", name, fault_of(lambda: self.store.remove(name))))

    def reply(self, who, status, value):
        if "file" in value:
            value["file"], self.long = self.long, None
        who.answer(status, value)

    def end(self, status):
        self.status = status

    # ---- The pipe.

    def send(self, data, number, file):
        self.exchanges.put((b"done %d\n" % number, file))
        self.process.send(data)
        self.write()

    def write(self):
        """Writes what there is room for. A program that is gone is seen by its reader."""
        try:
            if self.process.has_unsent() and self.process.write():
                self.moved_at = clock()
        except BrokenPipeError:
            self.process.unsent.clear()
            self.process.forget_image()
        except (Damaged, OSError) as fault:
            # The image is not what was written, or can't be read: nothing behind it is sent.
            self.process.unsent.clear()
            self.process.forget_image()
            self.process.kill()
            self.is_image_bad = True
            self.core.end(1, f"the checkpoint can't be taken: {fault}")
            self.act()

    def read_answers(self):
        """Takes one answer after another, in a thread of its own."""
        while True:
            done, file = self.exchanges.get()
            answer = Answer(self, done, file)
            if not answer.read():
                self.is_image_bad |= bool(OF_IMAGE.match(answer.last()))
                self.put("end", 1, f"the program ended{answer.told()}")
                return
            self.put("answered", answer.data, answer.fault)

    def begin(self, name):
        """The file for a long answer: that of a checkpoint, or one that has no name."""
        if name.startswith("fsimage_"):
            self.writing[name] = self.store.begin(name)
            return self.writing[name]
        self.long = tempfile.TemporaryFile()
        return WithoutOrders(self.long) if self.core.settings.hides_orders else self.long


class WithoutOrders:
    """The file of tables, where no order is shown: their lines are left out."""

    def __init__(self, file):
        self.file = file
        self.rest = b""
        self.close = file.close

    def write(self, data):
        whole, end, self.rest = (self.rest + data).rpartition(b"\n")
        self.file.write(ORDER.sub(b"", whole + end))


class Answer:
    """An answer of the program, as it comes: up to its last line, to memory or to a file."""

    def __init__(self, hands, done, file):
        self.hands, self.done, self.name = hands, done, file
        self.data, self.fault = b"", None
        self.file = None

    def read(self):
        """Answers whether it came whole."""
        held, parts = b"", []
        if self.name is not None:
            self.attempt(self.begin)
        while not (held == self.done or held.endswith(b"\n" + self.done)):
            chunk = os.read(self.hands.process.output, CHUNK_BYTES)
            if not chunk:
                self.data = b"".join(parts) + held
                return False
            self.hands.moved_at = clock()
            held += chunk
            # What may be the last line is held back.
            free = max(len(held) - len(self.done) - 1, 0)
            (parts.append if self.name is None else self.to_file)(held[:free])
            held = held[free:]
        rest = held[: -len(self.done)]
        if self.name is None:
            self.data = b"".join([*parts, rest])
        else:
            self.to_file(rest)
        return True

    def begin(self):
        self.file = self.hands.begin(self.name)

    def to_file(self, data):
        if self.fault is None and data:
            self.attempt(lambda: self.file.write(data))

    def attempt(self, work):
        """A file that fails keeps nobody from reading the rest."""
        self.fault = fault_of(work)
        if self.fault is not None and self.file is not None:
            fault_of(self.file.close)

    def last(self):
        """The line that came last."""
        return b"".join(self.data.splitlines()[-1:])

    def told(self):
        return f", and told {self.last().decode(errors='replace')!r}" if self.last() else ""


def fault_of(work):
    """What goes wrong, or None."""
    try:
        work()
    except OSError as fault:
        return fault.strerror or str(fault)
    except Damaged as fault:
        return str(fault)
    except Exception as fault:  # a worker goes on, whatever it meets
        return repr(fault)
    return None


def new_instance():
    """A name of this start, by which a restart is seen."""
    return os.urandom(8).hex()
