"""The program as the core knows it: one exchange at a time, what its last `status` said, and whether it is silent.

A part of the core: no pipe and no clock. An exchange is some lines and a word behind them. It is made when it is sent.
"""
import re
from collections import deque
from typing import Callable, FrozenSet, List, NamedTuple, Optional, Tuple

from place import number_of_seen

SILENT_SECONDS, HUNG_SECONDS = 5, 60
# Lines of `status`. It has some for each DataNode, and comes with each report.
STATE = re.compile(rb"^state (\w+)(?: (\d+) (\d+))?$", re.MULTILINE)
TXID = re.compile(rb"^txid (\d+)$", re.MULTILINE)
EPOCH = re.compile(rb"^epoch \d+ (\d+)$", re.MULTILINE)
FULL = re.compile(rb"^full (\d+)$", re.MULTILINE)
OPEN = re.compile(rb"^datanode (\d+) .* report \d+$", re.MULTILINE)
TOLD = re.compile(rb"^(unknown|fault .*)$", re.MULTILINE)


class Lines(NamedTuple):
    data: bytes
    count: int


NO_LINES = Lines(b"", 0)


class Answer(NamedTuple):
    first: int  # the number of the first line that the exchange itself sent
    faults: List[List[str]]  # the words of each line that begins with `fault`
    data: bytes
    # Why the file of a long answer could not be written.
    fault: Optional[str] = None


class Status(NamedTuple):
    """What the last answer to `status` said."""

    state: str
    # The fault that stopped the log, and its number.
    stop: Optional[Tuple[int, int]]
    number: int
    promoted: int  # the epoch of its promotion
    full: FrozenSet[int]  # the DataNodes whose full report began and ended
    open: FrozenSet[int]  # those whose full report began
    data: bytes


class Exchange:
    """What is asked once its turn comes."""

    def __init__(self, make: Callable[[], Optional[Lines]], then: Callable[[Answer], None], word=b"status"):
        # Makes the lines. None: it isn't asked any more.
        self.make = make
        self.then = then
        self.word = word
        # What the hands do with an answer that is long: the name of its file.
        self.file = None
        self.first = 0


class Unknown(Exception):
    """The program answers something else than it was asked."""


class Program:
    """The exchanges with the program, promotions before all others."""

    def __init__(self, core):
        self.core = core
        self.first, self.waiting = deque(), deque()
        self.under_way: Optional[Exchange] = None
        self.lines_sent = 0
        self.is_turning = False
        # None until the first answer: the image is loaded before it.
        self.status: Optional[Status] = None
        # When the last answer came, and when a byte moved last, in one direction or the other.
        self.answered_at = self.moved_at = core.now
        # What was said to this program.
        self.said_epoch = self.said_seen = 0

    @property
    def state(self):
        return self.status.state if self.status else "loading"

    # ---- What is asked.

    def ask(self, exchange, is_first=False):
        (self.first if is_first else self.waiting).append(exchange)
        self.turn()

    def turn(self):
        """Sends what is next, if nothing is under way. What is asked while lines are made waits for the turn after that."""
        if self.is_turning:
            return
        self.is_turning = True
        while self.under_way is None and (self.first or self.waiting) and self.core.ending is None:
            exchange = (self.first or self.waiting).popleft()
            made = exchange.make()
            if made is not None:
                self.send(exchange, made)
        self.is_turning = False

    def send(self, exchange, made):
        # A word before it would have its answer in the file.
        said = [] if exchange.file else self.unsaid()
        self.under_way = exchange
        exchange.first = self.lines_sent + len(said) + 1
        self.lines_sent += len(said) + made.count + 1
        self.moved_at = self.core.now
        data = b"".join([*said, made.data, exchange.word, b"\n"])
        self.core.act("send", data, self.lines_sent, exchange.file)

    def unsaid(self):
        """The words that the program has to know before anything else."""
        epoch = self.core.keeping.kept.epoch
        log = self.core.log
        seen = number_of_seen(log.reached, self.core.keeping.kept.seen, self.core.settings.has_each)
        words = [b"epoch %d\n" % epoch] * (epoch > self.said_epoch)
        words += [b"seen %d\n" % seen] * (seen > max(self.said_seen, log.reached.number))
        self.said_epoch, self.said_seen = max(self.said_epoch, epoch), max(self.said_seen, seen)
        return words

    # ---- What it answers.

    def answered(self, data, fault):
        """The answer to the exchange that is under way, without its last line. `data` is empty where a file has it."""
        exchange, self.under_way = self.under_way, None
        self.answered_at = self.moved_at = self.core.now
        answer = answer_of(data, exchange.first)._replace(fault=fault)
        if exchange.word == b"status":
            self.status = status_of(answer.data)
        exchange.then(answer)

    def full_report(self, dn):
        """What the program has of a DataNode's full report."""
        return "taken" if dn in self.status.full else "open" if dn in self.status.open else "none"

    def forget_full(self, dn):
        """What is being asked takes the full report of a DataNode."""
        self.status = self.status._replace(full=self.status.full - {dn}, open=self.status.open - {dn})

    # ---- Silence.

    def moved(self, at):
        """A byte went in or came out."""
        self.moved_at = max(self.moved_at, at)

    def silence(self):
        """For how long it neither took nor gave a byte, with a request before it."""
        return self.core.now - self.moved_at if self.under_way else 0

    def is_silent(self):
        return self.silence() > SILENT_SECONDS

    def tick(self, paused):
        """Time in which this process itself stood still is no silence of the program."""
        self.moved_at += paused
        if self.silence() > HUNG_SECONDS:
            self.core.act("kill")
            self.core.end(1, f"the program is silent for {self.silence():.0f} seconds, and was killed")
        elif self.under_way is None and self.core.now - self.answered_at >= SILENT_SECONDS:
            # A program that hangs is seen where nobody asks, too.
            self.ask(Exchange(lambda: NO_LINES, lambda answer: None))


def answer_of(data, first):
    told = TOLD.findall(data)
    if b"unknown" in told:
        raise Unknown("the program does not know a word of this feeder: it is older")
    return Answer(first, [line.decode().split() for line in told], data)


def status_of(data):
    state, *stop = STATE.search(data).groups()
    return Status(
        state.decode(),
        (int(stop[0]), int(stop[1])) if stop[0] else None,
        int(TXID.search(data)[1]),
        int(EPOCH.search(data)[1]),
        frozenset(map(int, FULL.findall(data))),
        frozenset(map(int, OPEN.findall(data))),
        data,
    )
