"""How the core looks at the folder and follows its segments. A part of the core: it asks for listings and for pieces."""
from collections import deque
from typing import NamedTuple, Optional

from names import Look
from place import Place
from program import Exchange, Lines

LOOK_SECONDS = 30
# A segment that is read for longer may lie on a mount that hangs.
SLOW_SECONDS = 10
# Why the log waits.
WHYS = ("missing", "bad", "unreadable", "slow", "given_up")


class Unreadable(NamedTuple):
    """A file that could not be read now. It is read again at each look."""

    reason: str


class Bad(NamedTuple):
    """A file that is no segment. It is read again once it has changed."""

    reason: str
    key: tuple


class Taken(NamedTuple):
    """A file as it is sent."""

    key: tuple
    sum: str
    pieces: list
    end: Place  # where the log is behind the file


class Waits(NamedTuple):
    why: str
    text: str


class Log:
    """Where the log is, what the folder has of it, and the segment that is being followed."""

    def __init__(self, core, reached: Place):
        self.core = core
        self.reached = reached
        # What the last look found above the place that was reached, by name.
        self.found = {}
        # Those whose name was given up, and of which it can't be known whether they are what was given up: names, each with its TXID.
        self.doubts = {}
        # The keys of files that were not taken, by name, and why; and what can't be read at this look.
        self.bad, self.reasons, self.unread = {}, {}, {}
        self.passed_over = set()
        # Why the log does not go on.
        self.waits: Optional[Waits] = None
        self.begin_looks()
        # The segment under way, what is left of it to send, and what is known of its file.
        self.name: Optional[str] = None
        self.pieces = deque()
        self.file: Optional[Taken] = None
        self.reading_at = core.now
        # When there was a new segment last, and a new transaction; and since when the log is behind what was seen.
        self.grown_at = self.applied_at = core.now
        self.behind_at: Optional[float] = None
        # The TXID at which the log is stopped.
        self.stop: Optional[int] = None

    def begin_looks(self):
        self.fault: Optional[str] = "it was not looked at"
        self.begun = self.done = 0
        self.is_looking = self.is_wanted = False
        self.looked_at = self.begun_at = self.listed_at = self.moved_at = self.core.now - LOOK_SECONDS
        self.moves = 0

    # ---- Looks.

    def tick(self):
        if self.core.is_standby() and not self.is_looking and self.core.now - self.begun_at >= self.core.settings.poll:
            self.look(self.core.now - self.listed_at >= LOOK_SECONDS)
        if self.behind_at is None and self.core.is_standby() and self.core.keeping.kept.seen > self.reached.txid:
            # What was seen before a restart counts, too.
            self.behind_at = self.core.now
        if self.name is not None and self.file is None and self.core.now - self.reading_at > SLOW_SECONDS:
            self.wait_for(Waits("slow", f"{self.name} is read for more than {SLOW_SECONDS} seconds"))
        self.follow()

    def look(self, is_fresh):
        self.is_looking = True
        self.begun += 1
        self.begun_at = self.core.now
        if is_fresh:
            self.listed_at = self.core.now
        given_up = frozenset(self.core.keeping.kept.given_up)
        self.core.act("list", Look(self.reached.txid, is_fresh, given_up, self.core.promotions.gives_up_above()))

    def look_from_now(self) -> int:
        """Asks for a look that begins now or later. Answers its number."""
        if not self.is_looking:
            self.look(True)
            return self.begun
        self.is_wanted = True
        return self.begun + 1

    def looking(self, moves):
        """How far the looks have come. One that comes on is slow, and does not hang."""
        if moves != self.moves:
            self.moves, self.moved_at = moves, self.core.now

    def hangs(self, seconds):
        """Whether a look has come no further for so long."""
        return self.is_looking and self.core.now - max(self.begun_at, self.moved_at) > seconds

    def looked(self, found, fault):
        """What a look found, or why it could not look."""
        self.is_looking = False
        self.done = self.begun
        if fault is not None and fault != self.fault:
            self.core.tell(f"the folder can't be read: {fault}")
        self.fault = fault
        self.core.failures["look"] += fault is not None
        if fault is None:
            self.looked_at = self.begun_at
            if self.core.is_standby():
                # A listing that comes behind a promotion raises nothing: what it gave up is given up.
                self.take(found)
        self.core.promotions.looked()
        if self.is_wanted:
            self.is_wanted = False
            self.look(True)
        self.follow()

    def take(self, found):
        given_up = self.core.keeping.kept.given_up
        doubts = [name for name, it in found.items() if name in given_up and it.is_begun and None in (it.sum, given_up[name])]
        for name in sorted(set(doubts) - self.doubts.keys()):
            self.core.tell(f"{name} has the name of one that a promotion gave up, and it can't be known whether it is that one")
        # One that goes away again stays one, until the log is beyond it.
        stay = {name: last for name, last in self.doubts.items() if name not in found and last > self.reached.txid}
        self.doubts = {**stay, **{name: found[name].named.last for name in doubts}}
        left = {name for name, it in found.items() if name in given_up and name not in doubts and it.sum == given_up[name]}
        for name in sorted(left - self.passed_over):
            self.core.tell(f"{name} is passed over: a promotion gave it up")
        self.passed_over = left
        self.found = {name: it for name, it in found.items() if name not in left and name not in self.doubts}
        self.unread = {}
        self.bad = {name: key for name, key in self.bad.items() if name in found}
        seen = max((it.named.last for it in self.found.values() if it.is_begun), default=0)
        if seen > self.core.keeping.kept.seen:
            self.grown_at = self.core.now
            self.behind_at = self.core.now if self.behind_at is None else self.behind_at
            self.core.keeping.change(seen=seen)

    # ---- Segments.

    def follow(self):
        """Reads the segment that is next, if it is there and nothing else is under way."""
        if self.name is not None or self.done == 0 or not self.core.is_standby() or self.core.is_stopping:
            return
        following = [it for it in self.found.values() if self.is_next(it)]
        for it in sorted(following, key=lambda found: found.named):
            if it.named.name not in self.unread and not self.is_bad(it):
                self.name, self.reading_at = it.named.name, self.core.now
                self.core.act("read", it.named, self.reached)
                return
        self.wait_for(self.reason(following))

    def is_next(self, it):
        named = it.named
        is_ours = named.is_finalized and named.suffix == self.core.settings.suffix
        return is_ours and named.first <= self.reached.txid + 1 <= named.last

    def is_bad(self, it):
        return it.key is not None and self.bad.get(it.named.name) == it.key

    def reason(self, following):
        """Why no segment is read, or None where all is read that was seen."""
        if following:
            name = min(it.named for it in following).name
            if name in self.unread:
                return Waits("unreadable", self.unread[name])
            return Waits("bad", f"{name} was not taken{self.reasons.get(name, '')}")
        if self.doubts:
            return Waits("given_up", f"{min(self.doubts)} may be one that a promotion gave up")
        if self.core.keeping.kept.seen <= self.reached.txid:
            return None
        return Waits("missing", f"TXID {self.reached.txid + 1} is next and is not there")

    def wait_for(self, waits):
        """Why the log waits is told once."""
        if waits and waits != self.waits:
            self.core.tell(waits.text)
        self.waits = waits

    def read(self, name, result):
        """A file as it is sent, or why it can't be."""
        if isinstance(result, Unreadable):
            self.core.failures["read"] += 1
            self.unread[name] = f"{name} can't be read: {result.reason}"
            self.leave()
        elif isinstance(result, Bad):
            self.refuse(name, result.key, f": {result.reason}")
        elif name in self.core.keeping.kept.given_up and self.core.keeping.kept.given_up[name] in (None, result.sum):
            self.found.pop(name, None)
            self.leave()
        else:
            self.file, self.pieces = result, deque(result.pieces)
            self.send_piece()

    def leave(self):
        """The segment under way is that no more."""
        self.name, self.file = None, None
        self.pieces.clear()
        self.follow()

    def refuse(self, name, key, reason):
        self.bad[name], self.reasons[name] = key, reason
        self.leave()

    def send_piece(self):
        if self.pieces:
            self.core.program.ask(Exchange(self.make_piece, self.piece_answered))
            return
        self.reach(self.file.end)
        self.leave()

    def make_piece(self):
        if not self.core.is_standby():
            self.leave()
            return None
        piece = self.pieces[0]
        return Lines(piece.data, len(piece.txids))

    def piece_answered(self, answer):
        piece = self.pieces.popleft()
        number = self.core.program.status.number
        places = [place_of(fault, piece, answer.first) for fault in answer.faults]
        for fault, place in zip(answer.faults, places):
            self.core.count_fault(fault, f"{place} ({self.name})")
        if number == piece.end.number:
            self.reach(piece.end)
            self.send_piece()
            return
        stop = self.core.program.status.stop
        if stop:
            self.stop = piece.txid(stop[1] - piece.first)
        if number > self.reached.number:
            # The log is stopped inside the piece.
            self.reach(Place(number, piece.txid(number - piece.first)))
        faults = ", ".join(f"fault {fault[1]} {place}" for fault, place in zip(answer.faults, places))
        self.refuse(self.name, self.file.key, f": {faults}" if faults else "")

    def reach(self, place):
        self.reached = place
        self.applied_at = self.core.now
        self.waits = None
        if place.txid >= self.core.keeping.kept.seen:
            self.behind_at = None
        self.core.promotions.advanced()
        self.core.checkpoints.tick()

    def leave_off(self):
        """It is active: the log waits for nothing, and is behind nothing."""
        self.waits = self.behind_at = None

    def stopped_txid(self, number):
        """The TXID of the transaction that stopped the log."""
        return self.reached.txid + number - self.reached.number if self.stop is None else self.stop


def place_of(fault, piece, first):
    """Where a fault is, by the TXID of the line or the transaction that it names."""
    kind, number = fault[2], int(fault[3])
    if kind == "line":
        return f"txid {piece.txid(number - first)}"
    return f"txid {piece.txid(number - piece.first)}" if kind == "txid" else kind
