"""The feeder's decisions, without a clock, a file, a thread or a pipe: events come in, and actions go out.

Events are the calls of `Core`. Whoever calls one sets `now` before it, and carries out `out` behind it. Actions:

    ("list", look)                 look at the folder; then `looked`
    ("read", named, reached)       read a segment; then `read`
    ("send", data, line, file)     hand it to the program; at its `done LINE`, `answered`. `file`: where a long answer goes
    ("save", name, data)           replace a file of the checkpoints' folder; then `saved`
    ("finish", name, number)       make the checkpoint safe that was just given, whose last transaction this is; then `saved`
    ("remove", name)               remove one; then `removed`
    ("reply", who, status, value)  answer a request
    ("tell", text)                 tell an operator
    ("kill",), ("end", status)     kill the program; end the feeder

It decides nothing that the program can. What is here is what the program can't know: files, time and callers.
"""
from collections import Counter, deque
from typing import NamedTuple

from datanodes import DataNodes
from figures import NO_ORDERS, figures
from following import Log
from keeping import Checkpoints, Keeping
from program import NO_LINES, Exchange, Program, Unknown
from promotions import Promotions
from state import NAME

TOLD_LINES = 20
# A tick that comes later than so many seconds says that this process stood still.
LATE_TICK = 5


class Settings(NamedTuple):
    every: int  # a checkpoint after so many transactions
    keep: int  # so many checkpoints are kept
    gone: float  # a DataNode that is silent for so many seconds is gone
    poll: float  # the folder is looked at each so many seconds
    suffix: str  # of the segments that are followed
    has_each: bool  # whether each transaction has a line
    hides_orders: bool = False  # whether snapshots are passed over, so that no delete order is shown


class Core:
    def __init__(self, settings, kept, is_in_file, reached, images, instance, now):
        """`images`: the names of its checkpoints, and of those that were passed over."""
        self.settings = settings
        self.instance = instance
        self.now = self.ticked_at = self.started_at = now
        self.out = []
        # The status with which the feeder ends, once it is to end; and whether it ends when it is idle.
        self.ending = None
        self.is_stopping = False
        # How much of the image went to the program, from 0 to 1.
        self.loaded_part = 0.0
        self.told = deque(maxlen=TOLD_LINES)
        self.faults, self.failures, self.refusals = Counter(), Counter(), Counter()
        self.keeping = Keeping(self, kept, is_in_file)
        self.log = Log(self, reached)
        self.program = Program(self)
        self.promotions = Promotions(self)
        self.datanodes = DataNodes(self)
        self.checkpoints = Checkpoints(self, *images, settings.keep)
        self.program.ask(Exchange(lambda: NO_LINES, self.began))

    def began(self, _answer):
        if self.program.status.number != self.log.reached.number:
            self.end(1, f"the program begins at number {self.program.status.number}, and {self.log.reached.number} is due")
        self.tell(f"goes on from TXID {self.log.reached.txid}")
        if self.settings.hides_orders:
            self.tell(NO_ORDERS)
        self.checkpoints.remove_old()
        self.log.tick()

    # ---- What the parts say.

    def act(self, *action):
        self.out.append(action)

    def tell(self, text):
        self.told.append((self.now, text))
        self.act("tell", text)

    def reply(self, who, status, **answer):
        self.act("reply", who, status, {"instance": self.instance, **answer})

    def refuse(self, who, status, code, **more):
        self.refusals[code] += 1
        self.reply(who, status, code=code, **more)

    def end(self, status, reason):
        if self.ending is None:
            self.ending = status
            self.tell(reason)
            self.act("end", status)

    def is_standby(self):
        return self.program.state == "standby"

    def count_fault(self, fault, where):
        self.faults[fault[1]] += 1
        self.tell(f"fault {fault[1]} {where}")

    # ---- Time.

    def tick(self):
        """Comes each second or more often."""
        paused = self.now - self.ticked_at
        paused = paused if paused > LATE_TICK else 0
        self.ticked_at = self.now
        if self.ending is not None:
            return
        self.program.tick(paused)
        self.datanodes.tick(paused)
        self.keeping.write()
        self.keeping.refuse_late()
        self.promotions.tick()
        self.log.tick()
        self.checkpoints.tick()
        self.look_at_end()

    def look_at_end(self):
        """A deposed service ends, and one that was asked to."""
        if self.program.state == "deposed" and not self.promotions.is_busy():
            self.end(3, "it is deposed: a greater epoch was named")
        idle = self.program.under_way is None and self.keeping.writing is None and not self.checkpoints.writing
        if self.is_stopping and idle:
            self.end(0, "it was asked to stop")

    # ---- What the hands say.

    def looked(self, found, fault=None):
        self.log.looked(found, fault)

    def looking(self, moves):
        self.log.looking(moves)

    def read(self, name, result):
        self.log.read(name, result)

    def moved(self, at):
        self.program.moved(at)

    def loaded(self, part):
        self.loaded_part = part

    def answered(self, data, fault=None):
        """The program's answer without its last line. `fault`: the file of a long one could not be written."""
        try:
            self.program.answered(data, fault)
        except Unknown as reason:
            self.end(1, str(reason))
        self.look_at_end()
        self.program.turn()

    def saved(self, name, fault=None):
        if name == NAME:
            self.keeping.saved(fault)
        else:
            self.checkpoints.saved(name, fault)
        self.look_at_end()

    def removed(self, name, fault=None):
        self.checkpoints.removed(name, fault)

    def door_was_full(self):
        self.datanodes.door_was_full()

    # ---- Requests. Each is answered once.

    def request(self, who, kind, body):
        is_refused = self.is_stopping or self.ending is not None or self.program.status is None
        if kind == "health":
            self.health(who)
        elif kind == "figures":
            self.reply(who, 200, **figures(self))
        elif kind in ("promote", "epoch") and self.ending is None and not self.is_stopping:
            self.name(who, kind, body)
        elif is_refused:
            self.refuse(who, 503, "stopping" if self.is_stopping or self.ending is not None else "loading")
        elif kind == "stop":
            self.is_stopping = True
            self.reply(who, 200, state=self.program.state)
            self.look_at_end()
        elif kind == "report":
            self.datanodes.report(who, body)
        elif kind == "tables":
            self.tables(who)
        else:
            self.datanodes.heartbeat(who, body)

    def tables(self, who):
        """The tables go to a file: the program waits for nobody who reads slowly."""

        def given(answer):
            if answer.fault is None:
                self.reply(who, 200, txid=self.log.reached.txid, file="tables")
            else:
                self.refuse(who, 503, "no_room", fault=answer.fault)

        exchange = Exchange(lambda: NO_LINES, given, b"tables")
        exchange.file = "tables"
        self.program.ask(exchange)

    def name(self, who, kind, body):
        """An epoch counts from when it is named, also where the image is still loaded."""
        if kind == "epoch":
            self.keeping.epoch_asked(who, body["epoch"])
        elif self.program.status is None:
            self.keeping.name_epoch(body["epoch"])
            self.refuse(who, 503, "loading")
        else:
            self.promotions.asked(who, body)

    def health(self, who):
        """It asks nobody, so it never waits."""
        reason = self.ill()
        lag = max(self.keeping.kept.seen - self.log.reached.txid, 0)
        told = {"state": self.program.state, "txid": self.log.reached.txid, "known": self.keeping.kept.seen, "lag": lag}
        told.update({"answered": round(self.now - self.program.answered_at, 1)})
        if reason:
            told.update({"reason": reason}, **({"loaded": self.loaded_part} if reason == "loading" else {}))
        self.reply(who, 503 if reason else 200, **told)

    def ill(self):
        """Why it can't be relied on, or None."""
        if self.program.status is None:
            return "silent" if self.program.is_silent() else "loading"
        if self.program.is_silent():
            return "silent"
        if not self.keeping.is_kept():
            return "not_kept"
        return self.program.state if self.program.state in ("stopped", "deposed") else None
