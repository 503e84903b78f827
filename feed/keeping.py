"""What the core keeps: its state, and when a checkpoint is written, tried again and removed.

A part of the core: it says what is to be written, and hears whether it was. What is relied on was written before.
"""
from program import NO_LINES, Exchange
from promotions import LATE_SECONDS
from state import NAME, Kept, bytes_of

FIRST_PAUSE, LAST_PAUSE = 10, 3600
CHECKPOINT, WRITING = "fsimage_", "writing_"


class Keeping:
    """The state: as it is, and as its file has it."""

    def __init__(self, core, kept: Kept, is_in_file: bool):
        self.core = core
        self.kept = kept
        # What the file has, as far as is known, and what is being written.
        self.safe = kept if is_in_file else None
        self.writing = None
        self.fault = None
        # Callers that asked for an epoch alone.
        self.waiting = []

    def is_kept(self):
        return self.safe == self.kept

    def change(self, **fields):
        self.kept = self.kept._replace(**fields)
        self.write()

    def write(self):
        """What could not be written is tried again at each tick."""
        if self.writing is None and not self.is_kept():
            self.writing = self.kept
            self.core.act("save", NAME, bytes_of(self.kept))

    def saved(self, fault):
        """The file was replaced, or why not."""
        written, self.writing = self.writing, None
        if fault is None:
            self.safe = written
        else:
            self.core.checkpoints.remove(WRITING + NAME)
            if self.fault is None:
                self.core.tell(f"the state can't be kept: {fault}")
        self.fault = fault
        self.answer_epochs(written)
        self.core.promotions.kept(written, fault)
        if fault is None:
            self.write()

    # ---- Epochs.

    def name_epoch(self, epoch):
        """Someone may be promoted in it. It is never lower again, and the program hears it before all else that it is asked."""
        if epoch > self.kept.epoch:
            self.change(epoch=epoch)

    def has_epoch(self, epoch):
        return self.safe is not None and self.safe.epoch >= epoch or epoch == 0

    def epoch_asked(self, who, epoch):
        self.waiting.append((who, epoch, self.core.now + LATE_SECONDS))
        self.name_epoch(epoch)
        self.answer_epochs(None)

    def refuse_late(self):
        """Nobody waits for ever for a disk that hangs. The epoch counts all the same."""
        late = [it for it in self.waiting if self.core.now > it[2]]
        self.waiting = [it for it in self.waiting if self.core.now <= it[2]]
        for who, *_ in late:
            self.core.refuse(who, 503, "late")

    def answer_epochs(self, written):
        """Answers who asked for an epoch that is kept now, once it was said, and who asked for one that could not be written."""
        waiting, self.waiting = self.waiting, []
        for who, epoch, until in waiting:
            if self.has_epoch(epoch):
                self.core.program.ask(Exchange(lambda: NO_LINES, lambda answer, who=who: self.reply_epoch(who)), is_first=True)
            elif written is not None and written.epoch >= epoch:
                self.core.refuse(who, 503, "not_kept")
            else:
                self.waiting.append((who, epoch, until))

    def reply_epoch(self, who):
        self.core.reply(who, 200, epoch=self.kept.epoch, state=self.core.program.state)


class Checkpoints:
    """When one is written, and what is removed. Names of others stay."""

    def __init__(self, core, names, passed, keep):
        self.core = core
        # Those that this feeder wrote, or one before it; and those that were passed over, which the next one replaces.
        self.names, self.passed = names, passed
        self.keep = keep
        # The TXID of the last one, and when it was written.
        self.txid = core.log.reached.txid
        self.written_at = None
        self.failures = 0
        # The name of the one that is being written, and the number of its last transaction.
        self.writing = None
        self.number = 0
        self.pause, self.again = FIRST_PAUSE, core.now
        # What has to be removed, and what is being removed.
        self.unwanted, self.removing = set(), set()

    def tick(self):
        self.clear()
        is_due = self.core.log.reached.txid - self.txid >= self.core.settings.every and self.core.now >= self.again
        is_clear = self.writing is None and not any(name.startswith(WRITING) for name in self.unwanted)
        if is_due and is_clear and self.core.is_standby():
            self.writing = ""
            exchange = Exchange(lambda: self.make(exchange), self.given, b"checkpoint")
            self.core.program.ask(exchange)

    def make(self, exchange):
        if not self.core.is_standby():
            self.writing = None
            return None
        self.number = self.core.log.reached.number
        self.writing = exchange.file = f"{CHECKPOINT}{self.core.log.reached.txid:019}"
        return NO_LINES

    def given(self, answer):
        """The program gave the image to its file, which has to be made safe."""
        if answer.fault is None:
            self.core.act("finish", self.writing, self.number)
        else:
            self.saved(self.writing, answer.fault)

    def saved(self, name, fault):
        self.writing = None
        if fault is not None:
            self.failed(name, fault)
            return
        self.txid = int(name[len(CHECKPOINT) :])
        self.written_at, self.pause = self.core.now, FIRST_PAUSE
        self.names = sorted({*self.names, name})
        self.remove(*(one for one in self.passed if one != name))
        self.passed = []
        self.remove_old()

    def failed(self, name, fault):
        """What was being written is removed, whatever name it had by then: it keeps the disk full. The next try comes later each time."""
        self.failures += 1
        self.core.tell(f"no checkpoint was written: {fault}; the next try is in {self.pause} seconds")
        self.again, self.pause = self.core.now + self.pause, min(2 * self.pause, LAST_PAUSE)
        self.names = [one for one in self.names if one != name]
        self.remove(WRITING + name, name)

    def remove_old(self):
        self.remove(*self.names[: -self.keep])
        self.names = self.names[-self.keep :]

    def remove(self, *names):
        self.unwanted.update(names)
        self.clear()

    def clear(self):
        """Removes what has to be removed, again and again until it is."""
        for name in sorted(self.unwanted - self.removing):
            self.removing.add(name)
            self.core.act("remove", name)

    def removed(self, name, fault):
        self.removing.discard(name)
        if fault is None:
            self.unwanted.discard(name)
