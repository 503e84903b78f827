"""How a promotion is asked of the program. A part of the core: the program decides, this says what it has to know before.

One at a time: its epoch is kept, the folder is looked at, what it gives up is kept, and then it is sent. One that may
wait for the log steps aside until the next segment was taken.
"""
from collections import deque
from typing import Optional

from place import number_of_promotion
from program import Exchange, Lines
from state import Promotion

# A promotion that waited so long is not sent: its caller is gone, and what it knew is old.
LATE_SECONDS = 5
# A look that comes no further for so long may be one at a mount that hangs.
HANG_SECONDS = 3
# The names of the program's refusals.
CODES = {"51": "stopped", "13": "in_segment", "59": "late_epoch"}


class Wanted:
    """A promotion that is asked for."""

    def __init__(self, who, body, now):
        self.who = who
        self.txid, self.epoch, self.is_lost = body["txid"], body["epoch"], body["lost"]
        self.until = now + max(body["within"], LATE_SECONDS)
        self.may_wait = body["within"] > 0
        # The promotion that is kept beside the epoch, where something is given up.
        self.promotion: Optional[Promotion] = None
        self.before: Optional[Promotion] = None
        # Whether it was sent to a standby, and not to a service that was active already.
        self.is_first = True


class Promotions:
    def __init__(self, core):
        self.core = core
        self.queue = deque()
        # Those that wait for the log, each with its last refusal.
        self.aside = []
        # The one under way, and what it waits for: that it is `kept`, `looked`, that what it gives up is `given_up`, or `sent`.
        self.current: Optional[Wanted] = None
        self.stage = None
        # The number of the look that it waits for, and when that began.
        self.look = 0

    def is_busy(self):
        return self.current is not None or bool(self.queue)

    def gives_up_above(self):
        """The TXID above which the next look takes the sums of all segments."""
        return self.current.txid if self.current and self.current.is_lost else None

    # ---- The way of a promotion.

    def asked(self, who, body):
        self.queue.append(Wanted(who, body, self.core.now))
        self.core.keeping.name_epoch(body["epoch"])
        self.next()

    def next(self):
        if self.current is None and self.queue:
            self.current = self.queue.popleft()
            self.stage = "kept"
            self.keep()

    def keep(self):
        if self.core.keeping.has_epoch(self.current.epoch):
            self.look_at_folder()

    def kept(self, written, fault):
        """The state was written, or could not be."""
        if self.stage == "kept":
            if fault is None:
                self.keep()
            elif written.epoch >= self.current.epoch:
                self.refuse(503, "not_kept")
        elif self.stage == "given_up" and written.promotion == self.current.promotion:
            if fault is None:
                self.send()
            else:
                self.refuse(503, "not_kept")

    def look_at_folder(self):
        """Where it is active already, the log is followed no more, and the folder says nothing."""
        if not self.core.is_standby():
            self.send()
            return
        self.stage = "looked"
        self.look = self.core.log.look_from_now()

    def looked(self):
        log = self.core.log
        if log.fault is None:
            self.again("folder_unreadable")
        if self.stage == "looked" and log.done >= self.look:
            if self.is_blind():
                # A later look may answer from an older listing, so this one has to be good.
                self.refuse(409, "folder_unreadable")
            elif self.current.is_lost and log.fault is None:
                self.give_up()
            else:
                self.send()

    def look_hangs(self):
        """What gives up all that lies above needs no look. What waits for one makes room for who is behind it."""
        if self.stage != "looked" or not self.core.log.hangs(HANG_SECONDS):
            return
        if self.current.is_lost:
            self.core.tell("the folder hangs: what the promotion gives up is not known by name")
            self.send()
        elif self.queue:
            self.refuse(409, "folder_unreadable")

    def give_up(self):
        """What lies above its TXID is kept by name and sum, before it is sent. Of what is in doubt the name alone is known."""
        log = self.core.log
        above = {it.named.name: it.sum for it in log.found.values() if it.named.last > self.current.txid and it.is_begun}
        above.update({name: None for name, last in log.doubts.items() if last > self.current.txid})
        self.current.before = self.core.keeping.kept.promotion
        self.current.promotion = Promotion(self.current.txid, self.current.epoch, False, above)
        self.stage = "given_up"
        self.core.keeping.change(promotion=self.current.promotion)

    def send(self):
        self.stage = "sent"
        exchange = Exchange(self.make, self.answered)
        self.core.program.ask(exchange, is_first=True)

    def make(self):
        """The line, when its turn has come."""
        wanted = self.current
        if self.core.now > wanted.until:
            self.refuse(503, "late")
            return None
        if self.is_blind():
            self.refuse(409, "folder_unreadable")
            return None
        wanted.is_first = self.core.is_standby()
        number = number_of_promotion(self.core.log.reached, wanted.txid)
        return Lines(b"promote %d epoch %d%s\n" % (number, wanted.epoch, b" lost" * wanted.is_lost), 1)

    def is_blind(self):
        """Whether a standby does not know what the folder has, and is to give up nothing."""
        log = self.core.log
        is_old = self.core.now - log.looked_at > LATE_SECONDS
        return self.core.is_standby() and not self.current.is_lost and (log.fault is not None or is_old or bool(log.doubts))

    def answered(self, answer):
        wanted = self.current
        for fault in answer.faults:
            self.core.count_fault(fault, f"(the promotion at TXID {wanted.txid})")
        if answer.faults:
            self.refuse(409, self.code(answer.faults[0]), fault=int(answer.faults[0][1]))
        else:
            self.done()

    def code(self, fault):
        reached = self.core.log.reached.txid
        behind = "behind" if self.current.txid > reached else "ahead" if self.current.txid < reached else "edits_above"
        return CODES.get(fault[1], behind)

    def done(self):
        """It is active. Only now what lies above is given up, and in one write."""
        wanted, kept = self.current, self.core.keeping.kept
        given_up = wanted.promotion.given_up if wanted.promotion else {}
        promotion = Promotion(wanted.txid, wanted.epoch, True, given_up)
        if wanted.is_first or kept.promotion is None or kept.promotion[:3] != promotion[:3]:
            seen = wanted.txid if wanted.is_lost and wanted.is_first else kept.seen
            self.core.keeping.change(promotion=promotion, seen=seen, given_up={**kept.given_up, **given_up})
            self.core.log.leave_off()
            self.core.tell(f"promoted at TXID {wanted.txid} in epoch {wanted.epoch}")
        self.core.reply(wanted.who, 200, state=self.core.program.state, txid=wanted.txid, epoch=wanted.epoch)
        self.leave()
        # Who waits for the log or the folder waits for nothing now.
        self.again("behind")
        self.again("folder_unreadable")

    # ---- Refusals.

    def refuse(self, status, code, **more):
        """Answers the one under way, or puts it aside where the log may still come."""
        wanted = self.current
        self.strike_out()
        may_come = code in ("behind", "folder_unreadable") and wanted.may_wait and self.core.now < wanted.until
        if may_come:
            self.aside.append((wanted, code))
        else:
            self.core.refuse(wanted.who, status, code, txid=self.core.log.reached.txid, **more)
        self.leave()

    def strike_out(self):
        """What it would have given up is not given up."""
        wanted = self.current
        if wanted.promotion is not None and self.core.keeping.kept.promotion == wanted.promotion:
            self.core.keeping.change(promotion=wanted.before)
        wanted.promotion = None

    def leave(self):
        self.current = self.stage = None
        self.next()

    def advanced(self):
        """A segment was taken."""
        self.again("behind")

    def again(self, code):
        """Those that stepped aside for this reason have their turn again."""
        self.queue.extend(wanted for wanted, why in self.aside if why == code)
        self.aside = [(wanted, why) for wanted, why in self.aside if why != code]
        self.next()

    def tick(self):
        """Refuses what waited too long for the disk, the folder or the log."""
        self.look_hangs()
        if self.current is not None and self.stage != "sent" and self.core.now > self.current.until:
            self.refuse(503, "late")
        for wanted in [it for it in self.queue if self.core.now > it.until]:
            # It stood behind one that may wait for longer.
            self.queue.remove(wanted)
            self.answer_late(wanted, 503, "late")
        late = [it for it in self.aside if self.core.now >= it[0].until]
        self.aside = [it for it in self.aside if self.core.now < it[0].until]
        for wanted, code in late:
            self.answer_late(wanted, 409, code)

    def answer_late(self, wanted, status, code):
        self.core.refuse(wanted.who, status, code, txid=self.core.log.reached.txid)
