"""The controller's core, without a clock, a file, a thread or a socket: events come in, and actions go out.

Events are the calls of `Controller`. Whoever calls one sets `now` before it, by a clock that goes on while the machine
sleeps, and carries out `out` behind it. Actions:

    ("ask", number, ask, until)    carry it out, unless it is later than `until`; then `answered(number, value, sent_at)`
    ("cancel", number)             nobody waits for it any more: end it
    ("close",)                     end the session of ZooKeeper, and with it the lock
    ("reply", who, status, value)  answer a request
    ("tell", text)                 tell an operator
    ("end", status)                end the controller

What it does step by step is one generator (way.py). Here is what holds at each moment of it: the lock is believed for two
thirds of the time that its session lives, from when the last request that ZooKeeper answered was *sent*.
"""
from collections import Counter, deque

from asks import Ask, Failed, GivenUp, Health
from way import FIRST_PAUSE, life

# The lock is written each sixth of its time to live, and believed for two thirds of it.
TOUCHES, BELIEVED = 6, 2 / 3
# So many times in a row the feeder may give no answer.
SILENCES = 3
# Kinds that go through ZooKeeper's leader: their answer confirms the session. A read may be answered by a server that lost it.
CONFIRM = frozenset(("take", "touch", "write"))
# Kinds that are asked with no lock.
UNLOCKED = frozenset(("open", "watch", "take", "stop"))
TOLD_LINES = 50
# What a state of the own service says of the lock that is held for it.
LOST_STATES = ("stopped", "deposed", "loading")


class Controller:
    def __init__(self, settings, instance, now):
        self.settings = settings
        self.instance = instance
        self.now = self.started_at = self.step_at = now
        self.out = []
        # Asks that were not answered: their numbers, each with the ask, who waits and until when.
        self.asked = {}
        self.number = 0
        self.ttl = settings.ttl
        # The version of our lock, or None; when it was confirmed last, and when it was written last.
        self.lock = None
        self.confirmed = self.touched_at = now
        # The own feeder: what it said last, None if it is gone; how often in a row it was silent.
        self.health, self.silences = None, 0
        # Whether a promotion was sent to the own service, and no answer says that it is none.
        self.may_be_active = False
        # The epoch that this host rose to last, the version of its own breadcrumb, and the greatest TXID that was seen.
        self.epoch, self.crumb, self.seen, self.txid = 0, None, 0, None
        # Whether that breadcrumb may be taken away where this host was not promoted.
        self.may_clear = False
        self.is_freed = self.is_leaving = False
        # Whether who leaves has ended the own service.
        self.has_ended = False
        # The move that room was made for, and until when.
        self.room, self.room_until = None, now
        # It does not stand before this time; and how long the next pause is.
        self.out_until, self.pause = now, FIRST_PAUSE
        self.is_ending = False
        self.step = "begins"
        self.refused = None
        self.told = deque(maxlen=TOLD_LINES)
        self.refusals, self.steps = Counter(), Counter()
        self.promoted_at, self.promotions = now, 0
        # The answers that the way waits for: by number, and those that came.
        self.awaited, self.values, self.is_list = [], {}, False
        self.way = life(self)
        self.advance(None)

    # ---- What is said.

    def act(self, *action):
        self.out.append(action)

    def tell(self, text):
        self.told.append((self.now, text))
        self.act("tell", text)

    def at(self, step, text=None):
        """The step that begins."""
        self.step, self.step_at = step, self.now
        self.steps[step] += 1
        self.tell(f"{step}: {text}" if text else step)

    # ---- The way: it is given what it waits for.

    def believed_until(self):
        return self.confirmed + BELIEVED * self.ttl

    def is_sure(self):
        """Whether the lock is ours, as far as the clock can say."""
        return self.lock is not None and self.now < self.believed_until()

    def is_fit(self):
        """Whether the own service may stand for election."""
        return self.health is not None and self.health.is_good and self.silences == 0 and self.health.state in ("standby", "active")

    def is_active(self):
        return self.health is not None and self.health.state == "active"

    def advance(self, value):
        """Goes on with the way until it waits."""
        try:
            wanted = self.way.send(value)
        except StopIteration:
            if not self.is_ending:
                raise
            self.act("end", 0)
            self.awaited = None
            return
        self.is_list, self.values = isinstance(wanted, list), {}
        self.awaited = [self.ask(ask) for ask in (wanted if self.is_list else [wanted] if wanted else [])]
        if self.is_list and not wanted:
            self.advance([])

    def ask(self, ask):
        """Asks, and answers the number. With the lock no step begins when that is not believed any more."""
        self.number += 1
        until = self.now + ask.within
        self.asked[self.number] = ask, until
        is_bound = self.lock is not None and ask.kind not in UNLOCKED
        self.act("ask", self.number, ask, min(until, self.believed_until()) if is_bound else until)
        return self.number

    def wake(self):
        """Something changed, or time went on: a way that waits for no answer looks again."""
        if self.awaited == []:
            self.advance(None)

    def turn(self, replacement):
        """Leaves the way where it is, and takes another one. A write of the lock goes on: its version is needed."""
        self.way.close()
        for number, (ask, _) in list(self.asked.items()):
            if ask.kind != "touch":
                del self.asked[number]
                self.act("cancel", number)
        self.way = replacement
        self.advance(None)

    def lose(self, code, text, is_lock_lost=True):
        """The lock may not be believed any more, or the own service not be relied on.

        Who leaves already goes on with that, but is in a hurry where the lock is lost.
        """
        if self.lock is None or (self.is_leaving and not is_lock_lost):
            return
        if is_lock_lost:
            self.lock = None
        if not (self.is_leaving and self.has_ended):
            is_clear = code == "service_deposed" and self.settings.journal_refuses
            self.turn(life(self, GivenUp(code, text, pause=False, is_clear=is_clear)))

    def give_back(self):
        """Ends the session, and the lock with it. What was written to keep that is nobody's any more."""
        self.lock = self.crumb = None
        for number, (ask, _) in list(self.asked.items()):
            if ask.kind == "touch":
                del self.asked[number]
        self.act("close")

    # ---- Events.

    def tick(self):
        """Comes each 40th of the time to live or more often, and behind each other event."""
        if self.awaited is None:
            return
        self.look_at_lock()
        self.look_at_asks()
        self.touch()
        self.wake()

    def look_at_lock(self):
        late = self.now - max(self.confirmed, self.started_at)
        text = f"ZooKeeper answered nothing that was sent in the last {late:.2f} s"
        if self.lock is not None and not self.is_sure():
            self.lose("unconfirmed", text)
        elif self.lock is None and self.is_active() and late >= BELIEVED * self.ttl and not self.is_leaving:
            self.turn(life(self, GivenUp("no_lock", f"the own service is active without the lock, and {text}", pause=False)))

    def look_at_asks(self):
        for number, (ask, until) in list(self.asked.items()):
            if self.now >= until and number in self.asked:
                self.act("cancel", number)
                self.answered(number, Failed("silent", f"{ask.kind} was not answered within {ask.within:g} s"), None)

    def touch(self):
        """Writes the lock again, in its turn: one write at a time, each with the version of the one before."""
        is_under_way = any(ask.kind == "touch" for ask, *_ in self.asked.values())
        if self.lock is not None and not is_under_way and self.now >= self.touched_at + self.ttl / TOUCHES:
            self.touched_at = self.now
            self.ask(Ask("touch", (self.lock,), self.ttl))

    def answered(self, number, value, sent_at):
        """An ask is answered. `sent_at`: when its request was sent, by the clock of `now`."""
        if number not in self.asked:
            return
        ask, _ = self.asked.pop(number)
        if ask.kind in CONFIRM and not isinstance(value, Failed):
            self.confirmed = max(self.confirmed, sent_at)
        if ask.kind == "touch":
            self.touched(value)
        elif number in self.awaited:
            self.values[number] = value
            # An answer may come late: then the lock is not believed, and this way has ended.
            self.look_at_lock()
            if number in self.values and len(self.values) == len(self.awaited):
                values = [self.values[it] for it in self.awaited]
                self.advance(values if self.is_list else values[0])

    def touched(self, value):
        if isinstance(value, Failed):
            self.lose("lock_lost", f"the lock could not be written: {value.text or value.code}")
        elif self.lock is not None:
            self.lock = value

    def freed(self):
        """The lock that was watched is gone."""
        self.is_freed = True
        self.tick()

    def suspended(self):
        """The connection to ZooKeeper is lost, or its session."""
        self.is_freed = True
        self.lose("suspended", "the connection to ZooKeeper is lost")
        self.tick()

    def heard(self, health: Health):
        """The own feeder answered."""
        self.silences, self.health = 0, health
        self.seen = health.known
        is_lost = health.state in LOST_STATES or health.reason == "silent"
        if is_lost and self.lock is not None:
            self.lose(f"service_{health.reason or health.state}", f"the own service is {health.reason or health.state}", False)
        self.tick()

    def silent(self):
        """The own feeder did not answer within a second."""
        self.silences += 1
        if self.silences >= SILENCES:
            self.health = None
            self.lose("feeder_silent", f"the own feeder was silent {SILENCES} times in a row", False)
        self.tick()

    def gone(self):
        """The connection to the own feeder ended, or was refused."""
        if self.health is not None:
            self.tell("the connection to the own feeder ended")
        self.health = None
        self.lose("feeder_gone", "the own feeder is gone", False)
        self.tick()

    def end(self):
        """It was asked to end: the own service is ended in order, and the lock given back."""
        if not self.is_ending:
            self.is_ending = True
            if not self.is_leaving:
                self.turn(life(self, GivenUp("ending", "it was asked to end", pause=False)))

    def request(self, who, kind, _body):
        self.act("reply", who, 200, {"instance": self.instance, **status(self)})


def status(core) -> dict:
    """What is shown."""
    left = core.believed_until() - core.now
    return {
        "host": core.settings.host,
        "step": core.step,
        "step_seconds": round(core.now - core.step_at, 3),
        "lock": core.is_sure(),
        "lock_seconds": round(left, 3) if core.lock is not None else None,
        "ttl": core.ttl,
        "epoch": core.epoch,
        "txid": core.txid,
        "service": core.health.state if core.health else None,
        "ill": (core.health.reason if core.health else "gone") if not core.is_fit() else None,
        "refused": dict(zip(("code", "text", "seconds"), (*core.refused[:2], round(core.now - core.refused[2], 1)))) if core.refused else None,
        "out_seconds": round(max(core.out_until - core.now, 0), 1),
        "promotions": core.promotions,
        "refusals": dict(core.refusals),
        "steps": dict(core.steps),
        "up_seconds": round(core.now - core.started_at, 1),
        "told": [(round(core.now - then, 3), text) for then, text in core.told],
    }
