"""What carries out the core's asks: one thread owns the core; hooks and requests to feeders have threads of their own.

An ask that comes to its turn too late is not carried out: between the core's look at its clock and the first byte sent this
process may have stood still.
"""
import http.client
import os
import select
import threading
import time

from asks import Failed
from hooks import Hook

# The core looks at its clock so often in the time that a session lives.
TICKS, LONGEST_TICK = 40, 0.1


def clock():
    """Seconds since the machine was started, those among them in which it slept."""
    return time.clock_gettime(time.CLOCK_BOOTTIME)


class Hands:
    """Takes events one after another, and carries out what the core asks."""

    def __init__(self, own, feeders, commands, open_session, tell):
        """`commands`: those of hooks, by kind. `open_session` makes a session of ZooKeeper, which is not open yet."""
        self.own, self.feeders, self.commands, self.open_session = own, feeders, commands, open_session
        self.core = self.session = self.status = None
        self.events = []
        self.lock = threading.Lock()
        self.waking, self.wakes = os.pipe()
        os.set_blocking(self.wakes, False)
        # What can be ended, by the number of its ask.
        self.running = {}
        self.actions = {"ask": self.ask, "cancel": self.cancel, "close": self.close, "reply": self.reply, "tell": tell, "end": self.end}

    def put(self, *event):
        """From any thread: an event of the core."""
        with self.lock:
            self.events.append(event)
        try:
            os.write(self.wakes, b"x")
        except BlockingIOError:
            pass

    def run(self):
        """Plays until the core ends. Answers the status."""
        next_tick = clock()
        while self.status is None:
            self.act()
            if select.select([self.waking], [], [], max(next_tick - clock(), 0))[0]:
                os.read(self.waking, 4096)
            self.take_events()
            if clock() >= next_tick:
                next_tick = clock() + min(self.core.ttl / TICKS, LONGEST_TICK)
                self.give("tick")
        return self.status

    def take_events(self):
        with self.lock:
            events, self.events = self.events, []
        for name, *given in events:
            self.give(name, *given)

    def give(self, name, *given):
        self.core.now = clock()
        getattr(self.core, name)(*given)
        self.act()

    def act(self):
        while self.core.out:
            name, *given = self.core.out.pop(0)
            self.actions[name](*given)

    # ---- Actions.

    def reply(self, who, status, value):
        who.answer(status, value)

    def end(self, status):
        self.status = status

    def close(self):
        session, self.session = self.session, None
        if session is not None:
            session.close()

    def cancel(self, number):
        running = self.running.pop(number, None)
        if running is not None:
            running.cancel()

    def ask(self, number, ask, until):
        def answer(value, sent_at):
            self.put("answered", number, value, sent_at)

        if ask.kind == "open":
            self.close()
            self.open(answer)
        elif ask.kind in ("watch", "take", "touch", "read", "write"):
            self.ask_zookeeper(ask, until, answer)
        else:
            work = self.work(number, ask)
            # What ends the own service is never too late.
            until = until if ask.kind != "stop" else float("inf")
            threading.Thread(target=self.do, args=(number, work, until, answer), daemon=True).start()

    def open(self, answer):
        """Events of a session that was left are nobody's."""

        def put(*event):
            if self.session is session:
                self.put(*event)

        self.session = session = self.open_session(put)
        try:
            session.open(answer)
        except Exception as fault:
            answer(Failed("zookeeper", repr(fault)), clock())

    def ask_zookeeper(self, ask, until, answer):
        if clock() > until:
            answer(Failed("late", "it came to its turn too late"), clock())
        elif self.session is None:
            answer(Failed("session", "there is no session"), clock())
        else:
            try:
                self.session.ask(ask, answer)
            except Exception as fault:
                answer(Failed("zookeeper", repr(fault)), clock())

    def work(self, number, ask):
        """What a thread does for an ask."""
        if ask.kind == "epoch":
            host, epoch = ask.arguments
            return lambda: self.feeders[host].name_epoch(epoch, ask.within)
        if ask.kind == "health":
            return lambda: self.feeders[ask.arguments[0]].health(ask.within)
        if ask.kind == "promote":
            self.running[number] = held = Held()
            return lambda: self.own.feeder.promote(*ask.arguments, held.hold)
        if ask.kind == "stop":
            return lambda: self.own.stop(*ask.arguments)
        self.running[number] = hook = Hook(self.commands[ask.kind], self.arguments(ask))
        return lambda: hook.run(ask.within)

    def arguments(self, ask):
        """What a hook is given: HOST EPOCH, EPOCH, or HOST EPOCH T."""
        return (self.core.settings.host, *ask.arguments) if ask.kind == "active" else ask.arguments

    def do(self, number, work, until, answer):
        sent_at = clock()
        if sent_at > until:
            value = Failed("late", "it came to its turn too late")
        else:
            try:
                value = work()
            except (OSError, http.client.HTTPException) as fault:
                value = Failed("unreachable", str(fault) or type(fault).__name__)
            except Exception as fault:  # an ask is answered, whatever it meets
                value = Failed("fault", repr(fault))
        self.running.pop(number, None)
        answer(value, sent_at)


class Held:
    """A connection that another thread may end."""

    def __init__(self):
        self.connection = None

    def hold(self, connection):
        self.connection = connection

    def cancel(self):
        sock = self.connection and self.connection.sock
        if sock is not None:
            try:
                sock.shutdown(2)
            except OSError:
                pass
