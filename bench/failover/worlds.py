"""A world round two cores of the failover's controller: ZooKeeper, feeders, a journal, writers and hooks, all with faults.

Its time is `now`. Each host has a clock of its own. What a core asks is carried out late, once or not at all, and its answer
may be lost. The laws are looked at where something happens, by what the world knows and no controller can.
"""
import heapq
import json
from types import SimpleNamespace

TTL = 2.0
TOUCH = TTL / 40
WITHIN = 5
WRITE_SECONDS, LAG_SECONDS = 0.3, 0.4


class Broken(Exception):
    """A law that broke. The text says which."""


class ZooKeeper:
    """One server: sessions, each with the time at which it ends, and nodes with versions."""

    def __init__(self, world):
        self.world = world
        self.sessions, self.count = {}, 0
        self.lock = None  # the session, the host and the version
        self.nodes = {"breadcrumb": ["", 0], "epoch": ["0", 0], "move": ["", 0]}
        self.watches = []

    def open(self, host, core):
        """A session, for a core that may be gone by now."""
        self.count += 1
        self.sessions[self.count] = SimpleNamespace(host=host, until=self.world.now + TTL, core=core)
        if core is host.core:
            host.session = self.count

    def is_alive(self, session):
        return session in self.sessions

    def look(self):
        """Ends the sessions that nobody was heard of."""
        for session, it in list(self.sessions.items()):
            if self.world.now >= it.until:
                self.close(session)
                self.world.expired(it.host, it.core)

    def close(self, session):
        self.sessions.pop(session, None)
        if self.lock and self.lock[0] == session:
            self.free()

    def free(self):
        self.lock = None
        watches, self.watches = self.watches, []
        for watch in watches:
            watch()

    def touch(self, session):
        self.sessions[session].until = self.world.now + TTL

    def take(self, session, host, version):
        if self.lock and not (version is not None and self.lock[1:] == (host, version)):
            return "taken"
        self.lock = (session, host, 0)
        return 0

    def touch_lock(self, session, version):
        if not self.lock or self.lock[0] != session or self.lock[2] != version:
            return "other_version"
        self.lock = (*self.lock[:2], version + 1)
        return version + 1

    def write(self, name, text, version):
        node = self.nodes[name]
        if node[1] != version:
            return "other_version"
        node[:] = [text, version + 1]
        return version + 1


class Journal:
    """What writers write to. One that `refuses` takes nothing of an epoch below the last that was finalized."""

    def __init__(self, refuses):
        self.refuses = refuses
        self.epoch = self.size = 0
        # The epochs of what it acknowledged.
        self.finalized = 0

    def write(self, epoch):
        if self.refuses and epoch < self.epoch:
            return False
        self.size += 1
        return True


class Feeder:
    """A feeder with its service."""

    def __init__(self, world, host):
        self.world, self.host = world, host
        self.is_up, self.epoch = True, 0
        self.start()

    def start(self):
        self.is_up, self.state, self.promoted, self.is_isolated = True, "standby", 0, False
        self.txid = self.seen = 0
        self.pending = None
        self.follow()

    def follow(self):
        if self.is_up and self.state == "standby":
            self.seen = self.txid = max(self.txid, self.world.journal.finalized)

    def end(self):
        """Ends, and is started again later."""
        if self.is_up:
            self.is_up, self.pending = False, None
            self.state = "ended"
            self.world.after(self.world.random.uniform(0.2, 3), self.start)
            self.world.after(0.001, self.host.hear_gone)

    def name(self, epoch):
        self.epoch = max(self.epoch, epoch)
        if self.pending and self.pending[1] < self.epoch:
            self.answer(409, code="late_epoch")
        if self.state == "active" and self.epoch > self.promoted:
            self.state = "deposed"
            self.world.after(0.02, self.end)
        return {"epoch": self.epoch, "state": self.state}

    def promote(self, txid, epoch, within, reply):
        if epoch < self.epoch:
            reply((409, {"code": "late_epoch"}))
            return
        self.epoch = max(self.epoch, epoch)
        if self.pending:
            self.answer(409, code="late_epoch")
        self.pending = [txid, epoch, reply]
        self.try_promotion()
        if self.pending:
            mine = self.pending
            self.world.after(within, lambda: self.answer(409, code="behind") if self.pending is mine else None)

    def try_promotion(self):
        self.follow()
        if not self.is_up or self.pending is None:
            return
        txid, epoch, _ = self.pending
        if self.host.is_stopped:
            self.answer(409, code="stopped")
        elif txid < max(self.seen, self.txid) or (self.state == "active" and txid != self.txid):
            self.answer(409, code="ahead")
        elif txid > self.txid:
            self.world.after(0.1, self.try_promotion)
        else:
            self.world.promoted(self.host, txid, epoch, self.state == "active")
            self.state, self.promoted, self.txid = "active", epoch, txid
            self.answer(200, state="active")

    def answer(self, status, **body):
        pending, self.pending = self.pending, None
        pending[2]((status, body))


class Host:
    """A host: its feeder, its writer, its clock, and a controller that may be killed or stand still."""

    def __init__(self, world, name):
        self.world, self.name = world, name
        self.offset = world.random.uniform(0, 1e6)
        self.rate = world.random.uniform(0.995, 1.005)
        self.core = None
        self.is_stopped = False
        self.writer = None
        self.session = None
        # Whether where a planned failover goes was said to be well; and when this service became active, or active anew.
        self.may_move, self.promoted_at = False, 0.0
        self.paused_until = -TTL
        self.inbox = []
        # Whether requests to ZooKeeper, and its answers, are lost; and whether others reach this host.
        self.is_mute = self.is_deaf = self.is_cut = False
        self.feeder = Feeder(world, self)

    def clock(self):
        return self.world.now * self.rate + self.offset

    def start(self):
        settings = self.world.modules.asks.Settings(
            self.name, ("a", "b"), TTL, 3.0, 3.0, 3.0, WITHIN, self.world.journal.refuses, True
        )
        self.core = self.world.modules.controller.Controller(settings, "i", self.clock())
        self.act(self.core)
        self.tick(self.core)
        self.poll(self.core)

    def kill(self):
        self.core = None
        # Its session goes on until nobody was heard of it.
        self.session = None
        self.world.after(self.world.random.choice((0.1, 0.5, 3, 8)), lambda: self.core or self.start())

    def pause(self, seconds):
        self.paused_until = self.world.now + seconds
        self.world.after(seconds, self.resume)

    def resume(self):
        if self.world.now >= self.paused_until:
            inbox, self.inbox = self.inbox, []
            for core, event in inbox:
                self.event(core, *event)

    def event(self, core, name, *given):
        """An event for a core that may be gone, or stand still."""
        if core is not self.core or core is None:
            return
        if self.world.now < self.paused_until:
            self.inbox.append((core, (name, *given)))
            return
        core.now = self.clock()
        getattr(core, name)(*given)
        self.act(core)

    def tick(self, core):
        if core is self.core:
            if self.world.now >= self.paused_until:
                self.event(core, "tick")
                if self.session in self.world.zookeeper.sessions and not self.is_mute and self.world.random.random() < 0.1:
                    # What the client sends on its own.
                    self.world.zookeeper.touch(self.session)
            self.world.after(TOUCH, lambda: self.tick(core))

    def poll(self, core):
        """Asks the own feeder for its health each second."""
        if core is not self.core:
            return
        if self.feeder.is_up and self.world.now >= self.paused_until:
            state = self.feeder.state
            is_good = state in ("standby", "active") and not self.is_stopped
            health = self.world.modules.asks.Health(is_good, state, None if is_good else state, self.feeder.seen, self.feeder.txid, self.clock())
            self.world.after(0.005, lambda: self.event(core, "heard", health) if self.feeder.is_up else None)
        self.world.after(0.5 if self.core.health is None else 1, lambda: self.poll(core))

    def hear_gone(self):
        self.event(self.core, "gone")

    def act(self, core):
        while core is self.core and core.out:
            action, *given = core.out.pop(0)
            self.world.trace.append((round(self.world.now, 3), self.name, action, *given))
            if core.step == "leaves" and core.refused[0] == "moved":
                self.world.moves(self)
            if action == "ask":
                self.world.carry_out(self, core, *given)
            elif action == "close":
                session, self.session = self.session, None
                if session and not self.is_mute:
                    self.world.after(0.002, lambda: self.world.zookeeper.close(session))
            elif action == "end":
                self.kill()


class World:
    def __init__(self, modules, seed, random):
        self.modules, self.random = modules, random
        self.now, self.queue, self.count = 0.0, [], 0
        self.trace = []
        self.is_troubled = True
        self.journal = Journal(seed % 3 != 0)
        # A hook that prints where the log ends before it refuses older writers.
        self.is_hook_early = False
        self.zookeeper = ZooKeeper(self)
        # The greatest epoch of a promotion; that of the last one for which the log was ended.
        self.greatest = self.ended = self.promotions = 0
        # When a planned failover was asked for last.
        self.moved_at = 0.0
        self.last = None
        self.hosts = {name: Host(self, name) for name in "ab"}

    # ---- Time.

    def after(self, seconds, do):
        self.count += 1
        heapq.heappush(self.queue, (self.now + seconds, self.count, do))

    def run(self, until):
        while self.queue and self.queue[0][0] <= until:
            self.now, _, do = heapq.heappop(self.queue)
            self.zookeeper.look()
            do()
        self.now = until

    def chance(self, part):
        return self.is_troubled and self.random.random() < part

    # ---- Laws.

    def promoted(self, host, txid, epoch, is_again):
        """A service becomes active, or is active in a greater epoch from now on."""
        self.trace.append((round(self.now, 3), host.name, "PROMOTED", txid, epoch, is_again))
        self.promotions += 1
        if epoch <= self.greatest:
            raise Broken(f"promoted in epoch {epoch} behind {self.greatest}")
        self.greatest, host.promoted_at = epoch, self.now
        self.ended = self.ended if is_again else epoch
        if is_again and self.last is not host:
            raise Broken(f"{host.name} goes on behind a promotion of {self.last.name}")
        self.last = host
        for other in self.hosts.values():
            if other is not host and other.feeder.state == "active" and not other.feeder.is_isolated:
                raise Broken(f"{other.name} is active while {host.name} is promoted")
        crumb = json.loads(self.zookeeper.nodes["breadcrumb"][0] or "{}")
        if not is_again and crumb.get("host") != host.name:
            raise Broken(f"{host.name} is promoted, and the breadcrumb has {crumb}")
        if not is_again and txid < self.journal.size:
            raise Broken(f"promoted at {txid}, and {self.journal.size} were acknowledged")
        if txid > self.journal.size:
            raise Broken("promoted above the log")

    def moves(self, host):
        """A host makes room for another one."""
        if not host.may_move:
            raise Broken(f"{host.name} makes room for who was not said to be well")
        if host.promoted_at > self.moved_at:
            raise Broken(f"{host.name} follows a planned failover that is older than its promotion")

    def wrote(self, host):
        """An edit is acknowledged: nobody's whose log was ended for a promotion."""
        if host.writer < self.ended:
            raise Broken(f"a writer of epoch {host.writer} is acknowledged behind a promotion in epoch {self.ended}")

    def expired(self, host, core):
        """A session ended. A controller that lives and did not stand still has ended its service by now, or has another one."""
        is_awake = core is host.core and core is not None and self.now - host.paused_until > TTL
        if is_awake and host.feeder.state == "active" and not self.zookeeper.is_alive(host.session):
            raise Broken(f"{host.name} is active behind the end of its session")

    # ---- What a core asks.

    def carry_out(self, host, core, number, ask, until):
        if host.core is core and core.lock is not None and ask.kind not in ("stop", "open", "watch", "take"):
            if not self.zookeeper.is_alive(host.session):
                raise Broken(f"{host.name} begins {ask.kind} without a session")
        if self.chance(0.01):
            # It is killed as this step begins: it was sent, or was not.
            is_sent = self.random.random() < 0.5
            host.kill()
            if not is_sent:
                return
        elif self.chance(0.01):
            host.pause(self.random.uniform(0.5, 3) * TTL)
            if self.random.random() < 0.7:
                # It was on its way by then, or goes once the host goes on, if it may still begin.
                self.after(host.paused_until - self.now + 0.001, lambda: self.begin(host, core, number, ask, until))
                return
        self.begin(host, core, number, ask, until)

    def begin(self, host, core, number, ask, until):
        sent_at = host.clock()
        failed = self.modules.asks.Failed
        if sent_at > until and not self.chance(0.02):
            host.event(core, "answered", number, failed("late"), sent_at)
            return

        def answer(value):
            if not self.chance(0.02):
                self.after(self.random.choice((0.001, 0.003, 0.02)), lambda: host.event(core, "answered", number, value, sent_at))

        do = {
            **{"epoch": self.name_epoch, "health": self.tell_health, "fence": self.fence, "finalize": self.finalize},
            **{"promote": self.promote, "active": self.start_writer, "stop": self.stop},
        }.get(ask.kind, self.ask_zookeeper)
        session = host.session
        self.after(self.random.choice((0.001, 0.002, 0.01, 0.1)), lambda: do(host, core, ask, answer, session))

    def ask_zookeeper(self, host, core, ask, answer, session):
        server, failed = self.zookeeper, self.modules.asks.Failed
        if host.is_mute:
            return
        answer = answer if not host.is_deaf else lambda _value: None
        if ask.kind == "open":
            server.open(host, core)
            answer(TTL)
            return
        if not server.is_alive(session) or self.chance(0.003):
            answer(failed("session"))
            host.event(core, "suspended")
            return
        server.touch(session)
        if ask.kind == "watch":
            holder = server.lock and self.modules.asks.Holder(*server.lock[1:])
            if holder:
                server.watches.append(lambda: self.after(0.002, lambda: host.event(core, "freed")))
            answer(holder)
        elif ask.kind == "read":
            answer(self.modules.asks.Node(*server.nodes[ask.arguments[0]]))
        else:
            do = {"take": lambda version: server.take(session, host.name, version), "touch": lambda version: server.touch_lock(session, version)}
            value = do.get(ask.kind, server.write)(*ask.arguments)
            answer(failed(value) if isinstance(value, str) else value)

    def name_epoch(self, host, _core, ask, answer, _session):
        other = self.hosts[ask.arguments[0]]
        is_reached = other is host or not (other.is_cut or host.is_cut)
        if other.feeder.is_up and is_reached:
            answer(other.feeder.name(ask.arguments[1]))

    def tell_health(self, host, _core, ask, answer, _session):
        other = self.hosts[ask.arguments[0]]
        if other.feeder.is_up and not (other.is_cut or host.is_cut):
            state = other.feeder.state
            host.may_move = state == "standby" and not other.is_stopped
            answer({"state": state, "reason": None if host.may_move else "stopped"})

    def fence(self, host, _core, ask, answer, _session):
        other = self.hosts[ask.arguments[0]]
        if self.chance(0.2):
            answer(self.modules.asks.Failed("status", "status 1"))
            return
        other.writer = None
        if other.feeder.state == "active" and self.chance(0.6):
            # It is cut off, and not ended: nobody is answered by it, and it goes on to think that it is active.
            other.is_cut = other.feeder.is_isolated = True
        else:
            other.feeder.end()
        answer("")

    def finalize(self, host, _core, ask, answer, _session):
        epoch = ask.arguments[0]
        if self.journal.refuses and epoch < self.journal.epoch:
            answer(self.modules.asks.Failed("status", "status 1"))
            return
        if not self.journal.refuses:
            host.writer = None

        def end(size=None):
            self.journal.epoch = max(self.journal.epoch, epoch)
            printed = self.journal.size if size is None else size
            size = self.journal.size
            self.after(LAG_SECONDS, lambda: self.grow(size))
            answer("" if self.chance(0.03) else f"{printed}\n")

        if self.is_hook_early:
            size = self.journal.size
            self.after(0.5, lambda: end(size))
        else:
            end()

    def grow(self, size):
        self.journal.finalized = max(self.journal.finalized, size)
        for host in self.hosts.values():
            host.feeder.follow()

    def promote(self, host, _core, ask, answer, _session):
        if host.feeder.is_up:
            host.feeder.promote(*ask.arguments, answer)

    def start_writer(self, host, _core, ask, answer, _session):
        if self.chance(0.05):
            answer(self.modules.asks.Failed("status", "status 1"))
            return
        epoch, _ = ask.arguments
        if host.writer is None or (self.journal.refuses and host.writer < self.journal.epoch):
            host.writer = epoch
        answer("")

    def stop(self, host, _core, _ask, answer, _session):
        was_up = host.feeder.is_up
        host.feeder.end()
        answer("ordered" if was_up and self.random.random() < 0.7 else "killed")

    def write_edits(self):
        for host in self.hosts.values():
            if host.writer is not None and self.journal.write(host.writer):
                self.wrote(host)
        self.after(WRITE_SECONDS, self.write_edits)

    def roll(self):
        """A segment ends now and then."""
        self.grow(self.journal.size)
        self.after(2, self.roll)
