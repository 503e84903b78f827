"""Judges the feeder's core by sessions: a world with faults around it, and laws over what is seen from outside.

A session plays the hands: it carries out what the core asks for, late and in any order between the lanes, and each
action may fail. It kills the feeder between any two actions, hangs the program, stops all for a while, and hides the
folder. The feeder has the modules that are judged, as they are or with a
fault put back.
"""
import hashlib
import json
import random

from cluster import Cluster
from laws import EVERY, GONE, KEEP, KNOWN_WITHIN, PIECE_BYTES, SLACK, STEADY, STEPS, Broken, Laws
from programs import Built, ByDefinition, Listener
from worlds import Room, Segments, Trouble


class Session(Laws, Cluster):
    """A feeder, its program, its world and its callers."""

    def __init__(self, feeder, seed, program=None):
        self.feeder = feeder
        self.program_path = program
        self.random = random.Random(seed)
        self.trouble = Trouble(seed + 1)
        # What happens at just the moment that a fault needs. It is asked apart, so that it moves nothing else.
        self.moments = random.Random(seed + 2)
        self.grows_at_listing, self.goes_on_at = False, None
        # In some sessions less goes wrong, and nobody asks but a few.
        self.is_quiet = seed % 5 == 0
        self.now = 0.0
        self.segments = Segments(self.trouble, lambda: self.now)
        self.room = Room(self.trouble)
        self.trace = []
        # The log: a path for each transaction, None for a mark. Files that grow: their names, each with what they will have.
        self.log = []
        self.growing = {}
        self.history = 0
        self.is_spoiled = False
        # What the outside relies on: known as a healthy feeder said it, and the greatest epoch that was answered.
        self.sure = self.epoch = 0
        # The greatest TXID that any listing showed.
        self.most = 0
        self.images = set()
        self.requests = 0
        # What was given up, by name, and all names that may have been; the last listing that came, and when it was made.
        self.given_up, self.given_names = {}, frozenset()
        # Whether something was given up: it may be that its sum could not be taken, and then its name is in doubt for good.
        self.is_unsummed = False
        self.shown, self.looked_at = {}, -1.0
        # When all stood still, and for how long; when the last tick was.
        self.pauses, self.heard_tick = (), 0.0
        # The greatest epoch that was named, the last answer of health, and the last segment that was removed.
        self.epoch_named, self.health, self.removed = 0, 0, None
        self.program = None
        self.start()

    # ---- The feeder's life.

    def start(self):
        """A new feeder and a new program, from what is on the disk."""
        self.trouble.is_on = False
        if self.program is not None:
            self.program.end()
        self.ever = self.ever_shown = self.sure
        self.asked, self.listener = {}, Listener()
        self.lanes = {"list": [], "read": [], "disk": [], "program": []}
        self.writing = {}
        # Since when the program hangs, how much of that all stood still, and when it hung last.
        self.hung_since, self.hung_paused, self.hung_late, self.hung_at = None, 0.0, 0.0, None
        self.is_killed = self.is_ended = False
        self.heard = {}
        # When each DataNode asked last, or had an answer.
        self.last_asked = {}
        # Until when a mount hangs, by its lane.
        self.stuck = {}
        start, image = self.started()
        self.program = Built(self.program_path, image) if self.program_path else ByDefinition(image)
        self.trouble.is_on = True
        self.act()

    def started(self):
        """What a start does: it clears the disk, reads the state, and takes the newest checkpoint that is whole."""
        feeder = self.feeder
        store = feeder.store.Store(self.room, lambda text: self.trace.append(text))
        store.clear()
        kept = store.state()
        start, image = self.whole(store)
        if start.name and hashlib.sha256(image).digest() not in self.images:
            raise Broken("a changed image is taken")
        settings = feeder.core.Settings(EVERY, KEEP, GONE, 1, "", True)
        self.clear_given_up(kept)
        self.most = max(self.most, kept.seen if kept else 0)
        after = feeder.state.after_restart(kept or feeder.state.Kept(), start.place.txid)
        self.store = store
        self.folder = feeder.folder.Folder("folder", self.segments)
        self.reader = feeder.segments.LineReader(PIECE_BYTES)
        self.core = feeder.core.Core(settings, after, after == kept, start.place, store.own(), "i", self.now)
        return start, image

    def whole(self, store):
        """The newest checkpoint that is whole while it is read, and its bytes."""
        for start in store.starts():
            image = self.room.files[start.name] if start.name else b""
            try:
                if start.name:
                    start.check.take(image)
                    start.check.finish()
                return start, image
            except self.feeder.state.Damaged as fault:
                store.pass_over(start.name, fault)
        return None

    def clear_given_up(self, kept):
        """Whoever fenced takes away what a promotion gave up, where the feeder was killed before it could keep that."""
        for name, data in self.given_up.items():
            if not kept or name not in kept.given_up:
                if name in self.segments.files and self.segments.files[name].data == data:
                    self.segments.drop(name)

    def act(self):
        """Takes what the core asks for to its lane. Replies and texts are heard at once."""
        while self.core.out:
            action = self.core.out.pop(0)
            self.trace.append((self.now, action))
            kind = action[0]
            if kind == "reply":
                self.judge(*action[1:])
            elif kind == "send":
                self.lanes["program"].append(action)
                self.judge_sent(action[1].decode())
            elif kind in ("list", "read"):
                self.lanes[kind].append(action)
            elif kind in ("save", "finish", "remove"):
                self.lanes["disk"].append(action)
            elif kind == "kill":
                self.is_killed = True
                # One that goes on at this moment has hung until now.
                if self.hung_at != self.now and (self.hung_since is None or self.now - self.hung_since - self.hung_paused < 60 - 2 * SLACK):
                    raise Broken("a program is killed that hung for less than a minute")
            elif kind == "end":
                self.judge_end(action[1])
        if len(self.lanes["program"]) > 1:
            raise Broken("two exchanges at a time")

    def deliver(self, part=1.0):
        """Carries out some of what waits, lane by lane in order, the lanes in any."""
        for _ in range(60):
            ready = [name for name, lane in self.lanes.items() if lane and self.is_moving(name)]
            if not ready or self.is_ended or (part < 1 and self.random.random() > part):
                return
            name = self.random.choice(ready)
            self.carry_out(name, self.lanes[name].pop(0))
            self.act()

    def is_moving(self, lane):
        """Whether a lane does not hang: the program, or a mount."""
        return self.hung_since is None if lane == "program" else self.now >= self.stuck.get(lane, 0)

    def let_program_answer(self):
        """A program that does not hang does what it is asked within the step. Its answer may come with the next one."""
        while self.lanes["program"] and self.hung_since is None and not self.is_ended:
            is_done = len(self.lanes["program"][0]) > 4
            if is_done and self.trouble.chance(0.3):
                return
            self.carry_out("program", self.lanes["program"].pop(0))
            self.act()

    def carry_out(self, lane, action):
        core = self.core
        core.now = self.now
        if lane == "program":
            self.exchange(*action[1:])
        elif lane == "list":
            self.look(action)
        elif lane == "read":
            named, reached = action[1:]
            core.read(named.name, self.feeder.segments.taken(self.reader, self.segments, named.name, named, reached))
        else:
            self.write(*action)

    def look(self, action):
        """A listing that comes late was shown when it was made."""
        if action[-1] != "made":
            try:
                found = self.folder.look(action[1]), None
            except OSError as fault:
                found = None, str(fault)
            action = ("list", found, dict(self.segments.shown), self.segments.listed_at, "made")
            if self.random.random() < 0.2:
                self.lanes["list"].insert(0, action)
                return
        if self.grows_at_listing:
            # In the second in which the folder was listed.
            self.grows_at_listing = False
            self.grow()
        _, found, shown, listed_at, _ = action
        if found[1] is not None and self.lanes["program"] and "promote" in [kind for kind, *_ in self.asked.values()]:
            self.hang_for_a_moment()
        if found[1] is None:
            self.shown, self.looked_at = shown, listed_at
            if self.core.program.state == "standby":
                # Behind a promotion the folder is followed no more, and a listing that comes late is of another log.
                self.ever = max(self.ever, self.greatest(shown, self.segments.sums_failed or self.is_unsummed))
                self.ever_shown = max(self.ever_shown, self.greatest(shown))
            self.most = max(self.most, self.greatest(shown), *(int(name[17:36]) for name in self.segments.unread), 0)
        self.core.looked(*found)

    def write(self, kind, name, data=None):
        fault = None
        try:
            if kind == "save":
                self.store.replace(name, data)
            elif kind == "finish":
                self.writing.pop(name).finish(data)
            else:
                self.store.remove(name)
        except OSError as reason:
            fault = str(reason)
        except self.feeder.state.Damaged as reason:
            raise Broken(f"an image is refused that the program gave: {reason}") from None
        if kind == "remove":
            self.core.removed(name, fault)
        else:
            self.core.saved(name, fault)

    def exchange(self, data, number, file, told=None):
        """The program does what it is asked, and its answer comes at once, or a little later."""
        if told is None:
            told = self.program.answer(data)
            self.judge_state(data.decode(), told, self.listener.hear(data, told))
            if STEADY in self.listener.gone:
                raise Broken("a DataNode is gone that asked every three seconds")
            if self.random.random() < 0.2:
                self.lanes["program"].append(("send", data, number, file, told))
                self.ask_while_gone(data)
                return
        told, _, last = told[:-1].rpartition(b"\n")
        if last != b"done %d" % number:
            raise Broken(f"the answer ends with {last}, and {number} is due")
        fault = None
        if file is not None:
            fault, told = self.give(file, told + b"\n"), b""
        self.core.moved(self.now)
        self.core.answered(told, fault)

    def hang_for_a_moment(self):
        """Until the folder can be looked at again."""
        if self.hung_since is None and self.moments.random() < 0.7:
            self.hang()
            self.goes_on_at = self.now + 2

    def ask_while_gone(self, data):
        """One that is called gone asks before the program's answer has come."""
        for row in data.decode().splitlines():
            if row.startswith("gone ") and self.moments.random() < 0.7:
                self.request("heartbeat", dn=int(row.split()[1]))

    def give(self, name, image):
        """A long answer goes to its file."""
        self.images.add(hashlib.sha256(image).digest())
        try:
            self.writing[name] = self.store.begin(name)
            self.writing[name].write(image)
        except OSError as reason:
            return str(reason)
        return None

    # ---- What callers do.

    def request(self, kind, **body):
        self.requests += 1
        self.asked[self.requests] = (kind, body, self.now)
        if kind in ("report", "heartbeat"):
            self.last_asked[body["dn"]] = self.now
        if kind == "health" and self.is_ended:
            return
        self.core.now = self.now
        if kind in ("promote", "epoch"):
            self.epoch_named = max(self.epoch_named, body["epoch"])
        self.core.request(self.requests, kind, body)
        if kind == "health" and not any(action[:2] == ("reply", self.requests) for action in self.core.out):
            raise Broken("health waits")
        self.act()

    def report(self, dn, kind):
        members = {"dn": dn, "block": 1073741825, "gen": 1001, "len": 5, "kind": kind}
        self.request("report", dn=dn, data=json.dumps(members, separators=(",", ":"), sort_keys=True).encode() + b"\n", count=1)

    def promote(self):
        if any(kind == "promote" and body["lost"] for kind, body, _ in self.asked.values()):
            return
        reached = self.core.log.reached.txid
        body = {"txid": max(0, reached + self.random.choice([0, 0, 0, 0, 1, -1, 4])), "within": self.random.choice([0, 0, 0, 8, 20])}
        body["epoch"] = self.random.choice([0, self.epoch, self.epoch, self.epoch + 1, max(0, self.epoch - 1)])
        self.request("promote", lost=self.random.random() < 0.3, **body)

    # ---- A step.

    def step(self):
        length = self.random.choice([0.2, 1, 1, 1, 2.5])
        self.now += length
        if self.goes_on_at is not None and self.now >= self.goes_on_at:
            self.goes_on_at = None
            self.go_on()
        chosen = self.random.random()
        if self.is_ended:
            self.start()
        elif self.is_quiet and chosen > 0.3:
            pass
        elif self.listener.is_active and self.random.random() < 0.1:
            self.die()
        else:
            self.happen(chosen)
        if self.is_ended:
            return
        for work in self.random.choice(((self.beat, self.tick, self.move), (self.tick, self.beat, self.move), (self.tick, self.move, self.beat))):
            work()
            if self.is_ended:
                return
        self.let_program_answer()
        if not self.is_ended:
            self.request("health")
        self.look_at_hang()

    def move(self):
        self.deliver(0.9)

    def beat(self):
        """One DataNode asks every three seconds."""
        if self.now - self.heard.get(STEADY, 0) > 2:
            self.heard[STEADY] = self.now
            self.request("heartbeat", dn=STEADY)

    def tick(self):
        if self.now - self.heard_tick > 5:
            # A feeder ticks each second, unless it stood still.
            self.pauses = (*self.pauses, (self.now, self.now - self.heard_tick))
        self.heard_tick = self.now
        self.core.now = self.now
        self.core.tick()
        self.act()

    def happen(self, chosen):
        if chosen < 0.20:
            self.grow()
        elif chosen < 0.26:
            self.ripen()
        elif chosen < 0.30:
            self.segments.hide(not self.segments.is_hidden)
        elif chosen < 0.33:
            self.begin_segment()
        elif chosen < 0.36:
            self.end_segments()
        elif chosen < 0.38:
            self.remove_newest()
        elif chosen < 0.55:
            self.report(self.random.randint(1, 3), self.random.choice(["report_begin", "received", "report_end"]))
        elif chosen < 0.60:
            self.request("heartbeat", dn=self.random.randint(1, 3))
        elif chosen < 0.70:
            self.promote()
        elif chosen < 0.72:
            self.request("epoch", epoch=self.epoch + self.random.choice([0, 0, 1]))
        elif chosen < 0.76:
            self.die()
        elif chosen < 0.79:
            self.hang()
        elif chosen < 0.82:
            self.go_on()
        elif chosen < 0.84:
            self.pause()
        elif chosen < 0.87:
            self.room.bytes = self.random.choice([900, 1500, 4000, 100_000])
        elif chosen < 0.89:
            self.flip()
        elif chosen < 0.91:
            self.stuck[self.random.choice(["list", "read", "disk"])] = self.now + self.random.choice([3, 9, 20])

    def die(self):
        """kill -9, between any two actions. A new one starts at once."""
        self.tick()
        self.deliver(0.6)
        if not self.is_ended:
            self.start()

    def pause(self):
        """All stands still: the feeder, the program and who asks them."""
        length = self.random.choice([4, 8, 30, 90])
        self.now += length
        # A short one can't be told from a late tick: it may count or not.
        self.hung_paused += length if length > 5 else 0
        self.hung_late += 7 if length <= 5 else 0
        self.pauses = (*self.pauses, (self.now, length))
        if self.random.random() < 0.5:
            self.heard[STEADY] = self.now
            self.request("heartbeat", dn=STEADY)

    def flip(self):
        """A byte of a file on the disk is another one, and the feeder starts again."""
        names = sorted(name for name in self.room.files if self.room.files[name])
        if not names:
            return
        name = self.random.choice(names)
        before = self.room.files[name]
        at = self.random.randrange(len(before))
        data = bytearray(before)
        data[at] ^= self.random.choice([1, 2, 4, 16])
        self.room.files[name] = bytes(data)
        if name == "state":
            self.judge_damaged_state(before)
            return
        self.start()

    # ---- The end.

    def settle(self):
        """With no more faults, all that is there is followed, nothing is left on the disk, and who is silent is gone."""
        self.trouble.is_on = False
        self.segments.sums_failed = False
        self.segments.hide(False)
        self.room.bytes = 10**6
        self.go_on()
        self.let_program_answer()
        self.ripen()
        if self.removed and self.greatest({self.removed[0]: self.removed[1]}) <= len(self.log):
            name, data = self.removed
            if name not in self.segments.files and self.given_up.get(name) != data and f"/h{self.history}-".encode() in data:
                self.segments.put(name, data)
        self.stuck = {}
        for at in range(GONE + 20):
            self.now += 1
            if self.is_ended:
                self.start()
                self.trouble.is_on = False
            self.beat()
            if at == 0 and self.moments.random() < 0.3:
                self.grow()
                self.grows_at_listing = True
            self.tick()
            self.deliver()
            self.ripen()
            if at == KNOWN_WITHIN and not self.is_ended:
                is_followed = self.is_in_order() and not self.core.log.doubts
                self.ever = max(self.ever, is_followed * self.greatest(self.visible(), True))
                self.request("health")
        self.request("health") if not self.is_ended else None
        self.judge_rest()
        is_standby = not self.is_ended and self.core.program.state == "standby"
        self.judge_promotable()
        if is_standby and not self.is_ended and not self.core.log.doubts:
            self.judge_names()

    def run(self):
        """Plays it whole. Answers the law that broke, or None."""
        try:
            for _ in range(STEPS):
                self.step()
            self.settle()
        except Broken as broken:
            return str(broken)
        except Exception as raised:  # a feeder that raises ends
            return f"it raises {raised!r}"
        finally:
            self.program.end()
        return None
