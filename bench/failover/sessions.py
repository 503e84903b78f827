"""A session of the model: a world with faults for a while, and without any at its end."""
import json
import random

from worlds import TTL, Broken, World

TROUBLED_SECONDS, QUIET_SECONDS = 40, 150
# So many looks in a row find somebody who is active.
STEADY = 3


class Session:
    def __init__(self, modules, seed, is_hook_early=False):
        self.random = random.Random(seed)
        self.world = World(modules, seed, self.random)
        self.world.is_hook_early = is_hook_early
        self.hosts = list(self.world.hosts.values())

    def run(self):
        """The law that broke, or None."""
        world = self.world
        try:
            for host in self.hosts:
                host.start()
            world.write_edits()
            world.roll()
            # In some sessions all is well until somebody is active.
            world.is_troubled = self.random.random() < 0.5
            world.run(5)
            world.is_troubled = True
            while world.now < TROUBLED_SECONDS:
                self.trouble()
                world.run(world.now + self.random.choice((0.02, 0.3, 1, 3, 8)))
            self.heal()
            self.be_quiet()
        except Broken as law:
            return str(law)
        return None

    def trouble(self):
        host = self.random.choice(self.hosts)
        kind = self.random.choice(("kill", "feeder", "pause", "mute", "deaf", "cut", "session", "power", "move", "named", "well", "well", "stopped"))
        if kind == "kill" and host.core:
            host.kill()
        elif kind == "feeder":
            host.feeder.end()
        elif kind == "pause" and host.core:
            host.pause(self.random.uniform(0.5, 3) * TTL)
        elif kind in ("mute", "deaf", "cut"):
            setattr(host, f"is_{kind}", True)
            self.world.after(self.random.uniform(0.2, 3) * TTL, lambda: setattr(host, f"is_{kind}", False))
        elif kind == "session" and host.core:
            host.event(host.core, "suspended")
        elif kind == "power":
            host.kill()
            host.writer = None
            host.feeder.end()
        elif kind == "move":
            self.move()
        elif kind == "named" and host.feeder.is_up:
            # By an operator.
            host.feeder.name(self.world.greatest + 100)
        elif kind == "stopped" and self.random.random() < 0.1 and not any(it.is_stopped for it in self.hosts):
            host.is_stopped = True

    def move(self):
        """A planned failover from who has the lock."""
        server = self.world.zookeeper
        if server.lock:
            other = next(it.name for it in self.hosts if it.name != server.lock[1])
            self.world.moved_at = self.world.now
            server.write("move", json.dumps({"from": server.lock[1], "to": other}), server.nodes["move"][1])

    def heal(self):
        world = self.world
        world.is_troubled = False
        for host in self.hosts:
            host.is_mute = host.is_deaf = host.is_cut = False
            if host.feeder.is_isolated:
                host.feeder.end()

    def be_quiet(self):
        """Without faults somebody is active before long, and stays."""
        end, steady = self.world.now + QUIET_SECONDS, 0
        while self.world.now < end and steady < STEADY:
            self.world.run(self.world.now + 5)
            try:
                self.look_at_end()
                steady += 1
            except Broken:
                steady = 0
        self.look_at_end()

    def look_at_end(self):
        """Somebody is active, has the lock and is named by the breadcrumb. A log that stopped is an operator's."""
        active = [host for host in self.hosts if host.feeder.state == "active"]
        if len(active) != 1:
            steps = ", ".join(f"{host.name} {host.core.step} {host.core.refused}" for host in self.hosts if host.core)
            raise Broken(f"{len(active)} services are active in the end: {steps}")
        host, server = active[0], self.world.zookeeper
        if host.core is None or host.core.step != "active" or not server.lock or server.lock[1] != host.name:
            raise Broken(f"{host.name} is active, and {server.lock} has the lock")
        crumb = json.loads(server.nodes["breadcrumb"][0] or "{}")
        if crumb.get("host") != host.name or host.writer is None:
            raise Broken(f"{host.name} is active, with the breadcrumb {crumb} and the writer {host.writer}")
