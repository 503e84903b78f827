"""A drill's cluster: two standbys with feeder and controller, a journal with the first active's writer, three DataNodes."""
import http.client
import json
import os
import re
import socket
import subprocess
import threading
import time

import network

HERE = os.path.dirname(os.path.realpath(__file__))
TOP = os.path.join(HERE, "..", "..")
FEED = os.path.join(TOP, "feed", "zulurowan-feed")
TOKEN = "a-token-of-the-drills"
DIGEST = "drills:password-of-the-drills"
STEP = re.compile(r"zulurowan-failover: (waits|watches|reads|rises|names|fences|writes|finalizes|promotes|starts|active|leaves)(?:: (.*))?$")
PROMOTED = re.compile(r"promoted at TXID (\d+) in epoch (\d+)$")


def clock():
    return time.clock_gettime(time.CLOCK_BOOTTIME)


class Part:
    """A process of a host that is started again when it ended, as a supervisor does."""

    def __init__(self, host, name, words, pause):
        self.host, self.name, self.words, self.pause = host, name, words, pause
        self.process, self.ended_at = None, None
        self.is_off = False

    def start(self):
        self.ended_at = None
        surroundings = {**os.environ, "DRILL_HOST": self.host.name, **self.host.surroundings}
        output = subprocess.PIPE if self.name == "controller" else open(os.path.join(self.host.folder, f"{self.name}.log"), "a")
        nothing = {"stdin": subprocess.DEVNULL, "stdout": subprocess.DEVNULL}
        self.process = subprocess.Popen(self.words, stderr=output, env=surroundings, start_new_session=True, **nothing)
        if self.name == "controller":
            threading.Thread(target=self.host.listen, args=(self.process.stderr,), daemon=True).start()
        else:
            output.close()

    def look(self):
        """Starts it again a while behind its end."""
        if self.process is not None and self.process.poll() is not None and not self.is_off and not self.host.is_off:
            self.ended_at = self.ended_at or clock()
            if clock() >= self.ended_at + self.pause:
                self.start()

    def signal(self, which):
        if self.process is not None and self.process.poll() is None:
            os.kill(self.process.pid, which)


class Host:
    """A standby's host, in a namespace of its own."""

    def __init__(self, lane, name, address):
        self.lane, self.name, self.address = lane, name, address
        self.namespace = network.make(f"{name}{lane.number}", address)
        self.link = network.Link(self.namespace)
        self.parts = []

    def set(self, folder):
        """Begins a drill in this folder."""
        self.folder = folder
        self.edits, self.checkpoints = os.path.join(folder, "edits"), os.path.join(folder, "checkpoints")
        self.socket = os.path.join(folder, "operators")
        self.surroundings = {}
        self.is_off = False
        # The lines of its controllers, each with when it came.
        self.lines = []
        for path in (self.edits, self.checkpoints):
            os.makedirs(path)
        for path, size in ((self.edits, "64m"), (self.checkpoints, "2m")):
            network.run("mount", "-t", "tmpfs", "-o", f"size={size}", "none", path)
        self.mark()

    def mark(self):
        with open(os.path.join(self.edits, "here"), "w"):
            pass

    def words_of_feeder(self):
        doors = ["--reports", f"{self.address}:8021", "--operators", f"{self.address}:8022", "--token", self.lane.token, "--socket", self.socket]
        return network.inside(self.namespace, FEED, *doors, "--program", self.lane.program, "--poll", "0.1", self.edits, self.checkpoints)

    def words_of_controller(self):
        lane = self.lane
        hook = os.path.join(HERE, "hook")
        places = [word for host in lane.hosts for word in ("--feeder", f"{host.name}={self.socket if host is self else f'{host.address}:8022'}")]
        hooks = [word for kind in ("fence", "finalize", "active") for word in (f"--{kind}", f"{hook} {kind} {lane.address}", f"--{kind}-timeout", "5")]
        where = ["--zookeeper", lane.ensemble.hosts, "--root", lane.root, "--digest", lane.digest, "--token", lane.token]
        rest = ["--ttl", str(lane.ttl), "--within", "5", "--journal-refuses", "--host", self.name]
        return network.inside(self.namespace, os.path.join(lane.failover, "zulurowan-failover"), "run", *where, *places, *hooks, *rest)

    def start(self):
        self.feeder = Part(self, "feeder", self.words_of_feeder(), 0.5)
        self.controller = Part(self, "controller", self.words_of_controller(), 0.3)
        self.parts = [self.feeder, self.controller]
        for part in self.parts:
            part.start()

    def listen(self, stream):
        """Takes the lines of a controller, as they come."""
        for line in stream:
            text = line.decode(errors="replace").rstrip()
            self.lines.append((clock(), text))
            step = STEP.search(text)
            if step:
                self.lane.drill.stepped(self, step[1])

    def steps(self):
        return [(at, found[1], found[2]) for at, text in self.lines for found in [STEP.search(text)] if found]

    def step(self):
        steps = self.steps()
        return steps[-1][1] if steps else None

    def is_active(self):
        """Whether its controller is there, and says so."""
        return not self.is_off and self.controller.process.poll() is None and self.step() == "active"

    def has_left(self, code):
        return any(step == "leaves" and text.startswith(f"{code}:") for _, step, text in self.steps())

    def those(self, word):
        """The processes of this host that have a word as an argument."""
        found = []
        for pid in network.processes(self.namespace):
            try:
                with open(f"/proc/{pid}/cmdline", "rb") as file:
                    words = file.read().split(b"\0")
            except OSError:
                continue
            if word.encode() in words:
                found.append(pid)
        return found

    def ask(self, path, seconds=5):
        """GET at the own door."""
        connection = http.client.HTTPConnection("feed", timeout=seconds)
        connection.sock = socket.socket(socket.AF_UNIX, socket.SOCK_STREAM)
        connection.sock.settimeout(seconds)
        try:
            connection.sock.connect(self.socket)
            connection.request("GET", path)
            return connection.getresponse().read()
        finally:
            connection.close()

    def status(self):
        try:
            return json.loads(self.ask("/status"))
        except (OSError, ValueError, http.client.HTTPException):
            return {}

    def power_off(self):
        self.is_off = True
        network.kill_all(self.namespace)

    def end(self):
        self.is_off = True
        network.kill_all(self.namespace)
        for part in self.parts:
            if part.process is not None:
                part.process.wait()
        self.link.mend()
        for path in (self.edits, self.checkpoints):
            while subprocess.run(["umount", "-l", path], capture_output=True).returncode == 0:
                pass


class Lane:
    """What one drill at a time uses."""

    def __init__(self, number, folder, ensemble, program, ttl, failover):
        self.number, self.folder, self.ensemble, self.program, self.ttl, self.failover = number, folder, ensemble, program, ttl, failover
        net = f"10.77.{10 + number}"
        self.address = f"{net}.3"
        self.namespace = network.make(f"j{number}", self.address)
        self.hosts = [Host(self, name, f"{net}.{1 + at}") for at, name in enumerate("ab")]
        self.token, self.digest, self.clock = (os.path.join(folder, name) for name in ("token", "digest", "clock.so"))
        self.others = []
        self.drill = self.supervisor = None

    def begin(self, drill, folder, root):
        """Starts all but the controllers' candidacy: that waits for the lock."""
        self.drill, self.root, self.place = drill, root, folder
        os.makedirs(folder)
        for host in self.hosts:
            host.set(os.path.join(folder, host.name))
            host.parts = []
        self.journal_folder = os.path.join(folder, "journal")
        os.makedirs(self.journal_folder)
        own = [f"{self.namespace}=n:"]
        rows = own + [f"{host.namespace}={host.name}:{host.edits}" for host in self.hosts]
        self.others = []
        self.start("journal", "serve", self.journal_folder, self.address, *rows)
        self.wait_for_journal()
        self.writer = self.start("journal", "write", self.address, "n", "1", DRILL_HOST="n")
        addresses = [f"{host.name}={host.address}" for host in self.hosts]
        for dn in range(1, 4):
            self.start("datanode", str(dn), self.address, os.path.join(folder, f"dn{dn}"), *addresses)
        self.start("watcher", TOKEN, os.path.join(folder, "watched"), *addresses)
        self.is_over = threading.Event()
        self.supervisor = threading.Thread(target=self.supervise, daemon=True)
        self.supervisor.start()

    def start(self, name, *words, **surroundings):
        with open(os.path.join(self.place, "others.log"), "a") as output:
            how = {"stdin": subprocess.DEVNULL, "stdout": output, "stderr": output, "env": {**os.environ, **surroundings}}
            process = subprocess.Popen(network.inside(self.namespace, os.path.join(HERE, name), *words), **how)
        self.others.append(process)
        return process

    def ask_journal(self, **members):
        words = network.inside(self.namespace, os.path.join(HERE, "journal"), "ask", self.address, json.dumps(members))
        done = subprocess.run(words, capture_output=True, text=True, timeout=10)
        return json.loads(done.stdout) if done.returncode == 0 else None

    def wait_for_journal(self):
        for _ in range(100):
            if self.ask_journal(do="state") is not None:
                return
            time.sleep(0.05)
        raise TimeoutError("the journal does not begin")

    def supervise(self):
        while not self.is_over.wait(0.05):
            for host in self.hosts:
                for part in host.parts:
                    part.look()

    def other(self, host):
        return next(it for it in self.hosts if it is not host)

    def end(self):
        self.is_over.set()
        self.supervisor.join()
        for host in self.hosts:
            host.end()
        network.kill_all(self.namespace)
        for process in self.others:
            process.wait()
