"""One drill: what goes wrong in it and when, and what is judged behind it.

`takeover`: the first active is gone, and the fault comes at a step of who takes over. `active`: one of the standbys was
promoted, and the fault comes to it. The laws are over what callers were answered, over what the journal acknowledged, and
over the tables of who is active in the end.
"""
import itertools
import json
import os
import random
import signal
import subprocess
import threading
import time
from typing import NamedTuple, Optional

import network
from cluster import DIGEST, HERE, PROMOTED, clock

STEPS = ("reads", "rises", "names", "fences", "writes", "finalizes", "promotes", "starts")
# A drill begins, and ends, within so many seconds.
READY_SECONDS, END_TTLS = 30, 15
TAKEOVER = (
    *("controller killed", "feeder killed", "program killed", "writer killed", "controller stopped", "feeder stopped", "program stopped"),
    *("requests to ZooKeeper lost", "answers of ZooKeeper lost", "link to ZooKeeper cut", "link to all cut", "folder unmounted"),
    *("disk full", "clock jumps", "bad edit", "fence fails", "controller killed and cut off"),
)
ACTIVE = (
    *("host killed", "program of the active killed", "controller of the active killed", "feeder of the active killed"),
    *("controller of the active stopped", "link of the active to ZooKeeper cut", "active cut off, with the lock later"),
    *("planned failover", "controller of the active killed and cut off"),
)
# Who is cut off without its controller is so as it may be active.
CUT_OFF_AT = ("promotes", "writes", "starts")
# It comes to all lanes at once, so these drills are alone. Each second one is behind a promotion.
ALONE = "leader of ZooKeeper killed"
# With this the feeders and the controllers have a clock that can be set.
CLOCKED = "clock jumps"


class Wrong(Exception):
    """A law that broke, or a drill that did not come to an end. The text says which."""


class Result(NamedTuple):
    number: int
    fault: str
    step: Optional[str]  # the step at which it came; None: it hit nothing
    wrong: Optional[str]
    ended: str
    free: Optional[float]  # seconds from the free lock to the first promotion, where nothing was wrong before it
    away: Optional[float]  # seconds from the fault to the promotion of the other one


class Drill:
    def __init__(self, lane, number, fault, seed, turn, late):
        """`turn`: how often this fault came before. Each step has its turn. `late`: a controller is killed so many seconds later."""
        self.lane, self.number, self.fault, self.late = lane, number, fault, late
        self.random = random.Random(seed)
        self.is_takeover = fault in TAKEOVER or fault == ALONE and number % 2 == 0
        self.wanted, self.turn = STEPS[turn % len(STEPS)], turn
        self.host = None
        self.hit_at = self.hit_step = self.free_at = None
        self.lock = threading.Lock()
        self.timers = []
        self.must_end_by = self.trouble = None
        self.is_freed = False

    # ---- Its course.

    def run(self):
        wrong, ended = None, "not begun"
        begun = clock()
        try:
            self.begin()
            self.free_lock()
            if not self.is_takeover:
                self.wait("nobody is promoted", self.is_settled, READY_SECONDS)
                time.sleep(0.3)
                self.host = next(it for it in self.lane.hosts if it.is_active())
                self.hit(self.host, "active")
            ended = self.wait_for_end()
            self.judge()
        except (Wrong, OSError, ValueError, subprocess.SubprocessError, StopIteration, TimeoutError) as law:
            wrong = str(law) or repr(law)
        finally:
            for timer in self.timers:
                timer.cancel()
            self.lane.end()
            self.keep_lines()
        free, away = self.times()
        return Result(self.number, self.fault, self.hit_step, wrong, f"{ended}, {clock() - begun:.0f} s", free, away)

    def begin(self):
        lane = self.lane
        folder = os.path.join(lane.folder, str(self.number))
        lane.begin(self, folder, f"/drills/{self.number}")
        words = [os.path.join(HERE, "holder"), lane.ensemble.hosts, lane.root, DIGEST, str(2 * lane.ttl)]
        how = {"stdin": subprocess.PIPE, "stdout": subprocess.PIPE, "text": True}
        self.holder = subprocess.Popen(network.inside(lane.namespace, *words), **how)
        if self.holder.stdout.readline() != "held\n":
            raise Wrong("the first active has not the lock")
        for host in lane.hosts:
            if self.fault == CLOCKED:
                host.clock = os.path.join(folder, f"clock-{host.name}")
                set_clock(host.clock, 0)
                host.surroundings = {"LD_PRELOAD": lane.clock, "CLOCK_FILE": host.clock}
            host.start()
        if self.fault == "bad edit":
            self.wait("the standbys are not there", lambda: all(it.status().get("state") == "standby" for it in lane.hosts), READY_SECONDS)
            lane.ask_journal(do="spoil", host="a")
            self.wait("the log of a does not stop", lambda: lane.hosts[0].status().get("state") == "stopped", READY_SECONDS)
            self.hit_at, self.hit_step = clock(), "watches"
        self.wait("the standbys are not ready", lambda: all(map(self.is_ready, lane.hosts)), READY_SECONDS)

    def is_ready(self, host):
        status = host.status()
        if status.get("state") == "stopped" and self.fault == "bad edit":
            return True
        full = [it["full_report"] == "taken" for it in status.get("datanodes", [])]
        return host.step() == "watches" and status.get("txid", 0) > 0 and len(full) == 3 and all(full)

    def free_lock(self):
        self.is_freed = True
        self.holder.stdin.write("free\n")
        self.holder.stdin.flush()
        self.free_at = float(self.holder.stdout.readline())
        self.holder.wait()

    def stepped(self, host, step):
        """A line of a controller, in the thread that reads it."""
        with self.lock:
            if not self.is_takeover or not self.is_freed or self.hit_at is not None or self.fault == "bad edit":
                return
            if step == self.wanted_step():
                self.host = host
                self.hit(host, step)

    def wanted_step(self):
        if self.fault == "fence fails":
            return "reads"
        if self.fault == "controller killed and cut off":
            return CUT_OFF_AT[self.turn % len(CUT_OFF_AT)]
        if self.fault in ("folder unmounted", "disk full"):
            return self.wanted if self.wanted != "starts" else "fences"
        return self.wanted

    def hit(self, host, step):
        """The fault comes."""
        self.hit_at, self.hit_step = clock(), step
        FAULTS[self.fault](self, host)

    def later(self, seconds, do):
        timer = threading.Timer(seconds, do)
        timer.daemon = True
        self.timers.append(timer)
        timer.start()

    def a_while(self):
        """From half of the time that a session lives to three times that."""
        return self.random.uniform(0.5, 3) * self.lane.ttl

    def wait(self, what, is_so, seconds):
        end = clock() + seconds
        while clock() < end:
            if is_so():
                return
            time.sleep(0.05)
        raise Wrong(what)

    def is_settled(self):
        """Whether one service is active, its controller says so, and its writer writes."""
        active = [host for host in self.lane.hosts if host.is_active()]
        return len(active) == 1 and active[0].status().get("state") == "active"

    def wait_for_end(self):
        end = clock() + END_TTLS * self.lane.ttl + 10
        steady = 0
        while clock() < end and steady < 4:
            time.sleep(0.15)
            if self.trouble:
                raise Wrong(self.trouble)
            if self.fault == "fence fails" and self.hit_at and self.has_said("leaves", "fence:"):
                return "with a fence that did not answer"
            is_over = self.hit_at is not None or self.is_settled()
            has_moved = self.is_takeover or self.fault not in MUST_MOVE or clock() > self.hit_at + 0.5
            steady = steady + 1 if is_over and has_moved and self.is_settled() and not self.is_pending() else 0
        if steady < 4:
            raise Wrong(f"nobody is active in the end: {[(it.name, it.steps()[-1:]) for it in self.lane.hosts]}")
        return "promoted"

    def is_pending(self):
        return any(timer.is_alive() for timer in self.timers)

    def has_said(self, step, words):
        return any(it == step and (text or "").startswith(words) for host in self.lane.hosts for _, it, text in host.steps())

    # ---- The laws.

    def judge(self):
        promoted = self.promotions()
        self.judge_epochs(promoted)
        self.judge_log(promoted)
        self.judge_watched()
        if self.fault != "fence fails":
            self.judge_tables()
        elif promoted:
            raise Wrong("promoted, and the fence did not answer")

    def promotions(self):
        """Each promotion by the logs: when, which host, the TXID, the epoch, and whether the log was ended for it."""
        found = []
        for host in self.lane.hosts:
            is_ended = False
            for at, text in host.lines:
                is_ended = (is_ended or text.endswith(": finalizes")) and not text.endswith(": reads")
                promoted = PROMOTED.search(text)
                if promoted:
                    found.append((at, host, int(promoted[1]), int(promoted[2]), is_ended))
        return sorted(found, key=lambda it: it[0])

    def judge_epochs(self, promoted):
        epochs = [it[3] for it in promoted]
        if epochs != sorted(set(epochs)):
            raise Wrong(f"promoted in epochs {epochs}")

    def judge_log(self, promoted):
        """What was acknowledged in a lower epoch is in each log that was ended for a promotion."""
        with open(os.path.join(self.lane.journal_folder, "acknowledged")) as file:
            acknowledged = [tuple(map(int, line.split())) for line in file]
        before = None
        for _, host, txid, epoch, is_ended in promoted:
            # Who goes on as the active one goes on with its writer.
            is_new, before = is_ended or host is not before, host
            lost = [it for it in acknowledged if it[1] < epoch and it[0] > txid]
            if lost and is_new:
                raise Wrong(f"{len(lost)} acknowledged edits are above TXID {txid}, at which {host.name} was promoted in epoch {epoch}")

    def judge_watched(self):
        """No answer says active whose request was sent behind another host's first active of a higher epoch."""
        with open(os.path.join(self.lane.place, "watched")) as file:
            rows = [json.loads(line) for line in file if line.endswith("\n")]
        active = [(row["sent"], row["received"], row["host"], (row["promotion"] or {"epoch": 0})["epoch"]) for row in rows if row["state"] == "active"]
        first = {}
        for _, received, host, epoch in sorted(active, key=lambda it: it[1]):
            first.setdefault((host, epoch), received)
        for sent, _, host, epoch in active:
            for (other, higher), received in first.items():
                if other != host and higher > epoch and sent > received:
                    raise Wrong(f"{host} says active in epoch {epoch} {sent - received:.3f} s behind {other} in epoch {higher}")
        if self.must_end_by:
            host, begin, end = self.must_end_by
            late = [row for row in active if row[2] == host and begin < row[0] < end]
            if late:
                raise Wrong(f"{host} says active {late[-1][0] - self.hit_at:.2f} s behind the cut of its link to ZooKeeper")

    def judge_tables(self):
        """The tables of who is active are those of the batch over the same log and reports."""
        host = next(it for it in self.lane.hosts if it.is_active())
        status = host.status()
        txid = status["promotion"]["txid"]
        with open(os.path.join(self.lane.journal_folder, "log")) as file:
            log = [line for line in file if json.loads(line)["txid"] <= txid]
        sure, unsure = self.reports(host.name, status["instance"])
        tables = host.ask("/tables").decode()
        # Of those of each DataNode whose answer was lost some came, in order, and the rest did not.
        for counts in itertools.product(*(range(len(rows) + 1) for rows in unsure)):
            taken = [row for rows, count in zip(unsure, counts) for row in rows[:count]]
            if self.batch(log, sure + taken) == tables:
                return
        with open(os.path.join(self.lane.place, "tables"), "w") as file:
            file.write(tables)
        with open(os.path.join(self.lane.place, "batch"), "w") as file:
            file.write(self.batch(log, sure))
        raise Wrong(f"the tables of {host.name} at TXID {txid} are not those of the batch, with {len(sure)} requests and {sum(map(len, unsure))} unsure")

    def reports(self, host, instance):
        """The reports that this start of a feeder took; and for each DataNode those behind them whose answer was lost."""
        sure, unsure = [], []
        for dn in range(1, 4):
            with open(os.path.join(self.lane.place, f"dn{dn}")) as file:
                rows = [json.loads(line) for line in file if line.endswith("\n")]
            mine = [row for row in rows if row["host"] == host and row["instance"] == instance]
            last = max((at for at, row in enumerate(mine) if row["status"] == 200), default=-1)
            sure += [row["reports"] for row in mine if row["status"] == 200]
            unsure.append([row["reports"] for row in mine[last + 1 :] if row["status"] is None][:4])
        return sure, unsure

    def batch(self, log, reports):
        lines = log + [json.dumps(report) + "\n" for request in reports for report in request]
        words = [self.lane.program, "--permille", "999", "--min", "1"]
        return subprocess.run(words, input="".join(lines), capture_output=True, text=True, timeout=60).stdout

    # ---- Times.

    def times(self):
        promoted = self.promotions()
        free = away = None
        if promoted and self.free_at and (self.hit_at is None or promoted[0][0] < self.hit_at):
            free = promoted[0][0] - self.free_at
        behind = [it for it in promoted if self.hit_at and it[0] > self.hit_at and it[1] is not self.host]
        if behind and not self.is_takeover:
            away = behind[0][0] - self.hit_at
        return free, away

    def keep_lines(self):
        """The lines of the controllers, beside the rest of the drill."""
        for host in self.lane.hosts:
            with open(os.path.join(self.lane.place, f"controller-{host.name}.log"), "w") as file:
                file.writelines(f"{at:.3f} {text}\n" for at, text in host.lines)


def set_clock(path, seconds):
    """The wall clock of who reads this file, so many seconds ahead."""
    with open(path, "w") as file:
        file.write(f"{seconds}\n")


# ---- The faults. Each takes the drill and the host to which it comes.


def kill(part):
    return lambda _drill, host: getattr(host, part).signal(signal.SIGKILL)


def kill_those(word):
    def do(_drill, host):
        for pid in host.those(word):
            os.kill(pid, signal.SIGKILL)

    return do


def stop(pids_of):
    """Stands still for a while."""

    def do(drill, host):
        pids = pids_of(host)
        send(pids, signal.SIGSTOP)
        drill.later(drill.a_while(), lambda: send(pids, signal.SIGCONT))

    return do


def send(pids, which):
    for pid in pids:
        try:
            os.kill(pid, which)
        except ProcessLookupError:
            pass


def cut(ways, servers_alone):
    def do(drill, host):
        host.link.cut(drill.lane.ensemble.addresses if servers_alone else None, ways)
        drill.later(drill.a_while(), host.link.mend)

    return do


def cut_active(drill, host):
    """Longer than its session lives: it says active no more, until its link is there again."""
    ttl = drill.lane.ttl
    seconds = drill.random.uniform(1.5, 3) * ttl
    host.link.cut(drill.lane.ensemble.addresses + [drill.lane.other(host).address])
    drill.must_end_by = host.name, clock() + ttl, clock() + seconds
    drill.later(seconds, host.link.mend)


def kill_and_cut_off(drill, host):
    """The controller is gone for good, and the other host does not reach this one. Who looks on does."""
    time.sleep(drill.late)
    host.controller.is_off = True
    host.controller.signal(signal.SIGKILL)
    host.link.cut([drill.lane.other(host).address])
    drill.later(6 * drill.lane.ttl, host.link.mend)


def unmount(drill, host):
    network.run("umount", "-l", host.edits)

    def mount():
        network.run("mount", "-t", "tmpfs", "-o", "size=64m", "none", host.edits)
        with open(os.path.join(drill.lane.journal_folder, "log")) as file:
            log = file.readlines()
        put_back(host, log)
        host.mark()

    drill.later(drill.a_while(), mount)


def put_back(host, log):
    """The finalized segments of the journal, once more."""
    segment = []
    for line in log:
        segment.append(line)
        if '"OP_END_LOG_SEGMENT"' in line:
            first, last = (json.loads(segment[at])["txid"] for at in (0, -1))
            with open(os.path.join(host.edits, f"edits_{first:019}-{last:019}"), "w") as file:
                file.writelines(segment)
            segment = []


def fill(drill, host):
    path = os.path.join(host.checkpoints, "filler")
    try:
        with open(path, "wb", buffering=0) as file:
            while file.write(bytes(4096)):
                pass
    except OSError:
        pass
    drill.later(drill.a_while(), lambda: os.path.exists(path) and os.remove(path))


def jump(drill, host):
    set_clock(host.clock, drill.random.choice((-7200, 3600, 86400)))


def fail_fence(drill, _host):
    with open(os.path.join(drill.lane.journal_folder, "fence-fails"), "w"):
        pass


def kill_host(drill, host):
    host.power_off()
    host.link.cut()


def cut_off_then_lock(drill, host):
    """It is cut off without its controller while the other one is promoted, and then gets the lock alone."""
    lane, other = drill.lane, drill.lane.other(host)
    # The switch of its power answers, and does nothing: this host is cut off, as a fence by network does it.
    host.link.cut(lane.ensemble.addresses, others_than=True)
    lane.ask_journal(do="isolate", host=host.name)
    host.controller.is_off = True
    host.controller.signal(signal.SIGKILL)

    def go_on():
        try:
            course()
        except Wrong as law:
            drill.trouble = str(law)

    def course():
        drill.wait("the other one is not promoted", lambda: other.step() == "active", END_TTLS * lane.ttl)
        other.controller.is_off = other.feeder.is_off = True
        other.controller.signal(signal.SIGKILL)
        other.feeder.signal(signal.SIGKILL)
        # Its session has to end first, and the lock with it.
        time.sleep(1.5 * lane.ttl)
        host.controller.is_off = False
        drill.wait("the one that was cut off does not find that out", lambda: host.has_left("was_cut_off"), END_TTLS * lane.ttl)
        host.link.mend()
        other.controller.is_off = other.feeder.is_off = False

    thread = threading.Thread(target=go_on, daemon=True)
    drill.timers.append(Watch(thread))
    thread.start()


class Watch:
    """A thread that is waited for as a timer is."""

    def __init__(self, thread):
        self.thread = thread

    def is_alive(self):
        return self.thread.is_alive()

    def cancel(self):
        pass


def move(drill, host):
    """Half of the time it names the other one first while that is ill: nothing happens then."""
    other = drill.lane.other(host)
    if drill.random.random() < 0.5:
        other.feeder.signal(signal.SIGSTOP)
        refused = ask_to_move(drill.lane, other)
        other.feeder.signal(signal.SIGCONT)
        if refused.returncode == 0 or "stays active" not in refused.stderr or not host.is_active():
            raise Wrong(f"the planned failover to who is ill: {refused.stdout}{refused.stderr}")
        drill.wait("who was ill is not ready again", lambda: drill.is_ready(other), READY_SECONDS)
        drill.hit_at = clock()
    done = ask_to_move(drill.lane, other)
    if done.returncode != 0:
        raise Wrong(f"the planned failover: {done.stdout}{done.stderr}")


def ask_to_move(lane, host):
    words = [os.path.join(lane.failover, "zulurowan-failover"), "move", "--zookeeper", lane.ensemble.hosts, "--root", lane.root, "--digest", lane.digest]
    return subprocess.run(network.inside(lane.namespace, *words, "--to", host.name), capture_output=True, text=True, timeout=90)


def end_controller(_drill, host):
    host.controller.is_off = True
    host.controller.signal(signal.SIGKILL)


def kill_controller(drill, host):
    """It is started again, or is not."""
    host.controller.is_off = drill.random.random() < 0.5
    host.controller.signal(signal.SIGKILL)


def kill_leader(drill, _host):
    ensemble = drill.lane.ensemble
    leader = ensemble.leading
    ensemble.kill(leader)
    drill.later(drill.a_while(), lambda: ensemble.start(leader))


def controllers(host):
    return [host.controller.process.pid]


def feeders(host):
    return [host.feeder.process.pid]


def programs(host):
    return host.those("--live")


FAULTS = {
    "leader of ZooKeeper killed": kill_leader,
    "controller killed": kill("controller"),
    "feeder killed": kill("feeder"),
    "program killed": kill_those("--live"),
    "writer killed": lambda drill, _host: drill.lane.writer.kill(),
    "controller stopped": stop(controllers),
    "feeder stopped": stop(feeders),
    "program stopped": stop(programs),
    "requests to ZooKeeper lost": cut(("out",), True),
    "answers of ZooKeeper lost": cut(("in",), True),
    "link to ZooKeeper cut": cut(("in", "out"), True),
    "link to all cut": cut(("in", "out"), False),
    "folder unmounted": unmount,
    "disk full": fill,
    "clock jumps": jump,
    "bad edit": None,
    "fence fails": fail_fence,
    "controller killed and cut off": kill_and_cut_off,
    "host killed": kill_host,
    "program of the active killed": kill_those("--live"),
    "controller of the active killed": kill_controller,
    "controller of the active killed for good": end_controller,
    "feeder of the active killed": kill("feeder"),
    "controller of the active stopped": stop(controllers),
    "link of the active to ZooKeeper cut": cut_active,
    "active cut off, with the lock later": cut_off_then_lock,
    "planned failover": move,
    "controller of the active killed and cut off": kill_and_cut_off,
}
# Behind these the other one is promoted.
MUST_MOVE = ("host killed", "program of the active killed", "feeder of the active killed", "planned failover", "controller of the active killed and cut off")
