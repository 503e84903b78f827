"""The program in a session of the model: by docs/LIVE.md, or the built one. And what was said to it, as one who listens hears it."""
import json
import os
import subprocess
from collections import namedtuple

START, END = "OP_START_LOG_SEGMENT", "OP_END_LOG_SEGMENT"
DELETE = "OP_DELETE"

Line = namedtuple("Line", "op txid path")


class ByDefinition:
    """What docs/LIVE.md says, for a log of directories. A deletion is of nothing that is there, and stops the log."""

    def __init__(self, image):
        self.last = self.known = self.lines = self.passed = self.segments = 0
        self.paths = []
        self.hand, self.stop = [], None
        self.active, self.epoch, self.promoted = False, 0, 0
        self.full, self.open, self.messages = set(), {}, {}
        if image:
            header, *rows, _ = image.decode().splitlines()
            self.last = self.known = json.loads(header)["txid"]
            self.paths = [json.loads(row)["path"] for row in rows]

    def answer(self, data):
        """What is written for these lines."""
        told = []
        for line in data.decode().splitlines():
            self.lines += 1
            if line.startswith('{"dn"') or '"dn":' in line:
                told += self.report(json.loads(line))
            elif line.startswith("{"):
                told += self.edit(json.loads(line))
            else:
                told += [*self.word(line.split()), f"done {self.lines}"]
        return "".join(f"{line}\n" for line in told).encode()

    def refusal(self):
        return 51 if self.stop else 53 if self.active else 0

    # ---- The log.

    def edit(self, members):
        txid = members["txid"]
        self.known = max(self.known, txid)
        if self.refusal():
            return [f"fault {self.refusal()} txid {txid}"]
        self.hand.append(Line(members["op"], txid, members.get("path")))
        return self.segment() if members["op"] == END else []

    def segment(self):
        """The segment in hand has its end mark: it is judged whole."""
        hand, self.hand = self.hand, []
        self.segments += 1
        name = self.segments
        if hand[0].op != START:
            return [f"fault 12 segment {name}"]
        if any(line.op == START for line in hand[1:]):
            return [f"fault 13 segment {name}"]
        if [line.txid for line in hand] != list(range(hand[0].txid, hand[0].txid + len(hand))):
            return [f"fault 14 segment {name}"]
        if hand[0].txid > self.last + 1:
            return [f"fault 57 txid {self.last + 1} segment {name}"]
        for line in hand:
            if line.txid > self.last:
                if line.op == DELETE:
                    self.stop = (22, line.txid)
                    return [f"fault 22 txid {line.txid}"]
                self.last = line.txid
                self.paths += [line.path] * (line.path is not None)
        return []

    # ---- Reports.

    def report(self, members):
        if self.refusal():
            return [f"fault {self.refusal()} line {self.lines}"]
        dn, kind = members["dn"], members["kind"]
        self.messages[dn] = self.messages.get(dn, 0) + 1
        if kind == "report_begin":
            self.open[dn] = self.messages[dn]
        if kind == "report_end" and self.open.pop(dn, None):
            self.full.add(dn)
        return []

    # ---- Words.

    def word(self, words):
        name, *more = words
        if name == "seen":
            self.known = max(self.known, int(more[0]))
        elif name == "epoch":
            self.epoch = max(self.epoch, int(more[0]))
        elif name == "gone":
            return self.gone(int(more[0]))
        elif name == "promote":
            return self.promote(int(more[0]), int(more[2]), more[3:] == ["lost"])
        elif name == "status":
            return self.status()
        elif name == "checkpoint":
            return [header(self.last), *map(row, self.paths), json.dumps({"end": len(self.paths)})]
        elif name == "tables":
            return [f"txid {self.last}", 'dir "/"', *(f'dir "{path}"' for path in sorted(self.paths))]
        return []

    def gone(self, dn):
        if self.refusal():
            return [f"fault {self.refusal()} line {self.lines}"]
        self.full.discard(dn)
        self.open.pop(dn, None)
        return []

    def promote(self, txid, epoch, is_lost):
        if epoch < self.epoch:
            return [f"fault 59 epoch {self.epoch}"]
        self.epoch = epoch
        if self.stop:
            return [f"fault 51 line {self.lines}"]
        if self.hand:
            return [f"fault 13 segment {self.segments + 1}"]
        if txid != self.last or (self.known > txid and not is_lost):
            return [f"fault 57 txid {self.last + 1}"]
        self.active, self.promoted, self.known = True, epoch, txid
        return []

    def state(self):
        if self.stop:
            return f"stopped {self.stop[0]} {self.stop[1]}"
        return "standby" if not self.active else "active" if self.promoted == self.epoch else "deposed"

    def status(self):
        told = [f"state {self.state()}", "version 0.0.0", f"known {self.known}", f"passed {self.passed}", f"segments {self.segments}"]
        told += [f"edits {len(self.hand)} 0", f"epoch {self.epoch} {self.promoted}", *(f"full {dn}" for dn in sorted(self.full))]
        told += [f"txid {self.last}", "held 0"]
        for dn, messages in sorted(self.messages.items()):
            told.append(f"datanode {dn} {messages} held 0" + (f" report {self.open[dn]}" if dn in self.open else ""))
        return told

    def end(self):
        pass


def header(txid):
    return json.dumps({"image": "hdfs-standby", "txid": txid})


def row(path):
    return json.dumps({"path": path, "type": "dir"})


class Built:
    """The built program, over two pipes."""

    def __init__(self, path, image):
        words = [path, "--live", *["--from-image"] * bool(image)]
        self.process = subprocess.Popen(words, stdin=subprocess.PIPE, stdout=subprocess.PIPE, bufsize=0)
        self.lines = 0
        if image:
            self.process.stdin.write(image)

    def answer(self, data):
        self.lines += data.count(b"\n")
        self.process.stdin.write(data)
        done, told = b"done %d\n" % self.lines, b""
        while not (told.endswith(b"\n" + done) or told == done):
            chunk = os.read(self.process.stdout.fileno(), 65_536)
            if not chunk:
                raise EOFError("the program ended")
            told += chunk
        return told

    def end(self):
        self.process.kill()
        self.process.wait()
        self.process.stdin.close()
        self.process.stdout.close()


class Listener:
    """What was said to a program, and what it said: which full reports are there, and who is called gone."""

    def __init__(self):
        self.full, self.open, self.gone = set(), set(), set()
        self.is_active, self.epoch, self.promoted = False, 0, 0

    def hear(self, data, told):
        """The lines of an exchange. Those that were refused are told by their number or in the state."""
        state = next((line.split()[1] for line in told.decode().splitlines() if line.startswith("state ")), "")
        is_taken = not any(line.startswith("fault 5") for line in told.decode().splitlines() if " line " in line)
        for line in data.decode().splitlines():
            if line.startswith("gone ") and is_taken:
                self.gone.add(int(line.split()[1]))
                self.full.discard(int(line.split()[1]))
                self.open.discard(int(line.split()[1]))
            elif '"dn":' in line and is_taken:
                self.report(json.loads(line))
        return state

    def report(self, members):
        dn, kind = members["dn"], members["kind"]
        self.gone.discard(dn)
        if kind == "report_begin":
            self.open.add(dn)
        if kind == "report_end" and dn in self.open:
            self.open.discard(dn)
            self.full.add(dn)
