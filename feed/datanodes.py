"""The DataNodes as the core knows them: when each was heard, whose full report is there, and their reports' way.

A part of the core. Which report began and ended the program says; what is here are clocks and callers.
"""
from collections import Counter, deque

from program import NO_LINES, Exchange, Lines

# So many bytes of reports go in one exchange, but for a body that has more.
BATCH_BYTES = 1_048_576
# How many DataNodes are asked for a full report at a time, for how long one of them may take to begin, and how long the others wait.
FULL_AT_ONCE, FULL_SECONDS, AFTER_SECONDS = 16, 60, 5
# A fault of reports is told once in so many seconds.
TOLD_SECONDS = 60


class ReportFaults:
    """What is told of faults of reports. A line for each would let a caller fill the disk, and hide all else that is told."""

    def __init__(self, core):
        self.core = core
        # When each number was told last; and how many came since, of which DataNodes.
        self.told_at, self.since = {}, {}

    def count(self, dn, numbers):
        for number, count in Counter(numbers).items():
            self.core.faults[str(number)] += count
            more, datanodes = self.since.setdefault(number, (0, set()))
            self.since[number] = more + count, datanodes | {dn}
        self.tell()

    def tell(self):
        for number in [it for it in self.since if self.core.now - self.told_at.get(it, -TOLD_SECONDS) >= TOLD_SECONDS]:
            count, datanodes = self.since.pop(number)
            self.told_at[number] = self.core.now
            of = f"DataNode {min(datanodes)}" if len(datanodes) == 1 else f"{len(datanodes)} DataNodes"
            self.core.tell(f"fault {number} for {count:,} report{'s' * (count != 1)} of {of}")


class DataNodes:
    def __init__(self, core):
        self.core = core
        # When each was heard last, and which of them are called gone.
        self.heard = {}
        self.gone = set()
        # Those that were asked for a full report, and when.
        self.asked = {}
        # The reports that wait: who asks, the DataNode, its lines; and those in the exchange under way.
        self.waiting = deque()
        self.batch = []
        self.is_asked = False
        # The last second in which the reports' door was full.
        self.full_second = None
        self.taken = 0
        self.faults = ReportFaults(core)

    # ---- Who is there.

    def hear(self, dn):
        self.heard[dn] = self.core.now
        self.gone.discard(dn)

    def tick(self, paused):
        """Time in which nobody could be heard counts for nobody."""
        self.faults.tell()
        if paused:
            self.heard = {dn: then + paused for dn, then in self.heard.items()}
        if not self.core.is_standby():
            return
        for dn in sorted(dn for dn in self.heard if self.is_silent(dn) and dn not in self.gone):
            self.gone.add(dn)
            self.core.program.ask(Exchange(lambda dn=dn: self.make_gone(dn), lambda answer, dn=dn: self.gone_answered(answer, dn)))

    def is_silent(self, dn):
        return self.core.now - self.heard[dn] > self.core.settings.gone

    def make_gone(self, dn):
        """The word, unless it was heard while this waited."""
        if dn not in self.gone or not self.is_silent(dn) or not self.core.is_standby():
            self.gone.discard(dn)
            return None
        self.core.program.forget_full(dn)
        self.core.tell(f"DataNode {dn} is gone: it was not heard for {self.core.now - self.heard[dn]:.0f} seconds")
        return Lines(b"gone %d\n" % dn, 1)

    def gone_answered(self, answer, dn):
        for fault in answer.faults:
            self.core.count_fault(fault, f"(DataNode {dn})")

    def door_was_full(self):
        """A request was sent away: that second counts for nobody."""
        second = int(self.core.now)
        if second != self.full_second:
            self.full_second = second
            self.heard = {dn: then + 1 for dn, then in self.heard.items()}

    # ---- Full reports.

    def full_report(self, dn):
        """What the program has of a DataNode's full report, and when another one is asked for."""
        has = self.core.program.full_report(dn)
        if has == "none":
            return self.asks(dn)
        if has == "taken":
            self.asked.pop(dn, None)
        return {"full_report": has}

    def asks(self, dn):
        """Asks for a full report, where not too many are on their way."""
        self.asked = {one: then for one, then in self.asked.items() if self.core.now - then < FULL_SECONDS}
        if dn not in self.asked and len(self.asked) >= FULL_AT_ONCE:
            return {"full_report": "none", "after": AFTER_SECONDS}
        self.asked.setdefault(dn, self.core.now)
        return {"full_report": "none", "after": 0}

    # ---- Reports.

    def heartbeat(self, who, body):
        self.hear(body["dn"])
        self.core.reply(who, 200, **self.full_report(body["dn"]))

    def report(self, who, body):
        self.hear(body["dn"])
        self.waiting.append((who, body["dn"], Lines(body["data"], body["count"])))
        if not self.is_asked:
            self.is_asked = True
            self.core.program.ask(Exchange(self.make_batch, self.batch_answered))

    def make_batch(self):
        """What waits goes in one exchange."""
        size = 0
        while self.waiting and (not self.batch or size + len(self.waiting[0][2].data) <= BATCH_BYTES):
            self.batch.append(self.waiting.popleft())
            size += len(self.batch[-1][2].data)
        self.is_asked = False
        if self.waiting:
            self.is_asked = True
            self.core.program.ask(Exchange(self.make_batch, self.batch_answered))
        lines = [lines for _, _, lines in self.batch]
        return Lines(b"".join(it.data for it in lines), sum(it.count for it in lines)) if lines else NO_LINES

    def batch_answered(self, answer):
        """A fault's line finds its caller."""
        batch, self.batch = self.batch, []
        faults = deque(sorted((int(fault[3]), fault[1]) for fault in answer.faults))
        first = answer.first
        for who, dn, lines in batch:
            told = []
            while faults and faults[0][0] < first + lines.count:
                line, number = faults.popleft()
                told.append({"report": line - first + 1, "fault": int(number)})
            first += lines.count
            self.taken += lines.count - len(told)
            self.faults.count(dn, [fault["fault"] for fault in told])
            # It waited for this answer, so it could not ask again.
            self.hear(dn)
            status = 409 if told else 200
            self.core.reply(who, status, taken=lines.count - len(told), faults=told, **self.full_report(dn))
