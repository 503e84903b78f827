"""The laws of a session: what may be seen from outside a feeder. They say nothing of how its core works."""
import functools
import hashlib
import re

EVERY, KEEP, GONE, PIECE_BYTES = 8, 2, 15, 420
STEADY = 9
# So many seconds behind the last fault all is known that is there.
KNOWN_WITHIN = 9
STEPS = 120
# How late what the world sees may be: a tick, and what a lane holds back.
SLACK = 3


class Broken(Exception):
    """A law that does not hold."""


@functools.lru_cache(2000)
def last_of(name, data):
    """The TXID that a file says is there, or 0."""
    if not re.fullmatch(r"edits_(inprogress_)?[0-9]{19}(-[0-9]{19})?(\.xml)?", name):
        return 0
    stem = name.replace(".xml", "")
    return int(stem[-19:]) if "inprogress" not in name or is_begun(name, data) else 0


def is_begun(name, data):
    if data.startswith(b"\xff"):
        return len(data) > 8 and data[8] != 0xFF
    return b"<RECORD>" in data if name.endswith(".xml") else b"\n" in data


class Laws:
    """What is judged, over what a session notes."""

    def greatest(self, shown, is_doubtful=False):
        """The greatest TXID that these files say is there, by the rules of names. Of doubtful ones nothing is known."""
        given = self.given_up
        left = ((name, data) for name, data in shown.items() if given.get(name) != data and not (is_doubtful and name in self.given_names))
        return max((last_of(name, data) for name, data in left), default=0)

    def judge_sent(self, text):
        """A promotion is sent in time, and nobody is gone who asked, or heard an answer, not long ago."""
        for dn in (int(row.split()[1]) for row in text.splitlines() if row.startswith("gone ")):
            if self.now - self.last_asked.get(dn, -GONE) < GONE - SLACK:
                raise Broken(f"DataNode {dn} is gone, and was heard {self.now - self.last_asked[dn]:.0f} seconds ago")
        for words in (row.split() for row in text.splitlines() if row.startswith("promote ")):
            self.sent = self.matching(int(words[3]), words[4:] == ["lost"])
            self.sent_seen, self.sent_looked, self.sent_shown = max(self.ever, self.ever_shown), self.looked_at, self.shown
            if not self.sent:
                raise Broken("a promotion is sent late, or nobody asked for it")

    def matching(self, epoch, is_lost):
        asked = [(body, then) for kind, body, then in self.asked.values() if kind == "promote"]
        return [
            (body, then)
            for body, then in asked
            if (body["epoch"], body["lost"]) == (epoch, is_lost) and self.now - then <= max(5, body["within"]) + 0.001
        ]

    def judge_state(self, text, told, state):
        """A standby that has become active: not below what was seen, not in a lower epoch, and not without a look."""
        if state == "active" and not self.listener.is_active:
            words = next(row.split() for row in text.splitlines() if row.startswith("promote "))
            epoch, is_lost = int(words[3]), words[4:] == ["lost"]
            asked = self.sent
            self.listener.is_active = True
            if epoch < self.epoch:
                raise Broken(f"promoted in epoch {epoch}, and {self.epoch} was named")
            self.listener.promoted = epoch
            if is_lost:
                self.give_up(max(body["txid"] for body, _ in asked))
                return
            txid = max(body["txid"] for body, _ in asked)
            if txid < self.sent_seen:
                raise Broken(f"promoted at {txid}, and {self.sent_seen} was seen")
            if self.sent_looked < min(then for _, then in asked):
                raise Broken("promoted without a look")

    def judge_end(self, status):
        self.is_ended = True
        if status == 1 and not self.is_killed:
            raise Broken(f"it ended with 1: {self.trace[-3:]}")
        if status == 3 and not (self.listener.is_active and self.epoch_named > self.listener.promoted):
            raise Broken("it ended as deposed, and no greater epoch was named")

    def judge(self, who, status, answer):
        """An answer that went out."""
        if who not in self.asked:
            raise Broken("a request is answered twice")
        kind, body, then = self.asked.pop(who)
        if kind in ("report", "heartbeat"):
            self.last_asked[body["dn"]] = self.now
        if kind == "promote":
            self.judge_promotion(status, answer, body, then)
        elif kind == "epoch":
            self.judge_epoch(status, body, then)
        elif kind == "health":
            self.judge_health(status, answer)
        elif kind in ("report", "heartbeat") and "full_report" in answer:
            self.judge_full(kind, answer, body)

    def judge_promotion(self, status, answer, body, then):
        if status == 200:
            if not self.listener.is_active or self.listener.promoted > body["epoch"]:
                raise Broken("a promotion is answered, and it is not active")
            self.listener.promoted = body["epoch"]
        if status == 200 or status == 409:
            self.epoch = max(self.epoch, body["epoch"])
        if self.now - then > max(body["within"], 5) + 3 * SLACK + self.paused_since(then) and self.has_answered_since(then):
            raise Broken(f"a promotion waits {self.now - then:.0f} s for its answer")

    def judge_epoch(self, status, body, then):
        if status == 200:
            self.epoch = max(self.epoch, body["epoch"])
        if self.now - then > 5 + 3 * SLACK + self.paused_since(then) and self.has_answered_since(then):
            raise Broken(f"an epoch waits {self.now - then:.0f} s for its answer")

    def has_answered_since(self, then):
        return self.hung_since is None and (self.hung_at is None or self.hung_at < then)

    def paused_since(self, then):
        return sum(length for at, length in self.pauses if at >= then - SLACK)

    def judge_full(self, kind, answer, body):
        is_full = body["dn"] in self.listener.full
        if answer["full_report"] == "taken" and not is_full:
            raise Broken("half a report is called full")
        if kind == "report" and is_full and answer["full_report"] != "taken" and self.is_in_order():
            raise Broken("a full report is not known")

    def is_in_order(self):
        return self.hung_since is None and not self.listener.is_active

    def judge_health(self, status, answer):
        self.health = status
        hung = self.now - self.hung_since if self.hung_since is not None else 0
        if status == 200:
            if hung - self.hung_paused > 12 + SLACK + self.hung_late:
                raise Broken("healthy, and the program hangs")
            file = self.room.files.get("state")
            kept = self.feeder.judge_state.kept_in(file) if file else self.feeder.judge_state.Kept()
            if kept.seen < answer["known"] or kept.epoch < self.epoch:
                raise Broken(f"healthy, and what it relies on is not kept: {kept}, {answer['known']}, {self.epoch}")
            if answer["state"] not in ("standby", "active"):
                raise Broken(f"healthy, and {answer['state']}")
            if not (self.listener.is_active and self.lanes["program"]):
                # Else a promotion may have given up what it does not know yet.
                self.sure = max(self.sure, answer["known"])
        if answer.get("reason") == "silent" and self.has_answered_since(0):
            raise Broken("silent, and the program answers")
        # Behind a promotion that gave up, it is not known before the program's answer has come.
        if answer["known"] > self.most and not self.lanes["program"]:
            raise Broken(f"it knows {answer['known']}, and no more than {self.most} was ever seen")
        if answer["known"] < self.ever:
            raise Broken(f"it knows {answer['known']}, and {self.ever} was seen")

    def look_at_hang(self):
        hung = self.now - self.hung_since - self.hung_paused - self.hung_late if self.hung_since is not None else 0
        if hung > 75 and not self.is_killed and not self.is_ended:
            raise Broken("a program hangs for more than a minute, and is not killed")

    def judge_damaged_state(self, before):
        """A damaged state is refused. Whoever runs the feeder puts back the one before."""
        self.trouble.is_on = False
        try:
            self.feeder.store.Store(self.room, lambda text: None).state()
        except self.feeder.state.Damaged:
            self.room.files["state"] = before
            self.trouble.is_on = True
            return
        raise Broken("a changed state is taken")

    def visible(self):
        return {name: file.data for name, file in self.segments.files.items()}

    def judge_rest(self):
        if [kind for kind, body, then in self.asked.values() if kind != "health"] and not self.is_ended:
            raise Broken(f"requests are not answered: {self.asked}")
        left = sorted(name for name in self.room.files if name.startswith("writing_") or name.endswith(".pairs"))
        images = [name for name in self.room.files if re.fullmatch("fsimage_[0-9]+", name)]
        images = [name for name in images if hashlib.sha256(self.room.files[name]).digest() in self.images]
        if left or len(images) > KEEP:
            raise Broken(f"left on the disk: {sorted(self.room.files)}")
        if self.is_ended:
            return
        if self.core.program.state in ("standby", "active") and self.health != 200:
            raise Broken(f"no fault is left, and it is not healthy: {self.core.ill()}")
        if self.core.program.state == "standby":
            self.judge_followed()
            silent = {dn for dn in self.core.datanodes.heard if dn != STEADY} - self.listener.gone
            if silent:
                raise Broken(f"silent, and not gone: {silent}")

    def judge_promotable(self):
        """Where all that was seen is followed, a promotion there in a new epoch is taken."""
        log = self.core.log
        if self.is_ended or self.core.program.state != "standby" or log.doubts or log.reached.txid < self.core.keeping.kept.seen:
            return
        self.request("promote", txid=log.reached.txid, epoch=self.epoch_named + 1, lost=False, within=0)
        for _ in range(3):
            self.now += 1
            self.tick()
            self.deliver()
        if not self.listener.is_active:
            raise Broken(f"all is followed up to {log.reached.txid}, and a promotion there is refused")

    def judge_followed(self):
        """All segments that are there in a row are followed, and the names are those of the log."""
        top = self.core.log.reached.txid
        files = self.segments.files
        spans = [(int(name[6:25]), int(name[26:45])) for name in files if name[6].isdigit() and self.given_up.get(name) != files[name].data]
        below = [last for first, last in spans if first <= top + 1 <= last]
        if self.core.log.doubts:
            # One that may have been given up is left to whoever fenced.
            return
        if below and not self.is_spoiled:
            raise Broken(f"it stands at {top}, and {max(below)} is there: {self.core.log.waits and self.core.log.waits.text}")

    def judge_names(self):
        """The names are those of the log up to where it is."""
        top = self.core.log.reached.txid
        told = self.program.answer(b"tables\n").decode().splitlines()
        dirs = {row[5:-1] for row in told if row.startswith('dir "') and row != 'dir "/"'}
        wanted = {path for path in self.log[:top] if path}
        if dirs != wanted:
            raise Broken(f"other names than the log has: {sorted(dirs ^ wanted)[:5]}")
