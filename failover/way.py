"""The way of a controller as one generator: it stands for election, takes over, and stays until something ends that.

A step yields an Ask and is given its answer, or a list of them and is given all answers, or None and goes on when something
has changed. It has no clock: `core.now` is the time. Whatever ends it from outside (controller.py) begins `life` anew.
"""
import json
import re

from asks import Again, Ask, Failed, GivenUp

# Rounds of one candidacy: each begins anew because somebody else wrote, or named a greater epoch.
ROUNDS = 5
# ZooKeeper is tried again after so many seconds.
RETRY_SECONDS = 0.2
# Who is asked to make room for another host waits so long; and who made room stays out.
ROOM_SECONDS, OUT_SECONDS = 5, 10
# A planned failover is looked for so often; and where it goes is asked for its health so long.
LOOK_SECONDS, HEALTH_SECONDS = 1, 1
# More than a promotion may wait for the log.
ANSWER_SECONDS = 6
# The own service has so long to end itself: where an operator asked, and where the lock may go. Then a signal ends it.
ORDERLY_SECONDS, HASTY_SECONDS = 5, 0.2
# More than the hands take for either.
STOP_SECONDS = 2
GREATEST_EPOCH = 2**31 - 1
FIRST_PAUSE, LAST_PAUSE = 2, 60


def life(core, lost=None):
    """`lost`: why what was before this has ended."""
    while True:
        if lost is not None:
            yield from leave(core, lost)
        if core.is_ending:
            return
        try:
            yield from stand(core)
            yield from lead(core)
        except GivenUp as why:
            lost = why


def leave(core, why):
    """Ends the own service, if it may be active, and then gives the lock back."""
    core.is_leaving, core.has_ended = True, False
    core.refused = why.code, str(why), core.now
    core.refusals[why.code] += 1
    core.at("leaves", f"{why.code}: {why}")
    is_clear = why.is_clear
    if core.may_be_active or core.is_active():
        patience = ORDERLY_SECONDS if core.is_sure() and why.code in ("moved", "ending") else HASTY_SECONDS
        ended = yield Ask("stop", (patience,), patience + STOP_SECONDS)
        core.may_be_active, core.health = False, None
        core.tell(f"the own service was ended: {ended.text if isinstance(ended, Failed) else ended}")
        is_clear = is_clear or (ended == "ordered" and core.settings.journal_refuses)
    core.has_ended = True
    if is_clear and core.crumb is not None and core.is_sure():
        cleared = yield Ask("write", ("breadcrumb", "", core.crumb), core.ttl)
        core.tell("the breadcrumb could not be taken away" if isinstance(cleared, Failed) else "the breadcrumb was taken away")
    core.give_back()
    core.out_until = core.now + (core.pause if why.pause else OUT_SECONDS if why.code == "moved" else RETRY_SECONDS)
    core.pause = min(2 * core.pause, LAST_PAUSE) if why.pause else core.pause
    core.is_leaving = False


# ---- The election.


def stand(core):
    """Goes on once the lock is ours."""
    core.at("waits")
    while not (core.is_fit() and core.now >= core.out_until):
        yield None
    opened = yield Ask("open", (), core.settings.ttl)
    core.ttl = given(opened, "no_zookeeper")
    core.at("watches")
    while True:
        core.is_freed = False
        holder = given((yield Ask("watch", (), core.ttl)), "no_zookeeper")
        if holder is not None and holder.host != core.settings.host:
            yield from wait_for_lock(core, holder)
        elif holder is not None or (yield from has_room(core)):
            taken = yield Ask("take", (holder.version if holder else None,), core.ttl)
            if not (isinstance(taken, Failed) and taken.code == "taken"):
                core.lock, core.touched_at = given(taken, "no_zookeeper"), core.now
                if not core.is_sure():
                    raise GivenUp("unconfirmed", "the answer that gave the lock came too late", pause=False)
                return


def wait_for_lock(core, holder):
    if core.is_active():
        raise GivenUp("other_holds", f"{holder.host} has the lock, and the own service is active", pause=False)
    while not core.is_freed:
        if not core.is_fit():
            raise GivenUp("not_fit", "the own service may not stand for election", pause=False)
        yield None


def has_room(core):
    """Whether a free lock may be taken now: where a planned failover names another host, that one goes first."""
    node = given((yield Ask("read", ("move",), core.ttl)), "no_zookeeper")
    move = move_in(node)
    if not move or move["to"] == core.settings.host:
        return True
    if core.room != node.version:
        core.room, core.room_until = node.version, core.now + ROOM_SECONDS
        core.tell(f"makes room for {move['to']}")
    if core.now >= core.room_until:
        return True
    again_at = core.now + RETRY_SECONDS
    while core.now < again_at:
        yield None
    return False


# ---- Taking over, with the lock.


def lead(core):
    least = 0
    for _ in range(ROUNDS):
        core.at("reads")
        node = given((yield Ask("read", ("breadcrumb",), core.ttl)), "no_zookeeper")
        crumb = members_of(node.text, "host", "epoch")
        is_own = crumb.get("host") == core.settings.host
        if core.is_active() and not is_own:
            # Somebody was promoted since, and may have been ended in order.
            raise GivenUp("was_cut_off", f"the own service is active, and the breadcrumb names {crumb.get('host', 'nobody')}", pause=False)
        core.crumb = node.version if is_own else None
        # A writer of this host may go on from before, unless the journal refuses it.
        core.may_clear = core.settings.journal_refuses or not is_own
        try:
            if core.is_active():
                yield from go_on(core, node, least)
            else:
                yield from take_over(core, node, least)
            return (yield from reign(core))
        except Again as why:
            core.tell(f"begins again: {why}")
            least = max(least, why.least)
    raise GivenUp("contended", f"{ROUNDS} rounds came to nothing")


def take_over(core, node, least):
    yield from rise(core, least)
    answers = yield from name_epoch(core, core.settings.hosts)
    yield from fence(core, members_of(node.text, "host"), answers)
    yield from write_crumb(core, node.version)
    txid = yield from finalize(core)
    core.txid = txid
    yield from promote(core, txid, core.settings.within)
    yield from start_writer(core, txid)


def go_on(core, node, least):
    """The own service is active already, and the breadcrumb names it: it is asked first, so that nobody is deposed."""
    yield from rise(core, least)
    core.txid = core.health.txid
    yield from promote(core, core.txid, 0)
    yield from name_epoch(core, [host for host in core.settings.hosts if host != core.settings.host])
    yield from write_crumb(core, node.version)
    yield from start_writer(core, core.txid)


def rise(core, least):
    """Raises the epoch's node above all that is known, and takes that epoch."""
    core.at("rises")
    node = given((yield Ask("read", ("epoch",), core.ttl)), "no_zookeeper")
    if not re.fullmatch("[0-9]{1,10}", node.text):
        raise GivenUp("no_epoch", f"the epoch's node has {node.text[:20]!r}")
    core.epoch = max(int(node.text), least) + 1
    if core.epoch > GREATEST_EPOCH:
        raise GivenUp("no_epoch", f"there is no epoch above {GREATEST_EPOCH}")
    yield from write(core, "epoch", str(core.epoch), node.version)


def name_epoch(core, hosts):
    """Names the epoch to feeders. Who does not answer is not waited for: its host is fenced, or hears it later."""
    core.at("names", f"epoch {core.epoch}")
    values = yield [Ask("epoch", (host, core.epoch), core.ttl / 8) for host in hosts]
    answers = {host: value for host, value in zip(hosts, values) if not isinstance(value, Failed)}
    greatest = max((answer["epoch"] for answer in answers.values()), default=0)
    if greatest > core.epoch:
        raise Again(f"a feeder was named epoch {greatest}", greatest)
    return answers


def fence(core, crumb, answers):
    """No promotion without a fence that answered, if somebody may be active."""
    host = crumb.get("host")
    if not host or host == core.settings.host:
        return
    if core.settings.journal_refuses and answers.get(host, {}).get("state") == "deposed":
        core.tell(f"{host} answers that it is deposed, and is not fenced")
        return
    core.at("fences", host)
    given((yield Ask("fence", (host, core.epoch), core.settings.fence)), "fence")


def write_crumb(core, version):
    """Who may be active from now on. It stands before the promotion is asked."""
    core.at("writes")
    text = json.dumps({"host": core.settings.host, "epoch": core.epoch})
    core.crumb = yield from write(core, "breadcrumb", text, version)


def finalize(core):
    """Ends the log, and answers its last TXID. What a feeder saw is in it, or there is no promotion."""
    core.at("finalizes")
    printed = given((yield Ask("finalize", (core.epoch,), core.settings.finalize)), "finalize", is_clear=core.may_clear)
    if not re.fullmatch("[0-9]{1,19}", printed.strip()):
        raise GivenUp("no_txid", f"the finalizer printed {printed[:40]!r}", is_clear=core.may_clear)
    txid = int(printed)
    if txid < core.seen:
        raise GivenUp("below_seen", f"the log is to end at TXID {txid}, and {core.seen} was seen", is_clear=core.may_clear)
    return txid


def promote(core, txid, within):
    core.at("promotes", f"TXID {txid}, epoch {core.epoch}")
    core.may_be_active = True
    answer = given((yield Ask("promote", (txid, core.epoch, within), within + ANSWER_SECONDS)), "promotion_lost")
    status, body = answer
    if status == 200 and body.get("state") == "active":
        core.promoted_at, core.promotions = core.now, core.promotions + 1
        core.tell(f"promoted at TXID {txid} in epoch {core.epoch}")
        return
    code = body.get("code", f"status_{status}")
    # A refusal with a code says that nothing was sent to the program, or that the program refused.
    core.may_be_active = "code" not in body
    if code == "late_epoch" and not core.is_active():
        raise Again("the own feeder was named a greater epoch", core.epoch)
    raise GivenUp(code, f"the own feeder refused the promotion: {status} {code}", is_clear=core.may_clear and status == 409)


def start_writer(core, txid):
    if core.settings.has_active:
        core.at("starts")
        given((yield Ask("active", (core.epoch, txid), core.settings.active)), "active")


# ---- Being active.


def reign(core):
    """Stays until its end. It never returns."""
    core.at("active", f"TXID {core.txid}, epoch {core.epoch}")
    core.pause = FIRST_PAUSE
    look_at = core.now
    # What was asked before is over: it has come here, or it came to nothing.
    is_over = True
    while True:
        if core.now >= look_at:
            yield from look_at_move(core, is_over)
            look_at, is_over = core.now + LOOK_SECONDS, False
        yield None
        if core.health and core.health.asked_at > core.promoted_at and core.health.state != "active":
            raise GivenUp("not_active", f"the own service is {core.health.state}", pause=False)


def look_at_move(core, is_over):
    """Goes where a planned failover names another host that may stand for election. Else it stays, and takes the name away."""
    node = yield Ask("read", ("move",), core.ttl)
    move = move_in(node)
    if move and not is_over and move["from"] == core.settings.host != move["to"]:
        ill = yield from ill_of(core, move["to"])
        if ill is None:
            raise GivenUp("moved", f"a planned failover goes to {move['to']}", pause=False)
        core.tell(f"stays active: a planned failover names {move['to']}, which is {ill}")
    if not isinstance(node, Failed) and node.text:
        yield Ask("write", ("move", "", node.version), core.ttl)


def ill_of(core, host):
    """Why a host may not stand for election, as its feeder says; or None."""
    if host not in core.settings.hosts:
        return "no host with a feeder"
    answer = yield Ask("health", (host,), HEALTH_SECONDS)
    if isinstance(answer, Failed):
        return f"out of reach: {answer.text or answer.code}"
    return answer["reason"] or (None if answer["state"] == "standby" else answer["state"])


def move_in(node):
    """The planned failover that a node asks for. What is none is no reason to leave, and none to wait."""
    try:
        return {} if isinstance(node, Failed) else members_of(node.text, "from", "to")
    except GivenUp:
        return {}


# ---- Answers.


def given(value, code, is_clear=False):
    """An answer. Where there is none the lock is given back."""
    if isinstance(value, Failed):
        raise GivenUp(code, value.text or value.code, pause=code != "no_zookeeper", is_clear=is_clear)
    return value


def write(core, name, text, version):
    """Replaces a node that nobody else wrote meanwhile."""
    value = yield Ask("write", (name, text, version), core.ttl)
    if isinstance(value, Failed) and value.code == "other_version":
        raise Again(f"somebody else wrote {name}")
    return given(value, "no_zookeeper")


def members_of(text, *names):
    """What a node has: an object of JSON with these members, all texts or numbers, or nothing."""
    try:
        found = json.loads(text) if text else {}
        if not found or type(found) is dict and found.keys() >= set(names):
            return found
    except ValueError:
        pass
    raise GivenUp("bad_node", f"a node has {text[:40]!r}")
