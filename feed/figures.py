"""What the feeder shows: the last `status` of the program, with the cluster's TXIDs, and what the core itself knows.

A part of the core. It asks nobody.
"""
# What the program counts, by the names that its answer to `status` has.
COUNTS = {
    "files": "How many files there are.",
    "directories": "How many directories there are, the root among them.",
    "file_blocks": "How many blocks files have, closed or open.",
    "missing": "How many blocks of closed files have no live replica.",
    "missing_of_one": "How many of these are of files with replication 1.",
    "under_replicated": "How many blocks of closed files have fewer live replicas than their file's replication.",
    "over_replicated": "How many have more.",
    "stale": "How many replicas have a lower generation stamp than their block.",
    "ahead": "How many replicas have a higher generation stamp than their block.",
    "wrong_length": "How many complete replicas are not as long as their block.",
    "orders": "How many orders to delete there are.",
}
NO_ORDERS = "no delete order is shown: snapshots are passed over, and one may hold its block"


def figures(core) -> dict:
    program, log, keeping = core.program, core.log, core.keeping
    return {
        "state": program.state,
        "ill": core.ill(),
        "txid": log.reached.txid,
        "known": keeping.kept.seen,
        "lag": max(keeping.kept.seen - log.reached.txid, 0),
        "waits": log.waits and log.waits.text,
        "why": log.waits and log.waits.why,
        "folder": log.fault if log.done else None,
        "epoch": keeping.kept.epoch,
        "promotion": promotion_of(keeping.kept.promotion),
        "checkpoint": core.checkpoints.txid,
        "seconds": seconds(core),
        "failures": {**core.failures, "checkpoint": core.checkpoints.failures},
        "refused": dict(core.refusals),
        "faults": dict(core.faults),
        "reports": core.datanodes.taken,
        "told": [(round(core.now - then, 1), text) for then, text in core.told],
        "left_out": NO_ORDERS if core.settings.hides_orders else None,
        **(of_program(core) if program.status else {}),
    }


def promotion_of(promotion):
    return {"txid": promotion.txid, "epoch": promotion.epoch, "given_up": sorted(promotion.given_up)} if promotion else None


def seconds(core):
    """For how long things have been as they are: each since it happened last, or None."""
    log, checkpoints = core.log, core.checkpoints
    since = {
        "up": core.started_at,
        "answer": core.program.answered_at,
        "look": log.looked_at,
        "segment": log.grown_at,
        "edit": log.applied_at,
        "checkpoint": checkpoints.written_at,
        "behind": log.behind_at,
    }
    return {name: None if then is None else round(core.now - then, 1) for name, then in since.items()}


def of_program(core):
    status = core.program.status
    lines = [line for line in status.data.splitlines() if not line.startswith((b"fault ", b"done "))]
    words = {key: rest for key, *rest in (line.decode().split() for line in lines)}
    total, safe, needed = (int(words["blocks"][at]) for at in (0, 2, 4)) if "blocks" in words else (0, 0, 0)
    return {
        "version": words["version"][0],
        "stopped": stopped(core, status.stop),
        "segments": int(words["segments"][0]),
        "held": int(words["held"][0]),
        "blocks": {"total": total, "safe": safe, "needed": needed},
        "safe_mode": words.get("blocks", ["off"])[-1] == "on",
        **{name: int(words[name][0]) for name in COUNTS if name in words and not (core.settings.hides_orders and name == "orders")},
        "datanodes": [datanode(core, *line.split()) for line in lines if line.startswith(b"datanode ")],
    }


def stopped(core, stop):
    return {"fault": stop[0], "txid": core.log.stopped_txid(stop[1])} if stop else None


def datanode(core, _word, dn, messages, _held, held, *_report):
    heard = core.datanodes.heard.get(int(dn))
    return {
        "datanode": int(dn),
        "messages": int(messages),
        "held": int(held),
        "silent_seconds": None if heard is None else round(max(core.now - heard, 0), 1),
        "gone": int(dn) in core.datanodes.gone,
        "full_report": core.program.full_report(int(dn)),
    }
