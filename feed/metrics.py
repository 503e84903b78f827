"""What Prometheus is shown: the figures in its text format. Values alone; the doors call it."""
from figures import COUNTS
from following import WHYS

# The faults that a service tells of what comes to it, as docs/FORMATS.md has them. Each is there from the start.
FAULTS = (*range(1, 8), 12, 13, 14, 17, 19, *range(21, 34), 51, 53, 56, 57, 59)
CODES = (
    *("stopped", "in_segment", "late_epoch", "behind", "ahead", "edits_above", "folder_unreadable", "not_kept", "late", "no_room"),
    *("busy", "loading", "stopping", "bad_request", "forbidden", "unauthorized", "not_found", "method", "length_required", "too_large", "media_type"),
)
STATES = ("loading", "standby", "active", "deposed", "stopped")
ILLS = ("loading", "silent", "not_kept", "stopped", "deposed")
SINCE = {
    "up": "Seconds since the feeder started.",
    "answer": "Seconds since the program answered last.",
    "look": "Seconds since the last look at the folder that it answered.",
    "segment": "Seconds since there was a new segment last, or since the start.",
    "edit": "Seconds since a segment was applied last, or since the start.",
    "checkpoint": "Seconds since a checkpoint was written last by this feeder.",
}


def metrics(figures: dict) -> bytes:
    start = labels(version=figures.get("version", ""), instance=figures["instance"])
    failures = {of: figures["failures"].get(of, 0) for of in ("look", "read", "checkpoint")}
    rows = [
        ("info", "gauge", "The program's version, and the name of this start.", [(start, 1)]),
        ("state", "gauge", "Whether the standby is in this state.", each("state", {state: int(figures["state"] == state) for state in STATES})),
        ("ill", "gauge", "Whether it can't be relied on for this reason.", each("reason", {ill: int(figures["ill"] == ill) for ill in ILLS})),
        ("txid", "gauge", "The TXID that was reached.", figures["txid"]),
        ("known_txid", "gauge", "The greatest TXID that was ever seen.", figures["known"]),
        ("lag_transactions", "gauge", "How many transactions are known and not reached.", figures["lag"]),
        ("lag_seconds", "gauge", "For how long transactions have been known and not reached.", figures["seconds"]["behind"] or 0),
        ("waits", "gauge", "Whether the log waits for a segment for this reason.", each("why", {why: int(figures["why"] == why) for why in WHYS})),
        ("epoch", "gauge", "The greatest epoch that was named.", figures["epoch"]),
        ("checkpoint_txid", "gauge", "The TXID of the last checkpoint.", figures["checkpoint"]),
        *(row for name, about in SINCE.items() for row in since(name, about, figures["seconds"][name])),
        ("failures_total", "counter", "Looks, reads and checkpoints that failed.", each("of", failures)),
        ("refused_total", "counter", "Requests that were refused, by their code.", each("code", {code: figures["refused"].get(code, 0) for code in CODES})),
        ("faults_total", "counter", "Fault lines that the program told.", each("fault", {fault: figures["faults"].get(str(fault), 0) for fault in FAULTS})),
        ("reports_total", "counter", "Reports that were taken.", figures["reports"]),
        *of_program(figures),
    ]
    return "".join(metric(*row) for row in rows).encode()


def of_program(figures):
    """What the program counts, once it has answered."""
    if "blocks" not in figures:
        return
    yield "held_items", "gauge", "How many items of reports wait for the log.", figures["held"]
    yield "blocks", "gauge", "How many blocks closed files have.", figures["blocks"]["total"]
    yield "safe_blocks", "gauge", "How many of them have enough live replicas to be safe.", figures["blocks"]["safe"]
    yield "safe_mode", "gauge", "Whether safe mode is on.", int(figures["safe_mode"])
    for name, about in COUNTS.items():
        if name in figures:
            yield name, "gauge", about, figures[name]
    gone = sum(it["gone"] for it in figures["datanodes"])
    yield "datanodes", "gauge", "How many DataNodes sent reports and are not gone.", len(figures["datanodes"]) - gone
    yield "gone_datanodes", "gauge", "How many DataNodes are called gone.", gone


def since(name, about, value):
    return [] if value is None else [(f"since_{name}_seconds" if name != "up" else "up_seconds", "gauge", about, value)]


def each(label, values):
    return [(labels(**{label: name}), value) for name, value in values.items()]


def labels(**named):
    return "{" + ",".join(f'{name}="{value}"' for name, value in named.items()) + "}"


def metric(name, kind, about, values):
    """The lines of a metric, which has one value, or several with labels."""
    values = values if isinstance(values, list) else [("", values)]
    lines = [f"# HELP nn_standby_{name} {about}", f"# TYPE nn_standby_{name} {kind}"]
    return "".join(f"{line}\n" for line in lines + [f"nn_standby_{name}{its_labels} {value}" for its_labels, value in values])
