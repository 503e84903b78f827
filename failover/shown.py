"""What Prometheus is shown of a controller: its status in that text format. Values alone."""
# What a controller does, in the order of a takeover.
STEPS = ("waits", "watches", "reads", "rises", "names", "fences", "writes", "finalizes", "promotes", "starts", "active", "leaves")
# Why the lock is given back; of others there is a row once they happened.
CODES = (
    *("fence", "finalize", "no_txid", "below_seen", "active", "stopped", "not_kept", "behind", "ahead", "edits_above", "late_epoch"),
    *("promotion_lost", "feeder_gone", "feeder_silent", "unconfirmed", "suspended", "lock_lost", "no_zookeeper", "moved"),
)


def metrics(status: dict) -> bytes:
    refusals = {**dict.fromkeys(CODES, 0), **status["refusals"]}
    rows = [
        ("step", "gauge", "Whether the controller is at this step.", [(f'{{step="{it}"}}', int(status["step"] == it)) for it in STEPS]),
        ("step_seconds", "gauge", "Since when it is.", status["step_seconds"]),
        ("lock", "gauge", "Whether it has the lock and may believe that.", int(status["lock"])),
        ("lock_seconds", "gauge", "For how long it may, if nothing more is answered.", status["lock_seconds"] or 0),
        ("epoch", "gauge", "The epoch that it took last.", status["epoch"]),
        ("promotions_total", "counter", "Promotions that the own service answered.", status["promotions"]),
        ("given_back_total", "counter", "Candidacies that ended, by their reason.", [(f'{{code="{it}"}}', refusals[it]) for it in refusals]),
        ("steps_total", "counter", "Steps that began.", [(f'{{step="{it}"}}', status["steps"].get(it, 0)) for it in STEPS]),
        ("out_seconds", "gauge", "For how long it does not stand for election.", status["out_seconds"]),
        ("up_seconds", "gauge", "Since when it runs.", status["up_seconds"]),
    ]
    return "".join(metric(*row) for row in rows).encode()


def metric(name, kind, about, values):
    values = values if isinstance(values, list) else [("", values)]
    lines = [f"# HELP zulurowan_failover_{name} {about}", f"# TYPE zulurowan_failover_{name} {kind}"]
    return "".join(f"{line}\n" for line in lines + [f"zulurowan_failover_{name}{labels} {value}" for labels, value in values])
