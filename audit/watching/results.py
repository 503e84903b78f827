"""The results of a watch: a line of JSON for each audit, in a file that only grows, and what Prometheus is told."""
import fcntl
import json
import os
from datetime import datetime, timezone

from hdfs.formats import Refused

SAME, DIFFERS, UNKNOWN = WORDS = "same", "differs", "unknown"

# So each line begins.
HEAD = b'{"time":"'
TIME = "%Y-%m-%dT%H:%M:%SZ"


class Results:
    """The results in a file. A line that lacks its end was being written when the machine or the watch stopped."""

    def __init__(self, name):
        self.name = name
        self.counts = dict.fromkeys(WORDS, 0)
        # The last result, the last that says something, and the last that says `same`.
        self.last = self.last_judged = self.last_same = None
        # How many bytes the whole lines have.
        self.size = 0
        self.file = open(os.open(name, os.O_RDWR | os.O_CREAT, 0o644), "r+b")
        try:
            fcntl.flock(self.file, fcntl.LOCK_EX | fcntl.LOCK_NB)
        except OSError:
            raise Refused(f"another watch uses {name}") from None
        self.read()

    def read(self):
        for number, line in enumerate(self.file, 1):
            if line.endswith(b"\n"):
                self.take(result_in(line, f"{self.name}, line {number},"))
                self.size += len(line)
            elif not HEAD.startswith(line[: len(HEAD)].rstrip(b"\0")):
                raise Refused(f"{self.name}, line {number}, is no result of an audit")

    def take(self, result):
        status = result["status"]
        self.counts[status] += 1
        self.last = result
        if status != UNKNOWN:
            self.last_judged = result
        if status == SAME:
            self.last_same = result

    def add(self, result):
        """Writes a result in the place of a torn one. It is on the disk when this returns."""
        line = json.dumps(result, ensure_ascii=False, separators=(",", ":")).encode("utf-8", "backslashreplace") + b"\n"
        self.file.truncate(self.size)
        self.file.seek(self.size)
        self.file.write(line)
        self.file.flush()
        os.fsync(self.file.fileno())
        self.size += len(line)
        self.take(result)


def result_in(line, place):
    """The result that a line has."""
    try:
        result = json.loads(line)
        if result["status"] in WORDS and type(result["to"]) is int and type(result["verdict"]) is str:
            seconds_of(result)
            return result
    except (ValueError, TypeError, KeyError):
        pass
    raise Refused(f"{place} is no result of an audit")


def time_text(seconds):
    """A time, in seconds since 1970, as ISO 8601 has it in UTC."""
    return datetime.fromtimestamp(seconds, timezone.utc).strftime(TIME)


def seconds_of(result):
    """The time of a result, in seconds since 1970."""
    return int(datetime.strptime(result["time"], TIME).replace(tzinfo=timezone.utc).timestamp())


def metrics(results, status, now):
    """What Prometheus is told: of the results, and with which status the watch ends now."""
    judged, same, last = results.last_judged, results.last_same, results.last
    rows = [
        ("last_txid", "gauge", "The TXID of the last image of which something could be said.", judged and judged["to"]),
        ("last_status", "gauge", "How the watch ended: 0 OK, 1 WARNING, 2 CRITICAL, 3 UNKNOWN.", status),
        ("last_run_timestamp_seconds", "gauge", "When the watch ended.", now),
        ("last_success_timestamp_seconds", "gauge", "When an audit said `same` last.", same and seconds_of(same)),
        ("seconds", "gauge", "How long the last audit took.", last and last["seconds"]),
    ]
    lines = [line for row in rows for line in metric(*row)]
    lines += not_compared((judged or {}).get("not_compared", {}))
    lines += head("runs_total", "counter", "How many audits there were, by what they said.")
    lines += [f'hdfs_audit_runs_total{{verdict="{word}"}} {count}' for word, count in results.counts.items()]
    return "".join(f"{line}\n" for line in lines)


def metric(name, kind, meaning, value):
    """The lines of a metric. There are none before it has a value."""
    return [] if value is None else [*head(name, kind, meaning), f"hdfs_audit_{name} {value}"]


def not_compared(counts):
    """A gauge for each kind of what the last judged audit did not compare."""
    if not counts:
        return []
    lines = head("not_compared", "gauge", "How many items of a kind the last audit that said something did not compare.")
    return lines + [f'hdfs_audit_not_compared{{kind="{escaped(kind)}"}} {count}' for kind, count in counts.items()]


def escaped(text):
    """A label's value as Prometheus reads it."""
    return text.replace("\\", "\\\\").replace('"', '\\"').replace("\n", "\\n")


def head(name, kind, meaning):
    return [f"# HELP hdfs_audit_{name} {meaning}", f"# TYPE hdfs_audit_{name} {kind}"]


def put(name, text):
    """Puts a text in a file at once: who reads the file has the old text or the new one."""
    new = f"{name}.new"
    with open(new, "w", encoding="utf-8") as file:
        file.write(text)
        file.flush()
        os.fsync(file.fileno())
    os.replace(new, name)
