"""Requests to feeders, and the connection that is kept to the own one.

A feeder is reached by its operators' door (docs/FEED.md): a Unix socket, or an address with a token. The own one's door is
a Unix socket, since the process behind that can be ended where it does not answer.
"""
import http.client
import json
import os
import select
import signal
import socket
import struct
import threading
import time

from asks import Failed, Health

# An answer of health is waited for so long, and the next one is asked so long behind it.
HEALTH_SECONDS = 1.0
# A feeder that is gone is tried again after so many seconds.
AGAIN_SECONDS = 0.1
# What is killed is gone within so many seconds.
KILL_SECONDS = 1.0
MOST_BYTES = 65_536


class Connection(http.client.HTTPConnection):
    """HTTP to a path or to an address."""

    def __init__(self, place, seconds):
        self.path = place if place.startswith("/") else None
        super().__init__("feed" if self.path else place, timeout=seconds)

    def connect(self):
        if self.path is None:
            super().connect()
            return
        self.sock = socket.socket(socket.AF_UNIX, socket.SOCK_STREAM)
        self.sock.settimeout(self.timeout)
        self.sock.connect(self.path)


class Feeder:
    """A feeder's operators' door."""

    def __init__(self, place, token):
        self.place, self.token = place, token

    def headers(self):
        shown = {} if self.token is None or self.place.startswith("/") else {"Authorization": f"Bearer {self.token}"}
        return {"Content-Type": "application/json", **shown}

    def ask(self, method, path, members, seconds, hold=lambda _connection: None):
        """Answers the status and the members of what came. `hold` is given the connection before anything is sent."""
        connection = Connection(self.place, seconds)
        hold(connection)
        try:
            connection.request(method, path, None if members is None else json.dumps(members), self.headers())
            answer = connection.getresponse()
            return answer.status, members_in(answer.read(MOST_BYTES))
        finally:
            connection.close()

    def name_epoch(self, epoch, seconds):
        status, body = self.ask("POST", "/epoch", {"epoch": epoch}, seconds)
        if status != 200 or type(body.get("epoch")) is not int:
            return Failed("status", f"status {status} {body.get('code', '')}")
        return {"epoch": body["epoch"], "state": body.get("state")}

    def health(self, seconds):
        status, body = self.ask("GET", "/health", None, seconds)
        return {"state": str(body.get("state")), "reason": reason_in(status, body)}

    def promote(self, txid, epoch, within, hold):
        return self.ask("POST", "/promote", {"txid": txid, "epoch": epoch, "within": within}, within + 5, hold)


def members_in(data):
    try:
        found = json.loads(data)
    except ValueError:
        return {}
    return found if type(found) is dict else {}


class Process:
    """The process behind a Unix socket. It is held by a descriptor, so that no other one is meant once it is gone."""

    def __init__(self, connection):
        pid, _, _ = struct.unpack("3i", connection.getsockopt(socket.SOL_SOCKET, socket.SO_PEERCRED, 12))
        self.descriptor = os.pidfd_open(pid)

    def has_ended(self, seconds):
        poll = select.poll()
        poll.register(self.descriptor, select.POLLIN)
        return bool(poll.poll(max(seconds, 0) * 1000))

    def kill(self):
        signal.pidfd_send_signal(self.descriptor, signal.SIGKILL)

    def __del__(self):
        descriptor = getattr(self, "descriptor", None)
        if descriptor is not None:
            os.close(descriptor)


class Own:
    """The own feeder: a connection that is kept, on which health is asked each second."""

    def __init__(self, path, put, clock):
        self.feeder, self.path, self.put, self.clock = Feeder(path, None), path, put, clock
        self.process = None

    def begin(self):
        threading.Thread(target=self.run, daemon=True).start()

    def run(self):
        while True:
            try:
                with socket.socket(socket.AF_UNIX, socket.SOCK_STREAM) as connection:
                    connection.settimeout(HEALTH_SECONDS)
                    connection.connect(self.path)
                    self.process = Process(connection)
                    self.watch(connection)
            except OSError:
                pass
            self.put("gone")
            time.sleep(AGAIN_SECONDS)

    def watch(self, connection):
        """Until it ends."""
        while True:
            asked_at = self.clock()
            connection.sendall(b"GET /health HTTP/1.1\r\nHost: feed\r\n\r\n")
            answer = self.answer(connection)
            if answer is None:
                return
            self.put("heard", health_of(*answer, asked_at))
            if select.select([connection], [], [], HEALTH_SECONDS)[0]:
                # Nothing was asked: it has ended.
                return

    def answer(self, connection):
        """The status and the body of an answer, or None at the end. Each second without one is told."""
        data, since = b"", time.monotonic()
        while True:
            head, found, body = data.partition(b"\r\n\r\n")
            if found and len(body) >= length_of(head):
                return int(head.split(b" ", 2)[1]), members_in(body)
            if len(data) > MOST_BYTES:
                return None
            left = since + HEALTH_SECONDS - time.monotonic()
            if select.select([connection], [], [], max(left, 0))[0]:
                part = connection.recv(MOST_BYTES)
                if not part:
                    return None
                data += part
            else:
                self.put("silent")
                since = time.monotonic()

    def stop(self, patience):
        """Ends the own service: in order, or by a signal where that takes longer. Answers how."""
        process, until = self.process, time.monotonic() + patience
        if process is None or process.has_ended(0):
            return "gone"
        is_ordered = False
        try:
            is_ordered = self.feeder.ask("POST", "/stop", {}, patience)[0] == 200
        except (OSError, http.client.HTTPException):
            pass
        if is_ordered and process.has_ended(until - time.monotonic()):
            return "ordered"
        process.kill()
        return "killed" if process.has_ended(KILL_SECONDS) else Failed("not_killed", "the own service does not end")


def length_of(head):
    found = [line.partition(b":")[2] for line in head.lower().split(b"\r\n") if line.startswith(b"content-length:")]
    return int(found[0]) if found else 0


def health_of(status, body, asked_at):
    reason = reason_in(status, body)
    return Health(status == 200, str(body.get("state")), reason, int(body.get("known", 0)), int(body.get("txid", 0)), asked_at)


def reason_in(status, body):
    """Why a feeder is ill, as its answer says; or None."""
    return None if status == 200 else str(body.get("reason") or f"status_{status}")
