"""ZooKeeper, by Debian's python3-kazoo: one session and its nodes. No other module knows the client.

    lock         ephemeral: who has it is the controller whose session lives
    breadcrumb   who was promoted last, or is being promoted, as {"host", "epoch"}; empty where nobody may be active
    epoch        the greatest epoch that a controller took, as a number
    move         the planned failover that is asked for, as {"from", "to"}, or empty

A session never becomes another one: where its connection is lost it is over, and a new one is opened.
"""
import json
import logging
import threading

from kazoo import exceptions
from kazoo.client import KazooClient, KazooState
from kazoo.retry import KazooRetry
from kazoo.security import make_digest_acl

from asks import Failed, Holder, Node

NODES = {"breadcrumb": b"", "epoch": b"0", "move": b""}
CODES = {
    exceptions.NodeExistsError: "taken",
    exceptions.BadVersionError: "other_version",
    exceptions.NoNodeError: "no_node",
    exceptions.NoAuthError: "no_auth",
}
# The client's own texts are left out: what happens is told once, by the core.
SILENT = logging.getLogger("silent")
SILENT.addHandler(logging.NullHandler())
SILENT.propagate = False


class Place:
    """Where the nodes are, and by which digest. `digest` is `user:password`."""

    def __init__(self, servers, root, digest):
        self.servers, self.root, self.digest = servers, root, digest
        self.acl = [make_digest_acl(*digest.split(":", 1), all=True)]

    def of(self, name):
        return f"{self.root}/{name}"

    def client(self, ttl):
        retry = KazooRetry(max_tries=-1, delay=0.05, backoff=2, max_delay=0.5)
        never = KazooRetry(max_tries=0)
        auth = [("digest", self.digest)]
        return KazooClient(self.servers, timeout=ttl, connection_retry=retry, command_retry=never, auth_data=auth, logger=SILENT)


class Session:
    """One session for a candidacy. `put` takes the events `suspended` and `freed` of the core."""

    def __init__(self, place, ttl, host, put, clock):
        self.place, self.host, self.put, self.clock = place, host, put, clock
        self.is_over = False
        self.opened = None
        self.client = place.client(ttl)
        self.client.add_listener(self.changed)
        self.listen_to_ttl()

    def listen_to_ttl(self):
        """The client does not show the time to live that the server gave, but it reckons with two thirds of it."""
        connection = self.client._connection
        connect = connection._connect

        def measured(*where):
            seconds = connect(*where)
            opened, self.opened = self.opened, None
            if opened:
                opened(seconds[0] * 1.5 / 1000)
            return seconds

        connection._connect = measured

    def open(self, answer):
        """Begins. `answer` is given the seconds that the session lives without a request."""
        sent_at = self.clock()
        self.opened = lambda ttl: answer(ttl, sent_at)
        self.client.start_async()

    def changed(self, state):
        """From a thread of the client: at the first loss it is over."""
        if state != KazooState.CONNECTED and not self.is_over:
            self.is_over = True
            self.put("suspended")

    def close(self):
        """Ends the session, and the lock with it, without waiting for that."""
        self.is_over = True
        threading.Thread(target=self.stop, daemon=True).start()

    def stop(self):
        for end in (self.client.stop, self.client.close):
            try:
                end()
            except Exception:  # whatever the client makes of a connection that is gone: its session runs out
                pass

    # ---- Asks.

    def ask(self, ask, answer):
        if self.is_over:
            answer(Failed("session", "the session is over"), self.clock())
            return
        sent_at = self.clock()
        result, value_of = getattr(self, ask.kind)(*ask.arguments)
        result.rawlink(lambda it: answer(self.value(it, value_of), sent_at))

    def value(self, result, value_of):
        fault = result.exception
        if fault is None:
            return value_of(result.value)
        return self.failed(fault)

    def failed(self, fault):
        code = next((code for kind, code in CODES.items() if isinstance(fault, kind)), "zookeeper")
        return Failed(code, f"ZooKeeper: {type(fault).__name__} {fault}".strip())

    def lock_data(self):
        return json.dumps({"host": self.host}).encode()

    def watch(self):
        lock = self.place.of("lock")
        result = self.client.get_async(lock, watch=self.seen)
        return _or_none(self.client, result), lambda value: value and Holder(host_in(value[0]), value[1].version)

    def seen(self, event):
        """The lock was written, which its holder does all the time, or is gone."""
        if event.type != "CHANGED":
            self.put("freed")
        elif not self.is_over:
            again = self.client.exists_async(self.place.of("lock"), watch=self.seen)
            again.rawlink(lambda it: self.put("freed") if it.exception or it.value is None else None)

    def take(self, version):
        lock = self.place.of("lock")
        if version is None:
            return self.client.create_async(lock, self.lock_data(), acl=self.place.acl, ephemeral=True), lambda _path: 0
        # Our own old lock is replaced at once, so that nobody comes between.
        change = self.client.transaction()
        change.delete(lock, version)
        change.create(lock, self.lock_data(), acl=self.place.acl, ephemeral=True)
        return change.commit_async(), self.taken

    def taken(self, results):
        faults = [it for it in results if isinstance(it, Exception)]
        return Failed("taken", "the old lock changed") if faults else 0

    def touch(self, version):
        return self.client.set_async(self.place.of("lock"), self.lock_data(), version), lambda stat: stat.version

    def read(self, name):
        return self.client.get_async(self.place.of(name)), lambda value: Node(value[0].decode(), value[1].version)

    def write(self, name, text, version):
        return self.client.set_async(self.place.of(name), text.encode(), version), lambda stat: stat.version


def host_in(data):
    """Who has a lock. One that no controller made is somebody else's."""
    try:
        return str(json.loads(data)["host"])
    except (ValueError, KeyError, TypeError):
        return "?"


def _or_none(client, result):
    """The same, where a node that is not there is no fault."""
    other = client.handler.async_result()

    def given(it):
        if isinstance(it.exception, exceptions.NoNodeError):
            other.set(None)
        elif it.exception is not None:
            other.set_exception(it.exception)
        else:
            other.set(it.value)

    result.rawlink(given)
    return other


# ---- For an operator, one thing at a time.


class Operator:
    """A session for one command."""

    def __init__(self, place, ttl=10):
        self.place, self.client = place, place.client(ttl)

    def __enter__(self):
        self.client.start(timeout=10)
        return self

    def __exit__(self, *_fault):
        self.client.stop()
        self.client.close()

    def form(self):
        """Makes the nodes that are missing, and answers which."""
        made = []
        parent = self.place.root.rpartition("/")[0]
        if parent:
            self.client.ensure_path(parent)
        for path, data in [(self.place.root, b""), *((self.place.of(name), data) for name, data in NODES.items())]:
            try:
                self.client.create(path, data, acl=self.place.acl)
                made.append(path)
            except exceptions.NodeExistsError:
                pass
        return made

    def read(self, name):
        """A node, or None."""
        try:
            data, stat = self.client.get(self.place.of(name))
            return Node(data.decode(), stat.version)
        except exceptions.NoNodeError:
            return None

    def write(self, name, text, version):
        return self.client.set(self.place.of(name), text.encode(), version).version
