"""Network namespaces for drills: some for the servers of ZooKeeper, and some for each lane of drills, all at one bridge.

All names begin with `zfd-`. What an earlier run left is taken away at the start: its processes are those inside.
"""
import os
import signal
import subprocess
import time

PREFIX = "zfd-"
BRIDGE = f"{PREFIX}net"
SERVERS = 3


def run(*words, check=True):
    return subprocess.run(words, check=check, capture_output=True, text=True).stdout


def namespaces():
    return [row.split()[0] for row in run("ip", "netns", "list").splitlines() if row.startswith(PREFIX)]


def processes(namespace):
    return [int(pid) for pid in run("ip", "netns", "pids", namespace, check=False).split()]


def kill_all(namespace):
    """Kills what runs in a namespace, until nothing does."""
    for _ in range(20):
        found = processes(namespace)
        if not found:
            return
        for pid in found:
            try:
                os.kill(pid, signal.SIGKILL)
            except ProcessLookupError:
                pass
        time.sleep(0.01)


def clear():
    """Takes away all namespaces of drills, and what runs in them."""
    for name in namespaces():
        kill_all(name)
        run("ip", "netns", "delete", name, check=False)


def inside(namespace, *words):
    """The words that run a command in a namespace, with the files of all."""
    return ["nsenter", f"--net=/run/netns/{namespace}", *words]


def make_bridge():
    run("ip", "netns", "add", BRIDGE)
    run(*inside(BRIDGE, "ip", "link", "add", "bridge", "type", "bridge"))
    run(*inside(BRIDGE, "ip", "link", "set", "bridge", "up"))


def make(name, address):
    """A namespace at the bridge, with this address."""
    namespace = PREFIX + name
    run("ip", "netns", "add", namespace)
    run("ip", "link", "add", "eth0", "netns", namespace, "type", "veth", "peer", "name", f"to-{name}", "netns", BRIDGE)
    run(*inside(BRIDGE, "ip", "link", "set", f"to-{name}", "master", "bridge", "up"))
    run(*inside(namespace, "ip", "link", "set", "lo", "up"))
    run(*inside(namespace, "ip", "address", "add", f"{address}/16", "dev", "eth0"))
    run(*inside(namespace, "ip", "link", "set", "eth0", "up"))
    return namespace


class Link:
    """What is dropped at a host: nothing, until it is cut."""

    def __init__(self, namespace):
        self.namespace = namespace
        chains = "".join(f"; add chain inet cut {way} {{ type filter hook {way}put priority 0; }}" for way in ("in", "out"))
        self.nft("add table inet cut" + chains)

    def nft(self, text):
        run(*inside(self.namespace, "nft", text))

    def cut(self, addresses=None, ways=("in", "out"), others_than=False):
        """Drops packets from (`in`) and to (`out`) some addresses, or all others than these, or all."""
        sign = "!= " if others_than else ""
        for way in ways:
            side = "saddr" if way == "in" else "daddr"
            which = f"ip {side} {sign}{{ {', '.join(addresses)} }} " if addresses else 'meta iif "eth0" ' if way == "in" else 'meta oif "eth0" '
            self.nft(f"add rule inet cut {way} {which}drop")

    def mend(self):
        self.nft("flush chain inet cut in; flush chain inet cut out")
