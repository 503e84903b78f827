"""ZooKeeper for drills: three servers of Debian's package, each in a namespace of its own, up between drills."""
import os
import subprocess
import time

import network

JAR = "/usr/share/java/zookeeper.jar"
CONFIG = """tickTime={tick}
initLimit=50
syncLimit=50
dataDir={folder}
clientPort=2181
maxClientCnxns=0
admin.enableServer=false
4lw.commands.whitelist=srvr
"""
LOG = """log4j.rootLogger=WARN, file
log4j.appender.file=org.apache.log4j.FileAppender
log4j.appender.file.File={folder}/log
log4j.appender.file.layout=org.apache.log4j.SimpleLayout
"""


class Ensemble:
    def __init__(self, folder, tick):
        self.folder, self.tick = folder, tick
        self.addresses = [f"10.77.0.{1 + at}" for at in range(network.SERVERS)]
        self.namespaces = [network.make(f"z{1 + at}", address) for at, address in enumerate(self.addresses)]
        self.processes = [None] * network.SERVERS
        for at in range(network.SERVERS):
            self.configure(at)
            self.start(at)
        self.leader()

    @property
    def hosts(self):
        return ",".join(f"{address}:2181" for address in self.addresses)

    def configure(self, at):
        folder = os.path.join(self.folder, f"z{1 + at}")
        os.makedirs(folder)
        servers = "".join(f"server.{1 + it}={address}:2888:3888\n" for it, address in enumerate(self.addresses))
        config = CONFIG.format(tick=self.tick, folder=folder) + servers
        for name, text in (("zoo.cfg", config), ("myid", f"{1 + at}\n"), ("log4j.properties", LOG.format(folder=folder))):
            with open(os.path.join(folder, name), "w") as file:
                file.write(text)

    def start(self, at):
        folder = os.path.join(self.folder, f"z{1 + at}")
        words = ["java", "-Xmx128m", "-XX:+UseSerialGC", "-Dzookeeper.forceSync=no"]
        words += [f"-Dlog4j.configuration=file:{folder}/log4j.properties", "-cp", f"{folder}:{JAR}"]
        words += ["org.apache.zookeeper.server.quorum.QuorumPeerMain", os.path.join(folder, "zoo.cfg")]
        with open(os.path.join(folder, "out"), "a") as output:
            self.processes[at] = subprocess.Popen(network.inside(self.namespaces[at], *words), stdin=subprocess.DEVNULL, stdout=output, stderr=output)

    def mode(self, at):
        """What a server says it is. It is asked inside its namespace."""
        ask = "import socket; s = socket.create_connection(('127.0.0.1', 2181), 1); s.sendall(b'srvr'); s.settimeout(1); print(s.makefile().read())"
        try:
            said = subprocess.run(network.inside(self.namespaces[at], "python3", "-c", ask), capture_output=True, text=True, timeout=5).stdout
        except subprocess.TimeoutExpired:
            return None
        found = [line.split()[1] for line in said.splitlines() if line.startswith("Mode:")]
        return found[0] if found else None

    def leader(self, seconds=60):
        """The number of the server that leads, once all are there."""
        end = time.monotonic() + seconds
        while time.monotonic() < end:
            modes = [self.mode(at) for at in range(network.SERVERS)]
            if "leader" in modes and modes.count("follower") == network.SERVERS - 1:
                return modes.index("leader")
            time.sleep(0.3)
        raise TimeoutError(f"ZooKeeper has no leader: {modes}")

    def kill(self, at):
        self.processes[at].kill()
        self.processes[at].wait()

    def close(self):
        for process in self.processes:
            process.kill()
            process.wait()
