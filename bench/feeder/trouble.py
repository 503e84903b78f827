"""Cases of the feeder that is driven: a folder that hangs, a program that is killed while it loads, files with another byte, and crowds."""
import concurrent.futures
import json
import os
import resource
import select
import signal
import socket
import stat
import time

from driving import SECONDS, Feed, until
from hostile import BODY_BYTES, REPORTS
from logs import files, name_of, report

# The bytes of long bodies that there is room for, and the memory of a feeder that has as many.
LONG_BODIES, MEMORY_MB = 268_435_456, 480
# So many more are sent.
TOO_MANY = 2
CONNECTIONS = 4096
SLOW_BYTES = 64 * 2**30
OPERATORS = 8


def check_hangs(tally, place):
    """What waits is tried side by side."""
    with concurrent.futures.ThreadPoolExecutor() as side_by_side:
        tried = [side_by_side.submit(part, tally, place.within(part.__name__)) for part in (hung_folder, slow_folder, hung_segment)]
    for one in tried:
        one.result()


def hung_folder(tally, place):
    """A look that does not come back, as from a mount that hangs: what gives up the rest is promoted, and nothing else."""
    place.put_segment(files(1, 0, 1))
    feed = Feed(place)
    feed.reaches(7)
    # Nobody writes to it, so who opens it waits.
    os.mkfifo(os.path.join(place.edits, f"edits_inprogress_{8:019}"))
    until("a look hangs", lambda: feed.status()["seconds"]["look"] > 1)
    tally.same("a promotion waits for a folder that hangs", feed.promote(7), (503, "late"))
    tally.same("health does not", feed.ask("GET", "/health")[0], 200)
    with concurrent.futures.ThreadPoolExecutor() as side_by_side:
        before = side_by_side.submit(feed.promote, 7, within=15)
        time.sleep(0.5)
        begun = time.monotonic()
        tally.same("what gives up all above needs no look", feed.promote(7, lost=True), (200, "active"))
        tally.same("who waited for the folder before it is answered, too", before.result(), (200, "active"))
        tally.holds("and both come in time", time.monotonic() - begun < 5)
    feed.tells("the folder hangs: what the promotion gives up is not known by name")


def slow_folder(tally, place):
    """A look that takes long and comes on: what it gives up is not known yet, and nothing is promoted without that."""
    place.put_segment(files(1, 0, 1))
    feed = Feed(place)
    feed.reaches(7)
    # It has a hole of so many bytes, which take longer than a promotion waits.
    place.put(name_of(8, 14), "{}\n")
    os.truncate(os.path.join(place.edits, name_of(8, 14)), SLOW_BYTES)
    until("it is seen", lambda: feed.status()["known"] == 14)
    tally.same("what is given up is summed first", feed.promote(7, lost=True), (503, "late"))
    tally.same("it is a standby", feed.status()["state"], "standby")


def hung_segment(tally, place):
    """A segment whose reading does not come back: why the log waits is told, and questions are answered."""
    place.put_segment(files(1, 0, 1))
    os.mkfifo(os.path.join(place.edits, name_of(8, 14)))
    feed = Feed(place)
    wanted = f"{name_of(8, 14)} is read for more than 10 seconds"
    status = until("why the log waits", lambda: (found := feed.status())["waits"] and found)
    tally.same("a segment that is read for long", (status["waits"], status["why"], status["txid"], status["known"]), (wanted, "slow", 7, 14))
    tally.contains("the metric", feed.ask("GET", "/metrics")[1], '\nnn_standby_waits{why="slow"} 1\n')
    tally.same("no promotion below it", feed.promote(7), (409, "edits_above"))


def check_doubt(tally, place):
    """A name that was given up has other bytes, can't be read at the next promotion, and comes back: it is not followed."""
    name = name_of(15, 21)
    path = os.path.join(place.edits, name)
    place.put_segment(files(1, 0, 1))
    place.put_segment(files(15, 2, 1))

    def started():
        feed = Feed(place)
        feed.reaches(7)
        return feed

    def given_up(epoch):
        feed = started()
        until("it is seen", lambda: feed.status()["known"] == 21 or name in feed.told())
        tally.same(f"what is above is given up in epoch {epoch}", feed.promote(7, epoch=epoch, lost=True), (200, "active"))
        until("that is kept", lambda: feed.ask("GET", "/health")[0] == 200)
        feed.process.kill()
        feed.ended()

    given_up(1)
    place.put_segment(files(15, 5, 1))
    feed = started()
    until("other bytes are another segment", lambda: feed.status()["known"] == 21)
    feed.stop()
    os.remove(path)
    os.mkdir(path)
    given_up(2)
    os.rmdir(path)
    place.put_segment(files(15, 5, 1))
    feed = started()
    feed.tells(f"{name} has the name of one that a promotion gave up, and it can't be known whether it is that one")
    tally.same("and raises nothing", feed.status()["known"], 7)
    tally.same("a promotion asks who fenced", feed.promote(7, epoch=2), (409, "folder_unreadable"))


def check_killed_start(tally, place):
    """A program that is killed while it loads an image says nothing of that image: the next start takes it."""
    place.put_segment(files(1, 0, 1))
    feed = Feed(place, "--checkpoint", "7")
    until("its checkpoint", place.images)
    feed.stop()
    killed = os.path.join(place.folder, "killed")
    wrapper = os.path.join(place.folder, "program")
    with open(wrapper, "w") as file:
        file.write(f'#!/bin/sh\nif [ ! -e {killed} ]; then touch {killed}; kill -9 $$; fi\nexec {place.program} "$@"\n')
    os.chmod(wrapper, 0o700)
    place.program = wrapper
    feed = Feed(place)
    tally.same("a program that is killed at the start ends the feeder", feed.ended(), 1)
    tally.same("its checkpoint is not passed over", "is passed over" in feed.told(), False)
    feed = Feed(place)
    tally.contains("the next start takes it", feed.told_at_start(), "goes on from TXID 7\n")


def check_flips(tally, place):
    """A byte of each kept file is another one: a damaged state is refused, and a damaged checkpoint is passed over."""
    feed = Feed(place, "--checkpoint", "7", "--keep", "2")
    for count, first in enumerate((1, 8), 1):
        place.put_segment(files(first, count - 1, 1))
        until("its checkpoint", lambda count=count: len(place.images()) == count)
    feed.stop()
    newest = place.images()[-1]
    for name in ("state", newest, f"{newest}.sha256"):
        path = os.path.join(place.checkpoints, name)
        with open(path, "rb") as file:
            whole = file.read()
        for at in (0, len(whole) // 3, len(whole) // 2, len(whole) - 2):
            with open(path, "wb") as file:
                file.write(whole[:at] + bytes((whole[at] ^ 1,)) + whole[at + 1 :])
            feed = Feed(place)
            if name == "state":
                told = feed.ended(), "the state is damaged" in feed.told()
                tally.same(f"byte {at} of {name}", told, (1, True))
            else:
                said = feed.told_at_start()
                told = f"{newest} is passed over" in said, "goes on from TXID 7\n" in said
                tally.same(f"byte {at} of {name}", told, (True, True))
                feed.stop()
            with open(path, "wb") as file:
                file.write(whole)
    feed = Feed(place)
    tally.contains("as it was, it is taken", feed.told_at_start(), "goes on from TXID 14\n")


def check_begun(tally, place):
    """What it can't begin with, it says, and leaves as it is."""
    feed = Feed(place)
    second = Feed(place)
    tally.same("a second feeder ends", second.ended(), 1)
    tally.contains("and says why", second.told(), "another feeder has this folder")
    feed.stop()
    kept = os.path.join(place.folder, "kept")
    with open(kept, "w") as file:
        file.write("mine")
    feed = Feed(place, "--socket", kept)
    tally.same("a socket's place that is a file", (feed.ended(), os.path.getsize(kept)), (1, 4))
    tally.contains("that is said", feed.told(), "this is there, and is no socket")
    place.door = os.path.join(place.folder, "door")
    for _ in range(2):
        feed = Feed(place, "--socket", place.door)
        tally.same("a socket that was left is replaced", (feed.address != "", stat.S_ISSOCK(os.stat(place.door).st_mode)), (True, True))
        feed.process.kill()
        feed.ended()


def check_address(tally, place):
    """Who comes from elsewhere names the address to which it came."""
    feed = Feed(place, "--reports", "0.0.0.0:0")
    until("it is healthy", lambda: feed.ask("GET", "/health")[0] == 200)
    for name, host, code in (("its own", f"127.0.0.2:{feed.port}", 200), ("another one", f"127.0.0.3:{feed.port}", 403)):
        with socket.create_connection(("127.0.0.2", feed.port), SECONDS) as connection:
            connection.sendall(f"GET /health HTTP/1.1\r\nHost: {host}\r\n\r\n".encode())
            tally.contains(f"an address as the Host: {name}", connection.makefile("rb").readline().decode(), f"HTTP/1.1 {code} ")


def check_told_faults(tally, place):
    """Reports that are refused fill no disk: their faults are told once a minute."""
    place.put_segment(files(1, 0, 1))
    feed = Feed(place)
    feed.reaches(7)
    feed.promote(7)
    for dn in range(1, 101):
        feed.report(report(dn, 0))
    tally.same("a hundred refused reports, in one line", feed.told().count("fault 53"), 1)
    tally.same("all are counted", feed.status()["faults"], {"53": 100})


def check_crowds(tally, place):
    """More long bodies than there is room for, and more connections than there may be."""
    place.put_segment(files(1, 0, 1))
    feed = Feed(place)
    feed.reaches(7)
    resource.setrlimit(resource.RLIMIT_NOFILE, (resource.getrlimit(resource.RLIMIT_NOFILE)[1],) * 2)
    check_long_bodies(tally, feed)
    check_heads(tally, feed)


def check_long_bodies(tally, feed):
    head = f"POST /report HTTP/1.1\r\nHost: 127.0.0.1:{feed.port}\r\nContent-Type: application/json\r\nContent-Length: {BODY_BYTES}\r\n\r\n"
    most, blanks = LONG_BODIES // BODY_BYTES, b" " * (BODY_BYTES - 1)
    crowd = []
    try:
        for _ in range(most + TOO_MANY):
            crowd.append(socket.create_connection(("127.0.0.1", feed.port), 3 * SECONDS))
            crowd[-1].sendall(head.encode())
            try:
                crowd[-1].sendall(blanks)
            except OSError:
                # It is sent away in the middle.
                pass
        # Which ones are sent away is the order in which their bytes are read: those that came while there was no room.
        sent_away = until("some are sent away", lambda: len(found := answered(crowd)) >= TOO_MANY and found)
        told = [connection.makefile("rb").readline().decode() for connection in sent_away]
        tally.same("bodies too many", told, ["HTTP/1.1 503 Service Unavailable\r\n"] * TOO_MANY)
        tally.same("a short one is taken", feed.report(report(1, 0))[0], 200)
        with open(f"/proc/{feed.process.pid}/status") as file:
            memory = int(next(line for line in file if line.startswith("VmHWM")).split()[1]) // 1000
        tally.holds("the memory that they take", memory < MEMORY_MB, f"{memory} MB")
    finally:
        for connection in crowd:
            connection.close()
    until("room again", lambda: feed.ask("POST", "/report", json.dumps(report(1, 0)).ljust(BODY_BYTES))[0] == 200)


def answered(connections):
    """Those of them that have something to read."""
    return select.select(connections, [], [], 0)[0]


def check_heads(tally, feed):
    """Each of them has sent a byte, and sends no more."""
    crowd = []
    try:
        for _ in range(CONNECTIONS + REPORTS):
            crowd.append(socket.create_connection(("127.0.0.1", feed.port), SECONDS))
            crowd[-1].sendall(b"P")
        tally.same("behind a crowd that never asks, a report", feed.report(report(1, 0))[0], 200)
        tally.same("and a promotion", feed.promote(3), (409, "ahead"))
        count = len(os.listdir(f"/proc/{feed.process.pid}/fd"))
        tally.holds("it holds no more connections than it may", count < CONNECTIONS + 64, f"{count}")
    finally:
        for connection in crowd:
            connection.close()


def check_entrants(tally, feed_port, token):
    """Who has no token keeps no operator out."""
    head = f"POST /enter HTTP/1.1\r\nHost: 127.0.0.1:{feed_port}\r\nContent-Type: application/x-www-form-urlencoded\r\nContent-Length: 90\r\n\r\nt"
    crowd = [socket.create_connection(("127.0.0.1", feed_port), SECONDS) for _ in range(OPERATORS)]
    try:
        for connection in crowd:
            connection.sendall(head.encode())
        with socket.create_connection(("127.0.0.1", feed_port), SECONDS) as connection:
            connection.sendall(f"GET /health HTTP/1.1\r\nHost: 127.0.0.1:{feed_port}\r\nAuthorization: Bearer {token}\r\n\r\n".encode())
            tally.contains("slow forms keep no operator out", connection.makefile("rb").readline().decode(), "HTTP/1.1 200 ")
    finally:
        for connection in crowd:
            connection.close()
