"""Cases of the feeder that is driven: what no DataNode would send, and callers that have nothing to ask."""
import json
import os
import signal
import socket
import time

from driving import SECONDS, Feed, until
from logs import FIRST_ID, files, name_of, report

BODY_BYTES = 16_777_216
MEMORY_MB = 150
REPORTS, IDLE = 256, 2000


def hostile_bodies():
    """Bodies that are refused, each with a name."""
    good = report(1, 0)
    text = json.dumps(good)
    return [*other_texts(text), *other_members(text), *other_values(good), *other_numbers(text)]


def other_texts(text):
    """What is no report at all, or more than reports."""
    return [
        ("an edit with an escaped key", r'{"\u006fp":"OP_DELETE","path":"/f0","txid":13}'),
        ("an edit in a list", f'[{text},{{"op":"OP_DELETE","path":"/f0","txid":13}}]'),
        ("a second line with an edit", text + '\n{"op":"OP_DELETE","path":"/f0","txid":13}\n'),
        ("a second line with a word", text + "\npromote 12 lost\n"),
        ("the word promote", "promote 12"),
        ("the word gone", "gone 1"),
        ("the word checkpoint and a line end", "checkpoint\n"),
        ("an image's line", '{"end":0}'),
        ("a list in a list", f"[[{text}]]"),
        ("lists, a million deep", "[" * 1_000_000),
        ("objects, a million deep", '{"a":' * 1_000_000),
        ("a number alone", "1"),
        ("a good one and a number", f"[{text},1]"),
        ("nothing", ""),
        ("half a report", text[:20]),
        ("bytes that are no text", b"\xff" + text.encode()),
        ("UTF-16", text.encode("utf-16")),
    ]


def other_members(text):
    """A report with other members than its five, or with a text that is more than a kind."""
    return [
        ("a report with an escaped op", text.replace("}", r',"\u006fp":"OP_DELETE"}')),
        ("a member that comes twice", text.replace("}", ',"dn":2}')),
        ("a member that comes twice, once escaped", text.replace("}", r',"\u0064n":2}')),
        ("a member less", text.replace('"len": 5, ', "")),
        ("a line end in a text", text.replace("received", r"received\npromote 12")),
        ("a line end in a key", text.replace('"dn"', r'"dn\n"')),
        ("a kind with half of a character", text.replace("received", r"\ud800")),
    ]


def other_values(good):
    """A report with a member that is none of its values."""
    return [
        (f"{name} {json.dumps(value)[:20]}", json.dumps({**good, name: value}))
        for name, value in (
            ("dn", 0),
            ("dn", 257),
            ("dn", True),
            ("block", -1),
            ("gen", 2**63),
            ("len", "5"),
            ("len", 5.0),
            ("len", None),
            ("len", [5]),
            ("kind", "lost"),
            ("kind", 1),
            ("kind", good),
        )
    ]


def other_numbers(text):
    """A number as no report has it."""
    spelled = ("5e0", "-0", "05", "NaN", "Infinity", "9" * 1_000_000)
    return [(f"len {number[:8]}", text.replace('"len": 5', f'"len": {number}')) for number in spelled]


def check_bodies(tally, place):
    """Bodies that no DataNode would send. None of them changes anything."""
    place.put_segment(files(1, 0, 2))
    feed = Feed(place)
    feed.reaches(12)
    tables, status = feed.tables(), feed.status()
    for name, body in hostile_bodies():
        code, answer = feed.ask("POST", "/report", body)
        tally.same(f"a body is refused: {name}", (code, list(json.loads(answer))), (400, ["code", "refused"]))
    check_lengths(tally, feed)
    after = feed.status()
    same = [after[name] == status[name] for name in ("txid", "segments", "held", "datanodes", "faults", "state")]
    tally.same("they changed nothing", (feed.tables(), all(same)), (tables, True))
    escaped = json.dumps(report(1, 0)).replace('"dn"', r'"\u0064n"').replace("received", r"rec\u0065ived")
    tally.same("an escaped report is the report", feed.ask("POST", "/report", f" [{escaped}\n] ")[0], 200)
    full = json.dumps(report(2, 0)).ljust(BODY_BYTES)
    tally.same("a body of 16 MiB is taken", feed.ask("POST", "/report", full)[0], 200)
    check_memory(tally, feed)
    tally.same("an empty list is of no DataNode", feed.ask("POST", "/report", "[]")[0], 400)
    tally.same("a list of two DataNodes", feed.ask("POST", "/report", json.dumps([report(1, 0), report(2, 0)]))[0], 400)
    lines = [line for line in feed.tables().splitlines() if line.startswith("replica")]
    wanted = [f"replica {FIRST_ID} {dn} 1001 5 received live" for dn in (1, 2)]
    tally.same("their replicas", lines, wanted)
    tally.same("SIGINT ends it", feed.stop(signal.SIGINT), 0)


def check_memory(tally, feed):
    """A body whose values would take many times its memory."""
    body = f"[{'[],' * (BODY_BYTES // 3 - 1)}1]"
    tally.same("millions of lists", feed.ask("POST", "/report", body)[0], 400)
    with open(f"/proc/{feed.process.pid}/status") as file:
        memory = int(next(line for line in file if line.startswith("VmHWM")).split()[1]) // 1000
    tally.holds("the memory that they took", memory < MEMORY_MB, f"{memory} MB")


def check_lengths(tally, feed):
    """Bodies in chunks, without a length, too long, or of another type."""
    text = json.dumps(report(1, 0))
    head = f"POST /report HTTP/1.1\r\nHost: 127.0.0.1:{feed.port}\r\nContent-Type: application/json\r\n"
    chunked = f"Transfer-Encoding: chunked\r\n\r\n{len(text):x}\r\n{text}\r\n0\r\n\r\n"
    for name, rest, code in (
        ("in chunks", chunked, 411),
        ("in chunks and with a length", f"Content-Length: {len(text)}\r\n{chunked}", 411),
        ("without a length", f"\r\n{text}", 411),
        ("with two lengths", f"Content-Length: 0\r\nContent-Length: {len(text)}\r\n\r\n{text}", 400),
        ("with a negative length", f"Content-Length: -1\r\n\r\n{text}", 411),
        ("with a length of many digits", f"Content-Length: {'9' * 30}\r\n\r\n{text}", 411),
        ("with a length above 16 MiB", f"Content-Length: {BODY_BYTES + 1}\r\n\r\n{text}", 413),
    ):
        tally.contains(f"a body {name}", feed.raw((head + rest).encode()), f"HTTP/1.1 {code} ")
    tally.same("a body above 16 MiB", feed.ask("POST", "/report", text.ljust(BODY_BYTES + 1))[0], 413)
    for kind in ("text/plain", "application/x-www-form-urlencoded", "multipart/form-data"):
        tally.same(f"a body of {kind}", feed.ask("POST", "/report", text, Content_Type=kind)[0], 415)


def check_callers(tally, place):
    """Who may ask: nobody who can't say that it means this port, and no page in a browser."""
    place.put_segment(files(1, 0, 1))
    feed = Feed(place)
    feed.reaches(7)
    until("it is healthy", lambda: feed.ask("GET", "/health")[0] == 200)
    check_hosts(tally, feed)
    check_promotions(tally, feed)
    check_heads(tally, feed)
    tally.same("a page of another site", feed.ask("GET", "/", Sec_Fetch_Site="cross-site")[0], 403)
    tally.same("no such path", feed.ask("GET", "/../etc/passwd")[0], 404)
    tally.same("a question before another method", feed.ask("OPTIONS", "/promote")[0], 405)
    tally.same("nobody was promoted", feed.status()["state"], "standby")
    check_kept_connection(tally, feed)
    check_crowd(tally, feed)
    lines = files(8, 1, 1)
    place.put(name_of(8, 14), "".join([*lines[:2], *lines[1:]]))
    feed.tells("fault 14 segment")
    tally.same("a promotion with segments above it", feed.promote(7)[0], 409)
    tally.same("what is above it is given up", feed.promote(7, lost=True)[0], 200)


def check_hosts(tally, feed):
    """A request says which host it means."""
    own = f"127.0.0.1:{feed.port}"
    for name, hosts, code in (
        ("this port", [own], 200),
        ("localhost", [f"LocalHost:{feed.port}"], 200),
        ("another name", [f"standby.example:{feed.port}"], 403),
        ("a name that begins so", [f"127.0.0.1.example:{feed.port}"], 403),
        ("another port", ["127.0.0.1:1"], 403),
        ("no port", ["127.0.0.1"], 403),
        ("none", [], 403),
        ("two", [own, own], 400),
    ):
        lines = "".join(f"Host: {host}\r\n" for host in hosts)
        tally.contains(f"Host: {name}", feed.raw(f"GET /health HTTP/1.1\r\n{lines}\r\n".encode()), f"HTTP/1.1 {code} ")


def check_heads(tally, feed):
    """Heads that are none, or that carry more than one request may."""
    host = f"Host: 127.0.0.1:{feed.port}\r\n"
    promotion = f"POST /promote HTTP/1.1\r\n{host}Content-Type: application/json\r\nContent-Length: 10\r\n\r\n" + '{"txid":7}'
    for name, text, code in (
        ("HTTP/1.0", f"GET /health HTTP/1.0\r\n{host}\r\n", 200),
        ("HTTP/0.9", "GET /health\r\n\r\n", 400),
        ("HTTP/2", "PRI * HTTP/2.0\r\n\r\n", 400),
        ("a method in small letters", f"get /health HTTP/1.1\r\n{host}\r\n", 400),
        ("a whole address", f"GET http://127.0.0.1:{feed.port}/health HTTP/1.1\r\n{host}\r\n", 400),
        ("a path with a blank", f"GET /health x HTTP/1.1\r\n{host}\r\n", 400),
        ("101 headers", f"GET /health HTTP/1.1\r\n{host}" + "A: b\r\n" * 100 + "\r\n", 431),
        ("a header of 70,000 bytes", f"GET /health HTTP/1.1\r\n{host}A: {'b' * 70_000}\r\n\r\n", 431),
        ("a header that goes on", f"GET /health HTTP/1.1\r\n{host}A: b\r\n c\r\n\r\n", 400),
        ("a header without a colon", f"GET /health HTTP/1.1\r\n{host}A\r\n\r\n", 400),
        ("a blank before a colon", f"GET /health HTTP/1.1\r\n{host}A : b\r\n\r\n", 400),
        ("a zero byte", f"GET /health HTTP/1.1\r\n{host}A: \0\r\n\r\n", 400),
        ("lines without their first half", f"GET /health HTTP/1.1\nHost: 127.0.0.1:{feed.port}\n\r\n\r\n", 400),
        ("a length with a sign", promotion.replace("/promote", "/report").replace("Length: ", "Length: +"), 411),
        ("a promotion at the reports' door", promotion, 404),
    ):
        tally.contains(f"a head: {name}", feed.raw(text.encode()), f"HTTP/1.1 {code} ")
    with socket.create_connection(("127.0.0.1", feed.port), SECONDS) as connection:
        connection.sendall(f"GET /health HTTP/1.1\r\n{host}\r\n{promotion}".encode())
        answers = connection.makefile("rb")
        got = [answer_of(answers)[:13] for _ in range(2)]
        tally.same("a promotion behind a question", got, [b"HTTP/1.1 200 ", b"HTTP/1.1 404 "])


def check_promotions(tally, feed):
    """A promotion is asked for at the operators' door alone, by no page, and in its own words."""
    promotion = json.dumps({"txid": 7})
    for name, headers, code in (
        ("at the reports' door", {"Host": f"127.0.0.1:{feed.port}"}, 404),
        ("by another origin", {"Origin": "http://standby.example"}, 403),
        ("by no origin", {"Origin": "null"}, 403),
        ("from another site", {"Sec_Fetch_Site": "cross-site"}, 403),
        ("as a text", {"Content_Type": "text/plain"}, 415),
    ):
        tally.same(f"a promotion {name}", feed.ask("POST", "/promote", promotion, **headers)[0], code)
    bad = ['"txid":"7"', '"txid":true', '"txid":7,"txid":7', '"txid":7,"lost":1', '"txid":7,"more":1', ""]
    bad += ['"txid":7,"epoch":2147483648', '"txid":7,"within":-1']
    for members in bad:
        body = f"{{{members}}}"
        tally.same(f"the promotion {body}", feed.ask("POST", "/promote", body)[0], 400)
    mode = os.stat(feed.place.door).st_mode & 0o777
    tally.same("the operators' door is its owner's", mode, 0o600)


def check_crowd(tally, feed):
    """More callers than there are places, who send their bodies slowly, and many who say nothing."""
    head = f"POST /report HTTP/1.1\r\nHost: 127.0.0.1:{feed.port}\r\nContent-Type: application/json\r\nContent-Length: 90\r\n\r\n{{"
    crowd = [socket.create_connection(("127.0.0.1", feed.port), SECONDS) for _ in range(REPORTS)]
    try:
        for connection in crowd:
            connection.sendall(head.encode())
        until("all places are taken", lambda: feed.raw(head.encode()).startswith("HTTP/1.1 503"))
        tally.same("health has places of its own", feed.ask("GET", "/health")[0], 200)
        begun = time.monotonic()
        tally.same("so has a promotion", feed.promote(3), (409, "ahead"))
        tally.holds("and it does not wait", time.monotonic() - begun < 2)
    finally:
        for connection in crowd:
            connection.close()
    until("a place again", lambda: feed.report(report(1, 0))[0] == 200)
    idle = [socket.create_connection(("127.0.0.1", feed.port), SECONDS) for _ in range(IDLE)]
    try:
        tally.same(f"{IDLE} connections that say nothing take no place", feed.report(report(1, 0))[0], 200)
        ask = f"GET /health HTTP/1.1\r\nHost: 127.0.0.1:{feed.port}\r\n\r\n".encode()
        got = {asked_on(connection, ask) for connection in idle}
        tally.same("each of them asks, and stays", got, {b"HTTP/1.1 200 OK\r\n"})
        tally.same("and they take none then", (feed.report(report(1, 0))[0], feed.promote(3)), (200, (409, "ahead")))
    finally:
        for connection in idle:
            connection.close()


def check_kept_connection(tally, feed):
    """Several requests on one connection, and two at once."""
    text = json.dumps({"dn": 1}).encode()
    head = f"POST /heartbeat HTTP/1.1\r\nHost: localhost:{feed.port}\r\nContent-Type: application/json\r\n"
    one = f"{head}Content-Length: {len(text)}\r\n\r\n".encode() + text
    with socket.create_connection(("127.0.0.1", feed.port), SECONDS) as connection:
        answers = connection.makefile("rb")
        for given, count in ((one, 1), (one + one, 2), (one[:30], 0), (one[30:] + one[:80], 1), (one[80:], 1)):
            connection.sendall(given)
            got = [answer_of(answers) for _ in range(count)]
            tally.same(f"{count} answers on a connection that is kept", got, [b"HTTP/1.1 200 OK\r\n"] * count)


def asked_on(connection, ask):
    connection.sendall(ask)
    return answer_of(connection.makefile("rb"))


def answer_of(answers):
    first = answers.readline()
    length = 0
    for row in iter(answers.readline, b"\r\n"):
        if row.startswith(b"Content-Length: "):
            length = int(row.split()[1])
    answers.read(length)
    return first
