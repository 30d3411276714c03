"""A server that shows its status over HTTP.

    python3 status.py PROGRAM..

It asks the server for things, and compares the numbers that are shown with those that follow from what was asked, as
JSON, as metrics and on the page. Then it asks for what isn't shown, and in ways that no browser does. It prints nothing
where all is as it should be, and the server ends in order with status 0.
"""
import json
import re
import socket
import struct
import subprocess
import sys
import threading
import time
from contextlib import contextmanager
from pathlib import Path

sys.path.insert(0, str(Path(__file__).parent.parent / "clients"))
from jsp import FOREVER, LONGEST, Client, Refused, entry  # noqa: E402

SECONDS = 60
AGE = 1.1  # what is shown may be a second old
VERSION = "0.1.0"
ASKS = b"GET / HTTP/1.1\r\nHost: jsp\r\n\r\n"
NAMES = {1: "BadJson", 5: "UnknownSpace", 11: "BadTimeout", 12: "UnknownLease"}  # docs/PROTOCOL.md, section 4

# The text format of Prometheus, version 0.0.4: the names of metrics and of labels, a label's value, and a sample.
METRIC = r"[a-zA-Z_:][a-zA-Z0-9_:]*"
LABEL = r'([a-zA-Z_][a-zA-Z0-9_]*)="((?:[^"\\\n]|\\[\\"n])*)"'
SAMPLE = re.compile(rf"({METRIC})(?:\{{({LABEL}(?:,{LABEL})*)\}})? ([0-9]+)")


def address_after(server, word):
    """The address in the next line that the server prints, which begins with this word."""
    first, address = server.stdout.readline().decode().split()
    assert first == word, first
    host, port = address.rsplit(":", 1)
    return host, int(port)


@contextmanager
def serving(program, *options):
    """A server of two spaces, its address, and that of its status. It is killed where something went wrong."""
    server = subprocess.Popen(
        [*program, "listen", "--log", "off", "--until-input", "--status", "127.0.0.1:0", *options, "127.0.0.1:0", "a", "b"],
        stdin=subprocess.PIPE,
        stdout=subprocess.PIPE,
        stderr=subprocess.PIPE,
    )
    try:
        yield server, address_after(server, "listening"), address_after(server, "status")
    finally:
        server.kill()
        server.wait()


def ends(server, told):
    """It ends in order at a line of its input."""
    said = server.communicate(b"\n", timeout=SECONDS)
    assert (server.returncode, *said) == (0, b"", told), (server.returncode, said)


def rest(stream):
    """All that comes up to the end of the connection."""
    with stream.makefile("rb") as said:
        return said.read()


def received(status, asked):
    """What is sent to a connection on which this is asked."""
    with socket.create_connection(status, SECONDS) as stream:
        stream.sendall(asked)
        return rest(stream)


def answer(status, method, path):
    """The code, the headers and the body of an answer."""
    said = received(status, f"{method} {path} HTTP/1.1\r\nHost: jsp\r\n\r\n".encode())
    head, body = said.split(b"\r\n\r\n", 1)
    first, *headers = head.decode().split("\r\n")
    return int(first.split()[1]), dict(header.split(": ") for header in headers), body


def fresh(status):
    """The status once what was shown before is too old, and the times between which it was taken."""
    time.sleep(AGE)
    began = time.monotonic()
    code, headers, body = answer(status, "GET", "/status.json")
    assert (code, headers["content-type"]) == (200, "application/json")
    return json.loads(body), began, time.monotonic()


def unescaped(value):
    """The text that a label's value stands for."""
    return re.sub(r"\\(.)", lambda escape: {"n": "\n"}.get(escape[1], escape[1]), value)


def parsed(text):
    """The kinds of the metrics, by their names, and their samples, by the names with the labels."""
    assert text.endswith("\n")
    kinds, samples, helped = {}, {}, None
    for line in text[:-1].split("\n"):
        if line.startswith("# HELP "):
            _, _, helped, words = line.split(" ", 3)
            assert re.fullmatch(METRIC, helped) and words and helped not in kinds, line
        elif line.startswith("# TYPE "):
            _, _, name, kind = line.split(" ")
            assert name == helped and kind in ("counter", "gauge"), line
            kinds[name] = kind
        else:
            sample = SAMPLE.fullmatch(line)
            # The samples of a metric stand together, behind its two lines.
            assert sample and sample[1] == helped and helped in kinds, line
            labels = {name: unescaped(value) for name, value in re.findall(LABEL, sample[2] or "")}
            key = (sample[1], *sorted(labels.items()))
            assert key not in samples, line
            samples[key] = int(sample[0].rsplit(" ", 1)[1])
    for name, kind in kinds.items():
        assert name.startswith("jsp_") and name.endswith("_total") == (kind == "counter"), name
    return kinds, samples


def metrics(status):
    code, headers, body = answer(status, "GET", "/metrics")
    assert (code, headers["content-type"]) == (200, "text/plain; version=0.0.4; charset=utf-8"), (code, headers)
    return parsed(body.decode())


def samples_of(shown):
    """The samples that tell the same as the JSON."""
    usage = shown["usage"]
    samples = {
        ("jsp_info", ("version", shown["version"])): 1,
        ("jsp_uptime_seconds",): shown["uptime_ms"] // 1000,
        ("jsp_era",): shown["era"],
        ("jsp_eras_ended_total",): shown["seals"],
        ("jsp_connections",): shown["connections"],
        ("jsp_connections_opened_total",): usage["connections_total"],
        ("jsp_connections_peak",): usage["connections_peak"],
        ("jsp_connections_limit",): usage["connections_limit"],
        ("jsp_requests_total",): shown["requests"],
        ("jsp_answers_total",): shown["answers"],
        ("jsp_transactions",): shown["transactions"]["living"],
        ("jsp_transactions_voting",): shown["transactions"]["voting"],
        ("jsp_space_entries_limit",): usage["rows_limit"],
    }
    if usage["memory_bytes"] is not None:
        samples["jsp_resident_memory_bytes",] = usage["memory_bytes"]
    for refusal in shown["refusals"]:
        key = ("jsp_refusals_total", ("name", refusal["name"]), ("number", str(refusal["number"])))
        samples[key] = refusal["count"]
    for one in shown["spaces"]:
        for name, member in (
            ("entries", "rows"),
            ("waiting_requests", "waiting"),
            ("registrations", "registrations"),
            ("match_sets", "match_sets"),
        ):
            samples[f"jsp_space_{name}", ("space", one["name"])] = one[member]
    return samples


def same_in_metrics(status):
    """The metrics tell what the JSON tells, and no counter falls meanwhile."""
    kinds, before = metrics(status)
    # Both are answered from one status, unless that grew too old between them.
    for _ in range(5):
        shown = fresh(status)[0]
        _, samples = metrics(status)
        if samples == samples_of(shown):
            break
    else:
        raise AssertionError((samples, samples_of(shown)))
    for key, number in before.items():
        assert kinds[key[0]] != "counter" or number <= samples[key], key


def space(name, rows=0, waiting=0, registrations=0, match_sets=0):
    return {
        "name": name,
        "rows": rows,
        "waiting": waiting,
        "registrations": registrations,
        "match_sets": match_sets,
    }


NOTHING = {
    "version": VERSION,
    "era": 1,
    "seals": 0,
    "connections": 0,
    "connection_list": [],
    "requests": 0,
    "answers": 0,
    "refusals": [],
    "transactions": {"living": 0, "voting": 0},
    "spaces": [space("a"), space("b")],
    "usage": {"connections_limit": 256, "connections_peak": 0, "connections_total": 0, "rows_limit": 65536},
}

# What `asks` leaves. The hello of each Client is a request too.
ASKED = {
    **NOTHING,
    "connections": 2,  # the third has left
    "requests": 31,
    "answers": 33,  # 3 requests wait, and there were 5 events
    "refusals": [
        {"number": number, "name": NAMES[number], "count": count}
        for number, count in ((1, 1), (5, 1), (11, 1), (12, 2))
    ],
    "transactions": {"living": 1, "voting": 0},
    "spaces": [
        space("a", rows=3, waiting=1, registrations=1, match_sets=1),
        space("b", rows=5, waiting=2, registrations=2),
    ],
    "usage": {"connections_limit": 256, "connections_peak": 3, "connections_total": 3, "rows_limit": 65536},
}


def listed(*clients):
    """The connections as they are listed: of each client what it asked, and how much of it waits."""
    return [
        {"address": "%s:%d" % client.socket.getsockname(), "number": number, "requests": requests, "waiting": waiting}
        for number, (client, requests, waiting) in enumerate(clients, 1)
    ]


def is_refused(client, number, op, **keys):
    try:
        client.call(op, **keys)
    except Refused as refused:
        assert refused.number == number
    else:
        raise AssertionError(f"{op} was not refused")


def asks(address, one, two):
    """31 requests of three clients: the two and one that leaves."""
    with Client(*address) as third:
        third.call("bye")  # 2 requests
        assert third.socket.recv(1) == b""
    one.declare("Job", k="int")  # 5, with the hello of the two

    one.notify("a", entry("Job"), lease=LONGEST)
    for key in (1, 2, 3):
        two.write("a", entry("Job", k=key), lease=LONGEST)
        assert one.event(SECONDS)
    two.write_all("b", [entry("Job", k=key) for key in (1, 2, 3, 4)], lease=LONGEST)  # 10
    assert one.take("a", entry("Job", k=1)) == {"k": 1}

    is_refused(one, 5, "read", space="c", template=None, timeout=0)
    is_refused(one, 11, "take", space="a", template=None, timeout=-1)
    is_refused(one, 12, "cancel", lease=99)
    is_refused(two, 12, "cancel", lease=99)  # 15
    two.socket.sendall(struct.pack(">I", 1) + b"{")
    try:
        two.receive()
        raise AssertionError("what is no JSON was not refused")
    except Refused as refused:
        assert refused.number == 1
    # A refusal in a batch is a part of an answer.
    assert [item.number for item in one.cancel_all([98, 99])] == [12, 12]  # 17

    for _ in range(2):
        two.notify("b", entry("Job", k=5), lease=LONGEST)
    one.granted("contents", space="a", template=entry("Job"), lease=LONGEST)  # 20

    # An entry stands until the commit of what has taken it, and from the write under a transaction on.
    txn = two.transaction(lease=LONGEST)
    two.write("a", entry("Job", k=4), lease=LONGEST, txn=txn)
    assert two.take("b", entry("Job", k=1), txn=txn) == {"k": 1}
    with two.transaction(lease=LONGEST) as committed:
        two.write("b", entry("Job", k=5), lease=LONGEST, txn=committed)
    assert two.event(SECONDS) and two.event(SECONDS)  # 26

    one.send("take", space="a", template=entry("Job", k=9), timeout=FOREVER)
    two.send("take", space="b", template=entry("Job", k=9), timeout=FOREVER)
    two.send("read", space="b", template=entry("Job", k=9), timeout=FOREVER)
    for client in (one, two):
        assert client.spaces() == ["a", "b"]  # 31, so those before it wait by now


def is_shown(server, status, wanted, least, began):
    """The numbers are these, and the time is that since the server began, after `began` and before `least`."""
    shown, before, after = fresh(status)
    uptime = shown.pop("uptime_ms")
    shown["usage"].pop("per_10_seconds")
    for connection in shown["connection_list"]:
        assert 0 <= connection.pop("open_ms") <= uptime, shown
    resident = int(Path(f"/proc/{server.pid}/statm").read_text().split()[1]) * 4096
    assert resident / 2 < shown["usage"].pop("memory_bytes") < resident * 2, resident
    assert shown == wanted, (shown, wanted)
    # The server's clock tells whole milliseconds.
    assert 1000 * (before - least) - 2 < uptime < 1000 * (after - began) + 2, uptime


def is_printed(program, status):
    """`jsp client --status` prints what is shown, and says so where nothing is."""
    done = asked_by_client(program, status)
    assert (done.returncode, done.stderr) == (0, b""), done
    printed = json.loads(done.stdout)
    assert done.stdout.count(b"\n") > len(printed), done
    assert {name: printed[name] for name in ("requests", "spaces")} == {name: ASKED[name] for name in ("requests", "spaces")}
    with socket.socket() as nobody:
        nobody.bind(("127.0.0.1", 0))
        done = asked_by_client(program, nobody.getsockname())
        assert done.returncode == 1 and done.stderr.startswith(b"jsp: cannot ask for a status: "), done
    with socket.create_server(("127.0.0.1", 0)) as listener:
        for said in (b"", b"HTTP/1.1 404 Not Found\r\n\r\n{}", b"HTTP/1.1 200 OK\r\n\r\n{", b'HTTP/1.1 200 OK\r\n\r\n"\x7f"'):
            answering = threading.Thread(target=says_once, args=(listener, said))
            answering.start()
            done = asked_by_client(program, listener.getsockname())
            answering.join()
            assert (done.returncode, done.stdout) == (1, b""), (said, done)
            assert done.stderr == b"jsp: what answered shows no status\n", (said, done)


def asked_by_client(program, status):
    host, port = status
    return subprocess.run([*program, "client", "--status", f"{host}:{port}"], capture_output=True, timeout=SECONDS)


def says_once(listener, said):
    """Answers one connection, once it has asked."""
    with listener.accept()[0] as stream:
        stream.recv(4096)
        stream.sendall(said)


def speaks_http(status):
    """The page, and what isn't shown."""
    code, headers, page = answer(status, "GET", "/")
    kept = {"connection": "close", "cache-control": "no-store", "content-type": "text/html; charset=utf-8"}
    assert (code, headers) == (200, {**kept, "content-length": str(len(page))}), (code, headers)
    rows = re.findall("<tr>(.*)</tr>", page.decode())
    refused = (("BadJson", 1, 1), ("UnknownLease", 12, 2))
    for cells in ("a3111", "b5220", *refused, ("connections so far", 3), ("most connections at once", 3)):
        assert "".join(f"<td>{cell}</td>" for cell in cells) in rows, rows
    stands_alone(page.decode())
    for path, kind in (
        ("/", kept["content-type"]),
        ("/status.json", "application/json"),
        ("/metrics", "text/plain; version=0.0.4; charset=utf-8"),
    ):
        code, headers, body = answer(status, "HEAD", path)
        assert int(headers.pop("content-length")) > 0
        assert (code, headers, body) == (200, {**kept, "content-type": kind}, b""), (code, headers, body)

    for path in ("/status", "/index.html", "/status.json/", "/metrics/"):
        code, headers, body = answer(status, "GET", path)
        assert (code, headers, body) == (404, {"connection": "close", "content-length": "0"}, b""), (code, headers)
    for method, path in (("POST", "/"), ("DELETE", "/status.json"), ("PUT", "/status")):
        code, headers, body = answer(status, method, path)
        assert (code, headers["allow"], body) == (405, "GET, HEAD", b""), (code, headers)

    # A frame of another client, the beginning of TLS, words, and a request without a host.
    asked = b'{"id":1,"op":"spaces"}'
    for garbage in (
        struct.pack(">I", len(asked)) + asked,
        b"\x16\x03\x01\x02\0\x01\0\x01\xfc\x03\x03",
        b"what is there?\r\n\r\n",
        b"GET / HTTP/1.1\r\n\r\n",
    ):
        said = received(status, garbage)
        assert said.startswith(b"HTTP/1.1 400 "), (garbage, said)


def stands_alone(page):
    """The page has no scripts and asks for nothing from elsewhere, and draws numbers in its drawings."""
    for markup in ("<script", "javascript:", "<link", "<img", "<iframe", "src=", "href=", "url(", "@import", "//"):
        assert markup not in page, markup
    assert not re.search(r"\son[a-z]+=", page)
    drawings = re.findall(r'<figcaption>(.*), at most ([0-9.]+)</figcaption>\n<svg [^<]*<polyline points="([0-9, ]*)"/>', page)
    rates = [f"{what} a second" for what in ("requests", "answers", "refusals")]
    assert [name for name, _, _ in drawings] == [*rates, "entries in a", "waiting in a", "entries in b", "waiting in b"]
    for name, _, points in drawings:
        for point in points.split():
            x, y = map(int, point.split(","))
            assert x <= 300 and y <= 60, (name, point)


def is_served(status):
    """A connection is answered, and not long after one that it waits for was given up."""
    began = time.monotonic()
    assert received(status, ASKS).startswith(b"HTTP/1.1 200 ")
    assert time.monotonic() - began < 3


def bears_bad_connections(status):
    """They close at once, without a request and with one, and stay open with none or a part of one. The next connection
    is answered all the same."""
    for _ in range(20):
        socket.create_connection(status, SECONDS).close()
    is_served(status)
    for _ in range(20):
        with socket.create_connection(status, SECONDS) as stream:
            stream.sendall(ASKS)
            # It is broken off, whatever is still to be read.
            stream.setsockopt(socket.SOL_SOCKET, socket.SO_LINGER, struct.pack("ii", 1, 0))
    is_served(status)
    for part in (b"", ASKS[:20]):
        began = time.monotonic()
        with socket.create_connection(status, SECONDS) as stream:
            stream.sendall(part)
            is_served(status)
            assert rest(stream) == b""
            assert 0.2 < time.monotonic() - began < 3  # a slow one has some time
    # Ten are open at once, and the last one asks first.
    streams = [socket.create_connection(status, SECONDS) for _ in range(10)]
    for stream in reversed(streams):
        stream.sendall(ASKS)
    for stream in streams:
        assert rest(stream).startswith(b"HTTP/1.1 200 ")
        stream.close()


def asks_slowly(status):
    """It sends its request a byte each fifth of a second, until it is closed."""
    with socket.create_connection(status, SECONDS) as stream:
        try:
            for byte in ASKS:
                stream.sendall(bytes((byte,)))
                time.sleep(0.2)
        except ConnectionError:
            pass


def deaf(status):
    """A connection that asks for more than fits into it, and reads nothing."""
    stream = socket.socket()
    stream.setsockopt(socket.SOL_SOCKET, socket.SO_RCVBUF, 2048)
    stream.settimeout(SECONDS)
    stream.connect(status)
    stream.sendall(ASKS * 50)
    return stream


def waits_for_nobody(status):
    """Sixty that say nothing, five that ask slowly, and sixty that read nothing: who asks beside them is answered."""

    def is_served_at_once(among):
        began = time.monotonic()
        assert received(status, ASKS).startswith(b"HTTP/1.1 200 "), among
        assert time.monotonic() - began < 1, (among, time.monotonic() - began)

    silent = [socket.create_connection(status, SECONDS) for _ in range(60)]
    is_served_at_once("silent")
    began = time.monotonic()
    for stream in silent:
        assert rest(stream) == b""
        stream.close()
    assert time.monotonic() - began < 2  # they were given up side by side
    slow = [threading.Thread(target=asks_slowly, args=(status,)) for _ in range(5)]
    for thread in slow:
        thread.start()
    time.sleep(0.1)
    for _ in range(3):
        is_served_at_once("slow")
    for thread in slow:
        thread.join()
    streams = [deaf(status) for _ in range(60)]
    is_served_at_once("deaf")
    for stream in streams:
        stream.close()


def shows_what_was_asked(program):
    began = time.monotonic()
    with serving(program) as (server, address, status):
        assert received(status, ASKS).startswith(b"HTTP/1.1 200 ")
        least = time.monotonic()
        is_shown(server, status, NOTHING, least, began)
        with Client(*address) as one, Client(*address) as two:
            asks(address, one, two)
            asked = {**ASKED, "connection_list": listed((one, 11, 1), (two, 18, 2))}
            is_shown(server, status, asked, least, began)
            is_printed(program, status)
            same_in_metrics(status)
            speaks_http(status)
            bears_bad_connections(status)
            waits_for_nobody(status)
            # None of these was a connection, a request or an answer of the server's.
            is_shown(server, status, asked, least, began)
            # The end waits for nobody who looks at the status.
            with socket.create_connection(status, SECONDS):
                ends(server, b"jsp: compared 3 lines\n")


def shows_eras(program):
    """Each request is a step at least, and an era has 16 at most. What is counted goes on over all of them."""
    with serving(program, "--era", "16") as (server, address, status):
        with Client(*address) as jsp:
            seals = 0
            for requests in (101, 201):
                for _ in range(100):
                    jsp.spaces()
                shown = fresh(status)[0]
                assert (shown["requests"], shown["answers"]) == (requests, requests), shown
                assert shown["seals"] >= max(requests // 16, seals + 1), shown
                seals = shown["seals"]
                assert shown["era"] == seals + 1, shown
        ends(server, b"jsp: not compared: an era was sealed\n")


def shows_rates(program):
    """300 requests in a moment, of which 100 are refused, are in the rates of the ten seconds behind them and in what is
    drawn, and not in the rates a quarter of a minute later."""
    with serving(program) as (server, address, status):
        with Client(*address) as jsp:
            jsp.declare("Job", k="int")
            for number in range(100):
                jsp.write("a", entry("Job", k=number), lease=LONGEST)
                jsp.spaces()
                is_refused(jsp, 12, "cancel", lease=2**40)
            rates = fresh(status)[0]["usage"]["per_10_seconds"]
            # It is 302 in at most 12.5 seconds, and in no less than the second that the status took.
            assert 241 <= rates["requests"] <= 3020 and rates["answers"] == rates["requests"], rates
            assert 79 <= rates["refusals"] <= 1000, rates
            time.sleep(16)
            shown = fresh(status)[0]
            assert shown["usage"]["per_10_seconds"] == {"requests": 0, "answers": 0, "refusals": 0}, shown
            page = answer(status, "GET", "/")[2].decode()
            assert "<td>requests a second</td><td>0.0</td>" in page
            drawn = dict(re.findall(r"<figcaption>(.*), at most ([0-9.]+)</figcaption>", page))
            # 302 in the 5 seconds between two samples, or in two such times.
            assert float(drawn["requests a second"]) >= 25 and drawn["entries in a"] == "100", drawn
            assert float(drawn["refusals a second"]) >= 8 and drawn["waiting in a"] == "0", drawn
        ends(server, b"jsp: compared 1 lines\n")


shows_what_was_asked(sys.argv[1:])
shows_eras(sys.argv[1:])
shows_rates(sys.argv[1:])
