"""Clients that are told what others cause, or the clock alone.

    python3 told.py CASE HOST:PORT

Each case is run against a server of its own, and prints nothing where all is as it should be. `told.py cases` lists them,
with how many connections each opens.
"""
import json
import socket
import statistics
import struct
import sys
import time
from contextlib import ExitStack
from pathlib import Path

sys.path.insert(0, str(Path(__file__).parent.parent / "clients"))
from jsp import LONGEST, Client, entry  # noqa: E402

SECONDS = 60


def connect(address):
    client = Client(*address)
    client.socket.settimeout(SECONDS)
    return client


def write_all(client, keys):
    for at in range(0, len(keys), 64):
        client.call("write_all", space="a", entries=[entry("Job", k=key) for key in keys[at : at + 64]], lease=10**9)


def a_wait_ends_by_the_clock_alone(address):
    """Its time ends while nobody acts."""
    with connect(address) as jsp:
        jsp.declare("Job", k="int")
        began = time.monotonic()
        assert jsp.take("a", entry("Job", k=1), timeout=300) is None
        # The server's clock tells whole milliseconds.
        assert time.monotonic() - began > 0.298


def each_line_is_woken(address):
    """Forty takes wait, each on a line of its own, and one request answers them all."""
    with ExitStack() as stack:
        clients = [stack.enter_context(connect(address)) for _ in range(40)]
        clients[0].declare("Job", k="int")
        waits = []
        for key, client in enumerate(clients):
            waits.append(client.send("take", space="a", template=entry("Job", k=key), timeout=10**9, txn=None))
            assert client.call("spaces") == ["a", "b"]
        with connect(address) as other:
            write_all(other, range(39, -1, -1))
        for key, client in enumerate(clients):
            assert client.wait(waits[key]) == entry("Job", k=key)


def whom_an_act_answers_is_woken_by_it(address):
    """Whoever wasn't woken would be answered when the server next reads its clock, up to ten milliseconds later."""
    times = []
    with connect(address) as jsp, connect(address) as other:
        jsp.declare("Job", k="int")
        jsp.notify("a", entry("Job"), lease=LONGEST)
        for key in range(200):
            waits = jsp.send("take", space="a", template=entry("Job", k=key), timeout=10**9, txn=None)
            assert jsp.spaces() == ["a", "b"]
            began = time.monotonic()
            other.write("a", entry("Job", k=key), lease=LONGEST)
            assert jsp.wait(waits) == entry("Job", k=key)
            assert jsp.event().seq == key + 1
            times.append(time.monotonic() - began)
    assert statistics.median(times) < 0.003, times


def events_go_out_before_the_end(address):
    """A session closes itself while far more is waiting for it than is handed out at once."""
    keys = [entry("Job", k=key) for key in range(64)]
    asked = [
        {"op": "hello", "version": 2},
        {"op": "declare", "class": "Job", "parent": None, "fields": {"k": "int"}},
        {"op": "notify", "space": "a", "template": entry("Job"), "lease": 10**9, "handback": ""},
        *[{"op": "write_all", "space": "a", "entries": keys, "lease": 10**9}] * 4,
        {"op": "bye"},
    ]
    payloads = [json.dumps({"id": number, **request}).encode() for number, request in enumerate(asked)]
    with socket.create_connection(address, SECONDS) as stream:
        stream.sendall(b"".join(struct.pack(">I", len(payload)) + payload for payload in payloads))
        said = []
        with stream.makefile("rb") as frames:
            while length := frames.read(4):
                said.append(json.loads(frames.read(*struct.unpack(">I", length))))
    assert [one["id"] for one in said if "id" in one] == list(range(len(asked)))
    assert [one["event"]["seq"] for one in said if "event" in one] == list(range(1, 257))


def one_who_reads_late(address):
    """Ten thousand events are told to a client that reads none until the last is written."""
    with connect(address) as late, connect(address) as other:
        other.declare("Job", k="int")
        late.notify("a", entry("Job"), lease=LONGEST)
        write_all(other, range(10_000))
        for number in range(1, 10_001):
            assert late.event(SECONDS).seq == number


def one_who_never_reads_delays_nobody(address):
    """The first is told more than its connection holds, and reads none of it. Another, who came after it, is told all the
    while."""
    with connect(address) as late, connect(address) as told, connect(address) as writer:
        writer.declare("Job", k="int")
        late.notify("a", entry("Job"), lease=LONGEST, handback="h" * 256)
        told.notify("a", entry("Job"), lease=LONGEST)
        for first in range(0, 12_800, 64):
            write_all(writer, range(first, first + 64))
            for number in range(first + 1, first + 65):
                assert told.event(SECONDS).seq == number


def others_go_between(address):
    """One write answers 6,400 reads, and a commit is told 64,000 times. Whoever asks for something of another space waits for
    a small part of that at once."""
    with ExitStack() as stack:
        clients = [stack.enter_context(connect(address)) for _ in range(100)]
        writer, other = stack.enter_context(connect(address)), stack.enter_context(connect(address))
        writer.declare("Job", k="int")
        other.write("b", entry("Job", k=0), lease=LONGEST)

        def longest_part(client, request):
            """How much of the time until a client's request is answered the other one waited at the longest."""
            client.socket.settimeout(0.001)
            began, waits = time.monotonic(), []
            while True:
                asked = time.monotonic()
                assert other.read("b", entry("Job", k=0)) is not None
                waits.append(time.monotonic() - asked)
                try:
                    client.wait(request)
                except TimeoutError:
                    continue
                client.socket.settimeout(SECONDS)
                return max(waits) / (time.monotonic() - began)

        parts = []
        for key in range(3):
            keys = {"space": "a", "template": entry("Job", k=key), "timeout": 10**9, "txn": None}
            for client in clients:
                reads = [client.send("read", **keys) for _ in range(64)]
                client.spaces()
            writer.write("a", entry("Job", k=key), lease=LONGEST)
            parts.append(longest_part(clients[-1], reads[-1]))
        assert min(parts) < 0.25, parts

        for client in clients:
            for _ in range(10):
                client.notify("a", entry("Job"), lease=LONGEST)
        parts = []
        for _ in range(3):
            with writer.transaction(lease=LONGEST) as txn:
                writer.write_all("a", [entry("Job", k=key) for key in range(64)], lease=LONGEST, txn=txn)
            parts.append(longest_part(writer, writer.send("reset", space="a")))
        assert min(parts) < 0.25, parts


CASES = {
    a_wait_ends_by_the_clock_alone: 1,
    each_line_is_woken: 41,
    whom_an_act_answers_is_woken_by_it: 2,
    events_go_out_before_the_end: 1,
    one_who_reads_late: 2,
    one_who_never_reads_delays_nobody: 3,
    others_go_between: 102,
}

if __name__ == "__main__":
    if sys.argv[1] == "cases":
        for case, connections in CASES.items():
            print(case.__name__, connections)
    else:
        host, port = sys.argv[2].rsplit(":", 1)
        globals()[sys.argv[1]]((host, int(port)))
