"""Clients that behave badly, and one that behaves well beside them: it is answered all the same.

    python3 hostile.py CASE HOST:PORT

Each case is run against a server of its own, and prints nothing where all is as it should be. `hostile.py cases` lists
them, with what their servers are to be like.
"""
import contextlib
import json
import socket
import struct
import sys
import threading
import time
from pathlib import Path

sys.path.insert(0, str(Path(__file__).parent.parent / "clients"))
from jsp import LONGEST, Client, Refused, entry  # noqa: E402

SECONDS = 60


def frame(payload):
    return struct.pack(">I", len(payload)) + payload


def is_served(address):
    """Another client writes an entry and takes it."""
    with Client(*address) as jsp:
        jsp.socket.settimeout(SECONDS)
        jsp.declare("Job", k="int")
        jsp.write("a", entry("Job", k=1), lease=LONGEST)
        assert jsp.take("a", entry("Job", k=1)) == {"k": 1}


def received(stream, size):
    """So many bytes, or fewer where the stream ended."""
    got = b""
    while len(got) < size:
        piece = stream.recv(size - len(got))
        if not piece:
            break
        got += piece
    return got


def closes_in_a_frame(address):
    """It closes within the length, and within the payload."""
    for part in (b"\0\0", b"\0\0\0\x17{\"id\":9,"):
        with socket.create_connection(address) as stream:
            stream.sendall(part)
    is_served(address)


def sends_garbage(address):
    """A payload that is no JSON is a fault, and a length past the limit ends the line."""
    with socket.create_connection(address, SECONDS) as stream:
        stream.sendall(frame(b"\xff\xfe what") + b"GET / HTTP/1.1\r\n\r\n")
        assert received(stream, 1_000) == frame(b'{"fault":1,"id":null}') + frame(b'{"fault":21,"id":null}')
    is_served(address)


def pipelines(address):
    """Ten thousand requests are sent before the first answer is read."""
    asked = [f'{{"id":{n},"op":"spaces"}}'.encode() for n in range(10_000)]
    answers = b"".join(frame(f'{{"id":{n},"ok":["a","b"]}}'.encode()) for n in range(10_000))
    with socket.create_connection(address, SECONDS) as stream:
        sender = threading.Thread(target=stream.sendall, args=(b"".join(map(frame, asked)),))
        sender.start()
        assert received(stream, len(answers)) == answers
        sender.join()
    is_served(address)


def never_reads(address):
    """It asks for far more than the sockets hold, and reads nothing, while another is served."""
    asked = frame(b'{"id":1,"op":"spaces"}') * 1_000
    with socket.create_connection(address, timeout=1) as stream:
        sent = 0
        try:
            for _ in range(10_000):
                sent += stream.send(asked[sent % 26 :])
        except TimeoutError:
            pass
        assert sent > 100_000
        is_served(address)


def three_hundred_at_once(address):
    """More connections than are served at once: those above them are closed, and once one has ended another is served."""
    streams = [socket.create_connection(address, SECONDS) for _ in range(300)]
    answer = frame(b'{"id":1,"ok":["a","b"]}')
    are_served = []
    for stream in streams:
        try:
            stream.sendall(frame(b'{"id":1,"op":"spaces"}'))
            are_served.append(received(stream, len(answer)) == answer)
        except ConnectionError:
            are_served.append(False)
    assert are_served == [True] * 256 + [False] * 44
    for stream in streams:
        stream.close()
    time.sleep(1)
    is_served(address)


def more_than_the_descriptors(address):
    """Sixty connections where the server has forty descriptors, and another once they are closed."""
    streams = [socket.create_connection(address, SECONDS) for _ in range(60)]
    for stream in streams:
        stream.close()
    is_served(address)


def idles(address):
    """It sends nothing, or half a frame, or reads nothing: its connection is closed after a second."""
    for part in (b"", b"\0\0\0\x17{"):
        with socket.create_connection(address, SECONDS) as stream:
            stream.sendall(part)
            assert received(stream, 1) == b""
    asked = frame(b'{"id":1,"op":"spaces"}') * 1_000
    with socket.socket() as stream:
        stream.setsockopt(socket.SOL_SOCKET, socket.SO_RCVBUF, 4096)
        stream.settimeout(SECONDS)
        stream.connect(address)
        try:
            while True:
                stream.sendall(asked)
        except ConnectionError:
            pass
    is_served(address)


def dribbles(address):
    """It sends a byte now and then, and never a whole request: its connection is closed after a second all the same.
    One that makes a request now and then keeps its own."""
    with socket.create_connection(address, SECONDS) as stream, Client(*address) as jsp:
        began = time.monotonic()
        try:
            for byte in frame(b'{"id":1,"op":"spaces"}')[:-1]:
                stream.sendall(bytes([byte]))
                assert jsp.spaces() == ["a", "b"]
                time.sleep(0.2)
            assert received(stream, 1) == b""
        except ConnectionError:
            pass
        assert time.monotonic() - began < 4
    is_served(address)


def asks_now_and_then(address):
    """A request now and then keeps a connection for longer than it may make none. One that waits for an answer, or to be
    told, and asks nothing more, is closed meanwhile."""
    with Client(*address) as jsp, Client(*address) as waiting, Client(*address) as told:
        for client in (jsp, waiting, told):
            client.socket.settimeout(SECONDS)
        jsp.declare("Job", k="int")
        told.notify("a", entry("Job"), lease=LONGEST)
        began = time.monotonic()
        waiting.send("take", space="b", template=None, timeout=10**9)
        for _ in range(10):
            jsp.write("a", entry("Job", k=1), lease=LONGEST)
            time.sleep(0.3)
        assert waiting.socket.recv(1) == b""
        assert 0 < heard(told) < 10
        assert time.monotonic() - began < 10
        assert jsp.spaces() == ["a", "b"]


def sends_what_is_refused(address):
    """Three thousand requests of a megabyte, which are refused: the server keeps no more of them than an era holds."""
    large = entry("Job", who="x" * 1_000_000)
    asked = frame(json.dumps({"id": 1, "op": "write", "space": "no such space", "entry": large, "lease": 1}).encode())
    with Client(*address) as jsp:
        jsp.socket.settimeout(SECONDS)
        for _ in range(3_000):
            jsp.socket.sendall(asked)
            try:
                jsp.wait(1)
                raise AssertionError("a request was not refused")
            except Refused:
                pass
    is_served(address)


def declares_what_a_frame_holds(address):
    """Classes of 60,000 fields are refused at once, though no two of the fields are alike."""
    fields = {f"{number:x}": "int" for number in range(60_000)}
    with Client(*address) as jsp:
        jsp.socket.settimeout(SECONDS)
        for _ in range(30):
            try:
                jsp.declare("Job", **fields)
                raise AssertionError("a class was not refused")
            except Refused as refused:
                assert refused.number == 6
    is_served(address)


def silent_listeners(address, count, writes):
    """So many clients are told 1,024 times of each of so many writes and read nothing: their lines end, and who writes is
    served all the while."""
    with contextlib.ExitStack() as clients:
        other, *listeners = [clients.enter_context(Client(*address)) for _ in range(count + 1)]
        for client in (other, *listeners):
            client.socket.settimeout(SECONDS)
        other.declare("Job", k="int")
        for listener in listeners:
            for _ in range(16):
                listener.notify("a", entry("Job"), lease=LONGEST)
        entries = [entry("Job", k=1)] * 64
        for _ in range(writes):
            other.call("write_all", space="a", entries=entries, lease=1)
        for listener in listeners:
            assert 0 < heard(listener) < 16 * 64 * writes
    is_served(address)


def heard(listener):
    """How many events the client can read until its connection ends."""
    told = 0
    try:
        while listener.event(SECONDS):
            told += 1
    except ConnectionError:
        pass
    return told


def never_reads_its_events(address):
    silent_listeners(address, 1, 1_000)


def three_never_read_their_events(address):
    """The same acts bring too many answers for each of them."""
    silent_listeners(address, 3, 600)


def is_granted_large_entries(address):
    """It waits for an entry of 8,000 bytes, 64 times, and one write brings it all of them: more than may wait for it. Its
    connection ends, whatever was written by then, which may be all 64."""
    with Client(*address) as reader, Client(*address) as writer:
        for client in (reader, writer):
            client.socket.settimeout(SECONDS)
        writer.declare("Large", text="text")
        keys = {"space": "a", "template": entry("Large"), "timeout": 10**9, "txn": None}
        reads = [reader.send("read", **keys) for _ in range(64)]
        reader.spaces()
        writer.write("a", entry("Large", text="x" * 8_000), lease=LONGEST)
        try:
            for read in reads:
                reader.wait(read)
            reader.spaces()
        except ConnectionError:
            pass
        else:
            raise AssertionError("its connection goes on")
    is_served(address)


CASES = {
    # How many connections there are, how many descriptors and kilobytes of memory the server is to have at most, and its
    # options.
    closes_in_a_frame: (3, 1024, "unlimited", ""),
    sends_garbage: (2, 1024, "unlimited", ""),
    pipelines: (2, 1024, "unlimited", ""),
    never_reads: (2, 1024, "unlimited", ""),
    never_reads_its_events: (3, 1024, "unlimited", "--backlog 5000"),
    three_never_read_their_events: (5, 1024, "unlimited", "--backlog 5000"),
    is_granted_large_entries: (3, 1024, "unlimited", "--backlog-bytes 300000"),
    three_hundred_at_once: (301, 1024, "unlimited", ""),
    more_than_the_descriptors: (61, 40, "unlimited", ""),
    idles: (4, 1024, "unlimited", "--idle 1"),
    dribbles: (3, 1024, "unlimited", "--idle 1"),
    asks_now_and_then: (3, 1024, "unlimited", "--idle 1"),
    declares_what_a_frame_holds: (2, 1024, "unlimited", ""),
    sends_what_is_refused: (2, 1024, 500_000, "--era-bytes 16777216"),
}

if __name__ == "__main__":
    if sys.argv[1] == "cases":
        for case, words in CASES.items():
            print(case.__name__, *words)
    else:
        host, port = sys.argv[2].rsplit(":", 1)
        globals()[sys.argv[1]]((host, int(port)))
