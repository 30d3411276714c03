"""What a server lets go once an era of its history was sealed: what lines at rest keep of their bytes, and
the room of the steps.

    python3 memory.py PROGRAM..

It prints nothing where all is as it should be. Memory is that of the server's process which is resident,
as the system tells it.
"""
import json
import socket
import struct
import subprocess
import sys
import time
import urllib.request
from contextlib import contextmanager
from pathlib import Path

sys.path.insert(0, str(Path(__file__).parent.parent / "clients"))
from jsp import LONGEST, Client, entry  # noqa: E402

SECONDS = 60
MB = 1_000_000
LINES = 40
ROUNDS = 100
LONG = 8_000


def frame(payload):
    return struct.pack(">I", len(payload)) + payload


class Server:
    """A server that shows its status."""

    def __init__(self, process):
        self.process = process
        self.address = self.next_address("listening")
        self.status = self.next_address("status")

    def next_address(self, word):
        first, address = self.process.stdout.readline().decode().split()
        assert first == word, first
        host, port = address.rsplit(":", 1)
        return host, int(port)

    def resident(self):
        """How many bytes of it are in memory."""
        lines = Path(f"/proc/{self.process.pid}/status").read_text().splitlines()
        return next(1024 * int(line.split()[1]) for line in lines if line.startswith("VmRSS"))

    def falls_below(self, bound):
        """Whether it has less than so many bytes soon, and how many it has."""
        end = time.monotonic() + 10
        while self.resident() >= bound and time.monotonic() < end:
            time.sleep(0.05)
        return self.resident() < bound, self.resident()

    def seals(self):
        """How many eras were sealed. What is shown may be a second old."""
        time.sleep(1.1)
        with urllib.request.urlopen("http://%s:%d/status.json" % self.status, timeout=SECONDS) as shown:
            return json.load(shown)["seals"]


@contextmanager
def serving(program, *options):
    process = subprocess.Popen(
        [*program, "listen", "--log", "off", "--status", "127.0.0.1:0", *options, "127.0.0.1:0", "a"],
        stdout=subprocess.PIPE,
    )
    try:
        yield Server(process)
    finally:
        process.kill()
        process.wait()


def exchange(stream, payload, answer, times):
    """Sends a payload so often, and receives as many answers."""
    with stream.makefile("rb") as said:
        for done in range(0, times, 50):
            count = min(50, times - done)
            stream.sendall(frame(payload) * count)
            for _ in range(count):
                length = struct.unpack(">I", said.read(4))[0]
                assert said.read(length) == answer


def makes_steps(address, requests):
    """So many requests, each of which makes a step or more."""
    with socket.create_connection(address, SECONDS) as stream:
        exchange(stream, b'{"id":1,"op":"spaces"}', b'{"id":1,"ok":["a"]}', requests)


def long_line(address, text):
    """A line that has asked and was answered much, and rests."""
    stream = socket.create_connection(address, SECONDS)
    exchange(stream, b"x" * LONG, b'{"fault":1,"id":null}', ROUNDS)
    reads = b'{"id":1,"op":"read","space":"a","template":null,"timeout":0}'
    answer = '{"id":1,"ok":{"class":"Job","fields":{"who":"%s"}}}' % text
    exchange(stream, reads, answer.encode(), ROUNDS)
    return stream


def lets_go_of_bytes(program):
    """Lines at rest keep what they read and wrote until an era is sealed, and nothing of it then."""
    with serving(program, "--era", "40000") as server:
        with Client(*server.address) as jsp:
            jsp.declare("Job", who="text")
            text = "y" * LONG
            jsp.write("a", entry("Job", who=text), lease=LONGEST)
        lines = [long_line(server.address, text) for _ in range(LINES)]
        assert server.seals() == 0
        before = server.resident()
        kept = 2 * LINES * ROUNDS * LONG
        assert before > kept, before
        makes_steps(server.address, 80_000)
        assert server.seals() >= 2
        has_fallen, after = server.falls_below(before - 3 * kept // 4)
        assert has_fallen, (before, after, kept)
        for stream in lines:
            exchange(stream, b'{"id":1,"op":"spaces"}', b'{"id":1,"ok":["a"]}', 1)
            stream.close()


def lets_go_of_room(program):
    """The room of an era's steps goes with them, once the next one has begun."""
    with serving(program) as server:
        most = 0
        while server.seals() == 0:
            most = max(most, server.resident())
            makes_steps(server.address, 10_000)
        makes_steps(server.address, 10_000)
        has_fallen, after = server.falls_below(most - 5 * MB)
        assert has_fallen, (most, after)


lets_go_of_bytes(sys.argv[1:])
lets_go_of_room(sys.argv[1:])
