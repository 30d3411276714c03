"""What a server says on standard error of what happens to its connections.

    python3 log.py PROGRAM..

PROGRAM.. is the command. It prints nothing where all is as it should be.
"""
import fcntl
import json
import os
import re
import socket
import subprocess
import sys
import tempfile
import threading
import time
from pathlib import Path

TESTS = Path(__file__).parent
sys.path.insert(0, str(TESTS.parent / "clients"))
from jsp import FOREVER, Client, entry  # noqa: E402

SECONDS = 60
PLACES = 2
TOO_LONG = bytes([255] * 4)
# The least size of a pipe, which some forty lines fill, and how many clients come and go while nobody reads it.
PIPE, UNREAD = 4096, 300
# How many clients come and go at once, which is more than a log tells of in a second or two.
MANY = 1_500
LINE = re.compile(r"(\d{4}-\d\d-\d\dT\d\d:\d\d:\d\d(?:\.\d{1,3})?Z) (.*)")
WORDS = {
    "bye": "its client said bye",
    "closed": "its client closed it",
    "too_long": "a frame was longer than the limit",
    "full": "no more are served at once",
    "idle": "it was idle for too long",
    "ending": "the server ends",
}


class Server:
    """A server with these options, which is ended in order, and then has said these lines."""

    def __init__(self, program, *options):
        # Of a pipe that nobody reads meanwhile lines would be left out once it is full.
        self.told = tempfile.TemporaryFile("w+")
        self.process = subprocess.Popen(
            [*program, "listen", "--until-input", *options, "127.0.0.1:0", "a"],
            stdin=subprocess.PIPE,
            stdout=subprocess.PIPE,
            stderr=self.told,
            text=True,
        )
        host, port = self.process.stdout.readline().split()[1].rsplit(":", 1)
        self.address = host, int(port)

    def end(self):
        """What it has said by its end, beside what it compared."""
        self.process.communicate("\n", SECONDS)
        with self.told:
            self.told.seek(0)
            told = self.told.read()
        assert self.process.returncode == 0, told
        return [line for line in told.splitlines() if not line.startswith("jsp: ")]


def address_of(client):
    host, port = client.getsockname()
    return f"{host}:{port}"


def wait_for_end(client):
    """Its connection has ended, and its place is free, which is so a moment later."""
    client.settimeout(SECONDS)
    while client.recv(4096):
        pass
    time.sleep(0.1)


def connections(server):
    """Connections that end in every way that a client can bring about: what is to be said of each."""
    said = []

    def told(what, connection, client, requests=None, why=None):
        said.append((what, connection, address_of(client), requests, why))

    first = Client(*server.address)
    told("opened", 1, first.socket)
    told("ended", 1, first.socket, 2, "bye")
    first.call("bye")
    wait_for_end(first.socket)
    second = Client(*server.address)
    told("opened", 2, second.socket)
    told("ended", 2, second.socket, 1, "closed")
    second.socket.shutdown(socket.SHUT_WR)
    wait_for_end(second.socket)
    third = Client(*server.address)
    told("opened", 3, third.socket)
    told("ended", 3, third.socket, 2, "too_long")
    third.socket.sendall(TOO_LONG)
    wait_for_end(third.socket)
    fourth, fifth = Client(*server.address), Client(*server.address)
    told("opened", 4, fourth.socket)
    told("opened", 5, fifth.socket)
    with socket.create_connection(server.address) as refused:
        told("refused", None, refused, why="full")
        wait_for_end(refused)
    told("ended", 4, fourth.socket, 1, "idle")
    told("ended", 5, fifth.socket, 1, "idle")
    wait_for_end(fourth.socket)
    wait_for_end(fifth.socket)
    sixth = Client(*server.address)
    told("opened", 6, sixth.socket)
    told("ended", 6, sixth.socket, 1, "ending")
    return said, sixth


def words_of(what, connection, address, requests, why):
    if what == "opened":
        return f"connection {connection} from {address} opened"
    if what == "refused":
        return f"connection from {address} refused: {WORDS[why]}"
    return f"connection {connection} from {address} ended after {requests} requests: {WORDS[why]}"


def fields_of(what, connection, address, requests, why):
    fields = {"level": "warn" if why == "full" else "info", "what": what, "connection": connection, "address": address}
    fields |= {"requests": requests, "why": why}
    return {name: value for name, value in fields.items() if value is not None}


def as_text(program):
    """Each line has its time, and they come in order."""
    server = Server(program, "--connections", str(PLACES), "--idle", "1")
    said, last = connections(server)
    lines = [LINE.fullmatch(line) for line in server.end()]
    assert all(lines), lines
    times = [line[1] for line in lines]
    assert times[0][:4] >= "2024" and [time[:19] for time in times] == sorted(time[:19] for time in times), times
    assert sorted(line[2] for line in lines) == sorted(words_of(*one) for one in said), lines
    last.close()


def as_json(program):
    """The same for programs: an object a line."""
    server = Server(program, "--log", "json", "--connections", str(PLACES), "--idle", "1")
    said, last = connections(server)
    lines = [json.loads(line) for line in server.end()]
    assert all(LINE.fullmatch(f"{line.pop('time')} x") for line in lines), lines
    wanted = [fields_of(*one) for one in said]
    assert sorted(lines, key=str) == sorted(wanted, key=str), (lines, wanted)
    last.close()


def quiet(program):
    """Only what is wrong is told, or nothing at all."""
    for options, count in ((["--quiet"], 1), (["--log", "off"], 0)):
        server = Server(program, *options, "--connections", "1")
        with Client(*server.address), socket.create_connection(server.address) as refused:
            wait_for_end(refused)
        lines = server.end()
        assert len(lines) == count and all(line.endswith(WORDS["full"]) for line in lines), lines


def sealed(program):
    """That an era was sealed is told once."""
    server = Server(program, "--era", "1")
    with Client(*server.address) as jsp:
        jsp.declare("Job", k="int")
        for value in range(20):
            jsp.write("a", entry("Job", k=value), lease=FOREVER)
        time.sleep(0.1)
    lines = server.end()
    assert sum(line.endswith(" an era was sealed: the history isn't compared at the end") for line in lines) == 1, lines


def many(program):
    """Of very many lines at once some are left out, and counted."""
    server = Server(program)
    for _ in range(MANY):
        Client(*server.address).close()
    time.sleep(1.1)
    Client(*server.address).close()
    time.sleep(0.1)
    lines = server.end()
    left_out = [int(found[1]) for line in lines if (found := re.search(r" (\d+) lines were left out$", line))]
    assert left_out, len(lines)
    assert len(lines) - len(left_out) + sum(left_out) == 2 * (MANY + 1), (len(lines), left_out)


def unread(program):
    """While nobody reads what is said clients are served, and somebody who reads it later is told how much was left out."""
    reading, writing = os.pipe()
    fcntl.fcntl(writing, fcntl.F_SETPIPE_SZ, PIPE)
    process = subprocess.Popen(
        [*program, "listen", "--until-input", "--log", "json", "127.0.0.1:0", "a"],
        stdin=subprocess.PIPE,
        stdout=subprocess.PIPE,
        stderr=writing,
        text=True,
    )
    os.close(writing)
    host, port = process.stdout.readline().split()[1].rsplit(":", 1)
    for _ in range(UNREAD):
        with Client(host, int(port), SECONDS) as jsp:
            assert jsp.spaces() == ["a"]
    told = []
    reader = threading.Thread(target=lambda: told.extend(os.fdopen(reading)))
    reader.start()
    time.sleep(1.1)
    Client(host, int(port)).close()
    process.communicate("\n", SECONDS)
    reader.join()
    assert process.returncode == 0 and told[-1].startswith("jsp: "), told[-1]
    lines = [json.loads(line) for line in told if not line.startswith("jsp: ")]
    left_out = [line["count"] for line in lines if line["what"] == "left_out"]
    assert len(lines) - len(left_out) + sum(left_out) == 2 * (UNREAD + 1), (len(lines), left_out)


if __name__ == "__main__":
    for case in as_text, as_json, quiet, sealed, many, unread:
        case(sys.argv[1:])
