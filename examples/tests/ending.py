"""A server that is ended in order while requests of its clients are under way, or where it has few descriptors, and one
that is halted and goes on.

    python3 ending.py PROGRAM..

Each request is sent and the server asked to end at once, so that it may come before the end or after it. It prints nothing
where the server says each time that it compared its lines, and ends with status 0.
"""
import os
import resource
import signal
import socket
import subprocess
import sys
import time
from pathlib import Path

sys.path.insert(0, str(Path(__file__).parent.parent / "clients"))
from jsp import Client, entry  # noqa: E402

ROUNDS = 20
REQUESTS = {
    "spaces": {},
    "write": {"space": "a", "entry": entry("Job", k=1), "lease": 1_000},
    "take": {"space": "a", "template": None, "timeout": 10**9},
    "commit": {"txn": 1},
}


def listen(program, *options, descriptors=1024):
    """A server that ends at a line of input, and its address."""
    server = subprocess.Popen(
        [*program, "listen", "--log", "off", "--until-input", *options, "127.0.0.1:0", "a", "b"],
        stdin=subprocess.PIPE,
        stdout=subprocess.PIPE,
        stderr=subprocess.PIPE,
        preexec_fn=lambda: resource.setrlimit(resource.RLIMIT_NOFILE, (descriptors, descriptors)),
    )
    host, port = server.stdout.readline().decode().split()[1].rsplit(":", 1)
    return server, host, int(port)


def end_at(program, op, keys):
    """Ends a server at a request, and gives its status and what it says."""
    server, host, port = listen(program)
    with Client(host, port) as jsp:
        jsp.declare("Job", k="int")
        jsp.call("txn", lease=60_000)
        jsp.send(op, **keys)
        told = server.communicate(b"\n", timeout=60)[1]
    return server.returncode, told


def halt(program):
    """Halts a server for a moment while a connection of it is read, with a bound on its time: the connection lives on."""
    server, host, port = listen(program, "--idle", "60")
    with Client(host, port) as jsp:
        for _ in range(3):
            jsp.declare("Job", k="int")
            time.sleep(0.1)
            server.send_signal(signal.SIGSTOP)
            os.waitid(os.P_PID, server.pid, os.WSTOPPED)
            server.send_signal(signal.SIGCONT)
            time.sleep(0.1)
        told = server.communicate(b"\n", timeout=60)[1]
    assert (server.returncode, told) == (0, b"jsp: compared 1 lines\n"), (server.returncode, told)


def halt_for_longer(program):
    """Halts a server for longer than its connections may make no request: who asked meanwhile is answered and told, and
    who asked nothing, or not all of a request, is closed at once."""
    server, host, port = listen(program, "--idle", "2")
    with Client(host, port) as jsp, Client(host, port) as told, Client(host, port) as silent, Client(host, port) as slow:
        jsp.declare("Job", k="int", who="text")
        told.notify("a", entry("Job"), lease=60_000)
        for client in silent, slow:
            client.spaces()
        server.send_signal(signal.SIGSTOP)
        os.waitid(os.P_PID, server.pid, os.WSTOPPED)
        slow.socket.sendall(b"\0\0\0\x17{")
        asked = jsp.send("write_all", space="a", entries=[entry("Job", who="x" * 8_000)] * 3, lease=60_000)
        named = told.send("spaces")
        time.sleep(3)
        server.send_signal(signal.SIGCONT)
        began = time.monotonic()
        for client in silent, slow:
            client.socket.settimeout(20)
            assert client.socket.recv(1) == b""
        assert time.monotonic() - began < 1.5
        jsp.wait(asked)
        assert told.wait(named) == ["a", "b"]
        for _ in range(3):
            assert told.event(20)
        ended = server.communicate(b"\n", timeout=60)[1]
    assert (server.returncode, ended) == (0, b"jsp: compared 4 lines\n"), (server.returncode, ended)


def end_with_few_descriptors(program, descriptors):
    """The connection that wakes a server at its end needs a descriptor, which it keeps from its start on."""
    server, host, port = listen(program, descriptors=descriptors)
    with socket.create_connection((host, port)):
        time.sleep(0.2)
        told = server.communicate(b"\n", timeout=60)[1]
    assert server.returncode == 0 and told.startswith(b"jsp: compared "), (descriptors, server.returncode, told)


def end_beside_who_reads_nothing(program):
    """A client has more answers unread than its connection holds, and another has more events unread: the server ends
    after two seconds all the same. A third hears what it asked for, and the server says who didn't."""
    server, host, port = listen(program, "--backlog", "100000")
    with Client(host, port) as deaf, Client(host, port) as told_nothing, Client(host, port) as jsp:
        for client in deaf, told_nothing:
            client.socket.setsockopt(socket.SOL_SOCKET, socket.SO_RCVBUF, 65_536)
        for client in deaf, told_nothing, jsp:
            client.declare("Job", who="text")
        told_nothing.notify("a", entry("Job"), lease=3_600_000, handback="x" * 200)
        jsp.write("a", entry("Job", who="x" * 8_000), lease=3_600_000)
        for _ in range(5_000):
            deaf.send("read", space="a", template=None, timeout=0)
        # Once this one stands there, all that was asked before it is answered.
        deaf.send("write", space="b", entry=entry("Job", who="last"), lease=3_600_000)
        jsp.read("b", entry("Job", who="last"), timeout=60_000)
        for _ in range(600):
            jsp.write_all("a", [entry("Job", who="y")] * 32, lease=1_000)
        began = time.monotonic()
        told = server.communicate(b"\n", timeout=60)[1]
        took = time.monotonic() - began
    assert server.returncode == 0 and took < 10, (server.returncode, took)
    assert told == b"jsp: compared 3 lines\njsp: cut short: session 1, 2\n", told


def end_once_no_more_come(program):
    """A server that takes no more connections ends at a line too, and so does that of a client that goes on."""
    server, host, port = listen(program, "--lines", "1")
    with Client(host, port) as jsp:
        jsp.declare("Job", k="int")
        told = server.communicate(b"\n", timeout=20)[1]
    assert (server.returncode, told) == (0, b"jsp: compared 1 lines\n"), (server.returncode, told)


halt(sys.argv[1:])
halt_for_longer(sys.argv[1:])
end_once_no_more_come(sys.argv[1:])
end_beside_who_reads_nothing(sys.argv[1:])
for descriptors in range(6, 11):
    end_with_few_descriptors(sys.argv[1:], descriptors)
for op, keys in REQUESTS.items():
    for _ in range(ROUNDS):
        ended = end_at(sys.argv[1:], op, keys)
        assert ended == (0, b"jsp: compared 1 lines\n"), (op, ended)
