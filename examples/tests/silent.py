"""A server all of whose places are taken, and a client that wants one: who has been silent for a minute and waits for
nothing gives its place up, and nobody else.

    python3 silent.py PROGRAM..

It prints nothing where all is as it should be, and takes a minute.
"""
import subprocess
import sys
import time
from pathlib import Path

sys.path.insert(0, str(Path(__file__).parent.parent / "clients"))
from jsp import Client, entry  # noqa: E402

PLACES = 5
SILENCE = 61


def is_ended(client):
    """Whether the server ended its connection."""
    client.socket.settimeout(10)
    return client.socket.recv(1) == b""


def is_served(address):
    """Whether the server takes one client more and answers it."""
    try:
        with Client(*address) as jsp:
            return jsp.spaces() == ["a", "b"]
    except (ConnectionError, EOFError):
        return False


def main(program):
    server = subprocess.Popen(
        [*program, "listen", "--log", "off", "--until-input", "--connections", str(PLACES), "127.0.0.1:0", "a", "b"],
        stdin=subprocess.PIPE,
        stdout=subprocess.PIPE,
        stderr=subprocess.PIPE,
    )
    host, port = server.stdout.readline().decode().split()[1].rsplit(":", 1)
    address = host, int(port)
    first, second, takes, listens, talks = [Client(*address) for _ in range(PLACES)]
    # Silence is counted in milliseconds, so the two begin theirs apart.
    first.declare("Job", k="int")
    time.sleep(1)
    second.declare("Job", k="int")
    waits = takes.send("take", space="a", template=entry("Job", k=1), timeout=10**9, txn=None)
    listens.notify("b", entry("Job"), lease=10**9)
    assert talks.spaces() == ["a", "b"]

    # While nobody has been silent for long, nobody gives way.
    assert not is_served(address)
    began = time.monotonic()
    while time.monotonic() - began < SILENCE:
        time.sleep(5)
        assert talks.spaces() == ["a", "b"]
    # A beginning of a request is none.
    second.socket.sendall(b"\0\0")

    # Two may go, the longest silent one first, and then nobody.
    new = Client(*address)
    assert new.spaces() == ["a", "b"]
    assert is_ended(first)
    newer = Client(*address)
    assert newer.spaces() == ["a", "b"]
    assert is_ended(second)
    assert not is_served(address)

    # Who waited is answered and told.
    new.write("a", entry("Job", k=1), lease=10**9)
    newer.write("b", entry("Job", k=2), lease=10**9)
    assert takes.wait(waits) == entry("Job", k=1)
    assert listens.event().seq == 1
    told = server.communicate(b"\n", timeout=60)[1]
    assert server.returncode == 0 and told.startswith(b"jsp: "), (server.returncode, told)


main(sys.argv[1:])
