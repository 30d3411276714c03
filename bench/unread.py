"""What a request costs while others don't read what they are told.

    python3 unread.py PROGRAM [COUNT ..]

For each count (0, 50 and 200 if none is told) a server is started anew, and so many clients register for events, of which
they read none. They are told more than their connections hold, so each has some waiting in the server. Then another
client asks for the names of the spaces again and again. Printed is the server's processor time for one such request, in
microseconds.
"""
import json
import os
import socket
import struct
import subprocess
import sys
import time
from pathlib import Path

sys.path.insert(0, str(Path(__file__).parent.parent / "examples" / "clients"))
from jsp import FOREVER, Client, entry  # noqa: E402

ASKED = 20_000
# How many bytes a client's side of its connection holds, and how many entries are written: an event has some 400 bytes.
ROOM, WRITTEN, BATCH = 4_096, 10_000, 64
HANDBACK = "h" * 256
TICK = os.sysconf("SC_CLK_TCK")


def listen(address):
    """A connection whose client is told of each entry, and reads no more than that it is."""
    listener = socket.socket()
    listener.setsockopt(socket.SOL_SOCKET, socket.SO_RCVBUF, ROOM)
    listener.connect(address)
    template = {"class": "Job", "fields": {}}
    asked = {"id": 0, "op": "notify", "space": "a", "template": template, "lease": FOREVER, "handback": HANDBACK}
    payload = json.dumps(asked).encode()
    listener.sendall(struct.pack(">I", len(payload)) + payload)
    assert b'"id":0' in listener.recv(ROOM)
    return listener


def seconds(process):
    """The processor time that a process has taken."""
    fields = Path(f"/proc/{process.pid}/stat").read_text().rsplit(") ", 1)[1].split()
    return (int(fields[11]) + int(fields[12])) / TICK


def rest(process):
    """Waits until the process does next to nothing."""
    before, now = -1.0, seconds(process)
    while now - before > 2 / TICK:
        time.sleep(0.5)
        before, now = now, seconds(process)


def measure(server, count):
    host, port = server.stdout.readline().split()[1].decode().rsplit(":", 1)
    address = host, int(port)
    with Client(*address) as jsp:
        jsp.declare("Job", k="int")
        listeners = [listen(address) for _ in range(count)]
        for first in range(0, WRITTEN if count else 0, BATCH):
            batch = [entry("Job", k=value) for value in range(first, first + BATCH)]
            jsp.call("write_all", space="a", entries=batch, lease=FOREVER)
        rest(server)
        before = seconds(server)
        for _ in range(ASKED):
            jsp.spaces()
        spent = seconds(server) - before
        for listener in listeners:
            listener.close()
        return 1e6 * spent / ASKED


def main(program, *counts):
    print("| Clients that read none of their events | Processor time of a request, in µs |", "|---|---|", sep="\n")
    for count in [int(count) for count in counts] or [0, 50, 200]:
        command = [program, "listen", "--log", "off", "--connections", str(count + 1), "127.0.0.1:0", "a"]
        with subprocess.Popen(command, stdout=subprocess.PIPE, stderr=subprocess.DEVNULL) as server:
            try:
                print(f"| {count} | {measure(server, count):.1f} |", flush=True)
            finally:
                server.kill()


if __name__ == "__main__":
    main(*sys.argv[1:])
