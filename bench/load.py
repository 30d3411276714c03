"""A load of every kind for so many minutes, and what it did to the server and to a client beside it.

    python3 load.py PROGRAM MINUTES [CLIENTS] [ENTRIES]

Starts the server, lets so many entries stand in it (60,000 if not told), and lets clients (16) write and take, wait,
transfer under transactions, be told of entries, list by pages, let leases end, and come and go. Each minute it prints the
requests a second, the server's memory and descriptors, and how long a request waited for its answer of a client that asks
once a millisecond; beside it how long another such client waited for a plain echo, which is what the machine takes.
"""
import multiprocessing
import os
import random
import socket
import subprocess
import sys
import time
from pathlib import Path

sys.path.insert(0, str(Path(__file__).parent.parent / "examples" / "clients"))
from jsp import FOREVER, Client, Refused, entry  # noqa: E402

# How long a client stays before it comes anew, in rounds.
ROUNDS = 200


def stand(address, entries):
    """At least 128 of them, which the clients read and list."""
    with Client(*address) as jsp:
        jsp.declare("Job", k="int", who="text")
        for first in range(0, entries, 64):
            batch = [entry("Job", k=value, who="stands") for value in range(first, min(first + 64, entries))]
            jsp.call("write_all", space="a", entries=batch, lease=FOREVER)


def once(jsp, draw, mine):
    """One round of a client, of so many requests."""
    kind = draw.random()
    value = draw.randrange(10**6, 10**9)
    if kind < 0.5:
        jsp.write("b", entry("Job", k=value), lease=60_000)
        assert jsp.take("b", entry("Job", k=value)) is not None
        return 2
    if kind < 0.7:
        assert jsp.read("a", entry("Job", k=draw.randrange(128))) is not None
        return 1
    if kind < 0.8:
        wait = jsp.send("take", space="b", template=entry("Job", k=value), timeout=1_000, txn=None)
        jsp.write("b", entry("Job", k=value), lease=60_000)
        assert jsp.wait(wait) is not None
        return 2
    if kind < 0.95:
        jsp.write("a", entry("Job", k=value), lease=60_000)
        with jsp.transaction() as txn:
            assert jsp.take("a", entry("Job", k=value), txn=txn) is not None
            jsp.write("b", entry("Job", k=value, who="moved"), lease=draw.randrange(1, 100), txn=txn)
        return 5
    if kind < 0.98:
        registration = jsp.notify("b", entry("Job", k=mine), lease=60_000)
        jsp.write("b", entry("Job", k=mine), lease=1)
        assert jsp.event(60).lease == registration.number
        jsp.cancel(registration)
        return 3
    number = jsp.call("contents", space="a", template=entry("Job", who="stands"), lease=60_000)["lease"]
    for _ in range(8):
        assert len(jsp.call("next", set=number, most=16)["entries"]) == 16
    jsp.call("close_set", set=number)
    return 10


def client(address, place, ends, asked):
    # The server and who measures it come first: what is measured is not how many clients share a processor.
    os.nice(10)
    draw = random.Random(place)
    while time.monotonic() < ends:
        with Client(*address) as jsp:
            jsp.declare("Job", k="int", who="text")
            for _ in range(ROUNDS):
                asked[place] += once(jsp, draw, -1 - place)


def measure(ask, ends, waits):
    """Asks once a millisecond, and puts how long it waited in each minute at the longest, and sums up."""
    while time.monotonic() < ends:
        began = time.monotonic()
        ask()
        waited = time.monotonic() - began
        waits[0] = max(waits[0], waited)
        waits[1] += waited
        waits[2] += 1
        time.sleep(max(0, 0.001 - waited))


def probe(address, ends, waits):
    """How long a request waits for its answer."""
    with Client(*address) as jsp:
        measure(lambda: jsp.call("spaces"), ends, waits)


def probe_echo(ends, waits):
    """How long a byte waits for another process to send it back, which does nothing else."""
    ours, others = socket.socketpair()
    echo = multiprocessing.Process(target=send_back, args=(ours, others))
    echo.start()
    others.close()
    measure(lambda: (ours.sendall(b"."), ours.recv(1)), ends, waits)
    ours.close()
    echo.join()


def send_back(others, ours):
    others.close()
    while piece := ours.recv(1):
        ours.sendall(piece)


def told(waits):
    """The longest and the mean of those since it was called last, in milliseconds."""
    longest, mean = 1_000 * waits[0], 1_000 * waits[1] / max(1, waits[2])
    waits[0] = waits[1] = waits[2] = 0
    return f"{longest:.1f} | {mean:.2f}"


def status(process):
    lines = Path(f"/proc/{process.pid}/status").read_text().splitlines()
    memory = next(int(line.split()[1]) for line in lines if line.startswith("VmRSS"))
    return memory // 1024, len(os.listdir(f"/proc/{process.pid}/fd"))


def main():
    program, minutes = sys.argv[1], float(sys.argv[2])
    clients = int(sys.argv[3]) if len(sys.argv) > 3 else 16
    entries = int(sys.argv[4]) if len(sys.argv) > 4 else 60_000
    with subprocess.Popen([program, "listen", "--log", "off", "127.0.0.1:0", "a", "b"], stdout=subprocess.PIPE) as server:
        try:
            load(server, minutes, clients, entries)
        finally:
            server.kill()


def load(server, minutes, clients, entries):
    host, port = server.stdout.readline().split()[1].decode().rsplit(":", 1)
    address = host, int(port)
    stand(address, entries)
    ends = time.monotonic() + 60 * minutes
    asked = multiprocessing.Array("q", clients, lock=False)
    waits, echoes = (multiprocessing.Array("d", 3, lock=False) for _ in range(2))
    workers = [multiprocessing.Process(target=client, args=(address, place, ends, asked)) for place in range(clients)]
    workers.append(multiprocessing.Process(target=probe, args=(address, ends, waits)))
    workers.append(multiprocessing.Process(target=probe_echo, args=(ends, echoes)))
    for worker in workers:
        worker.start()
    before, began = 0, time.monotonic()
    print("| Minute | Requests a second | Memory, MB | Descriptors | Longest wait, ms | Mean | Of an echo | Mean |")
    print("|---|---|---|---|---|---|---|---|", flush=True)
    while time.monotonic() < ends:
        time.sleep(min(60, max(0.1, ends - time.monotonic())))
        now, total = time.monotonic(), sum(asked)
        memory, descriptors = status(server)
        minute = (now - ends) / 60 + minutes
        print(
            f"| {minute:.1f} | {(total - before) / (now - began):,.0f} | {memory} | {descriptors} | {told(waits)} |"
            f" {told(echoes)} |",
            flush=True,
        )
        before, began = total, now
    for worker in workers:
        worker.join()
    assert not any(worker.exitcode for worker in workers)


if __name__ == "__main__":
    main()
