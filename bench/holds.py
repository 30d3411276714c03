"""How long others wait for what one client causes.

    python3 holds.py PROGRAM [ROUNDS]

For each row a server is started anew, so many times (5). Another client reads an entry of a space of its own all the
while. A read that nothing is beside takes what the last column says.

The first table is of transactions that hold very many entries: these are written or taken under one, so many in each of
so many spaces. Told are the median times, in milliseconds, that the commit or abort took, and that the other client
waited at the longest while it was under way and shortly after. Where somebody waits, a request of the first space waits
for an entry that doesn't come.

The second table is of what one request, or the clock, causes to very many others: leases that end while the server is
halted, requests that one write answers, events of one batch and of one commit, entries that a reset drops, registrations
of a session that closes, requests that a reset refuses. Told is what
the other client waited at the longest until nothing of it was left to do; the goal is 10 ms.
"""
import contextlib
import multiprocessing
import os
import resource
import signal
import statistics
import subprocess
import sys
import time
from pathlib import Path

sys.path.insert(0, str(Path(__file__).parent.parent / "examples" / "clients"))
from jsp import FOREVER, LONGEST, Client, Refused, entry  # noqa: E402

# Entries of a batch, and of a take of several.
WRITTEN, TAKEN = 64, 16
# How long the other client reads before and after, in seconds.
BEFORE, AFTER = 0.3, 0.1
ABSENT = 10**9
# After how many seconds the leases end that are to end while the server is halted, and how many end together.
LEASE, SPREAD = 8, 64


def read_on(address, over, told):
    with Client(*address) as jsp:
        jsp.declare("Probe", k="int")
        jsp.write("other", entry("Probe", k=1), lease=FOREVER)
        waits = []
        while not over.is_set():
            began = time.monotonic()
            jsp.read("other", entry("Probe", k=1))
            waits.append((began, time.monotonic() - began))
        told.put(waits)


def write(jsp, spaces, each, txn=None):
    for space in spaces:
        for first in range(0, each, WRITTEN):
            batch = [entry("Job", k=value) for value in range(first, min(first + WRITTEN, each))]
            jsp.write_all(space, batch, lease=FOREVER, txn=txn)


def take(jsp, spaces, each, txn):
    for space in spaces:
        left = each
        while left:
            left -= len(jsp.take_many(space, [entry("Job")], most=min(TAKEN, left), txn=txn))


def end(address, spaces, each, kind, ends, waits, listeners):
    """The times of one end of a transaction, in milliseconds."""
    with Client(*address) as jsp, Client(*address) as beside:
        jsp.declare("Job", k="int")
        if waits:
            beside.send("take", space=spaces[0], template=entry("Job", k=ABSENT), timeout=FOREVER, txn=None)
        for _ in range(listeners):
            beside.notify(spaces[0], entry("Job"), lease=FOREVER)
        if kind == "taken":
            write(jsp, spaces, each)
        txn = jsp.transaction(LONGEST)
        (write if kind == "written" else take)(jsp, spaces, each, txn)
        over, told = multiprocessing.Event(), multiprocessing.Queue()
        other = multiprocessing.Process(target=read_on, args=(address, over, told))
        other.start()
        time.sleep(BEFORE)
        began = time.monotonic()
        getattr(txn, ends)()
        ended = time.monotonic()
        time.sleep(AFTER)
        over.set()
        reads = told.get()
        other.join()
        during = max(wait for at, wait in reads if began - BEFORE / 100 <= at <= ended + AFTER)
        usual = statistics.median(wait for at, wait in reads if at < began - BEFORE / 10)
        return [1000 * (ended - began), 1000 * during, 1000 * usual]


def measure(program, rounds, spaces, each, *what):
    names = [f"space{place}" for place in range(spaces)]
    command = [program, "listen", "--log", "off", "127.0.0.1:0", *names, "other"]
    times = []
    for _ in range(rounds):
        with subprocess.Popen(command, stdout=subprocess.PIPE, stderr=subprocess.DEVNULL) as server:
            try:
                host, port = server.stdout.readline().split()[1].decode().rsplit(":", 1)
                times.append(end((host, int(port)), names, each, *what))
            finally:
                server.kill()
    return [statistics.median(column) for column in zip(*times)]


def ended_leases(server, address, count):
    """So many leases end while the server is halted."""
    with Client(*address) as jsp:
        jsp.declare("Job", k="int")
        began = time.monotonic()
        for first in range(0, count, WRITTEN):
            # Each ends as long after the first was written.
            left = 1000 * (LEASE - (time.monotonic() - began))
            batch = [entry("Job", k=value) for value in range(first, min(first + WRITTEN, count))]
            jsp.write_all("a", batch, lease=int(left) + first // SPREAD % 1000)
        time.sleep(max(0, LEASE - 0.5 - (time.monotonic() - began)))
        os.kill(server.pid, signal.SIGSTOP)
        time.sleep(2.5)

        def go_on():
            os.kill(server.pid, signal.SIGCONT)
            while jsp.read("a", entry("Job")) is not None:
                pass

        yield go_on


def answered_at_once(server, address, count):
    """So many sessions wait with 64 reads each for one entry."""
    clients = [Client(*address) for _ in range(count)]
    clients[0].declare("Job", k="int")
    for client in clients:
        for _ in range(64):
            client.send("read", space="a", template=entry("Job", k=1), timeout=FOREVER, txn=None)
        client.spaces()

    def write_one():
        clients[0].write("a", entry("Job", k=1), lease=FOREVER)
        clients[-1].wait(64)

    yield write_one
    for client in clients:
        client.socket.close()


def told_at_once(server, address, count):
    """So many registrations are told of a batch."""
    with Client(*address) as jsp, Client(*address) as listener:
        jsp.declare("Job", k="int")
        for _ in range(count):
            listener.notify("a", entry("Job"), lease=FOREVER)
        batch = [entry("Job", k=value) for value in range(16)]

        def tell():
            jsp.write_all("a", batch, lease=FOREVER)
            jsp.take("a", entry("Job", k=1))

        yield tell


def committed_at_once(server, address, count):
    """A commit of so many entries is told to 4,096 registrations of one client."""
    with Client(*address) as jsp, Client(*address) as listener:
        jsp.declare("Job", k="int")
        for _ in range(4096):
            listener.notify("a", entry("Job"), lease=FOREVER)
        txn = jsp.transaction(lease=FOREVER)
        write(jsp, ["a"], count, txn)

        def tell():
            txn.commit()
            jsp.take("a", entry("Job", k=1))

        yield tell


def dropped_at_once(server, address, count):
    """A space of so many entries is reset."""
    fields = {f"field{place}": "int" for place in range(32)}
    values = {name: 1 for name in fields}
    with Client(*address) as jsp:
        jsp.declare("Wide", **fields)
        for _ in range(0, count, WRITTEN):
            jsp.write_all("a", [entry("Wide", **values)] * WRITTEN, lease=FOREVER)

        def drop():
            jsp.reset("a")
            jsp.read("a", entry("Wide"))  # which waits until the last is gone

        yield drop


def closed_at_once(server, address, count):
    """A session of so many registrations closes."""
    with Client(*address) as jsp:
        listener = Client(*address)
        jsp.declare("Job", k="int")
        for value in range(count):
            listener.notify("a", entry("Job", k=value), lease=FOREVER)

        def close():
            listener.call("bye")
            jsp.write("a", entry("Job", k=1), lease=FOREVER)

        yield close
        listener.socket.close()


def refused_at_once(server, address, count):
    """A space is reset at which so many reads wait under transactions, 64 of each session."""
    clients = [Client(*address) for _ in range(count // 64)]
    clients[0].declare("Job", k="int")
    for place, client in enumerate(clients):
        txn = client.call("txn", lease=FOREVER)["lease"]
        for value in range(64):
            template = entry("Job", k=64 * place + value)
            last = client.send("read", space="a", template=template, timeout=FOREVER, txn=txn)
        client.spaces()

    def reset():
        clients[0].reset("a")
        with contextlib.suppress(Refused):
            clients[-1].wait(last)

    yield reset
    for client in clients:
        client.socket.close()


def wait_beside(program, case, count):
    """What another client waits at the longest, and usually, in milliseconds."""
    command = [program, "listen", "--log", "off", "--connections", "4096", "127.0.0.1:0", "a", "other"]
    with subprocess.Popen(command, stdout=subprocess.PIPE, stderr=subprocess.DEVNULL) as server:
        try:
            host, port = server.stdout.readline().split()[1].decode().rsplit(":", 1)
            address = host, int(port)
            steps = case(server, address, count)
            cause = next(steps)
            over, told = multiprocessing.Event(), multiprocessing.Queue()
            other = multiprocessing.Process(target=read_on, args=(address, over, told))
            if case is not ended_leases:
                other.start()
                time.sleep(BEFORE)
            began = time.monotonic()
            if case is ended_leases:
                other.start()
            cause()
            ended = time.monotonic()
            time.sleep(AFTER)
            over.set()
            reads = told.get()
            other.join()
            next(steps, None)
            during = [wait for at, wait in reads if began - BEFORE / 100 <= at <= ended + AFTER]
            usual = statistics.median(wait for _, wait in reads)
            return [1000 * (ended - began), 1000 * max(during), 1000 * usual]
        finally:
            server.kill()


CAUSES = {
    ended_leases: (15_000, 30_000, 60_000),
    answered_at_once: (250, 500, 1_000),
    told_at_once: (1_024, 4_096),
    committed_at_once: (1_000, 4_000),
    dropped_at_once: (16_384, 65_536),
    closed_at_once: (1_024, 4_096),
    refused_at_once: (4_096, 16_384),
}


def main(program, rounds=5):
    print("| entries | spaces | | ends by | waits | registrations | took | longest read | usual read |")
    print("|---|---|---|---|---|---|---|---|---|")
    rows = [
        (spaces, each, kind, ends, waits, 0)
        for spaces, each in ((4, 1000), (1, 20000), (63, 312))
        for kind, ends in (("taken", "commit"), ("written", "commit"), ("taken", "abort"))
        for waits in (False, True)
    ]
    rows.append((1, 64, "written", "commit", False, 4096))
    for row in rows:
        spaces, each, kind, ends, waits, listeners = row
        took, longest, usual = measure(program, int(rounds), *row)
        begins = f"| {spaces * each} | {spaces} | {kind} | {ends} | {'one' if waits else 'none'} | {listeners}"
        print(f"{begins} | {took:.2f} | {longest:.2f} | {usual:.3f} |", flush=True)
    print("\n| what is caused | to how many | took | longest read | usual read |", "|---|---|---|---|---|", sep="\n")
    soft, hard = resource.getrlimit(resource.RLIMIT_NOFILE)
    resource.setrlimit(resource.RLIMIT_NOFILE, (hard, hard))
    for case, counts in CAUSES.items():
        for count in counts:
            times = [wait_beside(program, case, count) for _ in range(int(rounds))]
            took, longest, usual = (statistics.median(column) for column in zip(*times))
            print(f"| {case.__doc__} | {count} | {took:.2f} | {longest:.2f} | {usual:.3f} |", flush=True)


if __name__ == "__main__":
    main(*sys.argv[1:])
