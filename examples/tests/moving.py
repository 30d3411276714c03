"""Many clients move entries between two spaces, each under a transaction: whatever happens, none is lost, and none is
there twice.

    python3 moving.py PROGRAM..

First 64 of them at once. Then a few, again and again, while the server's memory runs out: another client fills a space
with large entries until that is refused. Where a connection breaks, what was moved is in one of the two spaces, at the
latest once the transaction's lease has ended. It prints nothing where all is as it should be.
"""
import resource
import subprocess
import sys
import threading
import time
from contextlib import contextmanager, suppress
from pathlib import Path

sys.path.insert(0, str(Path(__file__).parent.parent / "clients"))
from jsp import ANY, LONGEST, Client, Refused, TransactionLost, entry  # noqa: E402

SECONDS = 60
MB = 1_000_000
TOKENS = 64
LEASE = 2_000  # of a transaction, in milliseconds
LARGE = "x" * 8_000


@contextmanager
def serving(program, memory, *options):
    """The address of a server that may have so many bytes of memory. At its end it has compared what it can."""
    server = subprocess.Popen(
        [*program, "listen", "--log", "off", "--until-input", *options, "127.0.0.1:0", "a", "b", "c"],
        stdin=subprocess.PIPE,
        stdout=subprocess.PIPE,
        stderr=subprocess.PIPE,
        preexec_fn=lambda: resource.setrlimit(resource.RLIMIT_AS, (memory, memory)),
    )
    try:
        host, port = server.stdout.readline().split()[1].decode().rsplit(":", 1)
        yield host, int(port)
        _, told = server.communicate(b"\n", timeout=SECONDS)
        assert server.returncode == 0 and b"compared" in told, (server.returncode, told)
    finally:
        server.kill()
        server.wait()


def connect(address):
    return Client(*address, seconds=SECONDS)


def begin(address):
    with connect(address) as jsp:
        jsp.declare("Token", n="int")
        jsp.declare("Large", text="text")
        jsp.write_all("a", [entry("Token", n=n) for n in range(TOKENS)], lease=LONGEST)


def move(jsp, source, target):
    """Moves an entry, if there is one that no other client holds."""
    with suppress(TransactionLost), jsp.transaction(lease=LEASE) as txn:
        token = jsp.take(source, entry("Token"), txn=txn)
        if token is not None:
            jsp.write(target, entry("Token", n=token["n"]), lease=LONGEST, txn=txn)


def tokens(address):
    """Those that are there, of both spaces."""
    with connect(address) as jsp:
        return sorted(token["n"] for space in ("a", "b") for token in jsp.contents(space, entry("Token")))


def all_at_once(workers):
    """Runs them, each in a thread, and gives what they raised."""
    raised = []

    def run(worker):
        try:
            worker()
        except Exception as error:  # told below
            raised.append(error)

    threads = [threading.Thread(target=run, args=(worker,)) for worker in workers]
    for thread in threads:
        thread.start()
    for thread in threads:
        thread.join()
    return raised


def sixty_four_at_once(program):
    with serving(program, resource.RLIM_INFINITY) as address:
        begin(address)

        def mover(first):
            def work():
                with connect(address) as jsp:
                    for turn in range(first, first + 40):
                        move(jsp, *("ab" if turn % 2 else "ba"))

            return work

        raised = all_at_once([mover(first) for first in range(64)])
        assert not raised, raised
        assert tokens(address) == list(range(TOKENS))


def memory_runs_out(program):
    with serving(program, 400 * MB, "--era-bytes", str(16 * MB)) as address:
        begin(address)
        is_full = threading.Event()

        def fill():
            """Writes until it is refused, or its connection breaks, several times."""
            try:
                for _ in range(4):
                    with suppress(ConnectionError, Refused), connect(address) as jsp:
                        while True:
                            jsp.write_all("c", [entry("Large", text=LARGE)] * 16, lease=ANY)
            finally:
                is_full.set()

        def mover(first):
            def work():
                turn = first
                while not is_full.is_set():
                    with suppress(ConnectionError), connect(address) as jsp:
                        while not is_full.is_set():
                            turn += 1
                            move(jsp, *("ab" if turn % 2 else "ba"))

            return work

        raised = all_at_once([fill, *(mover(first) for first in range(8))])
        assert not raised, raised
        with connect(address) as jsp:
            jsp.reset("c")
        time.sleep(LEASE / 1000 + 1)
        assert tokens(address) == list(range(TOKENS))


if __name__ == "__main__":
    sixty_four_at_once(sys.argv[1:])
    memory_runs_out(sys.argv[1:])
