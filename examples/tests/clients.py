"""The client in Python, and the pool of workers that stands on it: what they raise, and what is left where things end.

    python3 clients.py CASE HOST:PORT

Each case is run against a server of its own, and prints nothing where all is as it should be. `clients.py cases` lists
them, with how many connections each opens.
"""
import re
import socket
import sys
import threading
import time
from contextlib import contextmanager, suppress
from itertools import islice
from pathlib import Path

EXAMPLES = Path(__file__).parent.parent
sys.path.insert(0, str(EXAMPLES / "clients"))
import pool  # noqa: E402
from jsp import ANY, LONGEST, REFUSALS, Client, Refused, TransactionLost, entry  # noqa: E402

SECONDS = 60


@contextmanager
def raises(kind, number=None):
    """The block raises this kind of exception: of refusals, this very kind, with this number."""
    try:
        yield
    except kind as error:
        assert number is None or (type(error), error.number) == (kind, number), repr(error)
    else:
        raise AssertionError(f"nothing was raised, where {kind} was to be")


def connect(address):
    return Client(*address, seconds=SECONDS)


def refusals_have_their_names(address):
    """The table of refusals is that of docs/PROTOCOL.md, and some of them are met."""
    page = (EXAMPLES.parent / "docs" / "PROTOCOL.md").read_text()
    rows = re.findall(r"^\| (\d+) \| (\w+) \| (.*) \|$", page, re.MULTILINE)
    assert REFUSALS == {int(number): (name, words) for number, name, words in rows}
    assert len(rows) == 22
    assert str(Refused(5)) == "5 UnknownSpace: the space isn't configured"
    assert str(Refused(99)).startswith("99 Unknown: ")
    with connect(address) as jsp:
        jsp.declare("Job", k="int")
        with raises(Refused, 5):
            jsp.write("c", entry("Job", k=1), lease=LONGEST)
        with raises(Refused, 7):
            jsp.declare("Job", k="text")
        with raises(Refused, 8):
            jsp.read("a", entry("Car"))
        with raises(Refused, 9):
            jsp.write("a", entry("Job", k="one"), lease=LONGEST)
        with raises(Refused, 10):
            jsp.write("a", entry("Job", k=1), lease=-2)
        with raises(Refused, 11):
            jsp.take("a", None, timeout=-1)
        assert jsp.read("a", None) is None


def leases_last_as_granted(address):
    with connect(address) as jsp:
        jsp.declare("Job", k="int")
        assert jsp.write("a", entry("Job", k=1), lease=10 * LONGEST).ms == LONGEST
        assert jsp.write("a", entry("Job", k=2), lease=ANY).ms == 60_000
        short = jsp.write("a", entry("Job", k=3), lease=LONGEST)
        assert jsp.renew(short, 50) == (short.number, 50)
        time.sleep(0.2)
        assert jsp.read("a", entry("Job", k=3)) is None
        with raises(Refused, 12):
            jsp.renew(short, 50)
        kept = jsp.write("a", entry("Job", k=4), lease=LONGEST)
        with raises(Refused, 10):
            jsp.renew(kept, -2)
        assert jsp.read("a", entry("Job", k=4)) == {"k": 4}
        jsp.cancel(kept)
        assert jsp.read("a", entry("Job", k=4)) is None
        with raises(Refused, 12):
            jsp.cancel(kept.number)

        several = jsp.write_all("a", [entry("Job", k=5), entry("Job", k=6)], lease=ANY)
        *renewed, unknown = jsp.renew_all([*several, kept], LONGEST)
        assert renewed == [(lease.number, LONGEST) for lease in several]
        assert (type(unknown), unknown.number) == (Refused, 12)
        first, second, unknown = jsp.cancel_all([*several, kept])
        assert (first, second, unknown.number) == (None, None, 12)
        assert jsp.read("a", entry("Job", k=6)) is None


def operations_give_what_they_say(address):
    """Of those that no other case or example has."""
    with connect(address) as jsp:
        assert jsp.spaces() == ["a", "b"]
        jsp.declare("Job", k="int")
        jsp.declare("Rush", parent="Job", name="text")
        entries = [entry("Job", k=1), entry("Rush", k=2, name="ß\u2028😀"), entry("Job", k=3)]
        leases = jsp.write_all("a", entries, lease=ANY)
        assert [lease.ms for lease in leases] == [60_000] * 3
        assert len({lease.number for lease in leases}) == 3
        rush = jsp.read("a", entry("Job", k=2))
        assert (rush, rush.class_name) == ({"k": 2, "name": "ß\u2028😀"}, "Rush")
        assert jsp.take_many("a", [entry("Job", k=3), entry("Job", k=1)]) == [{"k": 1}, {"k": 3}]
        assert jsp.take_many("a", [entry("Job", k=1)]) == []
        assert jsp.read_if("a", None, timeout=10**9) == rush
        assert jsp.take_if("a", None, timeout=10**9) == rush
        assert jsp.take_if("a", None, timeout=10**9) is None
        jsp.write("a", entry("Job", k=4), lease=ANY)
        jsp.reset("a")
        assert jsp.read("a", None) is None


def transactions_are_whole(address):
    with connect(address) as jsp, connect(address) as other:
        jsp.declare("Job", k="int")
        jobs = [entry("Job", k=k) for k in range(6)]

        with jsp.transaction() as txn:
            jsp.write("a", jobs[1], lease=LONGEST, txn=txn)
            assert txn.state() == "active"
            assert other.read("a", None) is None
        assert other.take("a", None) == {"k": 1}

        with raises(ZeroDivisionError):
            with jsp.transaction() as txn:
                jsp.write("a", jobs[2], lease=LONGEST, txn=txn)
                1 / 0
        assert other.read("a", None) is None

        with jsp.transaction() as txn:
            jsp.write("a", jobs[3], lease=LONGEST, txn=txn)
            txn.abort()
        assert other.read("a", None) is None
        with jsp.transaction() as txn:
            jsp.write("a", jobs[4], lease=LONGEST, txn=txn)
            txn.commit()
            assert other.read("a", None) == {"k": 4}

        with raises(TransactionLost, 18):
            with jsp.transaction() as txn:
                jsp.take("a", None, txn=txn)
                other.reset("a")
                jsp.read("a", None, txn=txn)
        with raises(TransactionLost, 15):
            with jsp.transaction() as txn:
                jsp.write("a", jobs[5], lease=LONGEST, txn=txn)
                other.reset("a")
        assert other.read("a", None) is None


def a_lost_transaction_gives_back(address):
    """It ends before the work does: what it took is there again."""
    with connect(address) as jsp, connect(address) as other:
        jsp.declare("Job", k="int")
        jsp.write("a", entry("Job", k=1), lease=LONGEST)
        with raises(TransactionLost, 13):
            with jsp.transaction(lease=50) as txn:
                assert jsp.take("a", None, txn=txn) == {"k": 1}
                time.sleep(0.2)
        assert other.read("a", None) == {"k": 1}
        with jsp.transaction(lease=1_000) as txn:
            jsp.renew(txn, LONGEST)
            time.sleep(1.5)
            jsp.take("a", None, txn=txn)
        assert other.read("a", None) is None


def a_pool_outlives_a_time_without_work(address):
    """One worker's waits end, again and again, and the other's transactions: then tasks come, and all are done."""
    often, shortly = 60_000, 200
    with connect(address) as jsp:
        jsp.declare("Task", k="int")
        jsp.declare("Result", k="int", square="int", worker="text")
        assert pool.work_once(jsp, "idle", wait=10, lease=often)
        with raises(TransactionLost):
            pool.work_once(jsp, "idle", wait=often, lease=shortly)

        workers = [
            threading.Thread(target=pool.work, args=(address, "waits shortly", shortly, often)),
            threading.Thread(target=pool.work, args=(address, "lasts shortly", often, shortly)),
        ]
        for worker in workers:
            worker.start()
        time.sleep(4 * shortly / 1000)
        jsp.write_all("a", [entry("Task", k=k) for k in range(1, 41)], lease=LONGEST)
        for k in range(1, 41):
            assert jsp.take("b", entry("Result", k=k), timeout=often)["square"] == k * k
        jsp.write_all("a", [entry("Task")] * 2, lease=LONGEST)
        for worker in workers:
            worker.join()
        assert jsp.read("a", None) is None
        assert jsp.read("b", None) is None


def events_come_one_by_one(address):
    with connect(address) as jsp, connect(address) as other:
        jsp.declare("Job", k="int")
        lease = jsp.notify("a", entry("Job"), lease=LONGEST, handback="jobs")
        assert lease.ms == LONGEST
        assert jsp.event(0) is None
        for k in range(3):
            other.write("a", entry("Job", k=k), lease=LONGEST)
        for seq, event in enumerate(islice(jsp.listen(SECONDS), 3), start=1):
            assert event == (lease.number, seq, "jobs")
            assert jsp.take("a", entry("Job", k=seq - 1)) is not None
        jsp.cancel(lease)
        other.write("a", entry("Job", k=3), lease=LONGEST)
        assert list(jsp.listen(0.1)) == []
        assert jsp.socket.gettimeout() == SECONDS


def a_listing_that_is_left_is_closed(address):
    with connect(address) as jsp:
        jsp.declare("Job", k="int")
        last = jsp.write_all("a", [entry("Job", k=k) for k in range(20)], lease=LONGEST)[-1]
        listing = jsp.contents("a", entry("Job"), most=2)
        assert list(islice(listing, 3)) == [{"k": 0}, {"k": 1}, {"k": 2}]
        jsp.call("next", set=last.number + 1, most=1)
        listing.close()
        with raises(Refused, 12):
            jsp.call("next", set=last.number + 1, most=1)
        with raises(Refused, 12):
            for _ in jsp.contents("a", entry("Job"), lease=50, most=2):
                time.sleep(0.1)


def what_cannot_be_sent_is_not(address):
    """The connection goes on behind it."""
    with connect(address) as jsp:
        jsp.declare("Job", k="int", who="text")
        for wrong in (entry("Job", k=float("nan")), entry("Job", who="\ud800"), entry("Job", who="x" * 1_048_576)):
            with raises(ValueError):
                jsp.write("a", wrong, lease=LONGEST)
        with raises(TypeError):
            jsp.write("a", entry("Job", who=b"x"), lease=LONGEST)
        assert jsp.spaces() == ["a", "b"]


def an_answer_is_late(address):
    """It is awaited no longer than the client's time, and the connection goes on."""
    with Client(*address, seconds=2) as jsp:
        jsp.declare("Job", k="int")
        jsp.notify("a", entry("Job"), lease=LONGEST)
        late = jsp.send("take", space="a", template=None, timeout=10**9)
        with raises(TimeoutError):
            jsp.wait(late)
        jsp.write("a", entry("Job", k=1), lease=LONGEST)
        assert jsp.wait(late) == entry("Job", k=1)
        assert jsp.event().seq == 1


def relay(address, most):
    """The address of a relay to the server for one connection. It hands on so many bytes of what the server says, and
    then closes both sides."""
    door = socket.create_server(("127.0.0.1", 0))

    # Either side may be closed at any time, by its end or by the other thread.
    def hand_on(reader, writer, most):
        with suppress(OSError):
            while most > 0 and (piece := reader.recv(min(most, 65_536))):
                writer.sendall(piece)
                most -= len(piece)

    def serve():
        with door, door.accept()[0] as client, socket.create_connection(address) as server, suppress(OSError):
            threading.Thread(target=hand_on, args=(client, server, 2**62), daemon=True).start()
            hand_on(server, client, most)
            server.recv(1)  # what is cut off was said, so the request was done
            client.shutdown(socket.SHUT_RDWR)

    threading.Thread(target=serve, daemon=True).start()
    return door.getsockname()


GREETING = len('....{"id":1,"ok":null}')


def a_connection_breaks_at_a_write(address):
    """No byte of its answer comes, or a few: the client raises from then on, and the entry is written."""
    with connect(address) as other:
        other.declare("Job", k="int")
        for k, most in enumerate((GREETING, GREETING + 1, GREETING + 7)):
            with connect(relay(address, most)) as jsp:
                with raises(ConnectionError):
                    jsp.write("a", entry("Job", k=k), lease=LONGEST)
                with raises(ConnectionError):
                    jsp.spaces()
                with raises(ConnectionError):
                    jsp.event()
            assert other.take("a", entry("Job", k=k), timeout=SECONDS * 1000) == {"k": k}


def a_connection_breaks_in_a_transaction(address):
    """The answer of its take doesn't come: the client raises, and when the transaction's lease has ended the entry is
    there for another."""
    begun = '....{"id":2,"ok":{"lease":2,"ms":300}}'
    with connect(address) as other:
        other.declare("Job", k="int")
        assert other.write("a", entry("Job", k=1), lease=LONGEST).number == 1
        with connect(relay(address, GREETING + len(begun))) as jsp:
            with raises(ConnectionError):
                with jsp.transaction(lease=300) as txn:
                    jsp.take("a", None, txn=txn)
        assert other.read("a", None) is None
        assert other.take("a", None, timeout=SECONDS * 1000) == {"k": 1}


CASES = {
    refusals_have_their_names: 1,
    leases_last_as_granted: 1,
    operations_give_what_they_say: 1,
    transactions_are_whole: 2,
    a_lost_transaction_gives_back: 2,
    a_pool_outlives_a_time_without_work: 3,
    events_come_one_by_one: 2,
    a_listing_that_is_left_is_closed: 1,
    what_cannot_be_sent_is_not: 1,
    an_answer_is_late: 1,
    a_connection_breaks_at_a_write: 4,
    a_connection_breaks_in_a_transaction: 2,
}

if __name__ == "__main__":
    if sys.argv[1] == "cases":
        for case, connections in CASES.items():
            print(case.__name__, connections)
    else:
        host, port = sys.argv[2].rsplit(":", 1)
        globals()[sys.argv[1]]((host, int(port)))
