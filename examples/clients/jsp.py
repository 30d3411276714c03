"""A client of a jsp server, on Python's standard library alone.

    with Client("127.0.0.1", 7070) as jsp:
        jsp.declare("Job", k="int", who="text")
        jsp.write("a", entry("Job", k=1), lease=60_000)
        print(jsp.take("a", entry("Job", k=1)))  # {'k': 1, 'who': None}

Times are milliseconds, except where they are called seconds. What the server refuses is raised as Refused, and a broken
connection as ConnectionError (see Client). docs/PROTOCOL.md says what each operation does.
"""
import itertools
import json
import socket
import struct
import time
from collections import deque
from contextlib import suppress
from typing import NamedTuple

# Times to ask for, in milliseconds.
FOREVER = 2**63 - 1  # a timeout that doesn't end
LONGEST = 3_600_000  # the longest lease that is granted, an hour; a longer one may be asked for
ANY = -1  # a lease as long as the server likes, a minute

LONGEST_REQUEST = 1_048_576  # bytes of a request, without its length

# Each refusal's name and meaning, by its number: the table of docs/PROTOCOL.md.
REFUSALS = {
    1: ("BadJson", "the payload isn't read as JSON"),
    2: ("BadRequest", "JSON that is no request"),
    3: ("IdInUse", "the session has a waiting request of this id"),
    4: ("TooManyWaiting", "the session has 64 waiting requests as this one comes, which would wait too"),
    5: ("UnknownSpace", "the space isn't configured"),
    6: (
        "BadClass",
        "a name or kind that isn't allowed, a field name twice, an inherited field again, depth or fields past the"
        " limit",
    ),
    7: ("Differs", "the class is declared with another parent or other fields"),
    8: ("UnknownClass", "the class, or the parent of a declaration, isn't declared"),
    9: ("BadEntry", "a field that the class hasn't, a value of another kind, texts past 8,192 bytes"),
    10: ("BadLease", "an asked time below 0 other than -1"),
    11: ("BadTimeout", "a timeout below 0"),
    12: ("UnknownLease", "no living row, registration, transaction or match set has the number"),
    13: ("UnknownTransaction", "no transaction that is active or voting has the number"),
    14: ("NotActive", "the transaction is voting"),
    15: ("Aborted", "the answer to a commit that was decided as abort"),
    16: ("LeftActive", "a blocked request whose transaction left the active state"),
    17: ("TooMany", "the table of classes, registrations, transactions or match sets is full"),
    18: ("CrashCount", "the space was joined under another crash count"),
    19: ("InDoubt", "a vote Prepared of the space awaits its decision"),
    20: ("SpaceFull", "the space has 65,536 entries, hidden and taken ones too"),
    21: ("TooLong", "a frame past the limit of the line's version; closes the session"),
    22: ("UsedUp", "the last number is drawn, or the space was reset too often"),
}


class Refused(Exception):
    """The server refused a request, and did nothing of it. `number`, `name` and `words` say why, as in REFUSALS."""

    def __init__(self, number):
        self.number = number
        self.name, self.words = REFUSALS.get(number, ("Unknown", "a refusal that this client doesn't know"))
        super().__init__(f"{number} {self.name}: {self.words}")


class TransactionLost(Refused):
    """The transaction has ended, or a space that it used was reset. Unless another client has committed it, nothing of
    it is done, nor will be: begin anew."""


TRANSACTION_LOST = {13, 15, 16, 18}  # the numbers of these refusals


class Lease(NamedTuple):
    """What was granted to an entry, a registration, a transaction or a match set."""

    number: int  # names it, for any client
    ms: int  # how long it lasts from the grant, in milliseconds; it may be less than what was asked


class Event(NamedTuple):
    """A matching entry was written. It may be gone already."""

    lease: int  # the number of the registration's lease
    seq: int  # 1, 2, 3 and so on, for each registration
    handback: str  # what was given to `notify`


class Fields(dict):
    """The fields of an entry that was read or taken, by name: a number, text, bool or None. `class_name` names the
    entry's own class, which may be below the template's."""

    def __init__(self, shown):
        super().__init__(shown["fields"])
        self.class_name = shown["class"]


def entry(name, /, **fields):
    """An entry of the class of this name, or a template: fields that are left out, or None, match every value."""
    return {"class": name, "fields": fields}


class Client:
    """A connection, which is a session of its own. It is for one thread: a program opens one for each of its threads.

    A Client doesn't connect again. Where its connection breaks, what is asked raises ConnectionError, and so does all
    that is asked later. Then the caller decides, and opens another Client. What it has to know for that:

    - A request that was answered is done.
    - One that wasn't may be done or not: an entry may be written, or taken and given to nobody.
    - What was done under a transaction whose commit wasn't asked comes to nothing, at the latest when its lease ends.
      So who takes an entry under a transaction doesn't lose it.
    - A commit that was asked and not answered may be decided either way, but all of it alike: any one entry that the
      transaction wrote or took tells which.
    - Requests that wait, registrations and match sets end with their connection. Entries and transactions don't, and
      classes stay declared.

    A server that closes idle connections (--idle) does so also while a request waits: a `timeout` has to be shorter.
    """

    def __init__(self, host, port, seconds=None):
        """Connects. Where `seconds` is given, TimeoutError is raised where connecting takes longer, or where no byte of
        an answer comes for so long: it has to be longer than each `timeout`. The request may still be done then."""
        self.socket = socket.create_connection((host, port), seconds)
        self.socket.setsockopt(socket.IPPROTO_TCP, socket.TCP_NODELAY, 1)
        self.ids = itertools.count(1)
        self.bytes = bytearray()
        self.answers = {}
        self.events = deque()
        try:
            self.call("hello", version=2)
        except BaseException:
            self.close()  # as where the server has no place for another connection
            raise

    def __enter__(self):
        return self

    def __exit__(self, *_):
        self.close()

    def close(self):
        """Ends the session. Nothing can be asked later."""
        self.socket.close()

    # Requests and answers. Several requests may be on their way at once.

    def send(self, op, **keys):
        """Sends a request, doesn't wait, and gives its id. ValueError where it is no JSON, or too long."""
        number = next(self.ids)
        request = {"id": number, "op": op, **keys}
        payload = json.dumps(request, ensure_ascii=False, allow_nan=False, separators=(",", ":")).encode()
        if len(payload) > LONGEST_REQUEST:
            raise ValueError(f"a request of {len(payload)} bytes, where {LONGEST_REQUEST} are the most")
        try:
            self.socket.sendall(struct.pack(">I", len(payload)) + payload)
        except BaseException:
            self.end()  # a part of the frame may be sent, and nothing can follow that
            raise
        return number

    def wait(self, number):
        """The answer to the request of this id, once it is there: its `ok`, as docs/PROTOCOL.md has it. Or it raises
        Refused."""
        while number not in self.answers:
            self.receive()
        answer = self.answers.pop(number)
        if "fault" in answer:
            raise refusal(answer["fault"])
        return answer["ok"]

    def call(self, op, **keys):
        """Sends a request, and gives its answer as `wait` does."""
        return self.wait(self.send(op, **keys))

    def receive(self):
        """Reads one frame, which is a length in 4 bytes and an answer or event, and keeps that."""
        while len(self.bytes) < 4 or len(self.bytes) < 4 + struct.unpack_from(">I", self.bytes)[0]:
            piece = self.socket.recv(65_536)
            if not piece:
                raise ConnectionError("the server closed the connection")
            self.bytes += piece
        end = 4 + struct.unpack_from(">I", self.bytes)[0]
        said = json.loads(self.bytes[4:end])
        del self.bytes[:end]
        if "event" in said:
            told = said["event"]
            self.events.append(Event(told["lease"], told["seq"], told["handback"]))
        elif said["id"] is None:
            raise refusal(said["fault"])
        else:
            self.answers[said["id"]] = said

    def end(self):
        """Ends the connection both ways, so that whatever is asked or awaited raises ConnectionError."""
        with suppress(OSError):
            self.socket.shutdown(socket.SHUT_RDWR)

    # Classes and spaces.

    def declare(self, name, /, parent=None, **kinds):
        """Declares a class for all spaces: each field's kind is "int", "text" or "bool". To declare what is declared
        already, with the same parent and fields, changes nothing."""
        self.call("declare", **{"class": name, "parent": parent, "fields": kinds})

    def spaces(self):
        """The names of the spaces."""
        return self.call("spaces")

    def reset(self, space):
        """Removes a space's entries, registrations and match sets. Transactions that used it can't be committed."""
        self.call("reset", space=space)

    # Entries. Their leases are for the caller to choose: an entry is gone when its lease ends.

    def write(self, space, what, lease, txn=None):
        """Writes an entry, and gives its Lease."""
        return self.granted("write", space=space, entry=what, lease=lease, txn=number_of(txn))

    def write_all(self, space, entries, lease, txn=None):
        """Writes 1 to 64 entries in one step, and gives the Lease of each."""
        batch = self.call("write_all", space=space, entries=entries, lease=lease, txn=number_of(txn))
        return [Lease(number, batch["ms"]) for number in batch["leases"]]

    def read(self, space, template, timeout=0, txn=None):
        """The Fields of an entry that matches, or None where there is none within the time. A template of None matches
        every entry."""
        return self.found("read", space, template, timeout, txn)

    def take(self, space, template, timeout=0, txn=None):
        """As `read`, and the entry is gone."""
        return self.found("take", space, template, timeout, txn)

    def read_if(self, space, template, timeout=0, txn=None):
        """As `read`, but it waits only while a transaction holds up an entry that matches."""
        return self.found("read_if", space, template, timeout, txn)

    def take_if(self, space, template, timeout=0, txn=None):
        """As `read_if`, and the entry is gone."""
        return self.found("take_if", space, template, timeout, txn)

    def take_many(self, space, templates, most=16, timeout=0, txn=None):
        """Takes the entries that match any of 1 to 8 templates, at most so many (1 to 16), in one step. It gives the
        list of their Fields, which is empty where there is none within the time."""
        keys = {"templates": templates, "most": most, "timeout": timeout, "txn": number_of(txn)}
        return [Fields(shown) for shown in self.call("take_many", space=space, **keys) or ()]

    def contents(self, space, template, lease=60_000, most=16, txn=None):
        """The Fields of each entry that matches, page by page: all that stay, and each once, while others write and
        take. It raises Refused where it goes on after its lease."""
        opened = self.granted("contents", space=space, template=template, lease=lease, txn=number_of(txn))
        try:
            page = {"end": False}
            while not page["end"]:
                page = self.call("next", set=opened.number, most=most)
                yield from map(Fields, page["entries"])
        finally:
            with suppress(Refused, OSError):  # one that can't be closed ends with its lease
                self.call("close_set", set=opened.number)

    # Leases.

    def renew(self, lease, ms):
        """Asks that a lease last for so long from now, and gives the new Lease. A number will do for a Lease. Refused
        with number 12 says that it has ended."""
        return self.granted("renew", lease=number_of(lease), ms=ms)

    def cancel(self, lease):
        """Ends a lease now: removes its entry, registration or match set, or aborts its transaction."""
        self.call("cancel", lease=number_of(lease))

    def renew_all(self, leases, ms):
        """Renews 1 to 64 leases in one step, each for so long. It gives the new Lease of each, or the Refused in its
        place."""
        items = self.call("renew_all", leases=[[number_of(lease), ms] for lease in leases])
        return [refusal(item["fault"]) if "fault" in item else Lease(item["lease"], item["ms"]) for item in items]

    def cancel_all(self, leases):
        """Cancels 1 to 64 leases in one step. It gives None for each, or the Refused in its place."""
        items = self.call("cancel_all", leases=list(map(number_of, leases)))
        return [refusal(item["fault"]) if "fault" in item else None for item in items]

    # Events.

    def notify(self, space, template, lease, handback="", txn=None):
        """Asks for an event of each matching entry that is written from now on, and gives the registration's Lease,
        whose number its events have. They end with it, and with the connection."""
        keys = {"lease": lease, "handback": handback, "txn": number_of(txn)}
        return self.granted("notify", space=space, template=template, **keys)

    def event(self, seconds=None):
        """The next Event of any registration, or None where none came within so many seconds. Where they aren't given
        it waits without end."""
        end = None if seconds is None else time.monotonic() + seconds
        usual = self.socket.gettimeout()
        try:
            while not self.events:
                # A timeout of 0 would be another thing: it makes a socket that never waits.
                self.socket.settimeout(None if end is None else max(end - time.monotonic(), 0.001))
                self.receive()
        except TimeoutError:
            return None
        finally:
            self.socket.settimeout(usual)
        return self.events.popleft()

    def listen(self, seconds=None):
        """Each Event as it comes, until none came for so many seconds. In between other things may be asked."""
        while (event := self.event(seconds)) is not None:
            yield event

    # Transactions.

    def transaction(self, lease=60_000):
        """Begins a Transaction. When its lease ends it is aborted, so it has to last for the waits and the work."""
        return Transaction(self, lease)

    # What operations have in common.

    def granted(self, op, **keys):
        """The Lease that answers a request."""
        answer = self.call(op, **keys)
        return Lease(answer["lease"], answer["ms"])

    def found(self, op, space, template, timeout, txn):
        """The Fields of the entry that answers a request, or None."""
        shown = self.call(op, space=space, template=template, timeout=timeout, txn=number_of(txn))
        return shown and Fields(shown)


class Transaction:
    """A transaction for a `with`, which commits it at the end, or aborts it where the block raises:

        with jsp.transaction() as txn:
            job = jsp.take("a", entry("Job"), txn=txn)
            jsp.write("b", entry("Result", k=job["k"]), lease=LONGEST, txn=txn)

    Either all of it is done, in all spaces at once, or nothing. TransactionLost says that nothing is.
    """

    def __init__(self, client, lease):
        self.client = client
        self.lease = client.granted("txn", lease=lease)
        self.number = self.lease.number
        self.is_over = False

    def commit(self):
        """Commits it, and waits until that is decided. TransactionLost says that it was aborted."""
        self.is_over = True
        self.client.call("commit", txn=self.number)

    def abort(self):
        """Undoes what was done under it. TransactionLost says that it has ended already."""
        self.is_over = True
        self.client.call("abort", txn=self.number)

    def state(self):
        """Either "active", or "voting" once its commit was asked."""
        return self.client.call("state", txn=self.number)

    def __enter__(self):
        return self

    def __exit__(self, kind, *_):
        if self.is_over:
            return
        if kind is None:
            self.commit()
        else:
            # What the block raised is told. A transaction that can't be aborted ends with its lease.
            with suppress(Refused, OSError):
                self.abort()


def refusal(number):
    """The exception for the refusal of this number."""
    return (TransactionLost if number in TRANSACTION_LOST else Refused)(number)


def number_of(granted):
    """The number of a Lease or a Transaction. A number, or None, is given as it is."""
    return getattr(granted, "number", granted)
