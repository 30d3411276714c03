"""The program where memory, threads, connections or what it sends are refused, one by one.

    python3 refuse.py CASE LIBRARY PROGRAM..

LIBRARY is `refuse.c` compiled, and PROGRAM.. the command. `refuse.py cases` lists the cases. A case prints nothing where
all is as it should be.
"""
import mmap
import os
import struct
import subprocess
import sys
import tempfile
import threading
import time
from concurrent.futures import ThreadPoolExecutor
from pathlib import Path

TESTS = Path(__file__).parent
sys.path.insert(0, str(TESTS.parent / "clients"))
from jsp import LONGEST, Client, Refused, entry  # noqa: E402

SECONDS = 60
AT_ONCE = 2  # seconds, on a machine that does much else
GROWTHS, THREADS, ACCEPTS, SENDS = 0, 24, 48, 72  # where the control file has the three numbers of each
REASONS = 7  # why a connection is refused
NAMED = 16  # how many sessions a server names
MANY = 2**62
RETRIES = 40  # how often a growth of a script's calls is refused
TAKES = 40  # how many servers have a take of whose growths all are refused, each from another one on
LATE = 7  # for how many seconds: longer than a line waits whose session is closed
NOT_BEGUN = 2  # the status of jsp_retry where it couldn't begin


class Refusing:
    """A program that runs with the library, and the file that says what is refused."""

    def __init__(self, library, program):
        self.file = tempfile.NamedTemporaryFile()
        self.file.write(bytes(96))
        self.file.flush()
        self.control = mmap.mmap(self.file.fileno(), 96)
        self.program = program
        self.environment = {**os.environ, "LD_PRELOAD": library, "REFUSE": self.file.name}

    def refuse(self, kind, first, many=1):
        """Counts anew, and refuses so many from the first one on; none where the first is 0."""
        self.control[kind : kind + 24] = struct.pack("=QQQ", 0, first, many)

    def count(self, kind):
        return struct.unpack_from("=Q", self.control, kind)[0]

    def run(self, text, *words):
        """What it prints, what it says on standard error, and its status."""
        ran = subprocess.run(
            [*self.program, *words], input=text, capture_output=True, env=self.environment, timeout=SECONDS
        )
        return ran.stdout, ran.stderr, ran.returncode

    def listen(self, *words):
        """A server, and its address."""
        server = subprocess.Popen(
            [*self.program, "listen", "--log", "off", *words, "127.0.0.1:0", "a", "b"],
            stdin=subprocess.PIPE,
            stdout=subprocess.PIPE,
            stderr=subprocess.PIPE,
            env=self.environment,
        )
        host, port = server.stdout.readline().split()[1].decode().rsplit(":", 1)
        return server, (host, int(port))


def scripts(refusing):
    """Each growth of a script is refused: it prints what it prints else, or nothing and that memory is wanting."""
    names = ["events", "frames", "goodbye", "interrupted", "leases", "listing", "subclasses", "transfer", "workers"]
    names.append("tests/an_if_form_waits_for_a_conflict")
    for name in names:
        text = (TESTS.parent / f"{name}.script").read_bytes()
        printed = (TESTS.parent / f"{name}.expected").read_bytes()
        wanted = {(printed, b"", 0), (b"", b"jsp: out of memory\n", 1)}
        refusing.refuse(GROWTHS, 0)
        assert refusing.run(text, "script", "a", "b") == (printed, b"", 0), name
        growths = refusing.count(GROWTHS)
        assert growths > 100, (name, growths)
        for growth in range(1, growths + 1):
            refusing.refuse(GROWTHS, growth)
            ran = refusing.run(text, "script", "a", "b")
            assert ran in wanted, (name, growth, ran)


def audits(refusing):
    """With --audit a script is replayed before anything is printed, and prints the same. That takes memory."""
    for name in ["events", "listing", "workers"]:
        text = (TESTS.parent / f"{name}.script").read_bytes()
        printed = (TESTS.parent / f"{name}.expected").read_bytes()
        growths = []
        for words in ([], ["--audit"]):
            refusing.refuse(GROWTHS, 0)
            assert refusing.run(text, "script", *words, "a", "b") == (printed, b"", 0), name
            growths.append(refusing.count(GROWTHS))
        assert growths[1] > growths[0], (name, growths)


def is_cut(work):
    """Does the work, as far as its line goes. A request that brings neither an answer nor an end of the line fails."""
    try:
        work()
        return False
    except ConnectionError:
        return True


def connect(address):
    client = Client(*address)
    client.socket.settimeout(SECONDS)
    return client


class Course:
    """What two clients do in a round: an entry goes from one to the other, and another moves between the spaces."""

    def __init__(self, address, number):
        self.address = address
        self.job, self.coin = entry("Job", k=number), entry("Coin", k=number)
        self.is_written = self.is_taken = self.is_moved = False
        self.txn = None

    def first(self):
        with connect(self.address) as jsp:
            jsp.declare("Job", k="int")
            jsp.declare("Coin", k="int")
            jsp.write("a", self.coin, lease=LONGEST)
            jsp.write("a", self.job, lease=LONGEST)
            self.is_written = True
            jsp.notify("b", self.coin, lease=1_000)
            list(jsp.contents("a", self.job))
            self.txn = jsp.call("txn", lease=60_000)["lease"]
            jsp.take("a", self.coin, txn=self.txn)
            jsp.write("b", self.coin, lease=LONGEST, txn=self.txn)
            jsp.call("commit", txn=self.txn)
            self.is_moved = True

    def second(self):
        with connect(self.address) as jsp:
            jsp.declare("Job", k="int")
            self.is_taken = jsp.take("a", self.job, timeout=10) is not None

    def check(self):
        """A third client finds just what the two were told."""
        with connect(self.address) as jsp:
            jsp.declare("Job", k="int")
            jsp.declare("Coin", k="int")
            is_left = jsp.take("a", self.job) is not None
            assert not (self.is_taken and is_left), "an entry was taken twice"
            assert self.is_taken or is_left or not self.is_written, "an entry was lost"
            spaces = self.coins(jsp)
            assert len(spaces) == 1 or not self.is_written, f"a transfer left its coin in {spaces}"
            assert spaces == ["b"] or not self.is_moved, "a commit was lost"

    def coins(self, jsp):
        """In which spaces the coin is, once the transaction has ended."""
        if self.txn and not self.is_moved:
            try:
                jsp.call("abort", txn=self.txn)
            except Refused:
                pass
        spaces = []
        for _ in range(100):
            spaces += [space for space in "ab" if jsp.take(space, self.coin)]
            if spaces or not self.is_written:
                break
            time.sleep(0.01)
        return spaces


def served(refusing):
    """Each growth of a served course is refused: what is answered is so, and the others are served."""
    server, address = refusing.listen()
    course = Course(address, 0)
    refusing.refuse(GROWTHS, 0)
    course.first()
    course.second()
    growths = refusing.count(GROWTHS)
    assert growths > 100, growths
    cut = 0
    for growth in range(1, growths + 1):
        course = Course(address, growth)
        refusing.refuse(GROWTHS, growth)
        cut += is_cut(course.first) + is_cut(course.second)
        refusing.refuse(GROWTHS, 0)
        course.check()
    assert cut > 0
    server.kill()


def famine(refusing):
    """From some growth on all are refused for a while: who met it is answered late or cut, and then all is as was told."""
    server, address = refusing.listen()
    Course(address, 0).first()
    cut = 0
    for growth in range(1, 200, 5):
        course = Course(address, growth)
        refusing.refuse(GROWTHS, growth, MANY)
        end = threading.Timer(0.1, refusing.refuse, (GROWTHS, 0))
        end.start()
        cut += is_cut(course.first) + is_cut(course.second)
        end.join()
        course.check()
    assert cut > 0
    server.kill()


def late(refusing):
    """From some growth of a take on all are refused for many seconds, at a server of its own each: who has taken the entry
    is told so once there is memory, and where nobody is told so it is still there."""
    library, program = refusing.environment["LD_PRELOAD"], refusing.program
    with ThreadPoolExecutor(TAKES) as pool:
        waits = list(pool.map(lambda first: take_while_refused(Refusing(library, program), first), range(1, TAKES + 1)))
    assert max(waits) > LATE - AT_ONCE, waits


def take_while_refused(refusing, first):
    """How many seconds a take waits for its answer, of whose growths all are refused from this one on for a while; 0 where
    its line ends."""
    server, address = refusing.listen()
    job, taken = entry("Job", k=1), []
    with connect(address) as jsp:
        jsp.declare("Job", k="int")
        jsp.write("a", job, lease=LONGEST)
        refusing.refuse(GROWTHS, first, MANY)
        end = threading.Timer(LATE, refusing.refuse, (GROWTHS, 0))
        end.start()
        began = time.monotonic()
        is_ended = is_cut(lambda: taken.append(jsp.take("a", job)))
        waited = time.monotonic() - began
        end.join()
    with connect(address) as jsp:
        jsp.declare("Job", k="int")
        left = jsp.take("a", job)
    server.kill()
    assert [*taken, left] == ([{"k": 1}] if is_ended else [{"k": 1}, None]), (first, taken, left)
    return 0 if is_ended else waited


def write_while_refused(refusing, address, first, many, is_met):
    """A client writes while growths are refused, from its request on where it was met before, else from its connection
    on. It asks once more where none is: a line has ended of which something found no memory."""
    if not is_met:
        refusing.refuse(GROWTHS, first, many)
    with connect(address) as jsp:
        jsp.declare("Job", k="int")
        if is_met:
            refusing.refuse(GROWTHS, first, many)
        jsp.write("a", entry("Job", k=1), lease=LONGEST)
        refusing.refuse(GROWTHS, 0)
        jsp.take("a", entry("Job", k=1))


def ended(refusing):
    """Memory is wanting for a while, at each growth of a request in turn and then wholly, beside two clients that work
    before and after it. At its end the server has compared the lines of all but those that it cut, and names these."""
    server, address = refusing.listen("--until-input")
    cut = []
    with connect(address) as first, connect(address) as second:
        first.declare("Job", k="int")
        second.declare("Job", k="int")
        session = 2
        for growth, many in [(growth, 1) for growth in range(1, 41)] + [(1, MANY), (5, MANY)]:
            first.write("b", entry("Job", k=growth), lease=LONGEST)
            session += 1
            if is_cut(lambda: write_while_refused(refusing, address, growth, many, is_met=True)):
                cut.append(session)
            refusing.refuse(GROWTHS, 0)
            assert second.take("b", entry("Job", k=growth), timeout=10) == {"k": growth}, growth
    said = server.communicate(b"\n", SECONDS)[1].decode()
    assert cut, session
    named = ", ".join(map(str, cut[:NAMED])) + (f" and {len(cut) - NAMED} more" if len(cut) > NAMED else "")
    compared = f"jsp: compared {session - len(cut)} lines\n"
    wanted = f"{compared}jsp: not compared, since memory was short: session {named}\n"
    assert (said, server.returncode) == (wanted, 1), (said, wanted, server.returncode)


def unmet(refusing):
    """Memory is wanting at each growth from a connection on, so that some clients are met and others aren't. At its end
    the server has compared the lines of all that it served, whatever became of the others."""
    server, address = refusing.listen("--until-input")
    write_and_take(address)  # so that all of the server's threads are there
    served = 0
    growths = range(1, 60)
    for growth in growths:
        served += not is_cut(lambda: write_while_refused(refusing, address, growth, 1, is_met=False))
        refusing.refuse(GROWTHS, 0)
    said = server.communicate(b"\n", SECONDS)[1].decode()
    compared, *others = said.splitlines()
    assert served < len(growths), served
    assert int(compared.removeprefix("jsp: compared ").removesuffix(" lines")) >= served, (served, said)
    short = [line for line in others if line.startswith("jsp: not compared, since memory was short: session ")]
    assert len(short) == server.returncode, (said, server.returncode)


def write_and_take(address):
    with connect(address) as jsp:
        jsp.declare("Job", k="int")
        jsp.write("a", entry("Job", k=1), lease=LONGEST)
        assert jsp.take("a", entry("Job", k=1)) == {"k": 1}


def threads(refusing):
    """A connection that gets no thread, or none for what others cause, is closed at once, and the next is served."""
    server, address = refusing.listen("--until-input")
    write_and_take(address)
    for first in (1, 2):
        for _ in range(5):
            refusing.refuse(THREADS, first, MANY)
            began = time.monotonic()
            assert is_cut(lambda: write_and_take(address)), first
            assert time.monotonic() - began < AT_ONCE, first
        refusing.refuse(THREADS, 0)
        write_and_take(address)
    said = server.communicate(b"\n", SECONDS)[1]
    assert (said, server.returncode) == (b"jsp: compared 13 lines\n", 0), (said, server.returncode)


def lonely(refusing):
    """A server for whose first connection there are no threads doesn't listen, and one that can't settle serves nobody."""
    words = ["listen", "--log", "off", "127.0.0.1:0", "a"]
    for first in range(1, 4):
        refusing.refuse(THREADS, first, MANY)
        told = b"jsp: no threads are left for a connection\n"
        assert refusing.run(b"", *words) == (b"", told, 1), first
    refusing.refuse(THREADS, 4, MANY)
    out, told, status = refusing.run(b"", *words)
    assert out.startswith(b"listening ") and (told, status) == (b"jsp: cannot serve\n", 1), (out, told, status)
    # It settles once a thread can be had again. One more is started before, which reads the input.
    refusing.refuse(THREADS, 5, 3)
    server, address = refusing.listen("--until-input")
    write_and_take(address)
    said = server.communicate(b"\n", SECONDS)[1]
    assert (said, server.returncode) == (b"jsp: compared 1 lines\n", 0), (said, server.returncode)


def accepts(refusing):
    """No connection can be taken, for each reason in turn: the listener takes the next, and is at no fault."""
    server, address = refusing.listen("--until-input")
    refusing.refuse(ACCEPTS, 1, 2 * REASONS)
    # The listener waits for this one already.
    write_and_take(address)
    write_and_take(address)
    assert refusing.count(ACCEPTS) > 2 * REASONS, refusing.count(ACCEPTS)
    said = server.communicate(b"\n", SECONDS)[1]
    assert (said, server.returncode) == (b"jsp: compared 2 lines\n", 0), (said, server.returncode)


def sends(refusing):
    """Of what is sent a connection takes one byte at a time: all of it comes, and in order."""
    server, address = refusing.listen("--until-input")
    refusing.refuse(SENDS, 1, MANY)
    course = Course(address, 0)
    course.first()
    course.second()
    course.check()
    assert course.is_moved and course.is_taken
    assert refusing.count(SENDS) > 500, refusing.count(SENDS)
    said = server.communicate(b"\n", SECONDS)[1]
    assert (said, server.returncode) == (b"jsp: compared 3 lines\n", 0), (said, server.returncode)


def shell(refusing):
    """Each growth of a shell client is refused, alone and with all that follow it: it says that memory is wanting. Where its
    thread is refused, or a growth for it, it says that."""
    server, (host, port) = Refusing(refusing.environment["LD_PRELOAD"], refusing.program).listen()
    words = ["client", f"{host}:{port}"]
    text = b'declare Job k:int who:text\nwrite a Job who="ann lee"\n{"op":"spaces"}\nspaces\n'
    refusing.refuse(GROWTHS, 0)
    out, told, status = refusing.run(text, *words)
    assert (len(out.splitlines()), told, status) == (4, b"", 0), (out, told, status)
    growths = refusing.count(GROWTHS)
    assert growths > 100, growths
    no_thread = (b"", b"jsp: cannot read standard input in a thread\n", 1)
    wanting = 0
    for many in (1, MANY):
        for growth in range(1, growths + 1):
            refusing.refuse(GROWTHS, growth, many)
            out, told, status = refusing.run(text, *words)
            if (out, told, status) == no_thread:
                wanting += 1
            elif b"out of memory\n" in told:
                assert status == 1, (growth, many, status)
                wanting += 1
            else:
                # What the server said came in fewer pieces.
                assert (len(out.splitlines()), told, status) == (4, b"", 0), (growth, many, out, told, status)
    assert wanting > growths, (wanting, growths)
    refusing.refuse(GROWTHS, 0)
    refusing.refuse(THREADS, 1)
    assert refusing.run(text, *words) == no_thread
    server.kill()


def opened_in_order(text):
    numbers = [int(line.split()[1]) for line in text.decode().splitlines() if line.startswith("open ")]
    return numbers == list(range(1, len(numbers) + 1))


def retried(refusing):
    """Growths of calls of a house alone, and of one with its history, are refused: a call that is stopped is made again,
    or what it left is finished, and all is answered as else. Scripts with bytes that are no frames are left out."""
    program = Path(refusing.program[0]).parents[2] / "jsp_retry" / "out" / "jsp_retry"
    retrying = Refusing(refusing.environment["LD_PRELOAD"], [program])
    paths = sorted([*TESTS.parent.glob("*.script"), *TESTS.glob("*.script")])
    texts = {path: path.read_bytes() for path in paths}
    for house in ("hall", "rows", "kept"):
        unmade, made, runs = 0, 0, 0
        for path, text in texts.items():
            if b"\nhex " in text or (house == "kept" and not opened_in_order(text)):
                continue
            printed = path.with_suffix(".expected").read_bytes()
            retrying.refuse(GROWTHS, 0)
            assert retrying.run(text, house) == (printed, b"0 0\n", 0), (house, path)
            growths = retrying.count(GROWTHS)
            step = max(1, growths // RETRIES)
            for growth in range(1 + runs % step, growths + 1, step):
                runs += 1
                retrying.refuse(GROWTHS, growth)
                out, told, status = retrying.run(text, house)
                if status == NOT_BEGUN:
                    assert out == b"", (house, path, growth, out)
                    continue
                assert (out, status) == (printed, 0), (house, path, growth, out, told, status)
                counts = told.split()
                unmade, made = unmade + int(counts[0]), made + int(counts[1])
        assert unmade > runs // 4 and made > 0, (house, unmade, made, runs)


CASES = [scripts, audits, served, famine, late, ended, unmet, threads, lonely, accepts, sends, shell, retried]
CASES = {case.__name__: case for case in CASES}

if __name__ == "__main__":
    if sys.argv[1] == "cases":
        print(*CASES, sep="\n")
    else:
        CASES[sys.argv[1]](Refusing(sys.argv[2], sys.argv[3:]))
