"""What one client holds or chooses doesn't make a request, or a server's end, slow.

    python3 costly.py CASE PROGRAM

Each case runs the program with and without what might be costly, and compares their times, which differ by tens of
times where it is. It prints nothing where all is as it should be. `costly.py cases` lists the cases.
"""
import ctypes
import json
import random
import struct
import subprocess
import sys
import time
from pathlib import Path

sys.path.insert(0, str(Path(__file__).parent.parent / "clients"))
from jsp import Client  # noqa: E402

HOUR = 3_600_000
SECONDS = 60


class Session:
    """The lines of a script, of one session over a space."""

    def __init__(self):
        self.lines = ["open 1"]
        self.asked = 0
        self.send(op="declare", **{"class": "Job"}, fields={"k": "int", "who": "text"})

    def send(self, **request):
        self.asked += 1
        self.lines.append(f"send 1 {json.dumps({'id': self.asked, **request})}")

    def write(self, fields, **under):
        self.send(op="write", space="a", entry={"class": "Job", "fields": fields}, lease=HOUR, **under)

    def find(self, op, fields, **under):
        self.send(op=op, space="a", template={"class": "Job", "fields": fields}, timeout=0, **under)

    def seconds(self, program, *flags):
        """How long the script takes."""
        began = time.monotonic()
        subprocess.run(
            [program, "script", *flags, "a"], input="\n".join(self.lines).encode(), stdout=subprocess.DEVNULL,
            check=True, timeout=600,
        )
        return time.monotonic() - began


def holds_many(program):
    """A transaction that holds three thousand entries finds another before them, and behind 30,000 that somebody else
    has written, as soon as one that holds ten does."""
    def seconds(held):
        session = Session()
        # The house numbers what it grants: the two transactions are 1 and 2.
        session.send(op="txn", lease=HOUR)
        session.send(op="txn", lease=HOUR)
        for k in range(30_000):
            session.write({"k": k, "who": "ann"}, txn=1)
        session.write({"k": -1, "who": "ann"})
        for k in range(held):
            session.write({"k": k, "who": "bob"}, txn=2)
        for _ in range(3_000):
            session.find("read", {"who": "ann"}, txn=2)
        return session.seconds(program)

    few, many = seconds(10), seconds(3_000)
    assert many < 2 * few, (few, many)


# ---- texts that have one key under the seed 0

FACTOR = 0x9E3779B97F4A7C15
WORD = 1 << 64


def mix(key, part):
    product = (key ^ part) * FACTOR
    return product % WORD ^ product // WORD


def aimed_texts(count, name, space):
    """So many texts of sixteen bytes that have one key as values of a field, for who knows the seed."""
    key = mix(mix(mix(0, 3), space), len(name))
    for byte in name.encode():
        key = mix(key, byte)
    key = mix(key, 4 + 16)
    chosen, texts, first = random.Random(1), [], None
    while len(texts) < count:
        start = bytes(chosen.choices(range(0x20, 0x7F), k=8))
        mixed = mix(key, int.from_bytes(start, "little"))
        if first is None:
            first = mixed ^ int.from_bytes(b"mnopqrst", "little")
        end = (mixed ^ first).to_bytes(8, "little")
        if max(end) < 0x7F:
            texts.append((start + end).decode())
    return texts


def other_texts(count):
    chosen = random.Random(2)
    return ["".join(chosen.choices("abcdefghijklmnop", k=16)) for _ in range(count)]


def aims_at_a_replay(program):
    """Entries whose texts have one key under the seed 0, taken from the last one on: the replay of their script takes as
    long as that of any texts."""
    def seconds(texts):
        session = Session()
        for text in texts:
            session.write({"who": text})
        for text in reversed(texts):
            session.find("take", {"who": text})
        return session.seconds(program, "--audit")

    for space in (0, 1):
        aimed, others = seconds(aimed_texts(2_000, "who", space)), seconds(other_texts(2_000))
        assert aimed < 3 * others, (space, aimed, others)


def listen(program, *options, **how):
    server = subprocess.Popen(
        [program, "listen", "--log", "off", *options, "127.0.0.1:0", "a"], stdin=subprocess.PIPE, stdout=subprocess.PIPE,
        stderr=subprocess.PIPE, text=True, **how,
    )
    host, port = server.stdout.readline().split()[1].split(":")
    return server, (host, int(port))


def frames(requests):
    payloads = [json.dumps({"id": place + 1, **request}).encode() for place, request in enumerate(requests)]
    return b"".join(struct.pack(">I", len(payload)) + payload for payload in payloads)


def aims_at_an_end(program):
    """The same, with a server that compares its history when it ends."""
    def seconds(texts):
        server, address = listen(program, "--until-input", "--era", "1000000")
        job = {"class": "Job"}
        requests = [{"op": "declare", **job, "fields": {"who": "text"}}]
        requests += [{"op": "write", "space": "a", "entry": {**job, "fields": {"who": t}}, "lease": HOUR} for t in texts]
        requests += [
            {"op": "take", "space": "a", "template": {**job, "fields": {"who": t}}, "timeout": 0}
            for t in reversed(texts)
        ]
        with Client(*address) as client:
            client.socket.settimeout(SECONDS)
            client.socket.sendall(frames(requests))
            for _ in requests:
                size = struct.unpack(">I", client.socket.recv(4, 0x100))[0]  # MSG_WAITALL
                assert b'"ok"' in client.socket.recv(size, 0x100)
        began = time.monotonic()
        _, told = server.communicate("now\n", timeout=SECONDS)
        assert told == "jsp: compared 1 lines\n" and server.returncode == 0, told
        return time.monotonic() - began

    for space in (0, 1):
        aimed, others = seconds(aimed_texts(2_000, "who", space)), seconds(other_texts(2_000))
        assert aimed < 0.5 + 3 * others, (space, aimed, others)


# ---- a system that gives no random number

GETRANDOM, LOAD, JUMP_IF_EQUAL, RETURN = 318, 0x20, 0x15, 0x06
ALLOWED, REFUSED = 0x7FFF0000, 0x00050001
NO_NEW_PRIVILEGES, SECCOMP, FILTER = 38, 22, 2


class Instruction(ctypes.Structure):
    _fields_ = [("code", ctypes.c_uint16), ("then", ctypes.c_uint8), ("otherwise", ctypes.c_uint8), ("k", ctypes.c_uint32)]


class Program(ctypes.Structure):
    _fields_ = [("length", ctypes.c_uint16), ("instructions", ctypes.POINTER(Instruction))]


def refuse_random_numbers():
    """From here on the system call that gives them fails, in this process and what it becomes."""
    instructions = (Instruction * 4)(
        (LOAD, 0, 0, 0), (JUMP_IF_EQUAL, 0, 1, GETRANDOM), (RETURN, 0, 0, REFUSED), (RETURN, 0, 0, ALLOWED)
    )
    libc = ctypes.CDLL(None, use_errno=True)
    assert libc.prctl(NO_NEW_PRIVILEGES, 1, 0, 0, 0) == 0
    assert libc.prctl(SECCOMP, FILTER, ctypes.byref(Program(4, instructions)), 0, 0) == 0


def has_no_random_number(program):
    """The server says so at its start, and goes on."""
    server, address = listen(program, "--until-input", preexec_fn=refuse_random_numbers)
    assert "no random number" in server.stderr.readline()
    with Client(*address) as client:
        client.socket.settimeout(SECONDS)
        assert client.spaces() == ["a"]
    _, told = server.communicate("now\n", timeout=SECONDS)
    assert told == "jsp: compared 1 lines\n" and server.returncode == 0, told


CASES = (holds_many, aims_at_a_replay, aims_at_an_end, has_no_random_number)


def main():
    if sys.argv[1] == "cases":
        print(*(case.__name__ for case in CASES), sep="\n")
        return
    next(case for case in CASES if case.__name__ == sys.argv[1])(sys.argv[2])


main()
