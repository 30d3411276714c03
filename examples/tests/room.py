"""A server that is started with few descriptors or threads, and one that has no thread left for a
connection.

    python3 room.py PROGRAM..

Where a first connection can't be served the server says so at its start, and ends with status 1. Where
one more can't, that one is closed at once, as one above --connections is. It prints nothing where all is
as it should be.

The system counts the threads of a user, and those of root without a limit. So where root runs this,
servers run under a user's number that nobody has; else what is asked of threads is passed over.
"""
import os
import resource
import shutil
import subprocess
import sys
import tempfile
import time
from contextlib import contextmanager
from pathlib import Path

sys.path.insert(0, str(Path(__file__).parent.parent / "clients"))
from jsp import Client  # noqa: E402

SECONDS = 60
AT_ONCE = 2  # seconds, on a machine that does much else
NOBODY = 54_321
NO_DESCRIPTOR = b"jsp: no descriptor is left for a connection: "
NO_THREADS = b"jsp: no threads are left for a connection\n"


def descriptors_for(count):
    """What a server does first that may have so many descriptors."""
    return lambda: resource.setrlimit(resource.RLIMIT_NOFILE, (count, count))


def threads_for(count):
    """What a server does first that may have so many threads, its first one among them."""

    def limit():
        resource.setrlimit(resource.RLIMIT_NPROC, (count, count))
        os.setgroups([])
        os.setgid(NOBODY)
        os.setuid(NOBODY)

    return limit


def start(program, limit, *options):
    return subprocess.Popen(
        [*program, "listen", "--log", "off", *options, "127.0.0.1:0", "a", "b"],
        stdin=subprocess.PIPE,
        stdout=subprocess.PIPE,
        stderr=subprocess.PIPE,
        preexec_fn=limit,
    )


def says_so(program, limit, told, *options):
    """It doesn't listen, says why, and ends with status 1. Its input stays open, or what reads that might have ended
    before threads are looked for."""
    with start(program, limit, *options) as server:
        status = server.wait(timeout=SECONDS)
        ended = status, server.stdout.read(), server.stderr.read()
    assert ended[:2] == (1, b"") and ended[2].startswith(told), ended


@contextmanager
def serving(program, limit, *options):
    """A server, and its address. At the end it is killed."""
    server = start(program, limit, *options)
    try:
        line = server.stdout.readline().split()
        assert line[:1] == [b"listening"], (line, server.communicate(timeout=SECONDS))
        host, port = line[1].decode().rsplit(":", 1)
        yield server, (host, int(port))
    finally:
        server.kill()
        server.wait()


def is_served(address):
    """Whether a client is served, and how long it took to know."""
    began = time.monotonic()
    try:
        with Client(*address) as jsp:
            jsp.socket.settimeout(SECONDS)
            assert jsp.spaces() == ["a", "b"]
        served = True
    except ConnectionError:
        served = False
    return served, time.monotonic() - began


def becomes_served(address):
    """Threads that have just ended may still be counted for a moment."""
    for _ in range(100):
        if is_served(address)[0]:
            return True
        time.sleep(0.05)
    return False


def starts_with_few_descriptors(program):
    for options, least in ((), 5), (("--until-input",), 6):
        says_so(program, descriptors_for(least - 1), NO_DESCRIPTOR, *options)
        with serving(program, descriptors_for(least), *options) as (_, address):
            assert is_served(address)[0], (options, least)


def starts_with_few_threads(program):
    """One is the first, one settles, and a connection has two; what runs beside has one each."""
    status = "--status", "127.0.0.1:0"
    for options, beside in ((), 0), (("--until-input",), 1), (("--until-input", *status), 2):
        for few in range(1, 4):
            says_so(program, threads_for(few + beside), NO_THREADS, *options)
        with serving(program, threads_for(4 + beside), *options) as (_, address):
            assert becomes_served(address), options


def has_no_thread_left(program):
    """Two connections are served; further ones find one thread or none, and are closed one after another
    at once. Once one of the two has left another is served."""
    for left in (0, 1):
        with serving(program, threads_for(7 + left), "--until-input") as (server, address):
            first, second = Client(*address), Client(*address)
            for _ in range(20):
                served, seconds = is_served(address)
                assert not served and seconds < AT_ONCE, (left, served, seconds)
            assert first.spaces() == second.spaces() == ["a", "b"]
            first.close()
            assert becomes_served(address)
            assert second.spaces() == ["a", "b"]
            second.close()
            told = server.communicate(b"\n", timeout=SECONDS)[1]
            ended = server.returncode, told
            assert ended[0] == 0 and told.startswith(b"jsp: compared "), ended


def main(program):
    starts_with_few_descriptors(program)
    if os.geteuid() != 0:
        return
    with tempfile.TemporaryDirectory() as folder:
        # Whoever runs the server has to reach it.
        os.chmod(folder, 0o755)
        copy = shutil.copy(program[-1], folder)
        os.chmod(copy, 0o755)
        starts_with_few_threads([*program[:-1], copy])
        has_no_thread_left([*program[:-1], copy])


main(sys.argv[1:])
