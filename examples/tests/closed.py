"""Each job of the program where standard input, output or error is closed: nothing else is read or written in its place.

    python3 closed.py PROGRAM

It prints nothing where all is as it should be.
"""
import os
import socket
import subprocess
import sys
import time
from contextlib import contextmanager
from pathlib import Path

sys.path.insert(0, str(Path(__file__).parent.parent / "clients"))
from jsp import LONGEST, Client, entry  # noqa: E402

INPUT, OUTPUT, ERROR = range(3)
SECONDS = 60
BAD_REQUEST = 'open 1\nsend 1 x\n'
FAULT = '1 {"fault":1,"id":null}\n'


def run(words, closed, given=""):
    """The status, standard output and standard error of a run with one of them closed, whose text is empty then."""
    done = subprocess.run(
        words, input=given, capture_output=True, text=True, timeout=SECONDS, preexec_fn=lambda: os.close(closed)
    )
    return done.returncode, done.stdout, done.stderr


def same(seen, wanted):
    assert seen == wanted, f"{seen!r}, where {wanted!r} was to be"


@contextmanager
def server(program):
    """A server whose streams are open, with one entry in a."""
    words = [program, "listen", "--log", "off", "--until-input", "127.0.0.1:0", "a", "b"]
    with subprocess.Popen(
        words, stdin=subprocess.PIPE, stdout=subprocess.PIPE, stderr=subprocess.PIPE, text=True
    ) as process:
        address = process.stdout.readline().removeprefix("listening ").strip()
        host, port = address.rsplit(":", 1)
        with Client(host, int(port)) as jsp:
            jsp.declare("Job", k="int")
            jsp.write("a", entry("Job", k=1), lease=LONGEST)
            yield address, jsp
        _, told = process.communicate("\n", timeout=SECONDS)
        assert process.returncode == 0 and told.startswith("jsp: compared 2 lines"), told


def a_script(program):
    words = [program, "script", "a"]
    same(run(words, INPUT), (0, "", ""))
    same(run(words, OUTPUT, BAD_REQUEST), (0, "", ""))
    same(run(words, ERROR, BAD_REQUEST), (0, FAULT, ""))
    same(run(words, ERROR, "what\n"), (1, "", ""))


def a_client(program):
    with server(program) as (address, _):
        same(run([program, "client", address], INPUT), (0, "", ""))
    with server(program) as (address, jsp):
        same(run([program, "client", address, "take a Job"], OUTPUT), (0, "", ""))
        same(jsp.read("a", None), None)
    with server(program) as (address, _):
        given = 'take c\nspaces\n'
        same(run([program, "client", address], ERROR, given), (1, '{"fault":5,"id":1}\n{"id":2,"ok":["a","b"]}\n', ""))


def free_port():
    with socket.socket() as found:
        found.bind(("127.0.0.1", 0))
        return found.getsockname()[1]


def a_server(program):
    listen = [program, "listen", "--log", "off", "--until-input", "127.0.0.1:0", "a"]
    status, said, told = run(listen, INPUT)
    assert status == 0 and said.startswith("listening 127.0.0.1:") and told.startswith("jsp: compared 0 lines"), said
    for closed in (OUTPUT, ERROR):
        port = free_port()
        words = [program, "listen", "--log", "off", "--lines", "1", f"127.0.0.1:{port}", "a"]
        with subprocess.Popen(
            words, stdout=subprocess.PIPE, stderr=subprocess.PIPE, text=True, preexec_fn=lambda: os.close(closed)
        ) as process:
            for _ in range(200):
                try:
                    with Client("127.0.0.1", port) as jsp:
                        same(jsp.spaces(), ["a"])
                    break
                except ConnectionRefusedError:
                    time.sleep(0.05)
            said, told = process.communicate(timeout=SECONDS)
            same(process.returncode, 0)
            assert closed == OUTPUT or said == f"listening 127.0.0.1:{port}\n", said
            assert closed == ERROR or told.startswith("jsp: compared 1 lines"), told


if __name__ == "__main__":
    for case in (a_script, a_client, a_server):
        case(sys.argv[1])
