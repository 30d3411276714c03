"""The shell client, `jsp client`: what it prints, tells and ends with.

    python3 shell.py CASE PROGRAM [HOST:PORT]

Each case is run against a server of its own, or needs none, and prints nothing where all is as it should be.
`shell.py cases` lists those with a server, with how many connections each opens, and `shell.py alone` the others. What is
to come is worked out by docs/PROTOCOL.md.
"""
import json
import os
import pty
import select
import socket
import struct
import subprocess
import sys
import tempfile
import termios
import time
from pathlib import Path

SECONDS = 60

# A person's session: each line, and what is printed before the next. The numbers of leases, transactions and match sets
# are drawn in order.
SESSION = [
    ("declare Job k:int who:text", ['{"id":1,"ok":null}']),
    ("declare Rush n:int parent=Job", ['{"id":2,"ok":null}']),
    ("write a Job k=1 who=ann lease=60000", ['{"id":3,"ok":{"lease":1,"ms":60000}}']),
    ('write a Rush k=2 n=-9 who="ann \\"lee\\"" lease=60000', ['{"id":4,"ok":{"lease":2,"ms":60000}}']),
    ("read a Job k=1", ['{"id":5,"ok":{"class":"Job","fields":{"k":1,"who":"ann"}}}']),
    ("read_if a Rush n=-9", ['{"id":6,"ok":{"class":"Rush","fields":{"k":2,"n":-9,"who":"ann \\"lee\\""}}}']),
    ("take_if a Job k=5 timeout=60000", ['{"id":7,"ok":null}']),
    ("take a Job k=1 wait=60000", ['{"id":8,"ok":{"class":"Job","fields":{"k":1,"who":"ann"}}}']),
    ("renew 2 5000", ['{"id":9,"ok":{"lease":2,"ms":5000}}']),
    ('notify a Job who="3" lease=60000 handback="my jobs"', ['{"id":10,"ok":{"lease":3,"ms":60000}}']),
    # The lease that isn't named is the server's, of a minute.
    (
        'write a Job who="3"',
        ['{"id":11,"ok":{"lease":4,"ms":60000}}', '{"event":{"handback":"my jobs","lease":3,"seq":1}}'],
    ),
    ("renew_all 2:7000 4:-1", ['{"id":12,"ok":[{"lease":2,"ms":7000},{"lease":4,"ms":60000}]}']),
    ("cancel 3", ['{"id":13,"ok":null}']),
    ("cancel_all 2 4", ['{"id":14,"ok":[{"lease":2},{"lease":4}]}']),
    ("begin lease=60000", ['{"id":15,"ok":{"lease":5,"ms":60000}}']),
    ("write b Job k=8 txn=5", ['{"id":16,"ok":{"lease":6,"ms":60000}}']),
    ("state 5", ['{"id":17,"ok":"active"}']),
    ("commit 5", ['{"id":18,"ok":null}']),
    ("take b Job k=8", ['{"id":19,"ok":{"class":"Job","fields":{"k":8,"who":null}}}']),
    ("txn", ['{"id":20,"ok":{"lease":7,"ms":60000}}']),
    ("abort 7", ['{"id":21,"ok":null}']),
    (
        'write_all b Job k=1, Job k=2 who="a, b" , Job k=3 lease=60000',
        ['{"id":22,"ok":{"leases":[8,9,10],"ms":60000}}'],
    ),
    ("contents b Job lease=60000", ['{"id":23,"ok":{"lease":11,"ms":60000}}']),
    (
        "next 11 most=2",
        [
            '{"id":24,"ok":{"end":false,"entries":[{"class":"Job","fields":{"k":1,"who":null}},'
            '{"class":"Job","fields":{"k":2,"who":"a, b"}}]}}'
        ],
    ),
    ("next 11", ['{"id":25,"ok":{"end":true,"entries":[{"class":"Job","fields":{"k":3,"who":null}}]}}']),
    ("close_set 11", ['{"id":26,"ok":null}']),
    (
        "take_many b Job k=3, Job k=1",
        ['{"id":27,"ok":[{"class":"Job","fields":{"k":1,"who":null}},{"class":"Job","fields":{"k":3,"who":null}}]}'],
    ),
    ("reset b", ['{"id":28,"ok":null}']),
    ('  {"timeout":0,"op":"read","space":"b","template":null}', ['{"id":29,"ok":null}']),
    ("take b *", ['{"id":30,"ok":null}']),
    ("hello 1", ['{"id":31,"ok":null}']),
    ("spaces", ['{"id":32,"ok":["a","b"]}']),
    ("bye", ['{"id":33,"ok":null}']),
]

# Lines for which nothing is sent, with a part of what is told.
BAD_LINES = [
    ("take", "`take` lacks `space`"),
    ("write a", "`write` lacks `entry`"),
    ("write a Job k", "`k` isn't `field=value`"),
    ("write a Job k=1 k=2", "`k` is there twice"),
    ("write a Job lease=1 lease=2", "`lease` is there twice"),
    ("write a Job lease=soon", "`soon` is no number of 64 bits"),
    ("write a Job k=9223372036854775808", "`9223372036854775808` is no number of 64 bits"),
    ('write a Job who="ann', "a quote isn't closed"),
    ('write a Job who="ann"lee', '`"ann"lee` is no text'),
    ("write a Job, Job", "`,` isn't `field=value`"),
    ("write_all a Job,", "`` isn't an entry"),
    ("declare Job k=int", "`k=int` isn't `field:kind`"),
    ("renew 5", "`renew` lacks `ms`"),
    ("renew_all 5", "`5` isn't `lease:ms`"),
    ("cancel_all", "`cancel_all` lacks `leases`"),
    ("cancel 5 6", "`cancel` has no place for `6`"),
    ("spaces a", "`spaces` has no place for `a`"),
    ("Take a", "no operation `Take`"),
    ("help Take", "no operation `Take`"),
    ("help take now", "`help` has no place for `now`"),
    ('{"op":"take","space":"a","template":null}', "`take` lacks `timeout`"),
    ('{"op":"take","space":"a","template":null,"timeout":0,"wait":0}', "`take` has no place for `wait`"),
    ('{"op":"spaces","id":1}', "`id` is there, which the client gives"),
    ('{"op":"begin","lease":1}', "no operation `begin`"),
    ('{"op":"list","space":"a","template":null,"lease":1}', "no operation `list`"),
    ("list", "`list` lacks `space`"),
    ("quit now", "`quit` has no place for `now`"),
    ('{"space":"a"}', "`op` is missing"),
    ('{"op":"spaces"', "not JSON: "),
    ("write a Job who=" + "x" * 1_048_577, "longer than 1048576 bytes"),
    ("write a Job who=" + "x" * 1_048_550, "longer than 1048576 bytes"),
]

# What a server refuses: the line, the answer, and what is told of it.
REFUSED = [
    ("take x", '{"fault":5,"id":1}', "refused, 5 UnknownSpace: "),
    ("write a Car", '{"fault":8,"id":2}', "refused, 8 UnknownClass: "),
    ("take a * timeout=-1", '{"fault":11,"id":3}', "refused, 11 BadTimeout: "),
    ("commit 5", '{"fault":13,"id":4}', "refused, 13 UnknownTransaction: "),
    ("next 5 most=17", '{"fault":2,"id":5}', "refused, 2 BadRequest: "),
    ("cancel_all 9", '{"id":6,"ok":[{"fault":12,"lease":9}]}', "refused, 12 UnknownLease: "),
]


# Control characters that are typed: the line, and all that is told of it. A no-break space and a letter are none.
CONTROLS = [
    ("\x1b[2J", "no operation `\\u001b[2J`; try `help`"),
    ('write a Job "\t\0\r"', '`"\\u0009\\u0000\\u000d"` isn\'t `field=value`'),
    ("spaces \x1f\x7f\x80\x9f\xa0é", "`spaces` has no place for `\\u001f\\u007f\\u0080\\u009f\xa0é`; try `help spaces`"),
]


# Requests of classes of the session: the line, its answer, none where it isn't sent, and a part of what is told. `Rush`
# is below `Job`, which is declared already. `Car` isn't declared.
UNFIT = [
    ("write a Job k=ann", '{"fault":9,"id":4}', "refused, 9 BadEntry: `k` of `Job` is int; "),
    ("take a Rush who=1", '{"fault":9,"id":5}', "refused, 9 BadEntry: `who` of `Rush` is text; "),
    ("take_many a Job k=1, Rush n=true", '{"fault":9,"id":6}', "refused, 9 BadEntry: `n` of `Rush` is int; "),
    (
        '{"op":"take","space":"a","template":{"class":"Rush","fields":{"timeot":null}},"timeout":0}',
        '{"fault":9,"id":7}',
        "refused, 9 BadEntry: `Rush` has no field `timeot`; give ",
    ),
    (
        '{"op":"take","space":"a","template":{"class":"Job","fields":{"x":1}},"timeout":0}',
        '{"fault":9,"id":8}',
        "refused, 9 BadEntry: `Job` has no field `x`; ",
    ),
    ("take a Job timeot=5", None, "`Job` has no field `timeot`; did you mean `timeout=`?"),
    ("take a Job k=1 wiat=5", None, "`Job` has no field `wiat`; did you mean `wait=`?"),
    ("write a Rush hwo=ann", None, "`Rush` has no field `hwo`; did you mean `who=`?"),
    ("write_all a Job k=1, Job leese=5", None, "`Job` has no field `leese`; did you mean `lease=`?"),
    ("write a Job k=ann colour=red", None, "`Job` has no field `colour`"),
    ("write a Job kk=1 " + "x" * 100_000 + "=1", None, "`Job` has no field `kk`"),
    ("take a Car timeot=5", '{"fault":8,"id":9}', "refused, 8 UnknownClass: "),
    # What is refused declares nothing.
    ("declare Job k:int", '{"fault":7,"id":10}', "refused, 7 Differs: "),
    ("write a Job who=1", '{"fault":9,"id":11}', "refused, 9 BadEntry: `who` of `Job` is text; "),
]


class Shell:
    """A client whose input is written, and whose output read, as it goes on."""

    def __init__(self, program, address, *request):
        self.ran = subprocess.Popen(
            [program, "client", address, *request],
            stdin=subprocess.PIPE,
            stdout=subprocess.PIPE,
            stderr=subprocess.PIPE,
            text=True,
            bufsize=1,
        )

    def write(self, line):
        self.ran.stdin.write(line + "\n")

    def read(self):
        return self.ran.stdout.readline().rstrip("\n")

    def end(self):
        """What is left of its output, what it told, and its status."""
        out, told = self.ran.communicate(timeout=SECONDS)
        return out, told, self.ran.returncode


def run(program, address, lines, *request):
    """The output, the lines that are told and the status of a whole run."""
    text = "".join(line + "\n" for line in lines)
    ran = subprocess.run([program, "client", address, *request], input=text, capture_output=True, text=True, timeout=SECONDS)
    return ran.stdout.splitlines(), ran.stderr.splitlines(), ran.returncode


def left(numbers, by="bye"):
    """What is told of the lines of these numbers, which stand behind one that leaves the session."""
    return [f"jsp: line {number}: not sent, since the session was left by `{by}`" for number in numbers]


def same(found, wanted):
    assert found == wanted, f"found {found!r}, wanted {wanted!r}"


def each_operation(program, address):
    """A session with every operation, typed line by line. It ends by `bye`, though the input goes on."""
    shell = Shell(program, address)
    for line, printed in SESSION:
        shell.write(line)
        for wanted in printed:
            same(shell.read(), wanted)
    shell.ran.wait(SECONDS)
    same(shell.end(), ("", "", 0))


def the_session_of_the_readme(program, address):
    """What README.md shows of a session is what comes of it. A line that isn't told or printed is one that is typed."""
    text = (Path(__file__).parents[2] / "README.md").read_text()
    session = text.split("```text\n", 1)[1].split("```", 1)[0].splitlines()
    assert len(session) > 10, session
    shell = Shell(program, address)
    told = ""
    for line in session:
        if line.startswith("{"):
            same(shell.read(), line)
        elif line.startswith("jsp: "):
            told += line + "\n"
        else:
            shell.write(line)
    same(shell.end(), ("", told, 1))


def what_is_refused(program, address):
    """Each refusal is printed, and told with the number of its line. The status is 1."""
    out, told, status = run(program, address, ["# refused, all of it", "", *(line for line, _, _ in REFUSED)])
    same(out, [printed for _, printed, _ in REFUSED])
    same(len(told), len(REFUSED))
    for number, (line, (_, _, wanted)) in enumerate(zip(told, REFUSED), 3):
        assert line.startswith(f"jsp: line {number}: {wanted}"), line
        assert not line.endswith(": "), line
    same(status, 1)


def bad_lines(program, address):
    """Nothing is sent for them, and the next line is taken all the same."""
    out, told, status = run(program, address, [*(line for line, _ in BAD_LINES), "spaces"])
    same(out, ['{"id":1,"ok":["a","b"]}'])
    same(len(told), len(BAD_LINES))
    for number, (line, (_, wanted)) in enumerate(zip(told, BAD_LINES), 1):
        assert line.startswith(f"jsp: line {number}: {wanted}"), line
    same(status, 1)


def bytes_that_are_no_text(program, address):
    """A line in another encoding is told, and one with a carriage return at its end is taken, as is one at the bound."""
    at_the_bound = b'{"op":"spaces"' + b" " * (1_048_576 - 15) + b"}"
    text = b"spaces\r\n\xff\n" + at_the_bound + b"\nspaces"
    ran = subprocess.run([program, "client", address], input=text, capture_output=True, timeout=SECONDS)
    same(ran.stdout, b"".join(b'{"id":%d,"ok":["a","b"]}\n' % number for number in (1, 2, 3)))
    same((ran.stderr, ran.returncode), (b"jsp: line 2: not text in UTF-8\n", 1))


def control_characters(program, address):
    """A terminal finds none in what is told or printed, whether a line quoted them or a text of an entry has them."""
    lines = [*(line for line, _ in CONTROLS), "declare Job who:text", "write a Job who=\x1b\x7f\x9b\xa0é lease=60000", "take a Job"]
    out, told, status = run(program, address, lines)
    same(told, [f"jsp: line {number}: {wanted}" for number, (_, wanted) in enumerate(CONTROLS, 1)])
    same(out[:2], ['{"id":1,"ok":null}', '{"id":2,"ok":{"lease":1,"ms":60000}}'])
    same(out[2:], ['{"id":3,"ok":{"class":"Job","fields":{"who":"\\u001b\\u007f\\u009b\xa0é"}}}'])
    same(json.loads(out[2])["ok"]["fields"]["who"], "\x1b\x7f\x9b\xa0é")
    same(status, 1)


def an_event_comes_in_silence(program, address):
    """It is printed while standard input is open and nobody writes."""
    shell = Shell(program, address)
    shell.write("declare Job k:int")
    same(shell.read(), '{"id":1,"ok":null}')
    shell.write("notify a Job k=3 lease=60000")
    same(shell.read(), '{"id":2,"ok":{"lease":1,"ms":60000}}')
    same(run(program, address, [], "write a Job k=3 lease=60000"), (['{"id":1,"ok":{"lease":2,"ms":60000}}'], [], 0))
    same(shell.read(), '{"event":{"handback":"","lease":1,"seq":1}}')
    same(shell.end(), ("", "", 0))


def the_end_of_input_waits(program, address):
    """What waits is answered before the client ends. After `bye` it isn't, and that counts as refused."""
    began = time.monotonic()
    same(run(program, address, ["take a * timeout=300"]), (['{"id":1,"ok":null}'], [], 0))
    # The server's clock tells whole milliseconds.
    assert time.monotonic() - began > 0.298
    lines = ["take a * timeout=1000000", "bye", "spaces"]
    same(run(program, address, lines), (['{"id":2,"ok":null}'], [*left([3]), "jsp: line 1: not answered"], 1))
    same(run(program, address, []), ([], [], 0))


def quit_waits(program, address):
    """As the end of the input it waits for what is open, though the input goes on. Lines behind it aren't sent."""
    shell = Shell(program, address)
    shell.write("take a * timeout=300")
    shell.write("quit")
    shell.ran.wait(SECONDS)
    same(shell.end(), ('{"id":1,"ok":null}\n', "", 0))
    same(run(program, address, ["quit", "spaces", "", "# no more", "bye"]), ([], left([2, 5], "quit"), 1))
    same(run(program, address, ["spaces", "quit"]), (['{"id":1,"ok":["a","b"]}'], [], 0))
    same(run(program, address, [], "quit"), ([], [], 0))


def what_does_not_fit_its_class(program, address):
    """A field that a class of the session hasn't isn't sent in a short form. What else doesn't fit is named once it is
    refused. A class whose parent another session declared is only the server's to know."""
    declared = ["declare Job k:int who:text", "declare Rush n:int parent=Job", "declare Job k:int who:text"]
    out, told, status = run(program, address, [*declared, *(line for line, _, _ in UNFIT)])
    same(out[:3], ['{"id":%d,"ok":null}' % number for number in (1, 2, 3)])
    same(out[3:], [printed for _, printed, _ in UNFIT if printed])
    same(len(told), len(UNFIT))
    # What isn't sent is told without waiting for earlier answers.
    told.sort(key=lambda line: int(line.split()[2].rstrip(":")))
    for number, (line, (_, printed, wanted)) in enumerate(zip(told, UNFIT), 4):
        wanted = f"jsp: line {number}: {wanted}"
        assert line.startswith(wanted) if printed else line == wanted, line
    same(status, 1)
    out, told, status = run(program, address, ["declare Late z:int parent=Job", "take a Late timeot=5"])
    same((out, status), (['{"id":1,"ok":null}', '{"fault":9,"id":2}'], 1))
    same(len(told), 1)
    assert told[0].startswith("jsp: line 2: refused, 9 BadEntry: give it just "), told


def an_entry_must_be_found(program, address):
    """By `--must` a read or a take that finds nothing is told, and the status is 1. Other answers don't count."""
    lines = [
        "declare Job k:int",
        "write a Job k=1 lease=60000",
        "read a Job",
        "read_if a Job k=2",
        "take_many a Job k=2, Job k=3",
        '{"op":"take_if","space":"a","template":null,"timeout":0}',
        "take a Job k=1",
        "spaces",
    ]
    entry = '{"class":"Job","fields":{"k":1}}'
    found = ["null", '{"lease":1,"ms":60000}', entry, "null", "null", entry, "null", '["a","b"]']
    printed = ['{"id":%d,"ok":%s}' % answer for answer in enumerate(found, 1)]
    told = [f"jsp: line {number}: no entry" for number in (4, 5, 7)]
    same(run(program, address, lines, "--must"), (printed, told, 1))
    none = (['{"id":1,"ok":null}'], ["jsp: line 1: no entry"], 1)
    same(run(program, address, [], "--must", "take", "a", "Job"), none)
    out, told, status = run(program, address, [], "--must", "cancel_all 1")
    same((out, len(told), status), (['{"id":1,"ok":[{"fault":12,"lease":1}]}'], 1, 1))
    same(run(program, address, ["declare Job k:int", "write a Job lease=60000", "take a Job"], "--must")[2], 0)
    same(run(program, address, [], "take a *"), (['{"id":1,"ok":null}'], [], 0))


def watching(program, address):
    """Its lease is told, of an hour where none is asked, and events are printed. A client with this request alone goes on
    until it is ended; where it is refused it ends."""
    watch = Shell(program, address, "watch", "a", "Job", "k=3", "handback=three")
    same(watch.read(), '{"fault":8,"id":1}')
    watch.ran.wait(SECONDS)
    same(watch.end()[2], 1)
    same(run(program, address, [], "declare Job k:int"), (['{"id":1,"ok":null}'], [], 0))
    watch = Shell(program, address, "watch", "a", "Job", "k=3", "handback=three")
    same(watch.read(), '{"id":1,"ok":{"lease":1,"ms":3600000}}')
    session = Shell(program, address)
    session.write("watch a Job lease=60000")
    same(session.read(), '{"id":1,"ok":{"lease":2,"ms":60000}}')
    lines = ["write a Job k=3 lease=60000", "write a Job k=4 lease=60000", "write a Job k=3 lease=60000"]
    same(run(program, address, lines)[1:], ([], 0))
    for seq in (1, 2, 3):
        same(session.read(), '{"event":{"handback":"","lease":2,"seq":%d}}' % seq)
    same(session.end(), ("", "", 0))
    for seq in (1, 2):
        same(watch.read(), '{"event":{"handback":"three","lease":1,"seq":%d}}' % seq)
    same(watch.ran.poll(), None)
    watch.ran.terminate()
    same(watch.end()[:2], ("", ""))


def listing(program, address):
    """Entries are printed a line each, in the order in which they were written, over several pages and at the border of
    one. Its match set is closed behind it, and what the next line asks is printed behind it."""
    def entries(numbers):
        return ['{"class":"Job","fields":{"k":%d}}' % number for number in numbers]

    lines = ["declare Job k:int", *(f"write a Job k={number} lease=600000" for number in range(32))]
    same(run(program, address, lines)[1:], ([], 0))
    # Each listing draws a number for its match set.
    lines = ["list a Job", "spaces", "list a", "list a Job k=20", "list b", "close_set 33", "list x"]
    out, told, status = run(program, address, lines)
    same(out[:34], [*entries(range(32)), '{"id":1,"ok":null}', '{"id":2,"ok":["a","b"]}'])
    same(out[34:67], [*entries(range(32)), '{"id":3,"ok":null}'])
    same(out[67:70], [*entries([20]), '{"id":4,"ok":null}', '{"id":5,"ok":null}'])
    same(out[70:], ['{"fault":12,"id":6}', '{"fault":5,"id":7}'])
    same(([line.split(": ")[2] for line in told], status), (["refused, 12 UnknownLease", "refused, 5 UnknownSpace"], 1))
    same(run(program, address, [], "write a Job k=32 lease=600000")[1:], ([], 0))
    same(run(program, address, [], "list", "a", "Job"), ([*entries(range(33)), '{"id":1,"ok":null}'], [], 0))


class Terminal:
    """A client at a terminal that echoes nothing and changes no line's end."""

    def __init__(self, program, address):
        self.master, slave = pty.openpty()
        modes = termios.tcgetattr(slave)
        modes[1] &= ~termios.OPOST
        modes[3] &= ~termios.ECHO
        termios.tcsetattr(slave, termios.TCSANOW, modes)
        self.ran = subprocess.Popen([program, "client", address], stdin=slave, stdout=slave, stderr=slave)
        os.close(slave)
        self.shown = ""

    def type(self, text):
        os.write(self.master, text.encode())

    def shows(self, wanted):
        """It shows just this next."""
        deadline = time.monotonic() + SECONDS
        while len(self.shown) < len(wanted) and self.read(deadline):
            pass
        same(self.shown[: len(wanted)], wanted)
        self.shown = self.shown[len(wanted) :]

    def read(self, deadline):
        """Reads more of what is shown. At the end of the client there is no more."""
        ready, _, _ = select.select([self.master], [], [], max(0, deadline - time.monotonic()))
        try:
            read = os.read(self.master, 4096) if ready else b""
        except OSError:
            return False
        self.shown += read.decode()
        return read != b""

    def end(self):
        """What else it shows, and its status."""
        while self.read(time.monotonic() + SECONDS):
            pass
        os.close(self.master)
        return self.shown, self.ran.wait(SECONDS)


def at_a_terminal(program, address):
    """A prompt stands where a line may be typed. An event doesn't fall into the line that is being typed, which stays
    whole. At the end it is told what is waited for."""
    same(run(program, address, [], "declare Job k:int"), (['{"id":1,"ok":null}'], [], 0))
    terminal = Terminal(program, address)
    terminal.shows("jsp> ")
    terminal.type("spaces\n")
    terminal.shows('{"id":1,"ok":["a","b"]}\njsp> ')
    terminal.type("\n")
    terminal.shows("jsp> ")
    terminal.type("help quit\n")
    terminal.shows("quit\n")
    terminal.shows("  ends the session once all is answered, as the end of the input does\n  quit\njsp> ")
    terminal.type("spaces a\n")
    terminal.shows("jsp: line 4: `spaces` has no place for `a`; try `help spaces`\njsp> ")
    terminal.type("watch a Job\n")
    terminal.shows('{"id":2,"ok":{"lease":1,"ms":3600000}}\njsp> ')
    terminal.type("spa")
    same(run(program, address, [], "write a Job k=3 lease=60000"), (['{"id":1,"ok":{"lease":2,"ms":60000}}'], [], 0))
    terminal.shows('\n{"event":{"handback":"","lease":1,"seq":1}}\njsp> ')
    terminal.type("ces\n")
    terminal.shows('{"id":3,"ok":["a","b"]}\njsp> ')
    terminal.type("list a Job\n")
    terminal.shows('{"class":"Job","fields":{"k":3}}\n{"id":4,"ok":null}\njsp> ')
    terminal.type("take b * timeout=700\ntake b Job timeout=600\n\x04")
    terminal.shows("jsp: waits for the answers to 5 (line 8), 6 (line 9)\n")
    terminal.shows('{"id":6,"ok":null}\n{"id":5,"ok":null}\n')
    same(terminal.end(), ("", 1))


def lines_behind_bye(program, address):
    """Each that was written together with `bye` is told, and counts as refused, however often it is tried. Empty lines and
    comments don't count."""
    printed = ['{"id":1,"ok":null}']
    lines = ["bye", "spaces", "", " \t\r", "  # no more", "help", " {", "take", "take a Job # " + "x" * 3000]
    for _ in range(50):
        same(run(program, address, lines), (printed, left([2, 6, 7, 8, 9]), 1))
    same(run(program, address, ['{"op":"bye"}', "", "# no more", " "]), (printed, [], 0))
    # The last line has no end.
    ran = subprocess.run([program, "client", address], input=b"bye\n\xff", capture_output=True, timeout=SECONDS)
    same((ran.stderr.decode().splitlines(), ran.returncode), (left([2]), 1))


def much_behind_bye(program, address):
    """Of a file all lines that begin in its first 8,192 bytes are told, and maybe more, without a gap. Input that never ends
    doesn't hold up the end, and the status is 1 just where something was told."""
    with tempfile.TemporaryFile("w+") as file:
        file.write("bye\n" + "spaces\n" * 10_000)
        file.seek(0)
        ran = subprocess.run([program, "client", address], stdin=file, capture_output=True, text=True, timeout=SECONDS)
    told = ran.stderr.splitlines()
    assert len(told) >= 1170, len(told)
    same((told, ran.returncode), (left(range(2, len(told) + 2)), 1))
    for _ in range(20):
        with subprocess.Popen(["sh", "-c", "echo bye; exec yes spaces"], stdout=subprocess.PIPE) as endless:
            client = [program, "client", address]
            ran = subprocess.run(client, stdin=endless.stdout, capture_output=True, text=True, timeout=SECONDS)
            endless.kill()
        told = ran.stderr.splitlines()
        same((told, ran.returncode), (left(range(2, len(told) + 2)), 1 if told else 0))


def one_request(program, address):
    """A request that is an argument is the only one: standard input isn't read."""
    same(run(program, address, ["spaces"], "declare Job k:int"), (['{"id":1,"ok":null}'], [], 0))
    same(run(program, address, [], "write a Job k=1 lease=60000")[0], ['{"id":1,"ok":{"lease":1,"ms":60000}}'])
    same(run(program, address, [], "take a Job")[0], ['{"id":1,"ok":{"class":"Job","fields":{"k":1}}}'])
    out, told, status = run(program, address, [], "take x")
    same((out, len(told), status), (['{"fault":5,"id":1}'], 1, 1))
    out, told, status = run(program, address, [], "take")
    same((out, told[0][:20], status), ([], "jsp: line 1: `take` ", 1))
    out, told, status = run(program, address, [], "help take")
    assert out[0].startswith("take space "), out
    same((len(out), told, status), (3, [], 0))


def one_request_in_words(program, address):
    """The words of a request may be arguments of their own, also those that begin with a hyphen."""
    same(run(program, address, [], "declare", "Job", "k:int", "who:text"), (['{"id":1,"ok":null}'], [], 0))
    leased = (['{"id":1,"ok":{"lease":1,"ms":60000}}'], [], 0)
    same(run(program, address, [], "write", "a", "Job", "k=1", 'who="ann lee"'), leased)
    same(run(program, address, [], "renew", "1", "-1"), leased)
    shown = (['{"id":1,"ok":{"class":"Job","fields":{"k":1,"who":"ann lee"}}}'], [], 0)
    same(run(program, address, [], "read", "a Job", "k=1"), shown)
    same(run(program, address, [], '{"op":"take",', '"space":"a",', '"template":null,"timeout":0}'), shown)
    told = ["jsp: line 1: `--must` isn't `field=value`"]
    same(run(program, address, [], "take", "a", "Job", "--must"), ([], told, 1))


def many_at_once(program, address):
    """Ten thousand requests are written before an answer is read, and each is answered."""
    out, told, status = run(program, address, ["spaces"] * 10_000)
    same(out, ['{"id":%d,"ok":["a","b"]}' % number for number in range(1, 10_001)])
    same((told, status), ([], 0))


def help_has_each_operation(program, address):
    """All that the session above uses, and an example of each, which is understood."""
    out, told, status = run(program, address, ["help"])
    same((told, status), ([], 0))
    for line, _ in SESSION:
        word = line.strip().split()[0]
        assert word[0] == "{" or any(word in form.split()[0].split("|") for form in out if form[:2] == "  "), word
    forms = [form.split()[0].split("|")[0] for form in out if form[:2] == "  "]
    assert {"list", "watch", "quit"} < set(forms), forms
    examples = [run(program, address, [], f"help {form}")[0][2] for form in forms]
    _, told, _ = run(program, address, [example for example in examples if example.strip() not in ("bye", "quit")])
    assert all(line.split(": ")[2].startswith("refused, ") for line in told), told
    # The same is told where there is no server.
    same(subprocess.run([program, "client", "help"], capture_output=True, text=True).stdout.splitlines(), out)


def served_once(told):
    """A server of Python's that answers the first frame so, and then ends the connection; and where it listens."""
    server = socket.create_server(("127.0.0.1", 0))

    def serve():
        stream, _ = server.accept()
        with stream, server:
            (length,) = struct.unpack(">I", stream.recv(4, socket.MSG_WAITALL))
            first = json.loads(stream.recv(length, socket.MSG_WAITALL))
            same(first, {"id": 0, "op": "hello", "version": 2})
            stream.sendall(told)
            stream.shutdown(socket.SHUT_WR)
            while stream.recv(4096):
                pass

    return serve, "127.0.0.1:%d" % server.getsockname()[1]


def against(program, told):
    """What a client whose input stays open makes of it."""
    serve, address = served_once(told)
    shell = Shell(program, address)
    serve()
    shell.ran.wait(SECONDS)
    return shell.end()


def frame(payload):
    return struct.pack(">I", len(payload)) + payload


HELLO = frame(b'{"id":0,"ok":null}')


def a_server_that_goes_away(program):
    """The client says so at once, also while its input is open and silent."""
    same(against(program, HELLO), ("", "jsp: the server ended the connection\n", 1))
    same(against(program, b""), ("", "jsp: the server ended the connection\n", 1))
    same(against(program, HELLO + b"\0\0"), ("", "jsp: the server ended the connection\n", 1))


def a_server_that_sends_garbage(program):
    """What is no JSON, and a frame past the limit, end the session. An answer that nobody asked for is printed."""
    same(against(program, HELLO + frame(b"what")), ("", "jsp: the server sent what isn't JSON\n", 1))
    same(against(program, HELLO + frame(b"")), ("", "jsp: the server sent what isn't JSON\n", 1))
    same(against(program, b"\0\x10\0\1"), ("", "jsp: the server sent a frame that is too long\n", 1))
    out, told, status = against(program, frame(b'{"fault":23,"id":7}') + frame(b"[null]"))
    same(out, '{"fault":23,"id":7}\n[null]\n')
    same((told, status), ("jsp: refused, 23\njsp: the server ended the connection\n", 1))


def a_server_that_sends_control_characters(program):
    """An answer is the same JSON in one line, in which a terminal finds nothing to obey. One that has them where JSON hasn't
    isn't JSON."""
    answer = '{\r\n\t"id":7,\n"ok":"\x7f\x80\x9f\xa0é \\u001b"}\n'
    out, told, status = against(program, HELLO + frame(answer.encode()))
    same(out, '{   "id":7, "ok":"\\u007f\\u0080\\u009f\xa0é \\u001b"} \n')
    same(json.loads(out), json.loads(answer))
    same((told, status), ("jsp: the server ended the connection\n", 1))
    garbage = ("", "jsp: the server sent what isn't JSON\n", 1)
    for payload in (b'{"id":7,"ok":"\x1b"}', b'{"id":7,\x1b"ok":0}', b'{"id":7,\xc2\x9b"ok":0}', b'{"id":7,"ok":"\x9b"}'):
        same(against(program, HELLO + frame(payload)), garbage)


def help_without_a_server(program):
    """One operation, and none that there is."""
    def told(*words):
        ran = subprocess.run([program, "client", "help", *words], capture_output=True, text=True, timeout=SECONDS)
        return ran.stdout.splitlines(), ran.stderr, ran.returncode

    out, faults, status = told("take")
    same((out[0][:11], out[2], faults, status), ("take space ", "  take a Job k=1 timeout=5000", "", 0))
    assert any("rlwrap" in line for line in told()[0])
    same(told("Take"), ([], "jsp: no operation `Take`; try `help`\n", 1))
    same(told("take", "now")[::2], ([], 1))


def a_server_that_is_not_there(program):
    """The client says why, and sends nothing."""
    with socket.create_server(("127.0.0.1", 0)) as server:
        address = "127.0.0.1:%d" % server.getsockname()[1]
    for wrong in (address, "nowhere"):
        out, told, status = run(program, wrong, ["spaces"])
        same((out, len(told), status), ([], 1, 1))
        assert told[0].startswith("jsp: cannot connect: "), told


# With how many connections each opens.
CASES = {
    each_operation: 1,
    the_session_of_the_readme: 1,
    what_is_refused: 1,
    bad_lines: 1,
    bytes_that_are_no_text: 1,
    control_characters: 1,
    an_event_comes_in_silence: 2,
    the_end_of_input_waits: 3,
    lines_behind_bye: 52,
    much_behind_bye: 21,
    one_request: 6,
    one_request_in_words: 6,
    quit_waits: 4,
    what_does_not_fit_its_class: 2,
    an_entry_must_be_found: 5,
    watching: 5,
    listing: 4,
    at_a_terminal: 3,
    many_at_once: 1,
    help_has_each_operation: 29,
}

ALONE = [
    a_server_that_goes_away,
    a_server_that_sends_garbage,
    a_server_that_sends_control_characters,
    help_without_a_server,
    a_server_that_is_not_there,
]

if __name__ == "__main__":
    if sys.argv[1] == "cases":
        for case, connections in CASES.items():
            print(case.__name__, connections)
    elif sys.argv[1] == "alone":
        for case in ALONE:
            print(case.__name__)
    else:
        globals()[sys.argv[1]](*sys.argv[2:])
