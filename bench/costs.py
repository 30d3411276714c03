"""What kinds of requests cost, beside what stands: processor time of scripts, as a table in Markdown.

    python3 costs.py PROGRAM [ROUNDS] [WORDS]
    python3 costs.py goals PROGRAM [ROUNDS] [WORDS]

Each row is a script that is run with and without what is to be measured, in turn, and the median difference of their
processor times is divided by how often it was done. PROGRAM is the program itself, so that what a shell costs is not
counted. With WORDS only those rows are measured that have them in their names.

The second table is of what stands and waits, and who pays for it. Its figures are those beside nothing and beside ever
more, of which one is twice another, and each row has a goal. The memory of stored entries is that of a server, by what
it has before they are written and behind that; it begins an era each thousand steps, so that its history is small.
"""
import json
import os
import re
import statistics
import subprocess
import sys
import tempfile
from pathlib import Path

sys.path.insert(0, str(Path(__file__).parent.parent / "examples" / "clients"))
from jsp import LONGEST, Client  # noqa: E402
from jsp import entry as client_entry  # noqa: E402

HOUR = 3_600_000
# How many entries a server has before it is looked at what more of them take, and how many a request writes.
FIRST_ENTRIES, BATCH = 2_048, 64
CLASS = '{"op":"declare","class":"Job","fields":{"k":"int","who":"text"}}'


def job(value, who=None):
    named = f',"who":"{who}"' if who else ""
    return f'{{"class":"Job","fields":{{"k":{value}{named}}}}}'


def compact(value):
    return json.dumps(value, separators=(",", ":"))


def entry(name, **fields):
    """An entry of the class of this name, or a template."""
    return compact({"class": name, "fields": fields})


class Script:
    """The lines of a script. It counts the numbers that a house gives to what it stores and grants."""

    def __init__(self):
        self.lines = []
        self.sessions = 0
        self.asked = {}
        self.number = 0
        self.open()
        self.send(CLASS)

    def open(self):
        self.sessions += 1
        self.asked[self.sessions] = 0
        self.lines.append(f"open {self.sessions}")
        return self.sessions

    def send(self, request, session=1):
        self.asked[session] += 1
        self.lines.append(f'send {session} {{"id":{self.asked[session]},{request[1:]}')

    def grant(self, request, session=1):
        """A request that is given the next number."""
        self.send(request, session)
        self.number += 1
        return self.number

    def declare(self, name, parent=None, **kinds):
        below = f'"parent":"{parent}",' if parent else ""
        self.send(f'{{"op":"declare","class":"{name}",{below}"fields":{compact(kinds)}}}')

    def write(self, value, space="a", lease=HOUR, txn=None, who=None, session=1):
        return self.write_entry(job(value, who), space, lease, txn, session)

    def write_entry(self, written, space="a", lease=HOUR, txn=None, session=1):
        under = f',"txn":{txn}' if txn else ""
        return self.grant(f'{{"op":"write","space":"{space}","entry":{written},"lease":{lease}{under}}}', session)

    def write_all(self, entries):
        """Up to 64 entries. The session has to have version 2."""
        self.send(f'{{"op":"write_all","space":"a","entries":[{",".join(entries)}],"lease":{HOUR}}}')
        self.number += len(entries)

    def find(self, operation, value, space="a", timeout=0, txn=None, session=1, who=None):
        self.search(operation, "null" if value is None else job(value, who), space, timeout, txn, session)

    def search(self, operation, template, space="a", timeout=0, txn=None, session=1):
        under = f',"txn":{txn}' if txn else ""
        self.send(
            f'{{"op":"{operation}","space":"{space}","template":{template},"timeout":{timeout}{under}}}', session
        )

    def take_many(self, templates, most=16, txn=None):
        """The session has to have version 2."""
        under = f',"txn":{txn}' if txn else ""
        self.send(
            f'{{"op":"take_many","space":"a","templates":[{",".join(templates)}],"most":{most},"timeout":0{under}}}'
        )

    def notify(self, value, space="a", who=None):
        return self.grant(
            f'{{"op":"notify","space":"{space}","template":{job(value, who)},"lease":{HOUR},"handback":""}}'
        )

    def begin(self):
        return self.grant(f'{{"op":"txn","lease":{HOUR}}}')

    def commit(self, txn, spaces):
        self.send(f'{{"op":"commit","txn":{txn}}}')
        self.lines += ["settle"] * (spaces + 1)

    def standing(self, count, space="a"):
        """So many entries, each of another value."""
        for value in range(count):
            self.write(value, space)

    def waiting(self, count, first):
        """Takes of absent values that wait, 64 a session."""
        for value in range(count):
            if value % 64 == 0:
                session = self.open()
                self.send(CLASS, session)
            self.find("take", first + value, timeout=HOUR, session=session)

    def wait_for(self, jobs, operation="take"):
        """Requests of these jobs that wait, 64 a session. Each is given a number too. Nothing is declared in between,
        since that may look at all that waits."""
        for place, (value, who) in enumerate(jobs):
            if place % 64 == 0:
                session = self.open()
            self.find(operation, value, who=who, timeout=HOUR, session=session)
            self.number += 1

    def text(self):
        return "\n".join(self.lines) + "\n"


def run(program, text, *flags):
    """Processor seconds, and the most memory in kilobytes."""
    with tempfile.TemporaryFile() as file:
        file.write(text.encode())
        file.seek(0)
        process = subprocess.Popen(
            [program, "script", *flags, "a", "b"], stdin=file, stdout=subprocess.DEVNULL
        )
        _, status, used = os.wait4(process.pid, 0)
        process.returncode = os.waitstatus_to_exitcode(status)
        if process.returncode:
            raise SystemExit(f"{program} ended with status {process.returncode}")
        return used.ru_utime + used.ru_stime, used.ru_maxrss


def measure(program, rounds, before, after, count, *flags):
    """Microseconds for each of so many, and bytes of memory: the medians of differences."""
    times, bytes_each = [], []
    for _ in range(rounds):
        (less, low), (more, high) = run(program, before, *flags), run(program, after, *flags)
        times.append((more - less) * 1e6 / count)
        bytes_each.append((high - low) * 1024 / count)
    return statistics.median(times), statistics.median(bytes_each)


STANDING = (100, 1_000, 10_000, 60_000)
# Match sets, and pages of each. There are as many as what stands takes time, or its noise is all that is measured.
SETS, PAGES = 128, 60
MANY, COMMITS, TRANSFERS, HOLDERS = 20_000, 2_000, 5_000, 500


def searches():
    """A read, or a take with the write that makes up for it, by one field among so many entries."""
    for name, value in (
        ("the oldest", lambda n, i: 0),
        ("the newest", lambda n, i: n - 1),
        ("any", lambda n, i: (i * 7_919) % n),
        ("an absent one", lambda n, i: -1 - i),
    ):
        for operation in ("read", "take"):
            def after(count, operation=operation, value=value):
                script = Script()
                script.standing(count)
                for i in range(MANY):
                    script.find(operation, value(count, i))
                    if operation == "take" and value(count, i) >= 0:
                        script.write(value(count, i))
                return script

            words = " and a write" if operation == "take" and "absent" not in name else ""
            yield f"a {operation} of {name}{words}", STANDING, standing, after, MANY


def standing(count):
    script = Script()
    script.standing(count)
    return script


def writing(script, first, space="a"):
    """The script with many writes of values that nobody asked for."""
    for value in range(MANY):
        script.write(first + value, space)
    return script


def writes(count):
    return writing(standing(count), 10_000_000)


def writes_elsewhere(count):
    return writing(standing(count), 0, "b")


def waiting(count):
    script = Script()
    script.waiting(count, 20_000_000)
    return script


def writes_beside_waiting(count):
    return writing(waiting(count), 0)


def registered(count):
    script = Script()
    for value in range(count):
        script.notify(30_000_000 + value)
    return script


def writes_beside_registrations(count):
    return writing(registered(count), 0)


def alike(count):
    script = Script()
    for _ in range(count):
        script.notify(1)
    return script


def events(count):
    script = alike(count)
    for _ in range(10):
        script.write(1)
    return script


def transactions(count):
    script = standing(count)
    for number in range(COMMITS):
        txn = script.begin()
        for value in range(10):
            script.write(40_000_000 + 10 * number + value, txn=txn)
        script.commit(txn, 1)
    return script


def aborts(count):
    script = standing(count)
    for number in range(COMMITS):
        txn = script.begin()
        for value in range(10):
            script.find("take", (10 * number + value) % 100, txn=txn)
        script.send(f'{{"op":"abort","txn":{txn}}}')
    return script


def idle_transactions(count):
    script = Script()
    for _ in range(count):
        script.begin()
    return script


def over_two_spaces(count):
    script = idle_transactions(count)
    for value in range(TRANSFERS):
        script.write(value)
        txn = script.begin()
        script.find("take", value, txn=txn)
        script.write(value, "b", txn=txn)
        script.commit(txn, 2)
    return script


def holding(operation):
    """So many entries that a transaction wrote, took or read, ahead of all others."""
    def script_of(count):
        script = Script() if operation == "write" else standing(count)
        txn = script.begin()
        for value in range(count):
            if operation == "write":
                script.write(value, txn=txn)
            else:
                script.find(operation, value, txn=txn)
        return script

    return script_of


def takes_beside(operation):
    """What others write they take again, as the first that there is for them."""
    def script_of(count):
        script = holding(operation)(count)
        for _ in range(TRANSFERS):
            script.write(50_000_000)
            script.find("take", None)
        return script

    return script_of


def held_beside(operation):
    """Transactions that hold an entry take what there is first for them, and are aborted."""
    def script_of(count):
        script = holding(operation)(count)
        script.write(50_000_000)
        for value in range(TRANSFERS):
            txn = script.begin()
            script.write(60_000_000 + value, txn=txn)
            script.find("take", None, txn=txn)
            script.send(f'{{"op":"abort","txn":{txn}}}')
        return script

    return script_of


def holds_itself(count):
    """A transaction that holds so many entries, behind 30,000 that another wrote and one that anybody may have."""
    script = holding("write")(30_000)
    script.write(50_000_000)
    txn = script.begin()
    for value in range(count):
        script.write(70_000_000 + value, txn=txn)
    return script, txn


def read_by_itself(count):
    """A transaction has read the oldest entry. Beside it stand so many that have its one value, and as many that have
    its other."""
    script = Script()
    script.write(1, who=1)
    txn = script.begin()
    script.find("read", 1, who=1, txn=txn)
    for k, who in (1, 2), (2, 1):
        for _ in range(count):
            script.write(k, who=who)
    return script, txn


def begun(hold):
    """A transaction that holds what it does, before it reads."""
    return lambda count: hold(count)[0]


def read_by_holder(hold, value, **fields):
    """The same, which reads then."""
    def script_of(count):
        script, txn = hold(count)
        for _ in range(TRANSFERS):
            script.find("read", value, txn=txn, **fields)
        return script

    return script_of


def open_sets(script, txn=None):
    """The script with match sets."""
    under = f',"txn":{txn}' if txn else ""
    script.send('{"op":"hello","version":2}')
    for _ in range(SETS):
        script.grant(f'{{"op":"contents","space":"a","template":{entry("Job")},"lease":{HOUR}{under}}}')
    return script


def turn_pages(script):
    for _ in range(PAGES):
        for number in range(SETS):
            script.send(f'{{"op":"next","set":{script.number - number},"most":16}}')
    return script


def opened(count):
    return open_sets(standing(count))


def pages(count):
    return turn_pages(opened(count))


def hold_elsewhere(script):
    """A transaction that has read 64 entries of another space."""
    txn = script.begin()
    for value in range(64):
        script.find("read", value, space="b", txn=txn)
    return txn


def opened_by_holder(count):
    script = standing(count)
    script.standing(64, "b")
    return open_sets(script, hold_elsewhere(script))


def pages_of_holder(count):
    return turn_pages(opened_by_holder(count))


def holders(most):
    """Transactions that hold 64 entries of another space take so many and are aborted."""
    def script_of(count):
        script = standing(count)
        script.standing(64, "b")
        script.send('{"op":"hello","version":2}')
        for _ in range(HOLDERS):
            txn = hold_elsewhere(script)
            if most:
                script.take_many(["null"], most, txn)
            script.send(f'{{"op":"abort","txn":{txn}}}')
        return script

    return script_of


def ending(count):
    script = Script()
    for value in range(count):
        script.write(value, lease=1_000)
    script.lines.append("clock 1000")
    return script


def readings(count):
    script = standing(count)
    script.lines += [f"clock {reading}" for reading in range(1, MANY + 1)]
    return script


def nothing(_count):
    return Script()


def rows():
    """Name, what stands, the script before and after, and how often it is done more in the second."""
    yield "a write", (15_000, 30_000, 60_000), nothing, standing, None
    yield "a write among so many entries", STANDING, standing, writes, MANY
    yield "a write into another space", STANDING, standing, writes_elsewhere, MANY
    yield from searches()
    yield "a request that begins to wait", (1_000, 4_000, 10_000), nothing, waiting, None
    yield "a write beside requests that wait for others", (0, 1_000, 10_000), waiting, writes_beside_waiting, MANY
    yield "a write beside registrations of others", (0, 1_000, 4_096), registered, writes_beside_registrations, MANY
    yield "a write of which registrations are told", (64, 1_000, 4_096), alike, events, 10
    yield "ten writes and their commit", STANDING, standing, transactions, COMMITS
    yield "ten takes and their abort", STANDING, standing, aborts, COMMITS
    yield "a transfer beside open transactions", (0, 100, 1_000), idle_transactions, over_two_spaces, TRANSFERS
    for operation, done in ("write", "wrote"), ("take", "took"), ("read", "read"):
        name = f"a write and a take, beside entries that a transaction {done}"
        yield name, (0, 1_000, 10_000, 60_000), holding(operation), takes_beside(operation), TRANSFERS
        name = f"a transaction that writes, takes and is aborted, beside entries that another {done}"
        yield name, (0, 1_000, 10_000, 60_000), holding(operation), held_beside(operation), TRANSFERS
    yield "a read under a transaction that holds so many entries, beside 30,000 that another wrote", (
        10, 100, 1_000, 10_000
    ), begun(holds_itself), read_by_holder(holds_itself, None), TRANSFERS
    yield "a read of what the transaction has read, beside entries that have one of its two values", (
        1_000, 10_000, 30_000
    ), begun(read_by_itself), read_by_holder(read_by_itself, 1, who=1), TRANSFERS
    yield "a page of sixteen", (1_000, 10_000, 60_000), opened, pages, SETS * PAGES
    yield "a page of sixteen, under a transaction that holds 64 entries of another space", (
        1_000, 10_000, 60_000
    ), opened_by_holder, pages_of_holder, SETS * PAGES
    yield "sixteen taken at once and an abort, under a transaction that holds 64 entries of another space", (
        1_000, 10_000, 60_000
    ), holders(0), holders(16), HOLDERS
    yield "a lease's end at one reading", (15_000, 30_000, 60_000), standing, ending, None
    yield "a reading of the clock", STANDING, standing, readings, MANY


# ---- what stands and waits, and who pays for it

WAITS = (0, 6_400, 12_800)
COMMITTED, PUBLISHED = 4, 2_560
CANCELS, CANCELLED = 5_000, 4
# So many microseconds are long enough to tell. A script that takes so many seconds is run once.
ENOUGH, LONG = 500_000, 10


def cost_of_each(program, rounds, script_of, count, most):
    """Microseconds for each, of as many as take long enough, or of the most."""
    few = max(1, most // 10)
    before = script_of(count, 0).text()
    (less, _), (more, _) = run(program, before), run(program, script_of(count, few).text())
    micros = (more - less) * 1e6 / few
    if more > LONG:
        return micros
    times = most if micros * most <= ENOUGH else max(few, int(ENOUGH / micros))
    micros, _ = measure(program, rounds, before, script_of(count, times).text(), times)
    return micros


def sharing(place, own):
    """The values of a job: in the first or second place one that all of these have, and one of its own."""
    return (5, f"own {own}") if place == "first" else (own, "shared")


def write_sharing(script, place, times):
    for own in range(times):
        value, who = sharing(place, -1 - own)
        script.write(value, who=who)
    return script


def writes_beside_takes(place):
    """Takes wait by two values, of which one is that of all that is written."""
    def script_of(count, times):
        script = Script()
        script.wait_for(sharing(place, own) for own in range(count))
        return write_sharing(script, place, times)

    return script_of


def writes_beside_listeners(place):
    """The same of registrations."""
    def script_of(count, times):
        script = Script()
        for own in range(count):
            value, who = sharing(place, own)
            script.notify(value, who=who)
        return write_sharing(script, place, times)

    return script_of


def commits_beside(value, who):
    """Transactions that wrote entries with k 5 and who yes are committed, where takes of one other job wait. What the
    commits put off is done before the reads behind them."""
    def script_of(count, times):
        script = Script()
        txns = [script.begin() for _ in range(COMMITTED)]
        for txn in txns:
            for _ in range(PUBLISHED):
                script.write(5, txn=txn, who="yes")
        script.wait_for([(value, who)] * count)
        for txn in txns[:times]:
            script.commit(txn, 1)
            script.lines.append("settle")
            script.find("read", -1)
        return script

    return script_of


def asked_beside_take_if(count, times):
    """Reads and writes of other values, where each of so many waits for an entry that a transaction took."""
    script = holding("take")(count)
    script.wait_for(((value, None) for value in range(count)), "take_if")
    for value in range(times):
        script.find("read", -1 - value)
        script.write(80_000_000 + value)
    return script


HALVES = "ab", "cdef"
FIELDS = "".join(HALVES)
# Eight templates of a field of each half.
CROSSED = [entry("Pair", **{one: 1, other: 1}) for one in HALVES[0] for other in HALVES[1]]


def halves(count):
    """So many entries that have 1 in the fields of one half and 0 in the others, and by turns as many the other way."""
    script = Script()
    script.send('{"op":"hello","version":2}')
    script.declare("Pair", **dict.fromkeys(FIELDS, "int"))
    two = [entry("Pair", **{name: int(name in half) for name in FIELDS}) for half in HALVES]
    for first in range(0, count, 32):
        script.write_all(two * min(32, count - first))
    return script


def until_learned(count):
    """How many searches it takes until it is learned which of these entries have two values together: 64 are gone
    through at each, and then none is left. What is asked behind them is measured."""
    return 2 * count // 64 + 2


def reads_crossed(count, times):
    script = halves(count)
    for _ in range(until_learned(count) + times):
        script.search("read", CROSSED[0])
    return script


def takes_crossed(count, times):
    script = halves(count)
    for _ in range(until_learned(count) + times):
        script.take_many(CROSSED)
    return script


def with_classes(count, parent=None):
    """So many classes that have four entries each, all with one value of k."""
    script = Script()
    kinds = {} if parent else {"k": "int"}
    for place in range(count):
        script.declare(f"Class{place}", parent, **kinds)
        for _ in range(4):
            script.write_entry(entry(f"Class{place}", k=5))
    return script


def reads_below(**fields):
    """Reads of a parent of these classes. An entry of the last class has a value that no other has."""
    def script_of(count, times):
        script = with_classes(count, "Job")
        script.write_entry(entry(f"Class{count - 1}" if count else "Job", k=6))
        for _ in range(times):
            script.search("read", entry("Job", **fields))
        return script

    return script_of


def reads_of_empty(**fields):
    """Reads of a class that has no entries, beside these classes."""
    def script_of(count, times):
        script = with_classes(count)
        script.declare("Empty", k="int")
        for _ in range(times):
            script.search("read", entry("Empty", **fields))
        return script

    return script_of


def waiting_for_others(script, count):
    """The script with takes of values that nothing has."""
    script.wait_for((20_000_000 + value, None) for value in range(count))
    return script


def declarations_again(count, times):
    script = waiting_for_others(Script(), count)
    for _ in range(times):
        script.send(CLASS)
    return script


def declarations(count, times):
    script = waiting_for_others(Script(), count)
    for place in range(times):
        script.declare(f"Class{place}", k="int")
    return script


def cancels(count, times):
    """Entries are cancelled by who wrote them, some at a time."""
    script = standing(CANCELS * CANCELLED)
    waiting_for_others(script, count)
    for first in range(1, times * CANCELLED, CANCELLED):
        leases = list(range(first, first + CANCELLED))
        script.send(f'{{"op":"cancel_all","leases":{compact(leases)}}}')
    return script


def with_sessions(count):
    """So many sessions are opened, beside that of each script."""
    script = Script()
    for _ in range(count):
        script.open()
    return script


def spaces_of_last(count, times):
    script = with_sessions(count)
    for _ in range(times):
        script.send('{"op":"spaces"}', script.sessions)
    return script


def writes_of_last(count, times):
    script = with_sessions(count)
    for value in range(times):
        script.write(value, session=script.sessions)
    return script


def rows_with_goals():
    """Name, what stands, the goal, the script that asks so often beside so much, and how often it can ask at most."""
    as_beside_none = "1.5 times that beside none"
    for place in "first", "second":
        name = f"a write, beside takes that wait by two values, the {place} in common with it"
        yield name, (0, 10_000, 20_000), as_beside_none, writes_beside_takes(place), MANY
    for place in "first", "second":
        name = f"a write, beside registrations by two values, the {place} in common with it"
        yield name, (0, 2_048, 4_096), as_beside_none, writes_beside_listeners(place), MANY
    for place, value, who in ("first", 5, "no"), ("second", 6, "yes"):
        name = f"a commit of {PUBLISHED:,} entries, beside takes by two values, the {place} in common with them"
        yield name, WAITS, "20,000", commits_beside(value, who), COMMITTED
    yield "a read that finds nothing and a write, beside `take_if`s that wait for held entries of other values", (
        0, 1_000, 4_000, 6_400, 12_800
    ), as_beside_none, asked_beside_take_if, MANY // 2
    sizes = 0, 10_000, 20_000, 30_000
    yield "a read by two values that so many entries have each, and none both", sizes, "30", reads_crossed, MANY
    yield "a take of several by eight such templates", sizes, "8 times 30", takes_crossed, MANY // 8
    sizes = 0, 10, 100, 500, 1_000
    yield "a read by a value that one entry has, of a class that so many are below", sizes, "20", reads_below(k=6), MANY
    yield "a read of any entry of a class that so many are below", sizes, "20", reads_below(), MANY
    yield "a read of a class without entries, beside others that have some", sizes, "20", reads_of_empty(), MANY
    yield "the same, by a value that all these have", sizes, "20", reads_of_empty(k=5), MANY
    yield "a declaration again, beside takes that wait", WAITS, as_beside_none, declarations_again, MANY
    yield "a declaration, beside takes that wait", WAITS, as_beside_none, declarations, 1_000
    yield f"a cancel of {CANCELLED} leases, beside takes of others that wait", WAITS, as_beside_none, cancels, CANCELS
    sizes = 0, 500, 2_000, 4_000
    yield "`spaces` of the last session, beside others", sizes, "that beside none", spaces_of_last, MANY
    yield "a write of the last session, beside others", sizes, "that beside none", writes_of_last, MANY


def show(*cells):
    print("|", " | ".join(cells), "|", flush=True)


def listed(counts):
    return ", ".join(f"{count:,}" for count in counts)


def print_kinds(program, rounds, words):
    print("| What | Beside, or how many | Processor time of each, in µs |", "|---|---|---|", sep="\n")
    for name, counts, before, after, many in rows():
        if words not in name:
            continue
        found = []
        for count in counts:
            micros, _ = measure(program, rounds, before(count).text(), after(count).text(), many or count)
            found.append(f"{micros:.1f}")
        show(name, listed(counts), ", ".join(found))
    for name, flags in (("60,000 writes", ()), ("60,000 writes with `--audit`", ("--audit",))):
        if words in name:
            micros, each = measure(program, rounds, nothing(0).text(), standing(60_000).text(), 60_000, *flags)
            show(name, f"{each:,.0f} bytes of memory each", f"{micros:.1f}")


def resident(pid):
    """How many bytes of memory a process has."""
    status = Path(f"/proc/{pid}/status").read_text()
    return 1024 * int(re.search(r"^VmRSS:\s*(\d+) kB$", status, re.MULTILINE)[1])


def write_jobs(jsp, first, count, texts):
    """Entries of other values each, and of so many texts."""
    for start in range(first, first + count, BATCH):
        values = range(start, min(start + BATCH, first + count))
        jobs = [client_entry("Job", k=value, who=f"text {value % texts}") for value in values]
        jsp.write_all("a", jobs, lease=LONGEST)


def bytes_of_each(program, rounds, count, texts):
    """What each of so many entries takes of a server that keeps little of its history, beside others that stand."""
    found = []
    for _ in range(rounds):
        command = [program, "listen", "--log", "off", "--era", "1000", "127.0.0.1:0", "a"]
        with subprocess.Popen(command, stdout=subprocess.PIPE, stderr=subprocess.DEVNULL) as server:
            try:
                host, port = server.stdout.readline().split()[1].decode().rsplit(":", 1)
                with Client(host, int(port)) as jsp:
                    jsp.declare("Job", k="int", who="text")
                    write_jobs(jsp, 0, FIRST_ENTRIES, texts)
                    before = resident(server.pid)
                    write_jobs(jsp, FIRST_ENTRIES, count, texts)
                    found.append((resident(server.pid) - before) / count)
            finally:
                server.kill()
    return statistics.median(found)


def print_goals(program, rounds, words):
    print("| What | Beside, or how many | Processor time of each, in µs | Goal |", "|---|---|---|---|", sep="\n")
    for name, counts, goal, script_of, most in rows_with_goals():
        if words in name:
            found = [cost_of_each(program, rounds, script_of, count, most) for count in counts]
            show(name, listed(counts), ", ".join(f"{micros:,.1f}" for micros in found), goal)
    counts = 30_000, 60_000
    for name, texts in ("of its own", max(counts) * 2), ("of one of ten", 10):
        name = f"a stored entry of an int of its own and a short text {name}"
        if words in name:
            found = [bytes_of_each(program, rounds, count, texts) for count in counts]
            show(name, listed(counts), f"{', '.join(f'{each:,.0f}' for each in found)} bytes of memory", "300 bytes")


def main():
    words = sys.argv[1:]
    table = print_kinds
    if not words:
        sys.exit(__doc__)
    if words[0] == "goals":
        table, words = print_goals, words[1:]
    rounds = int(words[1]) if len(words) > 1 else 3
    table(words[0], rounds, words[2] if len(words) > 2 else "")


if __name__ == "__main__":
    main()
