#!/usr/bin/env python3
"""Scripts that are too long to be written by hand, and the lines that they print over the spaces a and b.

generate.py                 names the cases
generate.py script NAME     prints a case's script
generate.py prints NAME     prints the lines that it has to print, worked out by the rules of docs/PROTOCOL.md
"""
import random
from itertools import count

from scripts import (
    BAD_JSON, BAD_REQUEST, LEASE, SPACES, SPACES_ARE, TOO_LONG, Case, compact, declare, done, frame, granted, joined,
    main, notify, on_transaction, payload, reading, refused, search, shown, stream, told, write,
)
from version_two import CASES


def pieces(case):
    """A stream is answered alike in pieces of any size, and cut in two anywhere."""
    whole = len(joined(stream(1000, 0)))
    cuts = [range(size, whole, size) for size in (1, 2, 3, 7, 64)] + [[cut] for cut in range(whole + 1)]
    for lease, places in enumerate(cuts, 1):
        case.opens()
        exchanges = stream(999 + lease, lease)
        data = joined(exchanges)
        for begin, end in zip([0, *places], [*places, whole]):
            case.brings(data[begin:end])
        for _, answer in exchanges:
            case.says(answer)


def prefixes(case):
    """Each prefix of a stream is answered by its whole frames."""
    lease = 1
    for cut in range(len(joined(stream(1000, 0)))):
        case.opens()
        exchanges = stream(1000 + cut, lease)
        case.brings(joined(exchanges)[:cut])
        case.shuts()
        whole = [n for n in range(len(exchanges)) if len(joined(exchanges[: n + 1])) <= cut]
        lease += 1 in whole
        for n in whole:
            case.says(exchanges[n][1])


def in_turn(case):
    """Two sessions bring a byte each in turn, and each gets its own answers."""
    case.opens()
    case.opens()
    of = {1: stream(1, 1), 2: [(SPACES, SPACES_ARE), *stream(2, 2)]}
    for place in range(len(joined(of[2]))):  # the longer one
        for session, exchanges in of.items():
            case.brings(joined(exchanges)[place : place + 1], session)
            for n, (_, answer) in enumerate(exchanges, 1):
                if len(joined(exchanges[:n])) == place + 1:
                    case.says(answer, session)


def lengths(case):
    """Frames about the limit. A longer one closes its session."""
    for length in range(65_530, 65_541):
        case.opens()
        case.asks(compact(SPACES).ljust(length).encode(), SPACES_ARE if length <= 65_536 else TOO_LONG)
        case.brings(frame(SPACES))
        if length <= 65_536:
            case.says(SPACES_ARE)


def nesting(case):
    """Arrays nested more than 127 deep are no JSON."""
    case.opens()
    for depth in (100, 127, 128, 1000):
        case.asks(b"[" * depth + b"]" * depth, BAD_REQUEST if depth <= 127 else BAD_JSON)
        case.asks(SPACES, SPACES_ARE)


def changes(case):
    """A changed byte in a request costs one answer and no more: the request behind it is answered."""
    requests = [
        {"id": 1, "op": "take", "space": "a", "template": None, "timeout": 0},
        {"id": 2, "op": "renew", "lease": 17, "ms": -1},
        {"id": 3, "op": "cancel_all", "leases": [7, 8, -9]},
        {"id": 4, "op": "spaces"},
    ]
    chance = random.Random(1)
    case.opens()
    for request in requests * 250:
        answer = None
        while answer is None:
            data = bytearray(payload(request))
            data[chance.randrange(len(data))] ^= chance.randrange(1, 256)
            answer = reading(bytes(data))
        case.brings(frame(bytes(data)) + frame(SPACES))
        case.says(answer)
        case.says(SPACES_ARE)


def classes(case):
    """A class is 16 deep at most, has 32 fields at most with those that it inherits, and there are 1,024 at most."""
    case.opens()
    declared = 0
    rows = [(f"D{n}", n and f"D{n - 1}", 0, n < 16) for n in range(17)]
    rows += [("F", None, 33, False), ("F", None, 32, True), ("G", "F", 1, False), ("G", "F", 0, True)]
    rows += [("H", None, 20, True), ("I", "H", 13, False), ("I", "H", 12, True), ("J", "I", 1, False)]
    rows += [(f"N{n}", None, 1, True) for n in range(1024 - 16 - 4)]
    for name, parent, count, is_declared in rows:
        fields = {f"{name}{n}": "int" for n in range(count)}
        case.asks(declare(1, name, fields, parent or None), done(1) if is_declared else refused(1, 6))
        declared += is_declared
    assert declared == 1024
    case.asks(declare(2, "New", {}), refused(2, 17))
    case.asks(declare(3, "New", {"n": "int"}, "D0"), refused(3, 17))
    case.asks(declare(4, "New", {}, "New"), refused(4, 8))
    case.asks(declare(5, "New", {"F0": "int"}, "F"), refused(5, 6))
    case.asks(declare(6, "N0", {}), refused(6, 7))
    case.asks(declare(7, "N0", {"N00": "int"}), done(7))
    case.asks(write(8, "D15", {}), granted(8, 1))
    case.asks(search(9, "read", "D0", {}), shown(9, "D15", {}))


def batches(case):
    """A request has 1 to 64 leases, which are done in their order."""
    case.opens()
    case.asks(declare(1, "Job", {"k": "int"}), done(1))
    for lease in range(1, 65):
        case.asks(write(2, "Job", {"k": lease}), granted(2, lease))
    leases = list(range(64, 0, -1))
    renewals = {"id": 3, "op": "renew_all", "leases": [[lease, 10 * lease] for lease in leases]}
    case.asks(renewals, {"id": 3, "ok": [{"lease": lease, "ms": 10 * lease} for lease in leases]})
    for wrong in ([], leases + [1]):
        case.asks({"id": 4, "op": "cancel_all", "leases": wrong}, refused(4, 2))
    case.asks({"id": 5, "op": "cancel_all", "leases": leases}, {"id": 5, "ok": [{"lease": lease} for lease in leases]})
    case.asks(search(6, "read", "Job", {}), done(6))


def texts(case):
    """An entry has 8,192 bytes of text at most, and is read back whole, more often than a buffer holds."""
    case.opens()
    case.asks(declare(1, "Note", {"one": "text", "two": "text"}), done(1))
    fields = {"one": "é" * 2048 + "\\" * 2048, "two": "z" * 2048}
    case.asks(write(2, "Note", fields | {"two": "z" * 2049}), refused(2, 9))
    case.asks(write(3, "Note", fields), granted(3, 1))
    for number in range(4, 104):
        case.asks(search(number, "read", "Note", fields), shown(number, "Note", fields))


def far_row(case):
    """A row is found behind 1,000 others."""
    case.opens()
    case.asks(declare(1, "Job", {"k": "int"}), done(1))
    for lease in range(1, 1002):
        case.asks(write(2, "Job", {"k": lease}), granted(2, lease))
    case.asks(search(3, "take", "Job", {"k": 1001}), shown(3, "Job", {"k": 1001}))
    case.asks(search(4, "take", "Job", {"k": 1001}), done(4))


def waiting(case):
    """64 requests wait in each of 16 sessions. A write for each answers them in the order in which they came."""
    for _ in range(16):
        case.opens()
    case.asks(declare(1, "Job", {"k": "int"}), done(1))
    waiters = [(session, number) for number in range(2, 66) for session in range(1, 17)]
    for session, number in waiters:
        case.sends(search(number, "take", "Job", {}, LEASE), session)
    case.opens()
    for k, (session, number) in enumerate(waiters):
        case.sends(write(k, "Job", {"k": k}))
        case.says(shown(number, "Job", {"k": k}), session)
        case.says(granted(k, len(waiters) + 1 + k))


def waiting_commits(case):
    """A commit counts among the 64 requests of a session that may wait, until it is decided."""
    case.opens()
    case.asks(declare(1, "Job", {"k": "int"}), done(1))
    for lease in (1, 2):
        case.asks({"id": 2, "op": "txn", "lease": LEASE}, granted(2, lease))
    for number in range(3, 66):
        case.sends(search(number, "take", "Job", {"k": number}, LEASE))
    case.sends(on_transaction(66, "commit", 1))
    case.asks(search(67, "read", "Job", {}, LEASE), refused(67, 4))
    case.asks(on_transaction(68, "commit", 2), refused(68, 4))
    case.asks(on_transaction(69, "commit", 3), refused(69, 13))
    case.asks(search(70, "read", "Job", {}), done(70))
    case.settles()
    case.says(done(66))
    case.sends(search(71, "read", "Job", {}, LEASE))
    case.asks(search(72, "take", "Job", {}, LEASE), refused(72, 4))
    case.asks(write(73, "Job", {"k": 5}), granted(73, 67))
    case.says(shown(5, "Job", {"k": 5}))
    case.sends(search(74, "take", "Job", {}, LEASE))
    case.asks(search(75, "take", "Job", {}, LEASE), refused(75, 4))


def transactions(case):
    """There are at most 1,024 transactions, voting ones among them."""
    case.opens()
    begin = {"id": 1, "op": "txn", "lease": LEASE}
    for lease in range(1, 1025):
        case.asks(begin, granted(1, lease))
    case.asks(begin, refused(1, 17))
    case.asks({"id": 2, "op": "cancel", "lease": 7}, done(2))
    case.asks(begin, granted(1, 1025))
    case.sends(on_transaction(3, "commit", 8))
    case.asks(begin, refused(1, 17))
    case.settles()
    case.says(done(3))
    case.asks(begin, granted(1, 1026))
    case.asks(begin, refused(1, 17))


def registrations(case):
    """There are at most 4,096 registrations, and one write is told to each that matches, by number."""
    case.opens()
    case.asks(declare(1, "Job", {"k": "int"}), done(1))
    case.asks(declare(2, "Rush", {}, "Job"), done(2))
    for lease in range(1, 4097):
        case.asks(notify(2, "Job" if lease > 4000 else "Rush", "h"), granted(2, lease))
    case.asks(notify(3, "Job", "h"), refused(3, 17))
    case.asks(write(4, "Job", {"k": 1}), granted(4, 4097))
    for lease in range(4001, 4097):
        case.says(told("h", lease, 1))
    case.asks({"id": 5, "op": "cancel", "lease": 7}, done(5))
    case.asks(notify(6, "Job", "h"), granted(6, 4098))
    case.asks(notify(7, "Job", "h"), refused(7, 17))


def several_values(case):
    """Requests wait, and registrations are made, by up to six values each. What is written goes to the first request
    that it matches, or else is stored, and is told to each registration that it matches."""
    chance = random.Random(7)
    takers, listener, writer = range(1, 33), 33, 34
    for _ in range(writer):
        case.opens()
    case.asks(declare(1, "Job", dict.fromkeys("abcde", "int")), done(1))
    case.asks(declare(2, "Rush", {"f": "int"}, "Job"), done(2))
    numbers = count(1)
    stored, waiting, listening = [], [], []

    def values(name, most):
        names = "abcde" + "f" * (name == "Rush")
        return {key: chance.randrange(3) for key in chance.sample(names, chance.randint(0, min(most, len(names))))}

    def matches(template, entry):
        return template[0] in (entry[0], "Job") and template[1].items() <= entry[1].items()

    for number in range(3, 2003):
        name = chance.choice(["Job", "Rush"])
        kind = chance.choices(["take", "notify", "write"], [9, 1, 10])[0]
        if kind == "take":
            taker, template = chance.choice(takers), (name, values(name, 6))
            case.sends(search(number, "take", *template, LEASE), taker)
            found = next((entry for entry in stored if matches(template, entry)), None)
            if found:
                stored.remove(found)
                case.says(shown(number, *found), taker)
            else:
                next(numbers)
                waiting.append((template, number, taker))
        elif kind == "notify":
            template = (name, values(name, 4))
            request = notify(number, name, "h")
            request["template"]["fields"] = template[1]
            lease = next(numbers)
            case.sends(request, listener)
            case.says(granted(number, lease), listener)
            listening.append([template, lease, 0])
        else:
            entry = (name, dict.fromkeys("abcde" + "f" * (name == "Rush")) | values(name, 6))
            lease = next(numbers)
            case.sends(write(number, *entry))
            taken = next((waiter for waiter in waiting if matches(waiter[0], entry)), None)
            if taken:
                waiting.remove(taken)
                case.says(shown(taken[1], *entry), taken[2])
            else:
                stored.append(entry)
            for registration in listening:
                if matches(registration[0], entry):
                    registration[2] += 1
                    case.says(told("h", registration[1], registration[2]), listener)
            case.says(granted(number, lease))


def held_up(case):
    """Requests wait for entries that transactions took or read, and each answer is due as soon as one is there, or, for
    read_if and take_if, as soon as none is held up. Transactions end in each way, and entries go that they hold."""
    chance = random.Random(11)
    waiters, writer, holder = range(1, 9), 9, 10
    for _ in range(holder):
        case.opens()
    case.asks(declare(1, "Job", {"k": "int", "w": "int"}), done(1))
    numbers = count(1)
    rows, waiting = [], []  # [lease, fields, taker, readers] and [session, id, operation, fields]
    living, joined = [], set()

    def values():
        return {key: chance.randrange(4) for key in chance.sample("kw", chance.choice([0, 1, 1, 2, 2, 2]))}

    def wanted(fields):
        return [row for row in rows if fields.items() <= row[1].items()]

    def is_free(row, takes, caller=None):
        return row[2] is None and not (takes and row[3] - {caller})

    def first(op, fields, caller=None):
        return next((row for row in wanted(fields) if is_free(row, op.startswith("take"), caller)), None)

    def waits(op, fields):
        return not op.endswith("_if") or any(not is_free(row, op == "take_if") for row in wanted(fields))

    def answers(said):
        """What is owed to those that wait, and then all that a line says, by session."""
        while found := next(((who, row) for who in waiting if (row := first(*who[2:]))), None) or next(
                ((who, None) for who in waiting if not waits(*who[2:])), None):
            who, row = found
            waiting.remove(who)
            if row and who[2].startswith("take"):
                rows.remove(row)
            said.append((who[0], shown(who[1], "Job", row[1]) if row else done(who[1])))
        for session, answer in sorted(said, key=lambda pair: pair[0]):
            case.says(answer, session)

    def lets_go(transaction):
        for row in rows:
            row[2] = None if row[2] == transaction else row[2]
            row[3].discard(transaction)

    for number in range(2, 2002):
        kind = chance.choices(["write", "ask", "begin", "hold", "end", "cancel"], [14, 12, 4, 12, 4, 2])[0]
        if kind == "write":
            fields = {"k": chance.randrange(4), "w": chance.randrange(4)}
            case.sends(write(number, "Job", fields), writer)
            rows.append([next(numbers), fields, None, set()])
            answers([(writer, granted(number, rows[-1][0]))])
        elif kind == "ask":
            session, fields = chance.choice(waiters), values()
            op = chance.choice(["take_if", "take_if", "read_if", "take"])
            case.sends(search(number, op, "Job", fields, LEASE), session)
            row = first(op, fields)
            if row is None and waits(op, fields):
                next(numbers)
                waiting.append([session, number, op, fields])
                continue
            if row and op.startswith("take"):
                rows.remove(row)
            answers([(session, shown(number, "Job", row[1]) if row else done(number))])
        elif kind == "begin" and len(living) < 6:
            living.append(next(numbers))
            case.sends({"id": number, "op": "txn", "lease": LEASE}, holder)
            answers([(holder, granted(number, living[-1]))])
        elif kind == "hold" and living:
            transaction, op, fields = chance.choice(living), chance.choice(["take", "read"]), values()
            case.sends(search(number, op, "Job", fields) | {"txn": transaction}, holder)
            joined.add(transaction)
            row = first(op, fields, transaction)
            if row and op == "take":
                row[2] = transaction
            elif row:
                row[3].add(transaction)
            answers([(holder, shown(number, "Job", row[1]) if row else done(number))])
        elif kind == "end" and living:
            transaction, op = chance.choice(living), chance.choice(["abort", "cancel", "commit"])
            case.sends({"id": number, "op": op, "lease" if op == "cancel" else "txn": transaction}, holder)
            if op == "commit":
                case.settles()
                if transaction in joined:  # the space votes first, and lets go what was read where nothing was taken
                    if all(row[2] != transaction for row in rows):
                        lets_go(transaction)
                        answers([])
                    case.settles()
                case.says(done(number), holder)
                case.settles()  # what the decision means for the space comes after it
                rows[:] = [row for row in rows if row[2] != transaction]
            lets_go(transaction)
            living.remove(transaction)
            answers([] if op == "commit" else [(holder, done(number))])
        elif kind == "cancel" and rows:
            row = chance.choice(rows)
            rows.remove(row)
            case.sends({"id": number, "op": "cancel", "lease": row[0]}, holder)
            answers([(holder, done(number))])


def rare_together(case):
    """Many entries have each of some values, and few have several of them. What a search by several finds comes first
    of all that match, whatever was learned of where such entries stand, and whatever came and went since."""
    chance = random.Random(13)
    case.opens()
    case.asks(declare(1, "Job", dict.fromkeys("abcde", "int")), done(1))
    case.asks(declare(2, "Rush", {"f": "int"}, "Job"), done(2))
    numbers = count(1)
    rows, taken, transaction = [], [], None  # [lease, class, fields], in the order of their leases

    def writes(number, ones):
        name = chance.choice(["Job", "Rush"])
        fields = dict.fromkeys("abcde" + "f" * (name == "Rush"), 0) | dict.fromkeys(ones, 1)
        rows.append([next(numbers), name, fields])
        case.asks(write(number, name, fields), granted(number, rows[-1][0]))

    for number in range(3, 2003):
        writes(number, chance.choice("abcde"))
    for number in range(2003, 4003):
        kind = chance.choices(["write", "search", "hold", "end", "cancel"], [8, 16, 2, 1, 2])[0]
        ones = chance.sample("abcde", chance.choice([2, 2, 2, 3, 4]))
        if kind == "write":
            writes(number, ones)
        elif kind == "cancel":
            row = chance.choice(rows)
            rows.remove(row)
            case.asks({"id": number, "op": "cancel", "lease": row[0]}, done(number))
        elif kind == "end" and transaction:
            case.asks({"id": number, "op": "abort", "txn": transaction}, done(number))
            rows, taken, transaction = sorted(rows + taken), [], None
        elif kind == "end":
            transaction = next(numbers)
            case.asks({"id": number, "op": "txn", "lease": LEASE}, granted(number, transaction))
        elif kind == "search" or transaction:
            name, op = chance.choice(["Job", "Job", "Rush"]), chance.choice(["read", "take"])
            asked = search(number, op, name, dict.fromkeys(ones, 1))
            found = next(
                (row for row in rows if name in (row[1], "Job") and all(row[2][key] for key in ones)), None
            )
            if found and op == "take":
                rows.remove(found)
            if kind == "hold" and op == "take":
                asked["txn"] = transaction
                taken += [found] if found else []
            case.asks(asked, shown(number, *found[1:]) if found else done(number))


def class_tree(case):
    """A tree of sixty classes, of which entries come and go in two spaces, a few of each. A search by a class finds
    what comes first of all that are of it or below it."""
    chance = random.Random(17)
    case.opens()
    lines = {}  # of each class itself and those above it
    for place in range(60):
        name, parent = f"C{place}", chance.choice([None, *(above for above in lines if len(lines[above]) < 16)])
        lines[name] = {name} | lines.get(parent, set())
        case.asks(declare(1, name, {} if parent else {"k": "int"}, parent), done(1))
    numbers, rows = count(1), {"a": [], "b": []}  # (lease, class, fields), in the order of their leases
    for number in range(2, 2002):
        space, name, fields = chance.choice("ab"), chance.choice([*lines]), {"k": chance.randrange(3)}
        kind = chance.choices(["write", "read", "take", "cancel"], [8, 8, 8, 1])[0]
        if kind == "write":
            rows[space].append((next(numbers), name, fields))
            case.asks(write(number, name, fields) | {"space": space}, granted(number, rows[space][-1][0]))
        elif kind == "cancel" and rows[space]:
            row = rows[space].pop(chance.randrange(len(rows[space])))
            case.asks({"id": number, "op": "cancel", "lease": row[0]}, done(number))
        elif kind != "cancel":
            asked = chance.choice([{}, fields])
            matching = (row for row in rows[space] if name in lines[row[1]] and asked.items() <= row[2].items())
            found = next(matching, None)
            if found and kind == "take":
                rows[space].remove(found)
            request = search(number, kind, name, asked) | {"space": space}
            case.asks(request, shown(number, *found[1:]) if found else done(number))


def handbacks(case):
    """A handback has 256 bytes at most, as they are read, and comes back whole."""
    case.opens()
    case.asks(declare(1, "Job", {"k": "int"}), done(1))
    for handback in ("x" * 257, "é" * 129, "\x00" * 257):
        case.asks(notify(2, "Job", handback), refused(2, 2))
    fitting = ["", "x" * 256, "é" * 128, "\x00" * 256, '"\\\n/' * 64]
    for lease, handback in enumerate(fitting, 1):
        case.asks(notify(3, "Job", handback), granted(3, lease))
    for sequence in (1, 2):
        case.asks(write(4, "Job", {"k": 1}), granted(4, len(fitting) + sequence))
        for lease, handback in enumerate(fitting, 1):
            case.says(told(handback, lease, sequence))


if __name__ == "__main__":
    main([
        pieces, prefixes, in_turn, lengths, nesting, changes, classes, batches, texts, far_row,
        waiting, waiting_commits, transactions, registrations, several_values, held_up, rare_together, class_tree,
        handbacks, *CASES,
    ])
