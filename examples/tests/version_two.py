"""Long scripts of version 2: frames about its limit, several entries in one request, and match sets."""
from scripts import LEASE, SPACES, SPACES_ARE, TOO_LONG, compact, declare, done, frame, granted, refused, search, shown, write


def hello(version=2):
    return {"id": 0, "op": "hello", "version": version}


def greets(case):
    """A session in version 2, and the class Job."""
    case.opens()
    case.asks(hello(), done(0))
    case.asks(declare(1, "Job", {"k": "int", "who": "text"}), done(1))


def job(k, who=None):
    return {"class": "Job", "fields": {"k": k, "who": who}}


def write_all(number, entries):
    return {"id": number, "op": "write_all", "space": "a", "entries": entries, "lease": LEASE}


def all_granted(number, leases):
    return {"id": number, "ok": {"leases": list(leases), "ms": LEASE}}


def take_many(number, most):
    return {"id": number, "op": "take_many", "space": "a", "templates": [None], "most": most, "timeout": 0}


def contents(number):
    return {"id": number, "op": "contents", "space": "a", "template": None, "lease": LEASE}


def next_page(number, match_set, most):
    return {"id": number, "op": "next", "set": match_set, "most": most}


def page(number, entries, end):
    return {"id": number, "ok": {"end": end, "entries": entries}}


def long_frames(case):
    """Frames about the limits of both versions, each in one piece behind a hello. A longer one closes its session."""
    for version, limit, lengths in ((1, 65_536, (65_536, 65_537)), (2, 1_048_576, (65_537, 1_048_576, 1_048_577))):
        for length in lengths:
            case.opens()
            case.brings(frame(hello(version)) + frame(compact(SPACES).ljust(length).encode()) + frame(SPACES))
            case.says(done(0))
            if length <= limit:
                case.says(SPACES_ARE)
                case.says(SPACES_ARE)
            else:
                case.says(TOO_LONG)
    # To version 2 and back: the limit is the narrow one again.
    case.opens()
    case.brings(frame(hello(2)) + frame(compact(SPACES).ljust(65_537).encode()) + frame(hello(1)) + b"\0\1\0\1")
    for answer in (done(0), SPACES_ARE, done(0), TOO_LONG):
        case.says(answer)
    # The length past the limit of a line of version 2, without a byte behind it.
    case.opens()
    case.asks(hello(), done(0))
    case.brings(b"\0\x10\0\1")
    case.says(TOO_LONG)


def long_answers(case):
    """16 entries, each of 8,192 bytes of text that is written as six times as many, are taken and listed together."""
    greets(case)
    entries = [job(k, "\x01" * 8192) for k in range(16)]
    case.asks(write_all(2, entries), all_granted(2, range(1, 17)))
    case.asks(contents(3), granted(3, 17))
    case.asks(next_page(4, 17, 16), page(4, entries, True))
    case.asks(take_many(5, 16), {"id": 5, "ok": entries})
    case.asks(take_many(6, 16), done(6))


def full_space(case):
    """A space has 65,536 entries at most, and a write of several that has no room for all of them writes none."""
    greets(case)
    count = 0

    def writes(entries):
        nonlocal count
        case.asks(write_all(2, [job(count)] * entries), all_granted(2, range(count + 1, count + 1 + entries)))
        count += entries

    for _ in range(1023):
        writes(64)
    writes(1)
    case.asks(write_all(3, [job(0)] * 64), refused(3, 20))  # there is room for 63
    writes(62)
    assert count == 65_535
    case.asks(write_all(4, [job(0), job(1)]), refused(4, 20))
    case.asks(write(5, "Job", {"k": 7}), granted(5, 65_536))
    case.asks(write_all(6, [job(0)]), refused(6, 20))
    case.asks(search(7, "take", "Job", {"k": 7}), shown(7, "Job", {"k": 7, "who": None}))
    case.asks(write_all(8, [job(8)]), all_granted(8, [65_537]))


def pages(case):
    """A space of 300 entries is listed by pages of up to 16, while others take from before and behind, and write."""
    greets(case)
    rows = {}
    drawn = 0

    def writes(k, session=None):
        nonlocal drawn
        drawn += 1
        rows[drawn] = k
        case.sends(write(2, "Job", {"k": k}), session)
        case.says(granted(2, drawn), session)

    def takes(number, session):
        k = rows.pop(number)
        case.sends(search(3, "take", "Job", {"k": k}), session)
        case.says(shown(3, "Job", {"k": k, "who": None}), session)

    for k in range(300):
        writes(k)
    case.asks(contents(4), granted(4, drawn + 1))
    drawn += 1
    match_set, cursor, end, turn = drawn, 0, False, 0
    case.opens()
    while not end:
        most = turn % 16 + 1
        left = [number for number in sorted(rows) if cursor < number < match_set]
        here, end = left[:most], len(left) <= most
        case.sends(next_page(5, match_set, most), 1)
        case.says(page(5, [job(rows[number]) for number in here], end), 1)
        cursor = here[-1] if here else cursor
        turn += 1
        behind = [number for number in sorted(rows) if cursor < number < match_set]
        for number in behind[:1] + behind[5:7] + here[:1]:
            takes(number, 2)
        writes(1000 + turn, 2)
    case.sends(next_page(6, match_set, 16), 1)
    case.says(page(6, [], True), 1)


def match_sets(case):
    """There are at most 1,024 match sets."""
    case.opens()
    case.asks(hello(), done(0))
    for lease in range(1, 1025):
        case.asks(contents(1), granted(1, lease))
    case.asks(contents(2), refused(2, 17))
    case.asks({"id": 3, "op": "close_set", "set": 7}, done(3))
    case.asks(contents(4), granted(4, 1025))
    case.asks(contents(5), refused(5, 17))


CASES = [long_frames, long_answers, full_space, pages, match_sets]
