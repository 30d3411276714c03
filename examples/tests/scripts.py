"""Scripts in the making, and the requests and answers that they are made of."""
import json
import sys

LEASE = 1000


def compact(value):
    return json.dumps(value, separators=(",", ":"), sort_keys=True, ensure_ascii=False)


def payload(request):
    return request if isinstance(request, bytes) else compact(request).encode()


def frame(request):
    data = payload(request)
    return len(data).to_bytes(4, "big") + data


def joined(exchanges):
    """The stream of the requests of these pairs of a request and its answer."""
    return b"".join(frame(request) for request, _ in exchanges)


class Case:
    """A script, and the lines that it prints. Sessions count from 1, and the last that was opened speaks."""

    def __init__(self):
        self.script, self.prints, self.session = [], [], 0

    def opens(self):
        self.session += 1
        self.script.append(f"open {self.session}")

    def shuts(self):
        self.script.append(f"shut {self.session}")

    def brings(self, data, session=None):
        if data:
            self.script.append(f"hex {session or self.session} {data.hex()}")

    def says(self, answer, session=None):
        self.prints.append(f"{session or self.session} {compact(answer)}")

    def sends(self, request, session=None):
        self.script.append(f"send {session or self.session} {payload(request).decode()}")

    def asks(self, request, answer):
        self.sends(request)
        self.says(answer)

    def settles(self):
        self.script.append("settle")


def declare(number, name, fields, parent=None):
    return {"id": number, "op": "declare", "class": name, "parent": parent, "fields": fields}


def write(number, name, fields):
    return {"id": number, "op": "write", "space": "a", "entry": {"class": name, "fields": fields}, "lease": LEASE}


def search(number, op, name, fields, timeout=0):
    return {"id": number, "op": op, "space": "a", "template": {"class": name, "fields": fields}, "timeout": timeout}


def notify(number, name, handback):
    template = {"class": name, "fields": {}}
    return {"id": number, "op": "notify", "space": "a", "template": template, "lease": LEASE, "handback": handback}


def told(handback, lease, sequence):
    return {"event": {"handback": handback, "lease": lease, "seq": sequence}}


def on_transaction(number, op, transaction):
    return {"id": number, "op": op, "txn": transaction}


def done(number):
    return {"id": number, "ok": None}


def granted(number, lease):
    return {"id": number, "ok": {"lease": lease, "ms": LEASE}}


def shown(number, name, fields):
    return {"id": number, "ok": {"class": name, "fields": fields}}


def refused(number, refusal):
    return {"id": number, "fault": refusal}


BAD_JSON = refused(None, 1)
BAD_REQUEST = refused(None, 2)
TOO_LONG = refused(None, 21)
SPACES = {"id": 9, "op": "spaces"}
SPACES_ARE = {"id": 9, "ok": ["a", "b"]}


def stream(k, lease):
    """A session's requests about an entry of its own, what is no JSON, and the answers."""
    return [
        (declare(1, "Job", {"k": "int", "who": "text"}), done(1)),
        (write(2, "Job", {"k": k}), granted(2, lease)),
        (search(3, "take", "Job", {"k": k}), shown(3, "Job", {"k": k, "who": None})),
        (search(4, "take", "Job", {"k": k}), done(4)),
        (b"{", BAD_JSON),
    ]


def number_read(text):
    return None if text == "-0" else int(text)  # it reads as a number with a fraction


def is_number(value):
    return type(value) is int and -(2**63) <= value < 2**63


def reading(data):
    """The answer to what a change of one byte makes of spaces, renew, cancel_all, or a take by the null template,
    where the spaces are empty, or None where that would wait."""
    try:
        request = json.loads(data.decode(), parse_int=number_read)
    except ValueError:
        return BAD_JSON
    number, operation = request.pop("id", None), request.pop("op", None)
    if not is_number(number) or number < 0:
        return BAD_REQUEST
    keys, values = sorted(request), [request[key] for key in sorted(request)]
    if operation == "spaces" and not keys:
        return {"id": number, "ok": ["a", "b"]}
    if operation == "renew" and keys == ["lease", "ms"] and all(map(is_number, values)):
        return refused(number, 12)
    if operation == "cancel_all" and keys == ["leases"] and isinstance(values[0], list):
        if all(map(is_number, values[0])):
            return {"id": number, "ok": [{"lease": lease, "fault": 12} for lease in values[0]]}
    if operation in ("read", "take") and keys == ["space", "template", "timeout"]:
        if isinstance(values[0], str) and values[1] is None and is_number(values[2]):
            if values[0] not in ("a", "b"):
                return refused(number, 5)
            return done(number) if values[2] == 0 else None
    return refused(number, 2)


def main(cases):
    """Names the cases, or prints the script or the expected lines of one: functions that fill a `Case`."""
    sys.stdout.reconfigure(encoding="utf-8")
    if len(sys.argv) == 1:
        print("\n".join(case.__name__ for case in cases))
        return
    what, name = sys.argv[1:]
    made = Case()
    {case.__name__: case for case in cases}[name](made)
    print("\n".join({"script": made.script, "prints": made.prints}[what]))
