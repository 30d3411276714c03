"""A transfer between two spaces under a transaction, while another client looks on.

    python3 transfer.py HOST:PORT

It opens two connections. The other client sees the amounts before the transfer, or those after it, and is told of the
entries that the commit brings: never of what was written in between. Its accounts bear the name of this run, so that it
can be run again and beside others; a minute later they are gone.
"""
import sys
import uuid

from jsp import Client, Refused, entry

LEASE = 60_000


def transfer(jsp, run, amount):
    """Moves an amount from the account in a to the one in b, or leaves both as they are."""
    with jsp.transaction() as txn:
        payer = jsp.take("a", entry("Account", run=run), txn=txn)
        payee = jsp.take("b", entry("Account", run=run), txn=txn)
        jsp.write("a", entry("Account", run=run, amount=payer["amount"] - amount), lease=LEASE, txn=txn)
        jsp.write("b", entry("Account", run=run, amount=payee["amount"] + amount), lease=LEASE, txn=txn)
        if amount > payer["amount"]:
            raise ValueError("not enough")


def shown(jsp, run):
    a, b = (jsp.read(space, entry("Account", run=run)) for space in ("a", "b"))
    return f"a {a['amount']} b {b['amount']}"


def main(address):
    with Client(*address) as jsp, Client(*address) as other:
        jsp.declare("Account", run="text", amount="int")
        run = uuid.uuid4().hex
        jsp.write("a", entry("Account", run=run, amount=70), lease=LEASE)
        jsp.write("b", entry("Account", run=run, amount=30), lease=LEASE)
        print("before:", shown(other, run))
        other.notify("b", entry("Account", run=run), lease=LEASE, handback="b has changed")

        transfer(jsp, run, 50)
        print("after 50 more:", shown(other, run))
        print("told:", other.event(seconds=60).handback)

        try:
            transfer(jsp, run, 50)
        except ValueError as error:
            print(f"{error}:", shown(other, run))
        print("told of what was aborted:", other.event(seconds=0.2))

        try:
            jsp.write("c", entry("Account", run=run, amount=1), lease=LEASE)
        except Refused as refused:
            print("a space that isn't there:", refused)


if __name__ == "__main__":
    host, port = sys.argv[1].rsplit(":", 1)
    main((host, int(port)))
