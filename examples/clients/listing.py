"""A listing of a space by pages, while another client takes and writes entries.

    python3 listing.py HOST:PORT

It opens two connections. What was there all the time is listed once; what is taken before its page comes isn't, and
what is written after the listing began isn't either. Its entries bear the name of this run, so that it can be run again
and beside others; a minute later they are gone.
"""
import sys
import uuid

from jsp import Client, entry

LEASE = 60_000


def main(address):
    with Client(*address) as jsp, Client(*address) as other:
        jsp.declare("Item", run="text", k="int")
        run = uuid.uuid4().hex
        for k in range(1, 41):
            jsp.write("a", entry("Item", run=run, k=k), lease=LEASE)

        listed = []
        for item in jsp.contents("a", entry("Item", run=run), most=10):
            listed.append(item["k"])
            if len(listed) == 10:
                other.take("a", entry("Item", run=run, k=5))
                other.take("a", entry("Item", run=run, k=25))
                other.write("a", entry("Item", run=run, k=41), lease=LEASE)
        print("listed:", *listed)


if __name__ == "__main__":
    host, port = sys.argv[1].rsplit(":", 1)
    main((host, int(port)))
