"""The first session of README.md.

    python3 first.py HOST:PORT
"""
import sys

from jsp import Client, entry

host, port = sys.argv[1].rsplit(":", 1)
with Client(host, int(port)) as jsp:
    jsp.declare("Job", k="int", who="text")
    jsp.write("a", entry("Job", k=1), lease=1000)
    print(jsp.take("a", entry("Job", k=1)))
