"""What `jsp` can be told: the one list that the man page, the completions and the environment file are made from.

The texts are those of `jsp --help`, which examples/tests/package.py compares them with.
"""
from typing import NamedTuple


class Option(NamedTuple):
    name: str  # without its dashes
    help: str
    value: str = ""  # what its value is called; it has none where this is empty
    usual: str = ""  # what holds where the option isn't given
    letter: str = ""  # its short form


class Argument(NamedTuple):
    name: str
    help: str
    form: str  # how a usage line has it


class Command(NamedTuple):
    name: str
    help: str
    options: tuple[Option, ...]
    arguments: tuple[Argument, ...]


HELP = Option("help", "Print help", letter="h")
VERSION = Option("version", "Print version", letter="V")

NAMES = Argument("NAME", "The spaces: 1 to 64 names of 1 to 64 letters, digits, '_', '.' or '$'", "NAME..")

SCRIPT = Command(
    "script",
    "Runs the script on standard input and prints each answer",
    (
        Option("audit", "Replays the run before anything is printed, and compares it with what was sent"),
        Option("scan", "Looks at each entry in every search, which is slower and answers the same"),
        HELP,
    ),
    (NAMES,),
)

LISTEN = Command(
    "listen",
    "Serves clients over TCP, and says where once it listens",
    (
        Option("lines", "Ends when so many connections have ended", "N", "1000000000"),
        Option(
            "connections",
            "How many connections it serves at once; one more takes the place of a silent one, or is closed",
            "N",
            "256",
        ),
        Option("idle", "Closes a connection that makes no whole request for so long", "SECONDS", "never"),
        Option("era", "How many steps of its history it keeps at most, some 300 bytes each", "STEPS", "131072"),
        Option("era-bytes", "How many bytes of requests and answers it keeps at most", "BYTES", "67108864"),
        Option("backlog", "Closes a connection for which more answers and events wait, unread", "N", "65536"),
        Option("backlog-bytes", "The same where these take more memory, about", "BYTES", "16777216"),
        Option("log", "How it says on standard error what happens: text, json or off", "FORMAT", "text"),
        Option("quiet", "Says there only what is wrong"),
        Option("until-input", "Ends in order once standard input has a line or ends"),
        Option("status", "Shows its status there: to a browser, at /status.json, and at /metrics", "ADDR", "nowhere"),
        HELP,
    ),
    (
        Argument(
            "ADDR",
            "Where to listen, as 127.0.0.1:7070; port 0 takes a free one. Whoever reaches it may do everything",
            "ADDR",
        ),
        NAMES,
    ),
)

CLIENT = Command(
    "client",
    "Makes the requests on standard input, a line each, and prints what the server says",
    (
        Option("must", "Ends with status 1 where a read or a take finds no entry, too"),
        Option("status", "Prints the status that is shown at the address, as `jsp listen --status` has it"),
        HELP,
    ),
    (
        Argument("ADDR", "The server, as 127.0.0.1:7070; or `help`, with an operation or without", "ADDR"),
        Argument(
            "REQUEST",
            "The one request that is made, in place of those on standard input, as: take a Job",
            "[REQUEST..]",
        ),
    ),
)

# The options of `jsp` itself, and its commands.
OPTIONS = (HELP, VERSION)
COMMANDS = (SCRIPT, LISTEN, CLIENT)
