"""What README.md says of a server and its clients, done in its order against one server; twice.

    python3 readme.py PROGRAM

PROGRAM stands for `./jsp`, and the address that the server says for the one of the page. The lines of the session are
typed, the blocks in Python, Java and JavaScript are run as they stand, and the commands too; what is Java where there is
a JDK, and what is JavaScript where there is Node. It prints nothing where all ends as it should.
"""
import os
import re
import shutil
import subprocess
import sys
import tempfile
from pathlib import Path

ROOT = Path(__file__).parents[2]
ADDRESS = "127.0.0.1:7070"
SECONDS = 100
HAS_JDK = shutil.which("javac") is not None
HAS_NODE = shutil.which("node") is not None
JAVA = """import java.util.Map;
public class Readme {{
    public static void main(String[] args) throws Exception {{
        {}
    }}
}}
"""


def steps():
    """The commands and blocks of the section, in order: of each its kind and its text."""
    section = (ROOT / "README.md").read_text().split("\n## A server and its clients\n", 1)[1].split("\n## ", 1)[0]
    for kind, block, command in re.findall(r"^```(\w+)\n(.*?)^```$|^ {4}([^\n]+)$", section, re.MULTILINE | re.DOTALL):
        yield kind or "command", block or command


def run(words, status=0, **options):
    done = subprocess.run(words, capture_output=True, text=True, timeout=SECONDS, cwd=ROOT, **options)
    assert done.returncode == status, (words, done)
    return done


class Page:
    """What the page says, with this program, server and folder for classes in the place of its own."""

    def __init__(self, program, address, classes):
        self.program = program
        self.address = address
        self.classes = classes
        self.kinds = {
            "text": self.type,
            "python": self.run_python,
            "java": self.run_java,
            "js": self.run_js,
            "command": self.run_command,
        }

    def with_own(self, text):
        own = {ADDRESS: self.address, "7070": self.address.rsplit(":", 1)[1], "./jsp": self.program}
        text = re.sub(r"127\.0\.0\.1:7070|7070|\./jsp", lambda found: own[found[0]], text)
        return text.replace(" classes ", f" {self.classes} ")

    def type(self, session):
        """One line of it is refused. What is told of that is the last line."""
        lines = session.splitlines()
        typed = [line for line in lines if not line.startswith(("{", "jsp: "))]
        done = run([self.program, "client", self.address], 1, input="\n".join(typed) + "\n")
        assert done.stderr == lines[-1] + "\n", done
        assert len(done.stdout.splitlines()) + len(typed) + 1 == len(lines), done

    def run_python(self, block):
        environment = {**os.environ, "PYTHONPATH": str(ROOT / "examples" / "clients")}
        run([sys.executable, "-B", "-c", "from jsp import Client, entry\n" + self.with_own(block)], env=environment)

    def run_java(self, block):
        if HAS_JDK:
            source = Path(self.classes, "Readme.java")
            source.write_text(JAVA.format(self.with_own(block)))
            run(["javac", "-d", self.classes, ROOT / "examples/clients/java/Jsp.java", source])
            run(["java", "-cp", self.classes, "Readme"])

    def run_js(self, block):
        if HAS_NODE:
            client = (ROOT / "examples" / "clients" / "js" / "jsp.mjs").as_uri()
            imports = f'import {{ Client, entry }} from "{client}";\n'
            run(["node", "--input-type=module", "--eval", imports + self.with_own(block)])

    def run_command(self, command):
        # The server is there, and the session of the client that is typed stands behind its command.
        if " listen " in command or command == f"./jsp client {ADDRESS}":
            return
        if command.startswith("javac ") and not HAS_JDK or command.startswith("node ") and not HAS_NODE:
            return
        run(["bash", "-c", self.with_own(command)])


def main(program):
    program = str(Path(program).resolve())
    listen = [program, "listen", "--log", "off", "--until-input", "127.0.0.1:0", "a", "b"]
    with subprocess.Popen(
        listen, stdin=subprocess.PIPE, stdout=subprocess.PIPE, stderr=subprocess.PIPE, text=True
    ) as server, tempfile.TemporaryDirectory() as classes:
        address = server.stdout.readline().removeprefix("listening ").strip()
        try:
            page = Page(program, address, classes)
            found = list(steps())
            assert {kind for kind, _ in found} == set(page.kinds), found
            for _ in range(2):
                for kind, text in found:
                    page.kinds[kind](text)
            # The other examples too, beside what these left.
            for example in ("first", "pool", "transfer", "listing") * 2:
                run([sys.executable, "-B", f"examples/clients/{example}.py", address])
        finally:
            _, told = server.communicate("\n", timeout=SECONDS)
        assert server.returncode == 0 and told.startswith("jsp: compared "), told


if __name__ == "__main__":
    main(sys.argv[1])
