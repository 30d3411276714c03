"""The package that `./jsp package` makes of the program: its bytes, its files, and a server and clients run from it.

    python3 package.py PROGRAM

It is made twice, here and in a copy of the checkout, and unpacked into folders of its own, which are removed. No
service manager is started or asked. Where all is as it should be it prints only what was passed over, for want of
dpkg-deb, pip, a JDK, Node, groff, zsh or fish.
"""
import base64
import hashlib
import os
import re
import shutil
import signal
import subprocess
import sys
import tarfile
import tempfile
import zipfile
from contextlib import suppress
from datetime import datetime, timezone
from pathlib import Path

ROOT = Path(__file__).parents[2]
sys.path.insert(0, str(ROOT / "packaging"))
sys.dont_write_bytecode = True
from options import COMMANDS, OPTIONS  # noqa: E402

SECONDS = 60
PAGE = (ROOT / "docs/OPERATING.md").read_text()

PYTHON = """
import sys
import jsp
from jsp import Client, entry
assert jsp.__file__.startswith(sys.argv[1]), jsp.__file__
host, port = sys.argv[2].rsplit(":", 1)
with Client(host, int(port)) as client:
    client.declare("Job", k="int", who="text")
    client.write("a", entry("Job", k=1), lease=60_000)
    print(client.take("a", entry("Job", k=1)))
"""

JAVA = """
package user;
import java.util.Map;
import jsp.Jsp;
public class Session {
    public static void main(String[] args) throws Exception {
        try (Jsp client = Jsp.connect(args[0])) {
            client.declare("Job", Map.of("k", Jsp.Kind.INT, "who", Jsp.Kind.TEXT));
            Jsp.Space a = client.space("a");
            a.write(Jsp.entry("Job").with("k", 1), null, 60_000);
            Jsp.Entry job = a.take(Jsp.entry("Job").with("k", 1), null, Jsp.NO_WAIT);
            System.out.println(job.number("k") + " " + job.text("who"));
        }
    }
}
"""

JAVASCRIPT = """
import { Client, entry } from "jsp-client";
const client = await Client.connect(process.argv[2]);
await client.declare("Job", { k: "int", who: "text" });
await client.write("a", entry("Job", { k: 1 }), { lease: 60_000 });
console.log(JSON.stringify(await client.take("a", entry("Job", { k: 1 }))));
client.close();
"""


def run(words, status=0, **options):
    done = subprocess.run(words, capture_output=True, text=True, timeout=SECONDS, **options)
    assert done.returncode == status, (words, done)
    return done.stdout


def same(found, wanted):
    assert found == wanted, f"{found!r}, where {wanted!r} was to be"


def has(command, passed_over):
    """Whether there is this command. Where there is none it is said what isn't tested."""
    if shutil.which(command):
        return True
    print(f"tests/package.py: {passed_over} passed over, since there is no {command}")
    return False


# What is made.


def time_of_commit():
    """The time of the last commit, or nothing where there is no repository."""
    words = ["git", "-C", ROOT, "log", "-1", "--format=%ct"]
    return subprocess.run(words, capture_output=True, text=True).stdout.strip() if shutil.which("git") else ""


# The time that all files get.
TIME = time_of_commit() or "1000000000"


def copy_of_checkout(program, folder):
    """What `./jsp package` needs of a checkout. The program is newer than the one source that it was built from."""
    for name in ("packaging", "docs", "examples"):
        shutil.copytree(ROOT / name, folder / name, ignore=shutil.ignore_patterns("__pycache__", "classes"))
    for name in ("jsp", "build", "crates.txt", "README.md", "CHANGELOG.md", "LICENSE"):
        shutil.copy(ROOT / name, folder / name)
    built = folder / "crates/jsp_program/out/jsp_program"
    built.parent.mkdir(parents=True)
    shutil.copy(program, built)


def made(program, folder):
    """The folder of a package, made here. Elsewhere, in another time zone and under another mask, its bytes are the
    same."""
    here, copy = folder / "made", folder / "copy"
    environment = {name: value for name, value in os.environ.items() if name != "SOURCE_DATE_EPOCH"}
    told = {**environment, "SOURCE_DATE_EPOCH": TIME}
    make = [sys.executable, "-B", ROOT / "packaging/make.py", program, here]
    run(make, env=environment if time_of_commit() else told)
    copy.mkdir()
    copy_of_checkout(program, copy)
    other = {**told, "TZ": "Asia/Kathmandu", "PYTHONHASHSEED": "7"}
    run(["sh", "-c", "umask 077; exec ./jsp package"], cwd=copy, env=other)
    first, second = ({path.name: path.read_bytes() for path in one.iterdir()} for one in (here, copy / "package"))
    same(sorted(first), sorted(second))
    for name, content in first.items():
        assert content == second[name], f"{name} isn't the same bytes"
    sums = "".join(f"{hashlib.sha256(first[name]).hexdigest()}  {name}\n" for name in listed(first))
    same(first["SHA256SUMS"].decode(), sums)
    return here


def listed(files):
    """Those that are hashed: the tar file, the Containerfile, and the .deb where there is one."""
    return [name for end in (".tar.gz", "Containerfile", ".deb") for name in files if name.endswith(end)]


def unpacked_tar(made, folder, version):
    """The folder within the tar file, which names the version and the machine. All of it is of one owner and time."""
    (path,) = made.glob("*.tar.gz")
    stem = path.name.removesuffix(".tar.gz")
    same(stem, f"jsp-{version}-linux-{os.uname().machine}")
    with tarfile.open(path) as archive:
        members = archive.getmembers()
    folder.mkdir()
    run(["tar", "-xzf", path, "-C", folder, "--no-same-owner"])
    same([member.name for member in members], sorted(member.name for member in members))
    for member in members:
        assert member.name == stem or member.name.startswith(f"{stem}/"), member.name
        same((member.uid, member.gid, member.uname, member.gname), (0, 0, "root", "root"))
        same(member.mtime, int(TIME))
        runs = member.isdir() or member.name.startswith(f"{stem}/bin/")
        same((member.name, oct(member.mode)), (member.name, oct(0o755 if runs else 0o644)))
    return folder / stem


def files_of(folder):
    return {path.relative_to(folder).as_posix(): path for path in folder.rglob("*") if path.is_file()}


def unpacked_deb(made, folder, version, tree):
    """The folder of the .deb as it is unpacked: the same files, and what dpkg is told of them."""
    (deb,) = made.glob("*.deb")
    architecture = run(["dpkg", "--print-architecture"]).strip()
    same(deb.name, f"jsp_{version}_{architecture}.deb")
    same(run(["dpkg-deb", "--field", deb, "Package", "Version", "Architecture"]).split()[1::2],
         ["jsp", version, architecture])
    run(["dpkg-deb", "--extract", deb, folder])
    run(["dpkg-deb", "--control", deb, folder / "DEBIAN"])
    same((folder / "DEBIAN/conffiles").read_text(), "/etc/default/jsp\n")
    run(["md5sum", "--check", "--strict", "DEBIAN/md5sums"], cwd=folder)
    same(len((folder / "DEBIAN/md5sums").read_text().splitlines()), len(files_of(tree)))
    shutil.rmtree(folder / "DEBIAN")
    for line in run(["dpkg-deb", "--contents", deb]).splitlines():
        same(line.split()[1], "root/root")
    elsewhere = {"etc/default/jsp": "etc/default/jsp",
                 "share/zsh/site-functions/_jsp": "usr/share/zsh/vendor-completions/_jsp"}
    placed = {elsewhere.get(name, f"usr/{name}"): path for name, path in files_of(tree).items()}
    same(sorted(files_of(folder)), sorted(placed))
    for name, path in files_of(folder).items():
        assert path.read_bytes() == placed[name].read_bytes(), name
    return folder / "usr"


def needs_its_libraries(made, program):
    """The .deb depends on the C library of the version that objdump tells of the program, where it stands on one."""
    (deb,) = made.glob("*.deb")
    depends = run(["dpkg-deb", "--field", deb, "Depends"]).strip()
    if program.read_bytes()[:4] != b"\x7fELF":
        same(depends, "")
        return
    said = run(["objdump", "--private-headers", program])
    versions = [tuple(map(int, found)) for found in re.findall(r"\bGLIBC_(\d+)\.(\d+)", said)]
    wanted = [f"libc6 (>= {'.'.join(map(str, max(versions)))})"] if versions else []
    libraries = set(re.findall(r"^ *NEEDED +(\S+)", said, re.MULTILINE))
    wanted += ["libgcc-s1"] * ("libgcc_s.so.1" in libraries)
    same(depends, ", ".join(wanted))
    known = {"libc.so.6", "libm.so.6", "libpthread.so.0", "libdl.so.2", "librt.so.1", "libgcc_s.so.1"}
    assert libraries <= known | {name for name in libraries if name.startswith("ld-linux")}, libraries


# The command line, which the program's own help tells.


def help_of(program, *words):
    return run([program, *words, "--help"], stdin=subprocess.DEVNULL)


def options_in(text):
    """The letter, the name, the value and the words of each option that a help names."""
    return re.findall(r"^ +(?:-(\w), )?--([\w-]+)(?: <(\w+)>)? +(\S.*)$", text, re.MULTILINE)


def list_is_that_of_the_program(program):
    """The list from which the rest is made has the options, words and commands of the help."""
    def told(options):
        return [
            (option.letter, option.name, option.value,
             option.help + (f" [default: {option.usual}]" if option.usual else ""))
            for option in options
        ]

    text = help_of(program)
    same(told(OPTIONS), options_in(text))
    commands = re.findall(r"^  (\w+) +(\S.*)$", text.split("Commands:\n")[1].split("\n\n")[0], re.MULTILINE)
    same([(command.name, command.help) for command in COMMANDS], [row for row in commands if row[0] != "help"])
    for command in COMMANDS:
        text = help_of(program, command.name)
        assert len(options_in(text)) == len(re.findall("^ .*--", text, re.MULTILINE)) >= 1, text
        same(told(command.options), options_in(text))


def named(program, *words):
    """The names of the options in a help."""
    return [name for _, name, _, _ in options_in(help_of(program, *words))]


def commands_of(program):
    return [command for command in re.findall(r"^  ([a-z]+) {2}", help_of(program), re.MULTILINE) if command != "help"]


def man_page_names_the_options(program, tree):
    page = (tree / "share/man/man1/jsp.1").read_text()
    day = datetime.fromtimestamp(int(TIME), timezone.utc).date()
    same(page.splitlines()[0], f'.TH JSP 1 "{day}" "{run([program, "--version"]).strip()}" "User Commands"')
    plain = page.replace("\\-", "-")
    sections = dict(re.findall(r"^\.S[HS] ([^\n]*)\n(.*?)(?=^\.S[HS] |\Z)", plain, re.MULTILINE | re.DOTALL))

    def options(title):
        return re.findall(r'^\.BI "(?:-\w, )?--([\w-]+)"', sections[title], re.MULTILINE)

    same(options("OPTIONS"), named(program))
    for command in commands_of(program):
        same(options(f"Options of jsp {command}"), named(program, command))
    everywhere = {name for words in ((), *([command] for command in commands_of(program)))
                  for name in named(program, *words)}
    same(set(re.findall(r"--([a-z][\w-]*)", plain)), everywhere)
    if has("groff", "the form of the man page"):
        said = subprocess.run(["groff", "-man", "-ww", "-z", "-Tutf8", "-K", "utf8", tree / "share/man/man1/jsp.1"],
                              capture_output=True, text=True, timeout=SECONDS)
        same((said.returncode, said.stderr), (0, ""))


def bash_completes(path, *words):
    """What bash offers for the last word."""
    script = 'source "$1"; shift; COMP_WORDS=("$@"); COMP_CWORD=$(($# - 1)); _jsp; printf "%s\\n" "${COMPREPLY[@]}"'
    return run(["bash", "-c", script, "bash", path, *words]).split()


def bash_names_the_options(program, tree):
    path = tree / "share/bash-completion/completions/jsp"
    commands = commands_of(program)
    same(bash_completes(path, "jsp", "--"), [f"--{name}" for name in named(program)])
    same(bash_completes(path, "jsp", ""), [*commands, "help", *(f"--{name}" for name in named(program))])
    same(bash_completes(path, "jsp", "help", ""), commands)
    for command in commands:
        same(bash_completes(path, "jsp", command, ""), [f"--{name}" for name in named(program, command)])
    for _, name, value, _ in options_in(help_of(program, "listen")):
        offered = bash_completes(path, "jsp", "listen", f"--{name}", "--era")
        same(offered, [] if value else ["--era", "--era-bytes"])


def zsh_names_the_options(program, tree):
    path = tree / "share/zsh/site-functions/_jsp"
    text = path.read_text()
    assert text.startswith("#compdef jsp\n")

    def options(arguments):
        return re.findall(r"(?:'|,)--([\w-]+)(?=\[|\})", arguments)

    same(options(text.split("case $state")[0]), named(program))
    for command in commands_of(program):
        (arguments,) = re.findall(rf"^ +{command}\) _arguments(.*?);;$", text, re.MULTILINE | re.DOTALL)
        same(options(arguments), named(program, command))
    same(re.findall(r"^ +'([a-z]+):", text, re.MULTILINE), [*commands_of(program), "help"])
    if has("zsh", "the form of the completion for zsh"):
        run(["zsh", "-n", path])


def fish_names_the_options(program, tree):
    path = tree / "share/fish/vendor_completions.d/jsp.fish"
    text = path.read_text()

    def options(condition):
        return re.findall(rf"^complete -c jsp -n '?{condition}'?(?: -s \w)? -l ([\w-]+)", text, re.MULTILINE)

    same(options("__fish_use_subcommand"), named(program))
    for command in commands_of(program):
        same(options(f"__fish_seen_subcommand_from {command}"), named(program, command))
    same(re.findall(r"__fish_use_subcommand -a (\w+)", text), [*commands_of(program), "help"])
    if has("fish", "the form of the completion for fish"):
        run(["fish", "--no-execute", path])


def pages_name_the_options(program, tree):
    """The table of the page, and the environment file, which has those that jsp-serve can be given."""
    rows = re.findall(r"^\| `--([\w-]+)[ `]", PAGE, re.MULTILINE)
    listen = [name for name in named(program, "listen") if name != "help"]
    same(sorted(rows), sorted(listen))
    settings = (tree / "etc/default/jsp").read_text()
    same(re.findall(r"^#   --([\w-]+)", settings, re.MULTILINE), [name for name in listen if name != "until-input"])


# The service.


def blocks(kind):
    return re.findall(rf"^```{kind}\n(.*?)^```$", PAGE, re.MULTILINE | re.DOTALL)


def page_has_the_files(made, tree):
    """The page shows the script, the unit and the Containerfile as they are packaged."""
    assert (tree / "bin/jsp-serve").read_text() in blocks("sh")
    assert (tree / "lib/systemd/system/jsp.service").read_text() in blocks("ini")
    container = (made / "Containerfile").read_text()
    same(blocks("Dockerfile"), [container])
    for path in re.findall(r"^COPY --from=unpacked /jsp/(\S+)", container, re.MULTILINE):
        assert (tree / path).exists(), path
    (pattern,) = re.findall(r"^COPY (\S+) /jsp.tar.gz$", container, re.MULTILINE)
    same(len(list(made.glob(pattern))), 1)
    known = {"FROM", "COPY", "RUN", "USER", "EXPOSE", "STOPSIGNAL", "ENTRYPOINT", "CMD"}
    same({line.split()[0] for line in container.splitlines() if line and not line.startswith("#")}, known)


def page_lists_the_files(tree, version):
    """The page names the packages, and what is in them: all of it, and nothing else but the environment file."""
    for name in (f"jsp-{version}-linux-x86_64.tar.gz", f"jsp_{version}_amd64.deb"):
        assert f"| `{name}` |" in PAGE, name
    table = PAGE.split("| Below `/usr`, ")[1].split("\n\n")[0]
    paths = [path for cell in re.findall(r"^\| (`.*?) \|", table, re.MULTILINE) for path in re.findall("`(.*?)`", cell)]
    for name in files_of(tree):
        assert name == "etc/default/jsp" or name.startswith(tuple(paths)), name
    for path in paths:
        assert (tree / path).exists() or path.endswith(".jar") and not shutil.which("javac"), path


def unit_of(text):
    """The keys and values of each section of a unit file. One line has one of them, and no key comes twice."""
    sections, keys = {}, None
    for line in text.splitlines():
        if line.startswith("["):
            keys = sections.setdefault(line.strip("[]"), {})
        elif line and not line.startswith("#"):
            key, value = line.split("=", 1)
            assert key not in keys, key
            keys[key] = value
    return sections


def known_keys():
    text = (Path(__file__).parent / "systemd_keys.txt").read_text()
    return {name: set(keys.split()) for name, keys in re.findall(r"^\[(\w+)\]\n([^\[]*)", text, re.MULTILINE)}


def quoted_words(text):
    """The words of a value, of which one in double quotes may have blanks."""
    return [quoted or plain for quoted, plain in re.findall(r'"([^"]*)"|(\S+)', text)]


def unit_is_sound(tree):
    """systemd knows its keys, it runs as a user of its own, and its limits do for the connections that there may be."""
    sections = unit_of((tree / "lib/systemd/system/jsp.service").read_text())
    known = known_keys()
    same(list(sections), ["Unit", "Service", "Install"])
    for name, keys in sections.items():
        assert keys.keys() <= known[name], keys.keys() - known[name]
    service = sections["Service"]
    switches = "Dynamic|No|Lock|MemoryDeny|Private|Restrict(N|Realtime|SU)|Protect(C|K)"
    same({value for key, value in service.items() if re.match(switches, key)}, {"yes"})
    assert service["DynamicUser"] == "yes" and not {"User", "Group"} & service.keys()
    same((service["ProtectSystem"], service["CapabilityBoundingSet"]), ("strict", ""))
    same(service["KillMode"], "mixed")  # or SIGTERM would end the server before the script can
    # The options' own default, and what the page says that a server takes beside its connections.
    (connections,) = re.findall(r"^\| `--connections N` .* \| (\d+) \|$", PAGE, re.MULTILINE)
    shell = 1
    assert int(service["TasksMax"]) >= 2 * int(connections) + 4 + shell
    assert int(service["LimitNOFILE"]) >= int(connections) + 16
    return service


def arguments_of_service(tree, service):
    """What the unit's command becomes, with its own values; those of the environment file are the same."""
    values = dict(word.split("=", 1) for word in quoted_words(service["Environment"]))
    settings = (tree / "etc/default/jsp").read_text()
    same(dict(re.findall(r'^(JSP_\w+)="?([^"\n]*)"?$', settings, re.MULTILINE)), values)
    same(service["EnvironmentFile"], "-/etc/default/jsp")
    name, *variables = service["ExecStart"].split()
    same(name, "jsp-serve")
    return [word for variable in variables for word in values[variable.removeprefix("$")].split()]


# The server and its clients.


def python_clients(tree, folder):
    """Commands that run a session with the client that pip installs, from the folder and from the wheel."""
    source = tree / "share/jsp/python"
    (wheel,) = source.glob("*.whl")
    with zipfile.ZipFile(wheel) as archive:
        (record,) = (name for name in archive.namelist() if name.endswith(".dist-info/RECORD"))
        rows = [line.split(",") for line in archive.read(record).decode().splitlines()]
        same([name for name, _, _ in rows], archive.namelist())
        for name, digest, length in rows[:-1]:
            content = archive.read(name)
            hashed = base64.urlsafe_b64encode(hashlib.sha256(content).digest()).decode().rstrip("=")
            same((digest, length), (f"sha256={hashed}", str(len(content))))
    if subprocess.run([sys.executable, "-m", "pip", "--version"], capture_output=True).returncode:
        print("tests/package.py: the client in Python passed over, since there is no pip")
        return
    pip = [sys.executable, "-B", "-m", "pip", "--disable-pip-version-check", "install", "--no-index", "--no-deps"]
    for what in (source, wheel):
        target = folder / f"from {what.name}"
        run([*pip, "--quiet", "--target", target, what], env={**os.environ, "PYTHONDONTWRITEBYTECODE": "1"})
        same((target / "jsp.py").read_bytes(), (ROOT / "examples/clients/jsp.py").read_bytes())
        environment = {**os.environ, "PYTHONPATH": str(target)}
        yield [sys.executable, "-B", "-c", PYTHON, str(target)], environment, "{'k': 1, 'who': None}\n"


def java_clients(tree, folder):
    """The command that runs a session with the jar, in a program of a package of its own."""
    jar = tree / "share/jsp/java/jsp-client.jar"
    if has("javac", "the client in Java"):
        source, classes = folder / "Session.java", folder / "classes"
        source.write_text(JAVA)
        run(["javac", "-cp", jar, "-d", classes, source])
        yield ["java", "-cp", f"{jar}:{classes}", "user.Session"], None, "1 null\n"
    else:
        assert not jar.exists()


def javascript_clients(tree, folder):
    """The command that runs a session with the folder, at the place where npm puts it."""
    if has("node", "the client in JavaScript"):
        shutil.copytree(tree / "share/jsp/javascript", folder / "node_modules/jsp-client")
        program = folder / "session.mjs"
        program.write_text(JAVASCRIPT)
        yield ["node", program], None, '{"k":1,"who":null}\n'


def serves_its_clients(tree, arguments, folder):
    """The server as the unit runs it, but for its address, and each packaged client. SIGTERM ends it in order."""
    clients = [*python_clients(tree, folder), *java_clients(tree, folder), *javascript_clients(tree, folder)]
    words = [re.sub(r":\d+$", ":0", word) for word in arguments]
    environment = {**os.environ, "PATH": f"{tree / 'bin'}:{os.environ['PATH']}"}
    pipes = {"stdout": subprocess.PIPE, "stderr": subprocess.PIPE, "text": True}
    with subprocess.Popen(["jsp-serve", *words], env=environment, start_new_session=True, **pipes) as server:
        try:
            address = server.stdout.readline().removeprefix("listening ").strip()
            for command, environment, wanted in clients:
                same(run([*command, address], env=environment), wanted)
            server.send_signal(signal.SIGTERM)
            _, told = server.communicate(timeout=SECONDS)
            compared = [line for line in told.splitlines() if line.startswith("jsp: ")]
            same((server.returncode, compared), (0, [f"jsp: compared {len(clients)} lines"]))
        finally:
            # Where something went wrong the script or its server is left.
            with suppress(ProcessLookupError):
                os.killpg(server.pid, signal.SIGKILL)


def main(program):
    program = Path(program).resolve()
    version = run([program, "--version"]).split()[1]
    list_is_that_of_the_program(program)
    with tempfile.TemporaryDirectory() as name:
        folder = Path(name)
        package = made(program, folder)
        tree = unpacked_tar(package, folder / "tar", version)
        for names_the_options in (man_page_names_the_options, bash_names_the_options, zsh_names_the_options,
                                  fish_names_the_options, pages_name_the_options):
            names_the_options(program, tree)
        page_has_the_files(package, tree)
        page_lists_the_files(tree, version)
        arguments = arguments_of_service(tree, unit_is_sound(tree))
        installed = tree
        if has("dpkg-deb", "the .deb"):
            installed = unpacked_deb(package, folder / "deb", version, tree)
            if has("objdump", "what the .deb depends on"):
                needs_its_libraries(package, program)
        serves_its_clients(installed, arguments, folder)


if __name__ == "__main__":
    main(sys.argv[1])
