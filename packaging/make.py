"""Makes the package of a program: a compressed tar file, and a .deb where there is dpkg-deb.

    python3 make.py PROGRAM FOLDER

What is in it comes from this folder and from the repository. The same input makes the same bytes: all times are that of
the last commit, or SOURCE_DATE_EPOCH where that is set. The jar is made where there is a JDK.
"""
import hashlib
import os
import platform
import re
import shutil
import subprocess
import sys
import tempfile
from datetime import datetime, timezone
from pathlib import Path

import completions
import options
from archives import File, folders, tarred, zipped

HERE = Path(__file__).resolve().parent
ROOT = HERE.parent

# What the machine is called by Debian.
ARCHITECTURES = {"x86_64": "amd64", "aarch64": "arm64", "riscv64": "riscv64", "ppc64le": "ppc64el", "s390x": "s390x"}

SETTINGS = "etc/default/jsp"

# Where a .deb puts what isn't at the same place below /usr.
DEBIAN_PLACES = {SETTINGS: SETTINGS, "share/zsh/site-functions/_jsp": "usr/share/zsh/vendor-completions/_jsp"}

# The examples and pages that are packaged as they stand, beside the pages of docs/.
DOCUMENTS = ("README.md", "CHANGELOG.md", "LICENSE")
EXAMPLES = ("*.script", "*.expected", "clients/*.py", "clients/*.expected", "clients/java/*.java",
            "clients/java/*.expected", "clients/js/*.mjs", "clients/js/*.expected")


class Failure(Exception):
    """The package can't be made, for this reason."""


def say(words):
    print(f"jsp: {words}", file=sys.stderr)


def run(words, **others):
    done = subprocess.run(words, capture_output=True, text=True, **others)
    if done.returncode:
        raise Failure(f"{' '.join(map(str, words))}: {done.stderr.strip()}")
    return done.stdout


def version_of(program):
    """The version that the program says."""
    said = run([program, "--version"], stdin=subprocess.DEVNULL)
    found = re.fullmatch(r"jsp (\d+(?:\.\d+)*)\n", said)
    if not found:
        raise Failure(f"{program} --version: {said!r}")
    return found[1]


def time_of_sources():
    """The time that all files get, in seconds."""
    told = os.environ.get("SOURCE_DATE_EPOCH")
    if told is not None:
        return int(told)
    try:
        return int(run(["git", "-C", ROOT, "log", "-1", "--format=%ct"]))
    except (Failure, OSError) as failure:
        raise Failure(f"SOURCE_DATE_EPOCH is needed where there is no commit: {failure}") from failure


def filled(name, **values):
    """A file of this folder with values in the places of their names, @NAME@."""
    return re.sub("@([A-Z]+)@", lambda found: values[found[1].lower()], (HERE / name).read_text())


# What is made from the list of options.


def in_roff(text):
    return text.replace("\\", "\\e").replace("-", "\\-").replace("'", "\\(aq")


def described(option):
    return option.help + (f" [default: {option.usual}]" if option.usual else "")


def in_man_page(option):
    letter = f"\\-{option.letter}, " if option.letter else ""
    value = f'" {option.value}"' if option.value else ""
    return f".TP\n.BI \"{letter}\\-\\-{in_roff(option.name)}\" {value}".rstrip() + f"\n{in_roff(described(option))}"


def man_page(version, time):
    tables = {command.name: command.options for command in options.COMMANDS} | {"options": options.OPTIONS}
    texts = {name: "\n".join(map(in_man_page, listed)) for name, listed in tables.items()}
    date = datetime.fromtimestamp(time, timezone.utc).strftime("%Y-%m-%d")
    return filled("jsp.1", version=version, date=date, **texts)


def settings():
    """The environment file of the service."""
    told = [option for option in options.LISTEN.options if option.name not in ("help", "until-input")]
    names = [f"--{option.name} {option.value}" for option in told]
    width = max(map(len, names))
    lines = [f"#   {name.ljust(width)}  {described(option)}" for name, option in zip(names, told)]
    return filled("jsp.default", options="\n".join(lines))


# The clients.


def python_client(version):
    """The folder that pip installs, and the wheel that it makes of it."""
    files = {
        "pyproject.toml": filled("python/pyproject.toml", version=version).encode(),
        "backend.py": (HERE / "python/backend.py").read_bytes(),
        "LICENSE": (ROOT / "LICENSE").read_bytes(),
        "src/jsp.py": (ROOT / "examples/clients/jsp.py").read_bytes(),
    }
    with tempfile.TemporaryDirectory() as name:
        for path, content in files.items():
            Path(name, path).parent.mkdir(exist_ok=True)
            Path(name, path).write_bytes(content)
        build = "import backend; print(backend.build_wheel('.'))"
        wheel = run([sys.executable, "-B", "-c", build], cwd=name).strip()
        files[wheel] = Path(name, wheel).read_bytes()
    return files


def java_client(version):
    """The jar, where there is a JDK. In it the client is in a package, since what is in none can't be imported."""
    if not shutil.which("javac"):
        say("the jar is left out, since there is no JDK")
        return {}
    with tempfile.TemporaryDirectory() as name:
        source = Path(name, "Jsp.java")
        source.write_text("package jsp;\n\n" + (ROOT / "examples/clients/java/Jsp.java").read_text())
        classes = Path(name, "classes")
        run(["javac", "--release", "17", "-encoding", "UTF-8", "-d", classes, source])
        manifest = f"Manifest-Version: 1.0\nAutomatic-Module-Name: jsp\nImplementation-Version: {version}\n\n"
        files = {"META-INF/MANIFEST.MF": manifest.encode(), "META-INF/LICENSE": (ROOT / "LICENSE").read_bytes()}
        for path in sorted(classes.rglob("*.class")):
            files[path.relative_to(classes).as_posix()] = path.read_bytes()
    return {"jsp-client.jar": zipped(files)}


def javascript_client(version):
    """The folder that npm installs."""
    return {
        "package.json": filled("javascript/package.json", version=version).encode(),
        "jsp.mjs": (ROOT / "examples/clients/js/jsp.mjs").read_bytes(),
        "LICENSE": (ROOT / "LICENSE").read_bytes(),
    }


# The whole.


def documents():
    paths = [*map(ROOT.joinpath, DOCUMENTS), *(ROOT / "docs").glob("*.md")]
    for pattern in EXAMPLES:
        paths += (ROOT / "examples").glob(pattern)
    return {path.relative_to(ROOT).as_posix(): path.read_bytes() for path in paths}


def contents(program, version, time):
    """Each file of the package, by its path below the folder where it is installed."""
    files = {
        "bin/jsp": File(program.read_bytes(), 0o755),
        "bin/jsp-serve": File((HERE / "jsp-serve").read_bytes(), 0o755),
        "lib/systemd/system/jsp.service": File((HERE / "jsp.service").read_bytes()),
        SETTINGS: File(settings().encode()),
        "share/man/man1/jsp.1": File(man_page(version, time).encode()),
        "share/bash-completion/completions/jsp": File(completions.bash().encode()),
        "share/zsh/site-functions/_jsp": File(completions.zsh().encode()),
        "share/fish/vendor_completions.d/jsp.fish": File(completions.fish().encode()),
        "share/doc/jsp/copyright": File((ROOT / "LICENSE").read_bytes()),
    }
    clients = {"python": python_client, "java": java_client, "javascript": javascript_client}
    for language, client in clients.items():
        for path, content in client(version).items():
            files[f"share/jsp/{language}/{path}"] = File(content)
    for path, content in documents().items():
        files[f"share/doc/jsp/{path}"] = File(content)
    return files


def libraries(program):
    """The Debian packages that the program needs: the C library, of the highest version that a symbol of it names."""
    content = program.read_bytes()
    versions = [tuple(map(int, found)) for found in re.findall(rb"\0GLIBC_(\d+)\.(\d+)(?=[.\d]*\0)", content)]
    needed = [f"libc6 (>= {'.'.join(map(str, max(versions)))})"] if versions else []
    return needed + ["libgcc-s1"] * (b"\0libgcc_s.so.1\0" in content)


def control(program, version, architecture, files):
    """The control file of the .deb. A line that says nothing is left out."""
    text = filled(
        "control",
        version=version,
        architecture=architecture,
        kibibytes=str(sum(-(-len(file.content) // 1024) for file in files.values())),
        depends=", ".join(libraries(program)),
    )
    return re.sub(r"^Depends: \n", "", text, flags=re.MULTILINE)


def put(folder, files, time):
    """Writes the files into a folder, all with this time."""
    for path, file in files.items():
        target = folder / path
        target.parent.mkdir(parents=True, exist_ok=True)
        target.write_bytes(file.content)
        target.chmod(file.mode)
        os.utime(target, (time, time))
    for path in sorted(folders(files), reverse=True):
        (folder / path).chmod(0o755)
        os.utime(folder / path, (time, time))
    folder.chmod(0o755)
    os.utime(folder, (time, time))


def make_deb(folder, program, version, architecture, files, time):
    """Packs the files with what dpkg has to know of them."""
    placed = {DEBIAN_PLACES.get(path, f"usr/{path}"): file for path, file in files.items()}
    sums = [f"{hashlib.md5(file.content).hexdigest()}  {path}\n" for path, file in sorted(placed.items())]
    known = {
        "DEBIAN/control": File(control(program, version, architecture, placed).encode()),
        "DEBIAN/conffiles": File(f"/{SETTINGS}\n".encode()),
        "DEBIAN/md5sums": File("".join(sums).encode()),
    }
    target = folder / f"jsp_{version}_{architecture}.deb"
    with tempfile.TemporaryDirectory() as name:
        put(Path(name), {**placed, **known}, time)
        environment = {**os.environ, "SOURCE_DATE_EPOCH": str(time)}
        run(["dpkg-deb", "--root-owner-group", "-Zgzip", "--build", name, target], env=environment)
    return target


def make(program, folder):
    """Makes the package in the folder, and names what it made."""
    version, time, machine = version_of(program), time_of_sources(), platform.machine()
    files = contents(program, version, time)
    folder.mkdir(parents=True, exist_ok=True)
    name = f"jsp-{version}-linux-{machine}"
    made = [folder / f"{name}.tar.gz", folder / "Containerfile"]
    made[0].write_bytes(tarred({f"{name}/{path}": file for path, file in files.items()}, time))
    shutil.copyfile(HERE / "Containerfile", made[1])
    if shutil.which("dpkg-deb") and machine in ARCHITECTURES:
        made.append(make_deb(folder, program, version, ARCHITECTURES[machine], files, time))
    else:
        say("the .deb is left out, since there is no dpkg-deb for this machine")
    sums = [f"{hashlib.sha256(path.read_bytes()).hexdigest()}  {path.name}\n" for path in made]
    (folder / "SHA256SUMS").write_text("".join(sums))
    return made


def main(program, folder):
    for path in make(Path(program).resolve(), Path(folder)):
        print(path)


if __name__ == "__main__":
    if len(sys.argv) != 3:
        sys.exit(__doc__)
    try:
        main(*sys.argv[1:])
    except (Failure, OSError) as failure:
        say(failure)
        sys.exit(1)
