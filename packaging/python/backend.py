"""Builds the wheel of the client in src/: a build backend (PEP 517) on the standard library alone.

A wheel is a zip file of the modules, of what pyproject.toml says of them, and of a list of both (PEP 427). The same
files make the same bytes.
"""
import base64
import hashlib
import re
import zipfile
from pathlib import Path

ROOT = Path(__file__).parent
EARLIEST = (1980, 1, 1, 0, 0, 0)  # the earliest time that a zip file can tell

WHEEL = """\
Wheel-Version: 1.0
Generator: jsp
Root-Is-Purelib: true
Tag: py3-none-any
"""


def read_project():
    """What pyproject.toml says of the project. Its texts stand in a line each, and Python 3.10 reads no TOML."""
    return dict(re.findall(r'^([\w-]+) = "(.*)"$', (ROOT / "pyproject.toml").read_text(), re.MULTILINE))


def metadata(project):
    return f"""\
Metadata-Version: 2.1
Name: {project["name"]}
Version: {project["version"]}
Summary: {project["description"]}
License: Apache-2.0
License-File: LICENSE
Requires-Python: {project["requires-python"]}
"""


def recorded(path, content):
    """The line of the list for a file: its path, what it hashes to, and its length."""
    digest = base64.urlsafe_b64encode(hashlib.sha256(content).digest()).rstrip(b"=").decode()
    return f"{path},sha256={digest},{len(content)}\n"


def contents(project, stem):
    """What the wheel holds, by paths. The list comes last and has no hash of its own."""
    info = f"{stem}.dist-info"
    files = {source.name: source.read_bytes() for source in sorted((ROOT / "src").glob("*.py"))}
    files[f"{info}/LICENSE"] = (ROOT / "LICENSE").read_bytes()
    files[f"{info}/METADATA"] = metadata(project).encode()
    files[f"{info}/WHEEL"] = WHEEL.encode()
    lines = [recorded(path, content) for path, content in files.items()]
    files[f"{info}/RECORD"] = "".join([*lines, f"{info}/RECORD,,\n"]).encode()
    return files


def build_wheel(wheel_directory, config_settings=None, metadata_directory=None):
    """The name of the wheel that it has put into the folder. The two others are what a frontend may say beside."""
    project = read_project()
    stem = f"{project['name'].replace('-', '_')}-{project['version']}"
    name = f"{stem}-py3-none-any.whl"
    with zipfile.ZipFile(Path(wheel_directory, name), "w") as wheel:
        for path, content in contents(project, stem).items():
            entry = zipfile.ZipInfo(path, EARLIEST)
            entry.compress_type, entry.external_attr = zipfile.ZIP_DEFLATED, 0o644 << 16
            wheel.writestr(entry, content)
    return name
