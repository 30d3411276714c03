"""A checkout that was copied runs its program as long as that was built from its sources, whatever their times say.

    python3 copied.py PROGRAM

It prints nothing where all is as it should be. In the place of the kit's command stands one that builds nothing.
"""
import os
import shutil
import subprocess
import sys
import tempfile
import time
from pathlib import Path

ROOT = Path(__file__).parents[2]
SOURCE = "crates/jsp_types/src/lib.rt"


def copy(program, folder):
    for name in ("jsp", "build", "crates.txt"):
        shutil.copy(ROOT / name, folder / name)
    (folder / "docs").mkdir()
    shutil.copy(ROOT / "docs/PROOFS.md", folder / "docs")
    shutil.copytree(ROOT / "crates/jsp_types/src", folder / "crates/jsp_types/src")
    (folder / "crates/jsp_program/out").mkdir(parents=True)
    shutil.copy(program, folder / "crates/jsp_program/out/jsp_program")
    (folder / "bin").mkdir()
    builder = folder / "bin/rt"
    builder.write_text("#!/bin/sh\nexit 1\n")
    builder.chmod(0o755)


def main(program):
    with tempfile.TemporaryDirectory() as name:
        folder = Path(name)
        copy(program, folder)
        source, text = folder / SOURCE, (ROOT / SOURCE).read_text()
        environment = {**os.environ, "PATH": f"{folder / 'bin'}:{os.environ['PATH']}"}

        def ends(status, words):
            done = subprocess.run([folder / "jsp", "--version"], capture_output=True, text=True, env=environment)
            assert (done.returncode, words in done.stdout + done.stderr) == (status, True), done

        def write(text):
            time.sleep(0.02)
            source.write_text(text)

        ends(0, "jsp 0")
        write(text)
        ends(0, "jsp 0")
        write(text + "// other\n")
        ends(1, "jsp: not built")
        write(text)
        ends(0, "jsp 0")


if __name__ == "__main__":
    main(sys.argv[1])
