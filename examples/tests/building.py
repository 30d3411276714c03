"""A first build proves each crate that the program stands on, after those that it stands on itself, and no other. What
each takes stands in the table of docs/PROOFS.md.

    python3 building.py

It prints nothing where all is as it should be. In the place of the kit's command stands one that notes what it is
asked, and proves nothing.
"""
import os
import re
import shutil
import subprocess
import tempfile
from pathlib import Path

ROOT = Path(__file__).parents[2]
NOT_ASKED = {"jsp_bench", "jsp_house_tests", "jsp_retry", "jsp_runs", "jsp_tests"}  # which the program doesn't stand on
NOTES = """#!/bin/sh
name=$(basename "$PWD")
echo "$1 $name" >>"$NOTES"
echo "checked $name::all, 1 of 1"
[ "$name" != "$FAILS" ]
"""


def stands_on():
    lines = [line.partition(":") for line in (ROOT / "crates.txt").read_text().splitlines() if not line.startswith("#")]
    return {name: [low for low in lows.split() if low.startswith("jsp_")] for name, _, lows in lines}


def build(folder, fails=""):
    """The build's status, what it tells, and what was asked of the kit's command, in order."""
    notes = folder / "notes"
    notes.write_text("")
    environment = {
        **os.environ, "PATH": f"{folder / 'bin'}:{os.environ['PATH']}", "NOTES": str(notes), "FAILS": fails
    }
    done = subprocess.run([folder / "build"], capture_output=True, text=True, env=environment, timeout=60)
    return done.returncode, done.stdout + done.stderr, notes.read_text().split("\n")[:-1]


def main():
    lows = stands_on()
    with tempfile.TemporaryDirectory() as name:
        folder = Path(name)
        for file in ("build", "crates.txt"):
            shutil.copy(ROOT / file, folder / file)
        for crate in lows:
            (folder / "crates" / crate).mkdir(parents=True)
        (folder / "docs").mkdir()
        shutil.copy(ROOT / "docs/PROOFS.md", folder / "docs")
        (folder / "bin").mkdir()
        (folder / "bin/rt").write_text(NOTES)
        (folder / "bin/rt").chmod(0o755)

        status, told, asked = build(folder)
        assert status == 0 and "all is proved" in told, told
        assert asked[-1] == "run jsp_program", asked
        checked = [line.removeprefix("check ") for line in asked[:-1]]
        assert set(checked) == set(lows) - NOT_ASKED and len(checked) == len(set(checked)), checked
        for place, crate in enumerate(checked):
            assert set(lows[crate]) <= set(checked[:place]), crate
        rows = set(re.findall(r"^\| (jsp_\w+) \| \d+ \| \d+ \|", (ROOT / "docs/PROOFS.md").read_text(), re.M))
        assert rows == set(lows), rows ^ set(lows)

        status, told, asked = build(folder, fails="jsp_model")
        assert status == 1 and "jsp_model isn't proved" in told and "checked jsp_model::all" in told, told
        assert "check jsp_laws" not in asked and "run jsp_program" not in asked, asked


main()
