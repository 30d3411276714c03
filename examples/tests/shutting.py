"""Session 1 is shut after each act of each script in turn, and is sent nothing more.

    python3 shutting.py PROGRAM..

Each run is replayed and compared (--audit). What is printed up to the shut is what the script prints up to there, and of
session 1 nothing comes after it. Prints nothing where all is as it should be.
"""
import subprocess
import sys
from pathlib import Path

EXAMPLES = Path(__file__).parent.parent
# Scripts of more acts than these are left to others.
MOST = 60


def run(program, lines):
    text = "".join(line + "\n" for line in lines)
    ran = subprocess.run([*program, "script", "--audit", "a", "b"], input=text.encode(), capture_output=True, timeout=60)
    assert (ran.returncode, ran.stderr) == (0, b""), (ran.returncode, ran.stderr)
    return ran.stdout.decode().splitlines()


def is_act(line):
    return line and not line.startswith("#")


def shut_after_each(program, script):
    acts = list(filter(is_act, script.read_text().splitlines()))
    printed = script.with_suffix(".expected").read_text().splitlines()
    if len(acts) > MOST:
        return
    for count in range(1, len(acts) + 1):
        before = run(program, acts[:count])
        assert before == printed[: len(before)], (script.name, count)
        after = run(program, [*acts[:count], "shut 1", *acts[count:]])
        assert after[: len(before)] == before, (script.name, count)
        assert not [line for line in after[len(before) :] if line.startswith("1 ")], (script.name, count)


if __name__ == "__main__":
    scripts = [*EXAMPLES.glob("*.script"), *EXAMPLES.glob("tests/*.script")]
    assert len(scripts) > 40
    for script in sorted(scripts):
        shut_after_each(sys.argv[1:], script)
