"""How many definitions a reader has to believe for what is promised, and how many lines they have, in three storeys.

    python3 believed.py          prints the table
    python3 believed.py check    ends with 1 where README.md has another one

What a contract says is said in definitions (crates/*/specs) and in plain data (crates/*/src), which speak of others in
turn. Counted are all that the named ones lead to, each in the first storey that it belongs to, without comments and
blank lines; what the kit's own libraries define isn't.
"""
import re
import sys
from pathlib import Path

TOP = Path(__file__).parent.parent.parent

# What each storey begins with: definitions by crate and file.
STOREYS = {
    "what is legal, and what it says": [("jsp_model", "Runs", "IsRun"), ("jsp_model", "Runs", "said_to")],
    "the laws of it": [("jsp_laws", "Runs", "LawsOfRuns")],
    "the bytes of clients": [
        ("jsp_drive", "Tie", "IsTied"),
        ("jsp_drive", "Tie", "bytes_to"),
        ("jsp_drive", "Streams", "AskByStreams"),
        ("jsp_drive", "Heard", "framed"),
    ],
}

NAME = r"[^\s(){}\[\],;:.]+"


class File:
    """A file of definitions: their texts, and what its other words stand for."""

    def __init__(self, path):
        self.definitions, self.imports, self.modules = {}, {}, {}
        block = []
        for line in [*path.read_text().splitlines(), ""]:
            if line.startswith("use "):
                self.add_import(line)
            elif line.strip():
                block.append(line)
            else:
                self.add_block([kept for kept in block if not kept.lstrip().startswith("--")])
                block = []

    def add_import(self, line):
        if found := re.match(r"use Rattle\.(\w+)\.specs\.([\w.]+)\.\{(.*)\}", line):
            crate, module, names = found.groups()
            for name in names.split(", "):
                first, *alias = name.split(" as ")
                self.imports[alias[0] if alias else first] = crate, module, first
        elif found := re.match(r"use Rattle\.(\w+)\.specs\.([\w.]+) as (\w+)", line):
            self.modules[found[3]] = found[1], found[2]

    def add_block(self, lines):
        for line in lines:
            if found := re.match(rf"(?:pub )?(?:abbrev|record)? ?(?:pub )?(?:record )?({NAME})(?= |$)", line):
                self.definitions.setdefault(found[1], lines)

    def words(self, name):
        """What a definition speaks of: crate, file and name of each."""
        for word in set(re.findall(r"[\w'?]+(?:\.[\w'?]+)?", " ".join(self.definitions[name]))):
            first, *rest = word.split(".")
            if first in self.modules and rest:
                yield *self.modules[first], rest[0]
            elif first in self.imports:
                yield self.imports[first]
            elif first in self.definitions and first != name:
                yield None, None, first


def read_all():
    return {
        (path.parent.parent.name, path.stem): File(path)
        for path in TOP.glob("crates/*/specs/*.antt")
        if path.stem != "Lib"
    }


def data_of(crate, file, name):
    """The lines of plain data, and what others it speaks of in the open: crate and name of each."""
    path = TOP / "crates" / crate / "src" / f"{file}.rt"
    text = path.read_text() if path.exists() else ""
    found = re.search(rf"^pub (?:struct|enum) {name}\b.*?(?:;|^}})", text, re.M | re.S)
    if not found:
        return [], set()
    lines = [line for line in found[0].splitlines() if line.strip() and not line.lstrip().startswith("//")]
    is_open = lines[0].startswith("pub enum") or any(line.startswith("    pub ") for line in lines)
    homes = {other: crate for other in re.findall(r"^pub (?:struct|enum) (\w+)", text, re.M)}
    for home, names in re.findall(r"^use (\w+)::(?:\w+::)*\{?([\w,\s]+)\}?;", text, re.M):
        homes |= {other: crate if home == "crate" else home for other in re.findall(r"\w+", names)}
    words = set(re.findall(r"\b[A-Z]\w+", " ".join(lines))) - {name} if is_open else set()
    return lines, {(homes[word], word) for word in words if word in homes}


class Count:
    def __init__(self):
        self.files = read_all()
        self.data = {}
        for path in TOP.glob("crates/*/src/*.rt"):
            for name in re.findall(r"^pub (?:struct|enum) (\w+)", path.read_text(), re.M):
                self.data[path.parent.parent.name, name] = path.stem
        self.seen = set()

    def reach(self, crate, module, name):
        """The lines of a definition and of all that it leads to, as far as they weren't counted yet, and how many."""
        if module.startswith("declared."):
            _, file, data, *_ = module.split(".")
            return self.reach_data(crate, file, data)
        file = self.files.get((crate, module))
        if not file or name not in file.definitions or (crate, module, name) in self.seen:
            return 0, 0
        lines = file.definitions[name]
        self.seen |= {(crate, module, other) for other, text in file.definitions.items() if text is lines}
        total, count = len(lines), 1
        for other_crate, other_module, other in sorted(file.words(name), key=str):
            more, times = self.reach(other_crate or crate, other_module or module, other)
            total, count = total + more, count + times
        return total, count

    def reach_data(self, crate, file, name):
        if (crate, "data", name) in self.seen:
            return 0, 0
        self.seen.add((crate, "data", name))
        lines, others = data_of(crate, file, name)
        total, count = len(lines), 1 if lines else 0
        for other in sorted(others):
            if other in self.data:
                more, times = self.reach_data(other[0], self.data[other], other[1])
                total, count = total + more, count + times
        return total, count


def table():
    count, lines = Count(), ["| What is believed | Definitions | Lines |", "|---|---|---|"]
    totals = [0, 0]
    for storey, begins in STOREYS.items():
        found = [count.reach(*begin) for begin in begins]
        length, number = (sum(part) for part in zip(*found))
        totals = [totals[0] + number, totals[1] + length]
        lines.append(f"| {storey} | {number:,} | {length:,} |")
    return [*lines, f"| in all | {totals[0]:,} | {totals[1]:,} |"]


def main():
    lines = table()
    if sys.argv[1:] == ["check"]:
        if "\n".join(lines) in (TOP / "README.md").read_text():
            return
        sys.exit("\n".join(["README.md has another table than", *lines]))
    print("\n".join(lines))


if __name__ == "__main__":
    main()
