#!/usr/bin/env python3
"""check.py [--program PROGRAM] [--every N] [--quiet] [TABLE..]: holds the oracle against cases.

A TABLE is a table of ssled_cases, or a file of cases like those of cases/ beside this file, which are taken where no
table is named. Of a table each N-th case is run (each one). The oracle runs in memory, also where calls of the shelf and
puts into the sink fail, and replies and counts of evaluated equations are held against what is wanted too.

A PROGRAM, which takes the command line of ssled, is run in its place, in a folder with the files of the case; a case
whose shelf or sink fails is left out then, and so is a session that answers line by line. The first block that cannot be read ends it. With --quiet only differences
are told.
"""
import argparse
import json
import subprocess
import sys
import tempfile
from pathlib import Path

from ssled_model import explain
from ssled_model.forms import FORMS
from ssled_model.live import Live, Lost
from ssled_model.run import MemShelf, MemSink, deep, run

HERE = Path(__file__).resolve().parent


class Case:
    """What a run finds, and what is wanted of it. What is None is not looked at, and `blocks` are parts of blocks."""

    def __init__(self, path, line):
        self.where, self.line, self.words, self.files, self.after = f"{path.name}:{line}", line, [], {}, {}
        self.calls, self.puts, self.forms = [], [], []
        self.input, self.console, self.explains = None, [], False
        self.status = self.replies = self.count = self.rise = self.output = self.blocks = None
        self.parts = {}

    def fails(self):
        """Whether only the oracle can run it."""
        return self.input is not None or self.explains or bool(self.calls or self.puts)


class Came:
    """What came of a run; of a program neither replies nor rise are known."""

    def __init__(self, status, output, files, replies=None, rise=None):
        self.status, self.output, self.files, self.replies, self.rise = status, output, files, replies, rise


# tables of ssled_cases ------------------------------------------------------------------

def bytes_of(texts, line):
    """The bytes that one line of a text stands for."""
    mark, rest = line[0], line[1:]
    if mark == ".":
        return rest.encode()
    if mark == "|":
        return rest.encode() + b"\n"
    if mark == "%":
        return bytes.fromhex(rest)
    if mark == "*":
        times, part = rest.split(" ", 1)
        return part.encode() * int(times)
    if mark == "@":
        name, start, end = rest.split(" ")
        assert int(end) <= len(texts[name]), line
        return texts[name][int(start):int(end)]
    raise ValueError(line)


def sections(texts, block):
    found = []
    for line in block.split("\n"):
        if "a" <= line[:1] <= "z":
            found.append((line, bytearray()))
        else:
            found[-1][1].extend(bytes_of(texts, line))
    return [(head, bytes(data)) for head, data in found]


def case_of(path, line, found):
    case = Case(path, line)
    for head, data in found:
        word, _, rest = head.partition(" ")
        if word == "run":
            case.words = rest.split(" ") if rest else []
        elif word == "explain":
            case.words, case.explains = rest.split(" ") if rest else [], True
        elif word == "live":
            case.words, case.input = rest.split(" ") if rest else [], data
        elif word == "console":
            case.console.append(int(rest))
        elif word == "file":
            case.files[rest] = data
        elif word == "call":
            case.calls.append(int(rest))
        elif word == "put":
            case.puts.append(tuple(map(int, rest.split(" "))))
        elif word == "gives":
            case.status, case.count, case.rise = map(int, rest.split(" "))
            case.output = data
        elif word == "after":
            case.after[rest] = data
        else:
            raise ValueError(head)
    assert case.output is not None, case.where
    return case


def of_table(path):
    """The cases of a table, each with its line."""
    texts, line = {}, 1
    data = path.read_bytes().decode("ascii")
    for block in data.removesuffix("\n").split("\n\n"):
        if not block.startswith("//"):
            found = sections(texts, block)
            if block.startswith("text "):
                texts[found[-1][0].removeprefix("text ")] = found[-1][1]
            else:
                assert block.startswith(("run", "live", "explain")), f"{path}:{line}: a block of another kind"
                yield case_of(path, line, found)
        line += block.count("\n") + 2


# cases/ ---------------------------------------------------------------------------------

def language(name):
    files = (HERE / "languages" / f"{name}.ssl", HERE.parent / "examples" / f"{name}.ssl")
    return next(file for file in files if file.exists()).read_text()


def content(part):
    """The bytes of a content: see cases in README.md."""
    if isinstance(part, str):
        return part.encode("latin-1")
    if isinstance(part, list):
        return b"".join(map(content, part))
    if "text" in part:
        return content(part["text"]) * part["times"]
    if "each" in part:
        return b"".join(content(part["each"].replace("{}", str(number))) for number in range(part["from"], part["to"]))
    if "rows" in part:
        rows = (row if isinstance(row, list) else [row, 1] for row in part["rows"])
        return b"".join((content(row) + b"\n") * times for row, times in rows)
    lines = language(part["language"]).split("\n")
    for number, line in part.get("lines", {}).items():
        lines[int(number) - 1] = line
    return content("\n".join(lines))


def of_cases(path):
    for number, told in enumerate(json.loads(path.read_text()), 1):
        case = Case(path, number)
        case.words, case.status, case.replies = told["words"], told["status"], told.get("replies")
        case.files = {name: content(part) for name, part in told["files"].items()}
        case.calls, case.puts = told.get("calls", []), [tuple(put) for put in told.get("puts", [])]
        case.forms, case.blocks, case.parts = told.get("forms", []), told.get("blocks"), told.get("at", {})
        if "output" in told:
            case.output = content(told["output"])
        if "after" in told:
            case.after = {name: content(part) for name, part in told["after"].items()}
        else:
            case.after = None
        yield case


def fields(header):
    """Region, count of equations and message of a header."""
    front, _, rest = header.partition(" ev ")
    count, _, message = rest.partition(" ")
    return {"region": (front.split(" ") + [""] * 3)[2], "ev": int(count or -1), "message": message}


def differences(wanted, block):
    """The keys of a wanted part that are not so of a block."""
    header, *lines = block
    found = {**fields(header), "header": header, "lines": lines}
    for key, value in wanted.items():
        if key == "header_starts":
            good = header.startswith(value)
        elif key == "first_lines":
            good = lines[:len(value)] == value
        elif key == "last_lines":
            good = lines[-len(value):] == value
        else:
            good = found[key] == value
        if not good:
            yield f"{key}: wanted {value!r}, came {[header, *lines]!r}"


def block_differences(case, output):
    blocks = []
    for line in output.decode("latin-1").removesuffix("\n").split("\n"):
        if line.startswith("|") and blocks:
            blocks[-1].append(line[1:])
        else:
            blocks.append([line])
    if case.blocks is not None and len(blocks) != case.blocks:
        yield f"{len(blocks)} blocks, wanted {case.blocks}"
        return
    for place, wanted in case.parts.items():
        for told in differences(wanted, blocks[int(place)]):
            yield f"block {place}: {told}"


# runs -------------------------------------------------------------------------------------

class Console:
    """What a session reads and writes, in one order; the calls of these numbers fail, from 1 on, and write nothing."""

    def __init__(self, data, fails):
        self.left, self.fails, self.calls, self.output = data, fails, 0, b""

    def is_refused(self):
        self.calls += 1
        return self.calls in self.fails

    def lines(self):
        while True:
            if self.is_refused():
                raise Lost
            if not self.left:
                return
            line, newline, self.left = self.left.partition(b"\n")
            yield line + newline

    def put(self, piece):
        if self.is_refused():
            return False
        self.output += piece
        return True


def by_live(case):
    shelf, console = MemShelf(case.files, case.calls), Console(case.input, case.console)
    session = Live(shelf, console.put)
    status = deep(lambda: session.run(case.words, console.lines()))
    return Came(status, console.output, shelf.files, shelf.replies, session.total)


def by_explain(case):
    shelf, sink = MemShelf(case.files, case.calls), MemSink(case.puts)
    status = deep(lambda: explain.run(shelf, sink, case.words))
    return Came(status, bytes(sink.data), shelf.files, shelf.replies, 0)


def by_model(case):
    if case.input is not None:
        return by_live(case)
    if case.explains:
        return by_explain(case)
    status, output, replies, rise, files = run(case.words, case.files, case.calls, case.puts)
    return Came(status, output, files, replies, rise)


def by_program(program, case):
    with tempfile.TemporaryDirectory() as folder:
        for name, data in case.files.items():
            (Path(folder) / name).write_bytes(data)
        done = subprocess.run([program, *case.words], cwd=folder, stdout=subprocess.PIPE, check=False)
        kept = {path.name: path.read_bytes() for path in Path(folder).iterdir()}
    return Came(done.returncode, done.stdout, kept)


def wrong(case, came):
    """What of a run is not as wanted."""
    if came.status != case.status:
        yield f"status {came.status}, wanted {case.status}"
    if case.output is not None and came.output != case.output:
        yield f"output {came.output[:2000]!r}, wanted {case.output[:2000]!r}"
    if case.output is None:
        yield from block_differences(case, came.output)
    if case.after is not None and came.files != {**case.files, **case.after}:
        yield f"files {sorted(came.files)}, wanted {sorted({**case.files, **case.after})}, or other bytes in them"
    if came.replies is not None:
        if case.replies is not None and came.replies != case.replies:
            yield f"replies {came.replies}, wanted {case.replies}"
        if case.count is not None and (len(came.replies), came.rise) != (case.count, case.rise):
            yield f"{len(came.replies)} replies and {came.rise} equations, wanted {case.count} and {case.rise}"


def main():
    words = argparse.ArgumentParser(description=__doc__, formatter_class=argparse.RawDescriptionHelpFormatter)
    words.add_argument("--program")
    words.add_argument("--every", type=int, default=1)
    words.add_argument("--quiet", action="store_true")
    words.add_argument("tables", nargs="*", type=Path)
    given = words.parse_args()
    program, bad = given.program and str(Path(given.program).resolve()), 0
    for path in given.tables or sorted((HERE / "cases").glob("*.json")):
        count = ran = 0
        for case in of_cases(path) if path.suffix == ".json" else of_table(path):
            count += 1
            if program and case.fails() or not FORMS.issuperset(case.forms) or (count - 1) % given.every:
                continue
            came = by_program(program, case) if program else by_model(case)
            if came is None:
                continue
            ran += 1
            told = list(wrong(case, came))
            bad += bool(told)
            for line in told:
                print(f"{case.where}: {line}")
        if not given.quiet:
            print(f"{path.name}: {count} cases, {ran} run")
    sys.exit(bad > 0)


if __name__ == "__main__":
    main()
