#!/usr/bin/env python3
"""devices.py PROGRAM TABLE [LINE..] [--live] [--step K]: runs the cases at these lines of a table (each)
on PROGRAM, a built ssled, while devices fail, and holds status, output and files against the oracle.

`fail.c` beside this file lets one call of the system fail. Each call that opens, reads, writes or closes fails in turn,
and each write once after every number of bytes, or each K-th (1): a file that is being kept has the first ones then, and
the output ends there with status 6.

With --live PROGRAM is a built ssled_live, and a case is a session, or the run of a script, whose lines are its input, of
status 0 and of at most 300 lines. Each read of a line fails too; the input ends behind each of its bytes, and a read fails
behind each; the console is closed from the beginning, and nobody reads what is written behind each line.
"""
import argparse
import contextlib
import os
import re
import socket
import struct
import subprocess
import sys
import tempfile
from collections import Counter
from functools import lru_cache
from pathlib import Path

HERE = Path(__file__).resolve().parent
sys.path.insert(0, str(HERE.parent / "model"))
from check import of_table  # noqa: E402
from ssled_model import live as sessions  # noqa: E402
from ssled_model import run as runs  # noqa: E402

LOST = b"read fault input\n"
LINES, BYTES = 300, 8000  # of an input, at most: so many packets wait in a socket, and one read takes so much of one
runs.load = sessions.load = lru_cache(runs.load)


def lines_of(data):
    return re.findall(rb"[^\n]*\n|[^\n]+", data)


class Shelf(runs.MemShelf):
    """Files in memory; a keep that fails leaves so many of the new bytes."""

    def __init__(self, files, fails, most):
        super().__init__(files, fails)
        self.most = most

    def keep(self, name, data):
        kept = super().keep(name, data)
        if not kept and self.most is not None:
            self.files[name] = data[:self.most]
        return kept


class Oracle:
    """What is wanted of a case whose shelf's call fails, if one does, a keep after so many bytes: status, output, files,
    and where each put ends, with the files at that time and how many lines were read by then."""

    def __init__(self, case, data, call=None, most=None):
        self.shelf, self.output, self.ends, self.lines = Shelf(case.files, [call], most), b"", [], 0
        if data is None:
            self.status = runs.deep(lambda: runs.Job(self.shelf, self).run(case.words))
        else:
            self.status = runs.deep(lambda: sessions.Live(self.shelf, self.put).run(case.words, self.read(data)))
        self.files = self.shelf.files

    def read(self, data):
        for line in lines_of(data):
            self.lines += 1
            yield line

    def put(self, piece):
        self.output += piece
        self.ends.append((len(self.output), dict(self.shelf.files), self.lines))
        return True

    def whole(self):
        return self.status, self.output, self.files

    def cut(self, size):
        """Where the output ends after so many bytes."""
        later = [files for end, files, _ in self.ends if size < end]
        return (6, self.output[:size], later[0]) if later else self.whole()

    def lost(self, before, lines):
        """Where a read fails behind so many lines; before the first the files are these."""
        said = [(end, files) for end, files, read in self.ends if read <= lines]
        end, files = said[-1] if said else (0, before)
        return 3, self.output[:end] + LOST, files


def library(folder):
    made = folder / "fail.so"
    subprocess.run(["cc", "-O2", "-shared", "-fPIC", "-o", made, HERE / "fail.c"], check=True)
    return made


def packets(lines):
    """An input of which each read gives one line."""
    ours, theirs = socket.socketpair(socket.AF_UNIX, socket.SOCK_SEQPACKET)
    ours.setsockopt(socket.SOL_SOCKET, socket.SO_SNDBUF, 1 << 20)
    for line in lines:
        ours.send(line)
    ours.close()
    return theirs


def reset(data):
    """An input of which a read fails behind these bytes."""
    with socket.create_server(("127.0.0.1", 0)) as server:
        theirs = socket.create_connection(server.getsockname())
        ours, _ = server.accept()
    ours.sendall(data)
    ours.setsockopt(socket.SOL_SOCKET, socket.SO_LINGER, struct.pack("ii", 1, 0))
    ours.close()
    return theirs


class Trial:
    """A case on a program, and what came otherwise than is wanted."""

    def __init__(self, given, case, made, folder):
        self.given, self.case, self.made, self.data = given, case, made, None
        self.log, self.shelf, self.input = folder / "log", folder / "files", folder / "input"
        self.shelf.mkdir()
        if given.live:
            self.data = case.input
            if case.input is None:
                spec, script, *size = case.words[1:]
                case.words, self.data = [spec, *size], case.files[script]
        self.sure = Oracle(case, self.data)
        self.tally, self.bad = Counter(), 0

    def fresh(self):
        """The folder, with the files of the case and no others."""
        for path in self.shelf.iterdir():
            path.unlink()
        for name, data in self.case.files.items():
            (self.shelf / name).write_bytes(data)
        return self.shelf

    def kept(self):
        return {path.name: path.read_bytes() for path in self.shelf.iterdir()}

    def came(self, stdin, shut=None, **more):
        """Status, output and files of a run with this input."""
        closes = None if shut is None else lambda: os.close(shut)
        done = subprocess.run([self.given.program, *self.case.words], cwd=self.fresh(), stdin=stdin, stdout=subprocess.PIPE,
                              env={**os.environ, **more}, preexec_fn=closes, check=False)
        return done.returncode, done.stdout, self.kept()

    def failed(self, number, most=0):
        """The same where a call of this number fails, which writes so many bytes."""
        self.log.unlink(missing_ok=True)
        with packets(lines_of(self.data) if self.given.live else []) as stdin:
            return self.came(stdin, FAIL=str(number), FAIL_AFTER=str(most), FAIL_LOG=str(self.log), LD_PRELOAD=str(self.made))

    def hold(self, what, wanted, got):
        self.tally[what.split(" ")[0]] += 1
        if got != wanted:
            self.bad += 1
            differ = sorted(name for name in {**got[2], **wanted[2]} if got[2].get(name) != wanted[2].get(name))
            print(f"{self.case.where}: {what}: status {got[0]}, wanted {wanted[0]}; {len(got[1])} bytes, wanted {len(wanted[1])}"
                  f"{'' if got[1] == wanted[1] else ', others'}; files that differ: {differ}", flush=True)

    def calls(self):
        """Each call fails, and each write after every number of bytes."""
        self.hold("none", self.sure.whole(), self.failed(0))
        shelf = lines = written = 0
        for number, told in enumerate(self.log.read_text().splitlines(), 1):
            letter, file, *rest = told.split(" ")
            shelf += letter == "o"
            if letter == "w" and file == "1":
                for most in range(0, int(rest[0]), self.given.step):
                    self.hold(f"put {number} after {most}", self.sure.cut(written + most), self.failed(number, most))
                written += int(rest[0])
            elif letter == "w":
                for most in range(0, int(rest[0]), self.given.step):
                    self.hold(f"keep {number} after {most}", self.without(shelf, most), self.failed(number, most))
            elif letter == "r" and file == "0":
                # (a line without a newline ends where the next read says so)
                whole = min(lines, self.data.count(b"\n"))
                self.hold(f"line {number}", self.sure.lost(self.case.files, whole), self.failed(number))
                lines += 1
            elif letter == "c":
                self.hold(f"close {number}", self.sure.whole(), self.failed(number))
            else:
                self.hold(f"{'open' if letter == 'o' else 'fetch'} {number}", self.without(shelf), self.failed(number))

    def without(self, call, most=None):
        """What is wanted where this call of the shelf fails, a keep after so many bytes."""
        return Oracle(self.case, self.data, call, most).whole()

    def inputs(self):
        """The input ends, or is lost, behind each of its bytes."""
        for size in range(0, len(self.data) + 1, self.given.step):
            front = self.data[:size]
            self.input.write_bytes(front)
            with self.input.open("rb") as stdin:
                self.hold(f"end {size}", Oracle(self.case, front).whole(), self.came(stdin))
            with reset(front) as stdin:
                self.hold(f"loss {size}", self.sure.lost(self.case.files, front.count(b"\n")), self.came(stdin))

    def consoles(self):
        """The console is closed before the session, and its reader is gone behind each line."""
        self.input.write_bytes(self.data)
        with self.input.open("rb") as stdin:
            self.hold("closed input", (3, LOST, self.case.files), self.came(stdin, shut=0))
            self.hold("closed output", self.sure.cut(0), self.came(stdin, shut=1))
        lines = lines_of(self.data)
        for count in range(len(lines)):
            front = b"".join(lines[:count])
            before = Oracle(self.case, front)
            wanted = self.sure.cut(len(before.output))
            ours, theirs = socket.socketpair()
            with subprocess.Popen([self.given.program, *self.case.words], cwd=self.fresh(), stdin=theirs, stdout=theirs) as process:
                theirs.close()
                ours.sendall(front)
                got = b""
                while len(got) < len(before.output):
                    got += ours.recv(len(before.output) - len(got)) or b"?"
                ours.shutdown(socket.SHUT_RD)
                with contextlib.suppress(OSError):
                    ours.sendall(b"".join(lines[count:]))
                ours.close()
                status = process.wait()
            self.hold(f"gone behind {count}", wanted, (status, got, self.kept()))


def is_tried(given, case):
    """Whether the case is one of a whole shelf, sink and console, and of the program."""
    if case.calls or case.puts or case.console or case.explains or given.lines and case.line not in given.lines:
        return False
    if not given.live:
        return case.input is None
    if case.status or case.input is None and case.words[:1] != ["run"]:
        return False
    lines = lines_of(case.files[case.words[2]] if case.input is None else case.input)
    return len(lines) <= LINES and all(len(line) <= BYTES for line in lines)


def main():
    words = argparse.ArgumentParser(description=__doc__, formatter_class=argparse.RawDescriptionHelpFormatter)
    words.add_argument("program", type=lambda path: str(Path(path).resolve()))
    words.add_argument("table", type=Path)
    words.add_argument("lines", type=int, nargs="*")
    words.add_argument("--live", action="store_true")
    words.add_argument("--step", type=int, default=1)
    given = words.parse_args()
    tally, bad = Counter(), 0
    with tempfile.TemporaryDirectory() as base:
        made = library(Path(base))
        for case in filter(lambda case: is_tried(given, case), of_table(given.table)):
            folder = Path(base) / str(case.line)
            folder.mkdir()
            trial = Trial(given, case, made, folder)
            trial.calls()
            if given.live:
                trial.inputs()
                trial.consoles()
            tally, bad = tally + trial.tally, bad + trial.bad
            told = ", ".join(f"{what} {count}" for what, count in sorted(trial.tally.items()))
            print(f"{case.where}: {sum(trial.tally.values())} runs, {trial.bad} wrong: {told}", flush=True)
    print(f"devices: {sum(tally.values())} runs, {bad} wrong")
    sys.exit(bad > 0)


if __name__ == "__main__":
    main()
