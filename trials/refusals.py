#!/usr/bin/env python3
"""refusals.py PROGRAM TABLE [LINE..] [--from N] [--step K] [--keep FOLDER]
refusals.py LIVE TABLE [LINE..] --live [--from N] [--step K] [--keep FOLDER]
refusals.py PROGRAM TABLE [LINE..] --stack [--kib K]

Runs the cases at these lines of a table of cases on PROGRAM, a built ssled, while memory is refused, or with a small
stack, and holds what comes against what each case wants. The cases are ones whose shelf and sink never fail. With no
line each such case of the table is run.

Memory: `refuse.c` beside this file forks the run at each of its allocations from number N (1) on, or at each K-th, and
refuses that one in the child. The status is 1, the output ends after some of the wanted blocks, and the files are those
before or after a command that keeps one; or status, output and files are those of the case. What is wrong stays in
FOLDER. Of a job that is no run of a script the output is empty or whole.

Live: LIVE has the command line of ssled_live. A case is a session or the run of a script with status 0, whose lines
are sent one at a time. In a child the line at which memory was refused is given again, and the lines behind it. What
comes is `! no memory` and then all as if that line had been given once; or all as if it had been given twice, and maybe
`! not shown` in place of its first block. Before the first line is read the child may also end with status 1 and no
output, or go on as the case does.

Stack: the case runs with a stack of K KiB (8,192): status, output and kept files are those of the case.
"""
import argparse
import os
import resource
import shutil
import subprocess
import sys
import tempfile
import time
from collections import Counter
from pathlib import Path

HERE = Path(__file__).resolve().parent
sys.path[:0] = [str(HERE), str(HERE.parent / "model")]
from check import of_table  # noqa: E402
from live import blocks_in  # noqa: E402
from ssled_model import script  # noqa: E402
from ssled_model.kinds import MAX_SCRIPT  # noqa: E402
from ssled_model.live import Live  # noqa: E402
from ssled_model.run import MemShelf, deep  # noqa: E402

MEMORY = 1


def fronts(case):
    """The lengths of the outputs that end after some of the blocks, the empty one and the whole one among them."""
    ends, at = {0}, 0
    if case.words[:1] != ["run"]:
        return {0, len(case.output)}
    for line in case.output.splitlines(keepends=True):
        if not line.startswith(b"|") and at:
            ends.add(at)
        at += len(line)
    return ends | {at}


def mixed(value, data):
    for byte in data:
        value = (value ^ byte) * 1099511628211 & 0xFFFF_FFFF_FFFF_FFFF
    return value


def sum_of(files):
    """The sum over files by which refuse.c tells them."""
    start = 14695981039346656037
    return sum(mixed(start, name.encode() + b"\0" + data) for name, data in files.items()) & 0xFFFF_FFFF_FFFF_FFFF


def library(folder):
    """The library that refuses."""
    made = folder / "refuse.so"
    subprocess.run(["cc", "-O2", "-shared", "-fPIC", "-o", made, HERE / "refuse.c"], check=True)
    return made


def judged(case, ends, status, length, same, files):
    """What is wrong with an answer, or None. The files are as before, as later, or others."""
    if not same:
        return "output that is no front of what is wanted"
    if status == case.status and length == len(case.output) and files == "last":
        return None
    if status != MEMORY:
        return f"status {status}, {length} bytes"
    if length not in ends:
        return f"output of {length} bytes, which ends within a block"
    return None if files else "files that are neither those before nor those after a command"


def rows_of(log):
    """The lines of a log: number, status, length, whether the bytes are wanted ones, and the sums before and after."""
    for line in log.read_text().splitlines():
        number, status, length, same, before, after = line.split(" ")
        yield int(number), int(status), int(length), same == "1", int(before, 16), int(after, 16)


def memory(given, case, place, made):
    began = time.time()
    with tempfile.TemporaryDirectory(dir=given.keep) as base:
        base = Path(base)
        shelf, log = base / "files", base / "tried"
        shelf.mkdir()
        log.mkdir()
        for name, data in case.files.items():
            (shelf / name).write_bytes(data)
        (log / "wanted").write_bytes(case.output)
        more = {"REFUSE": str(log), "REFUSE_FROM": str(given.first), "REFUSE_STEP": str(given.step), "LD_PRELOAD": str(made)}
        with (base / "output").open("wb") as output:
            done = subprocess.run([given.program, *case.words], cwd=shelf, stdout=output, env={**os.environ, **more}, check=False)
        if (done.returncode, (base / "output").read_bytes()) != (case.status, case.output):
            print(f"{place}: with all memory: status {done.returncode}")
            return True
        rows = list(rows_of(log / "log"))
        last = sum_of({**case.files, **case.after})
        *tried, (zero, _, count, _, _, final) = rows
        assert zero == 0 and final == last, "the files of the whole run"
        # Of each row the sum that comes next, when a command keeps a file.
        later, known = last, {}
        for row, following in zip(reversed(tried), reversed([*tried[1:], None])):
            if following and following[4] != row[4]:
                later = following[4]
            known[row[0]] = later
        ends, told, bad = fronts(case), Counter(), 0
        for number, status, length, same, before, after in tried:
            files = "last" if after == last else "known" if after in (before, known[number]) else None
            wrong = judged(case, ends, status, length, same, files)
            told["memory" if status == MEMORY != case.status else "whole"] += 1
            if wrong:
                bad += 1
                if bad <= 5:
                    print(f"{place}: allocation {number}: {wrong}", flush=True)
                if given.keep:
                    (log / str(number)).exists() and (log / str(number)).rename(Path(given.keep) / f"{place.replace(':', '-')}-{number}")
    stopped = len({row[2] for row in tried if row[1] == MEMORY != case.status})
    print(f"{place}: {count} allocations, {len(tried)} refused: {told['memory']} ended for want of memory after {stopped} fronts, "
          f"{told['whole']} whole, {bad} wrong, {time.time() - began:.0f} s", flush=True)
    return bad > 0


def is_tried(case):
    """Whether the program can run the case, an explanation too."""
    return case.input is None and not case.calls and not case.puts


def is_answered(line):
    """Whether a line of a session has an answer."""
    try:
        return len(line) > MAX_SCRIPT or line in (b"?do\n", b"?do\r\n") or bool(script.read(line))
    except script.ScriptFault:
        return True


def lives(case):
    """Whether a case is a session or the run of a script, with status 0, without calls that fail, and whose last line is
    the same with a newline."""
    fails = case.calls or case.puts or case.console
    if case.status or fails or case.input is None and case.words[:1] != ["run"]:
        return False
    data = case.files[case.words[2]] if case.input is None else case.input
    last = data.rpartition(b"\n")[2]
    return not last.endswith(b"\r") and len(last) < MAX_SCRIPT


class Session:
    """The session of a case: its words, its lines that have an answer, and their blocks."""

    def __init__(self, case):
        if case.input is None:
            self.words, data = [case.words[1], *case.words[3:]], case.files[case.words[2]]
        else:
            self.words, data = case.words, case.input
        self.files, self.blocks = case.files, blocks_in(case.output)
        lines = [line + b"\n" for line in data.removesuffix(b"\n").split(b"\n")] if data else []
        self.lines = [line for line in lines if is_answered(line)]
        self.last = {**case.files, **case.after}
        self.known = {}

    def twice(self, at):
        """The blocks and the files where the line at this place is given twice, after the oracle."""
        if at not in self.known:
            shelf, out = MemShelf(self.files, []), []
            lines = self.lines[:at + 1] + self.lines[at:]
            deep(lambda: Live(shelf, lambda piece: out.append(piece) or True).run(self.words, lines))
            self.known[at] = (out, shelf.files)
        return self.known[at]

    def judged(self, at, status, output, files):
        """How a child ended in which the line at this place is given again; None where that is wrong."""
        if at == 0 and (status, output, files) == (MEMORY, b"", self.files):
            return "not begun"
        if at == 0 and (status, output, files) == (0, b"".join(self.blocks), self.last):
            return "whole"
        if not self.lines:
            return None
        front, rest = b"".join(self.blocks[:at]), b"".join(self.blocks[at:])
        if (status, output, files) == (0, front + b"! no memory\n" + rest, self.last):
            return "no memory"
        blocks, kept = self.twice(at)
        for told, block in (("whole", blocks[at]), ("not shown", b"! not shown\n")):
            if (status, output, files) == (0, front + block + b"".join(blocks[at + 1:]), kept):
                return told
        return None


def waits(process):
    """Whether the process waits for its standard input; an ended one does too."""
    while process.poll() is None:
        if Path(f"/proc/{process.pid}/syscall").read_text().startswith("0 0x0 "):
            return True
        time.sleep(0.001)
    return False


def session(given, case, place, made):
    began, asked, told, seen = time.time(), Session(case), Counter(), 0
    with tempfile.TemporaryDirectory(dir=given.keep) as base:
        base = Path(base)
        shelf, log, again, output = base / "files", base / "tried", base / "again", base / "output"
        shelf.mkdir()
        log.mkdir()
        (log / "wanted").write_bytes(b"")
        again.write_bytes(b"".join(asked.lines))
        for name, data in case.files.items():
            (shelf / name).write_bytes(data)
        more = {"REFUSE": str(log), "REFUSE_FROM": str(given.first), "REFUSE_STEP": str(given.step),
                "REFUSE_AGAIN": str(again), "LD_PRELOAD": str(made)}

        def look(at):
            """Judges the children of the line at this place."""
            nonlocal seen
            rows = list(rows_of(log / "log"))
            for number, status, *_ in rows[seen:]:
                if number:
                    folder = log / str(number)
                    files = {it.name: it.read_bytes() for it in folder.iterdir()}
                    how = asked.judged(at, status, files.pop("%out"), files)
                    told[how] += 1
                    if how is None:
                        print(f"{place}: allocation {number}, line {at + 1} of those with an answer: status {status}", flush=True)
                        given.keep and folder.rename(Path(given.keep) / f"{place.replace(':', '-')}-{number}")
                    else:
                        shutil.rmtree(folder)
            seen = len(rows)

        with output.open("wb") as out, subprocess.Popen([given.program, *asked.words], cwd=shelf, stdin=subprocess.PIPE,
                                                        stdout=out, env={**os.environ, **more}) as process:
            waits(process)
            look(0)
            for at, line in enumerate(asked.lines):
                again.write_bytes(b"".join(asked.lines[at:]))
                process.stdin.write(line)
                process.stdin.flush()
                waits(process)
                look(at)
            process.stdin.close()
        if (process.returncode, output.read_bytes()) != (0, case.output):
            print(f"{place}: with all memory: status {process.returncode}")
            return True
    bad = told.pop(None, 0)
    print(f"{place}: {len(asked.lines)} lines, {sum(told.values()) + bad} refused: {told['not begun']} ended before they began, "
          f"{told['no memory']} no memory, {told['not shown']} not shown, {told['whole']} whole, {bad} wrong, "
          f"{time.time() - began:.0f} s", flush=True)
    return bad > 0


def stack(given, case, place):
    def small():
        resource.setrlimit(resource.RLIMIT_STACK, (given.kib * 1024, given.kib * 1024))

    with tempfile.TemporaryDirectory() as folder:
        for name, data in case.files.items():
            (Path(folder) / name).write_bytes(data)
        done = subprocess.run([given.program, *case.words], cwd=folder, stdout=subprocess.PIPE, preexec_fn=small, check=False)
        kept = {p.name: p.read_bytes() for p in Path(folder).iterdir()}
    right = (done.returncode, done.stdout) == (case.status, case.output) and kept == {**case.files, **case.after}
    print(f"{place}: {'as wanted' if right else f'WRONG: status {done.returncode}, {len(done.stdout)} bytes'}")
    return not right


def main():
    words = argparse.ArgumentParser(description=__doc__, formatter_class=argparse.RawDescriptionHelpFormatter)
    words.add_argument("program", type=lambda path: str(Path(path).resolve()))
    words.add_argument("table", type=Path)
    words.add_argument("lines", type=int, nargs="*")
    words.add_argument("--from", type=int, default=1, dest="first")
    words.add_argument("--step", type=int, default=1)
    words.add_argument("--keep", type=lambda folder: Path(folder).resolve())
    words.add_argument("--live", action="store_true")
    words.add_argument("--stack", action="store_true")
    words.add_argument("--kib", type=int, default=8192)
    given = words.parse_args()
    found = {case.line: case for case in of_table(given.table) if (lives(case) if given.live else is_tried(case))}
    missing = set(given.lines) - set(found)
    if missing:
        sys.exit(f"no case of a whole shelf and sink begins at {sorted(missing)}")
    bad = False
    with tempfile.TemporaryDirectory() as folder:
        made = None if given.stack else library(Path(folder))
        for line in given.lines or found:
            place = f"{given.table.name}:{line}"
            if given.stack:
                bad = stack(given, found[line], place) or bad
            else:
                bad = (session if given.live else memory)(given, found[line], place, made) or bad
    sys.exit(bad)


if __name__ == "__main__":
    main()
