#!/usr/bin/env python3
"""live.py LIVE TABLE..: holds LIVE (ssled_live) behind pipes against the scripts of tables, a line at a time.

Each case of a table that is a run of a script, ends with status 0 and fails no call is tried: a line is sent, and the next
one not before the block of its command has come whole, within some seconds, as the table has it. Behind the last line
the input is closed, and nothing more may come. It tells what came otherwise, and ends with 'live: N lines passed'.
"""
import os
import select
import subprocess
import sys
import tempfile
from pathlib import Path

sys.path.insert(0, str(Path(__file__).resolve().parent.parent / "model"))
from check import of_table  # noqa: E402
from ssled_model import script  # noqa: E402

SECONDS = 10


def blocks_in(output):
    """The blocks, each whole."""
    blocks = []
    for line in output.splitlines(keepends=True):
        if line.startswith(b"|"):
            blocks[-1] += line
        else:
            blocks.append(line)
    return blocks


def come(pipe, size):
    """So many bytes, or what came of them in time."""
    got = b""
    while len(got) < size and select.select([pipe], [], [], SECONDS)[0]:
        piece = os.read(pipe.fileno(), size - len(got))
        if not piece:
            break
        got += piece
    return got


def answered(program, case):
    """How many lines were answered in time as is wanted; what came otherwise is told."""
    spec, name, *size = case.words[1:]
    blocks, lines = blocks_in(case.output), case.files[name].splitlines(keepends=True)
    with tempfile.TemporaryDirectory() as folder:
        for file, data in case.files.items():
            (Path(folder) / file).write_bytes(data)
        with subprocess.Popen([program, spec, *size], cwd=folder, stdin=subprocess.PIPE, stdout=subprocess.PIPE) as process:
            for number, line in enumerate(lines):
                process.stdin.write(line)
                process.stdin.flush()
                wanted = blocks.pop(0) if script.read(line) else b""
                got = come(process.stdout, len(wanted))
                if got != wanted:
                    process.kill()
                    print(f"{case.where}: behind {line!r} came {got!r}, wanted {wanted!r}")
                    return number
            process.stdin.close()
            rest, status = process.stdout.read(), process.wait()
    if rest or status or blocks:
        print(f"{case.where}: status {status}, {len(blocks)} blocks are wanting, and behind the last line came {rest[:200]!r}")
        return 0
    return len(lines)


def main():
    program, passed = str(Path(sys.argv[1]).resolve()), 0
    for table in sys.argv[2:]:
        for case in of_table(Path(table)):
            if case.words[:1] == ["run"] and case.status == 0 and not case.fails():
                passed += answered(program, case)
    print(f"live: {passed} lines passed")


if __name__ == "__main__":
    main()
