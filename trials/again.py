#!/usr/bin/env python3
"""again.py PROGRAM [TEST]: runs a test of a built program of tests once for each of its allocations, which is refused.

`refuse.c` beside this file forks the run at each allocation, and refuses that one in the child. The test is to pass in
each child; a test that does so gives again what found no memory.
"""
import os
import subprocess
import sys
import tempfile
from collections import Counter
from pathlib import Path

from refusals import library, rows_of

TEST = "again::a_command_without_memory_is_given_again"


def main():
    if len(sys.argv) not in (2, 3):
        sys.exit(__doc__)
    program, test = Path(sys.argv[1]).resolve(), sys.argv[2] if len(sys.argv) == 3 else TEST
    with tempfile.TemporaryDirectory() as base:
        base = Path(base)
        made, here, log = library(base), base / "here", base / "tried"
        here.mkdir()
        log.mkdir()
        more = {"REFUSE": str(log), "LD_PRELOAD": str(made)}
        with (base / "output").open("wb") as output:
            done = subprocess.run([program, test], cwd=here, stdout=output, env={**os.environ, **more}, check=False)
        *tried, (zero, _, count, *_) = rows_of(log / "log")
    told = Counter(row[1] for row in tried)
    print(f"{test}: status {done.returncode}; {count} allocations, {len(tried)} refused, {told[0]} passed")
    for number, status, *_ in tried:
        if status:
            print(f"allocation {number}: status {status}")
    sys.exit(done.returncode != 0 or zero != 0 or count == 0 or told[0] != count)


if __name__ == "__main__":
    main()
