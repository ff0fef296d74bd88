#!/usr/bin/env python3
"""loads.py PROGRAM [N..]: prints what `PROGRAM load N` takes, for 1, 50, 100, 200 and 400 statements where none are named.

The time is in processor milliseconds, the least of twenty runs, in which the sizes take turns, and beside it how often it
is that of the size before. The memory is the most that was resident in a run or in this script, which starts it.
"""
import os
import subprocess
import sys

RUNS = 20
SIZES = (1, 50, 100, 200, 400)


def run(program, size):
    """Runs the program once, and returns its line, the processor milliseconds and the MiB that it took."""
    child = subprocess.Popen([program, "load", str(size)], stdout=subprocess.PIPE)
    said = child.stdout.read().decode(errors="replace").strip()
    _, status, used = os.wait4(child.pid, 0)
    child.returncode = os.waitstatus_to_exitcode(status)
    if child.returncode != 0:
        said = f"status {child.returncode}: {said}"
    return said, 1000 * (used.ru_utime + used.ru_stime), used.ru_maxrss / 1024


def main():
    if len(sys.argv) < 2 or not all(word.isdigit() for word in sys.argv[2:]):
        sys.exit(__doc__)
    program = os.path.abspath(sys.argv[1])
    sizes = [int(word) for word in sys.argv[2:]] or SIZES
    load = " ".join(f"{it:.1f}" for it in os.getloadavg())
    print(f"{os.cpu_count()} processors, load {load}")
    print(f"{'statements':>10} {'ms':>8} {'ratio':>6} {'MiB':>6}  line")
    runs = {size: [] for size in sizes}
    for _ in range(RUNS):
        for size in sizes:
            runs[size].append(run(program, size))
    before = None
    for size in sizes:
        said = {it[0] for it in runs[size]}
        line = said.pop() if len(said) == 1 else "not the same each time"
        least = min(it[1] for it in runs[size])
        ratio = f"{least / before:.2f}" if before else ""
        print(f"{size:10} {least:8.2f} {ratio:>6} {max(it[2] for it in runs[size]):6.0f}  {line}", flush=True)
        before = least


if __name__ == "__main__":
    main()
