#!/usr/bin/env python3
"""times.py PROGRAM [SHAPE..]: prints what `PROGRAM check` takes on each shape, at half of its size and at the whole.

The time is in processor seconds, the least of three runs, or of one where that takes over two; the memory is the most
that was resident. `text` is how many times as long as the half the whole text is.
"""
import inspect
import os
import subprocess
import sys
import tempfile

import shapes

LIMIT = 120


def run(program, file):
    """Runs the program once, and returns its output, the processor seconds and the MiB that it took."""
    child = subprocess.Popen(["timeout", str(LIMIT), program, "check", file], stdout=subprocess.PIPE)
    said = child.stdout.read().decode(errors="replace").strip()
    _, status, used = os.wait4(child.pid, 0)
    child.returncode = os.waitstatus_to_exitcode(status)
    said = "stopped" if child.returncode == 124 else said
    return said, used.ru_utime + used.ru_stime, used.ru_maxrss / 1024


def measure(program, file):
    said, seconds, memory = run(program, file)
    for _ in range(2 if seconds < 2 else 0):
        _, again, _ = run(program, file)
        seconds = min(seconds, again)
    return said, seconds, memory


def main():
    names = sys.argv[2:] or list(shapes.SHAPES)
    if len(sys.argv) < 2 or any(name not in shapes.SHAPES for name in names):
        sys.exit(f"{__doc__}\nshapes: {' '.join(shapes.SHAPES)}")
    program = os.path.abspath(sys.argv[1])
    load = " ".join(f"{it:.1f}" for it in os.getloadavg())
    print(f"{os.cpu_count()} processors, load {load}")
    print(f"{'shape':20} {'size':>8} {'half, s':>8} {'whole, s':>8} {'ratio':>6} {'text':>5} {'MiB':>6}  answer")
    with tempfile.TemporaryDirectory() as folder:
        file = f"{folder}/spec.ssl"
        for name in names:
            make = shapes.SHAPES[name]
            size = next(iter(inspect.signature(make).parameters.values())).default
            took, longs = [], []
            for part in (size // 2, size):
                with open(file, "w", encoding="ascii") as it:
                    longs.append(it.write(make(part)))
                took.append(measure(program, file))
            (_, half, _), (said, whole, memory) = took
            times = f"{half:8.3f} {whole:8.3f} {whole / half:6.2f} {longs[1] / longs[0]:5.2f}"
            print(f"{name:20} {size:8} {times} {memory:6.0f}  {said}", flush=True)


if __name__ == "__main__":
    main()
