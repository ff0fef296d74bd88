#!/usr/bin/env python3
"""slips.py EXPLAIN [--seed N] [--count N]: leaves one `;`, `)` or `}` out of a specification of examples/ and asks EXPLAIN,
which takes the command line of ssled_explain, what mends it. Tells how often it is the token that was left out.

With --long it asks of a specification of 1 MiB instead, whose last declaration has the slip, and tells time and memory; with
--check PROGRAM, which takes the command line of ssled, those of `check` besides.
"""
import argparse
import random
import resource
import subprocess
import sys
import tempfile
import time
from pathlib import Path

ROOT = Path(__file__).resolve().parent.parent
sys.path.insert(0, str(ROOT / "model"))

from ssled_model.text import lex  # noqa: E402

SIGNS = (";", ")", "}")


def slips():
    """Each text of examples/ with each token that may be left out."""
    for path in sorted((ROOT / "examples").rglob("*.ssl")):
        data = path.read_bytes()
        for token in lex(data):
            if token.kind == "symbol" and token.value in SIGNS:
                yield path, data, token


def told(explain, folder, data):
    spec = folder / "s.ssl"
    spec.write_bytes(data)
    return subprocess.run([explain, "s.ssl"], cwd=folder, capture_output=True, check=False).stdout.decode("latin-1")


def is_told(answer, token):
    last = answer.rstrip("\n").rsplit("\n", 1)[-1]
    return last.startswith("mend: put in ") and "`%s`" % token.value in last


def count(explain, folder, seed, number):
    found = 0
    for path, data, token in random.Random(seed).sample(list(slips()), number):
        answer = told(explain, folder, data[:token.place] + data[token.end:])
        if is_told(answer, token):
            found += 1
        else:
            print("%s:%d `%s`: %s" % (path.name, token.line, token.value, answer.rstrip("\n").rsplit("\n", 1)[-1]))
    print("%d of %d" % (found, number))
    return found


def long_text():
    """1 MiB of declarations, of which the last lacks its `)`."""
    rows = ["root r;", "r : R();"]
    size = sum(len(row) + 1 for row in rows)
    k = 0
    while size < (1 << 20) - 200:
        row = "INT f%d(INT n) { n + %d * (n - 1) };" % (k, k)
        rows.append(row)
        size += len(row) + 1
        k += 1
    return ("\n".join(rows + ["r : R [ @ : \"a\" ;"]) + "\n").encode()


def cost(words, folder):
    before = resource.getrusage(resource.RUSAGE_CHILDREN).ru_utime
    begun = time.time()
    run = subprocess.run(words, cwd=folder, capture_output=True, check=False)
    usage = resource.getrusage(resource.RUSAGE_CHILDREN)
    print("%s: status %d, %.2f s processor, %.2f s, at most %d MiB" % (
        words[0].rsplit("/", 1)[-1], run.returncode, usage.ru_utime - before, time.time() - begun, usage.ru_maxrss >> 10))
    return run.stdout.decode("latin-1")


def main():
    arguments = argparse.ArgumentParser(description=__doc__)
    arguments.add_argument("explain")
    arguments.add_argument("--seed", type=int, default=1)
    arguments.add_argument("--count", type=int, default=150)
    arguments.add_argument("--long", action="store_true")
    arguments.add_argument("--check")
    options = arguments.parse_args()
    explain = str(Path(options.explain).resolve())
    with tempfile.TemporaryDirectory() as name:
        folder = Path(name)
        if options.long:
            (folder / "s.ssl").write_bytes(long_text())
            if options.check:
                cost([str(Path(options.check).resolve()), "check", "s.ssl"], folder)
            print(cost([explain, "s.ssl"], folder), end="")
        elif count(explain, folder, options.seed, options.count) * 10 < options.count * 9:
            sys.exit("fewer than nine in ten")


if __name__ == "__main__":
    main()
