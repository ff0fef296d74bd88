#!/usr/bin/env python3
"""failures.py TABLE LINE..: prints a table of failing devices: each case at one of these lines of a table once for each
call of its shelf, which fails, once for each call of its console, and once for each put into its sink and each number of
bytes that the put writes before it fails. What is wanted is what the oracle answers. `ssled_cases` runs the table.
"""
import sys
from pathlib import Path

HERE = Path(__file__).resolve().parent
sys.path[:0] = [str(HERE.parent / "model"), str(HERE / "tables")]

import check  # noqa: E402
from frame import text  # noqa: E402
from ssled_model import run as oracle  # noqa: E402


def lengths(case):
    """How long each put of a case is that fails nowhere."""
    made = []
    put = oracle.MemSink.put
    oracle.MemSink.put = lambda sink, piece: made.append(len(piece)) or put(sink, piece)
    try:
        check.by_model(case)
    finally:
        oracle.MemSink.put = put
    return made


def calls(case):
    """How many calls of the shelf and of the console a case takes that fails nowhere."""
    counts = {}
    for kind in (oracle.MemShelf, check.Console):
        made = kind.__init__

        def begun(self, *words, made=made, kind=kind):
            made(self, *words)
            counts[kind] = self

        kind.__init__ = begun
        counts[kind, "made"] = made
    try:
        check.by_model(case)
    finally:
        for kind in (oracle.MemShelf, check.Console):
            kind.__init__ = counts[kind, "made"]
    console = counts.get(check.Console)
    return counts[oracle.MemShelf].calls, console.calls if console else 0


def written(case, came):
    head = "live" if case.input is not None else "run"
    lines = [" ".join([head, *case.words]) + "\n"]
    lines += [text(case.input)] if case.input is not None else []
    lines += [f"console {number}\n" for number in case.console]
    for name, data in case.files.items():
        lines.append(f"file {name}\n{text(data)}")
    lines += [f"call {number}\n" for number in case.calls]
    lines += [f"put {number} {most}\n" for number, most in case.puts]
    lines.append(f"gives {came.status} {len(came.replies)} {came.rise}\n{text(came.output)}")
    for name, data in sorted(came.files.items()):
        if case.files.get(name) != data:
            lines.append(f"after {name}\n{text(data)}")
    return "".join(lines)


def failing(case):
    """The case with each of its failures."""
    shelf, console = calls(case)
    for number in range(1, shelf + 1):
        case.calls = [number]
        yield case
    case.calls = []
    for number in range(1, console + 1):
        case.console = [number]
        yield case
    case.console = []
    if case.input is None:
        for number, length in enumerate(lengths(case), 1):
            for most in range(length):
                case.puts = [(number, most)]
                yield case


def main():
    if len(sys.argv) < 3 or not all(word.isdigit() for word in sys.argv[2:]):
        sys.exit(__doc__)
    path, wanted = Path(sys.argv[1]), {int(word) for word in sys.argv[2:]}
    print(f"// Failing devices, made by `trials/failures.py` of cases of {path.name}.")
    for case in check.of_table(path):
        if case.line in wanted and not case.fails() or case.line in wanted and case.input is not None:
            for once in failing(case):
                print()
                print(written(once, check.by_model(once)), end="")


if __name__ == "__main__":
    main()
