#!/usr/bin/env python3
"""reports.py PROGRAM ORACLE [--seed S] [--from N] [--runs K]

Holds reports of PROGRAM on random files against those of ORACLE, both with the command line of ssled: the status and all
that is written. The languages are examples/lines.ssl with an entry of its root, and those of examples/ that have one.
Run N of seed S (1) is always the same; runs from N (0) on are made, K of them (2,000). What differs is printed, with the
words and the files; where all is right nothing is. `--runs 1 --from N` repeats a run.
"""
import argparse
import random
import re
import subprocess
import sys
import tempfile
from pathlib import Path

EXAMPLES = Path(__file__).resolve().parent.parent / "examples"
ROOT_ENTRY = b"P { synthesized prog t; };\nP ::= (L) { Prog(L.t) };\nprog ~ P.t;\n"
ODD = [b"\0", b"\t", b"\r", b"\x7f", b"\x80", b"\xff", b'"', b"(", b")", b",", b";", b"SGT1\n", b" ", b"\n", b"99999999999999999999"]
WORDS = ["", ".", "stmt", "stmt.", ".errs", "stmt.errs.x", "P.t", "stmt.val", "INT.value", "STR.value", "BOOL.value", "ID.value"]


def statement(rng):
    name = rng.choice("abcxyz") + rng.choice(["", "", "1", "9z"])
    number = rng.choice([0, 1, 7, 400, 9223372036854775807, 9223372036854775808, 10 ** 30])
    return rng.choice([f"let {name} = {number};", f"print {name};", f"print\n{name} ;"])


def term(rng):
    name = rng.choice(['"a"', '"b"', '"x1"', '""', '"A"', '"a b"'])
    number = rng.choice(["5", "0", "-5", "007", "9223372036854775807", "-9223372036854775808", "9223372036854775808"])
    return rng.choice(["Empty()", f"Decl({name},{number})", f"Print({name})", f"Print({number})", "NoStmts()"])


def text_of_lines(rng):
    return " ".join(statement(rng) for _ in range(rng.choice([0, 1, 2, 5, 40]))).encode()


def saved_lines(rng):
    terms = [term(rng) for _ in range(rng.choice([0, 1, 2, 5, 40]))]
    return ("SGT1\nProg(" + "".join(f"Stmts({t}," for t in terms) + "NoStmts()" + ")" * len(terms) + ")\n").encode()


def damaged(rng, data):
    for _ in range(rng.choice([1, 1, 2, 5])):
        at = rng.randrange(len(data) + 1)
        data = rng.choice([data[:at] + data[at + 1:], data[:at] + rng.choice(ODD) + data[at:], data[:at]])
    return data


class Language:
    """A specification, its attributes, and how its files are made."""

    def __init__(self, spec, make):
        self.spec, self.make = spec, make
        groups = re.findall(r"(\w+) \{([^{}]*(?:synthesized|inherited)[^{}]*)\}", spec.decode())
        names = [(phylum, re.findall(r"(?:synthesized|inherited)[ \n]+\w+ (\w+)", body)) for phylum, body in groups]
        self.words = [f"{phylum}.{name}" for phylum, attrs in names for name in attrs] + WORDS


def texts_of(path):
    """Files like the texts that a script types in at the root, and others."""
    typed = re.findall(r'^text "(.*)"$', path.with_suffix(".script").read_text(), re.M)
    texts = [t.replace("\\n", "\n").replace('\\"', '"').encode() for t in typed]
    return lambda rng: rng.choice(texts)


def languages():
    lines = (EXAMPLES / "lines.ssl").read_bytes() + ROOT_ENTRY
    found = [Language(lines, text_of_lines), Language(lines, saved_lines)]
    for path in (EXAMPLES / "machine.ssl", EXAMPLES / "proof.ssl"):
        found.append(Language(path.read_bytes(), texts_of(path)))
    return found


def answer(program, folder, word):
    done = subprocess.run([program, "report", "spec", "file", word], cwd=folder, stdout=subprocess.PIPE, check=False)
    return done.returncode, done.stdout


def run(programs, every, seed, number):
    rng = random.Random(f"{seed} {number}")
    language = rng.choice(every)
    word, data = rng.choice(language.words), language.make(rng)
    if rng.random() < 0.4:
        data = damaged(rng, data)
    with tempfile.TemporaryDirectory() as folder:
        (Path(folder) / "spec").write_bytes(language.spec)
        (Path(folder) / "file").write_bytes(data)
        came, wanted = (answer(program, folder, word) for program in programs)
    if came != wanted:
        print(f"run {number}: report spec file {word!r}\nfile {data!r}\ncame {came}\nwanted {wanted}")
    return came == wanted


def main():
    parser = argparse.ArgumentParser(description=__doc__, formatter_class=argparse.RawDescriptionHelpFormatter)
    parser.add_argument("program", type=Path)
    parser.add_argument("oracle", type=Path)
    parser.add_argument("--seed", type=int, default=1)
    parser.add_argument("--from", type=int, default=0, dest="first")
    parser.add_argument("--runs", type=int, default=2000)
    asked = parser.parse_args()
    programs, every = (asked.program.resolve(), asked.oracle.resolve()), languages()
    right = [run(programs, every, asked.seed, asked.first + k) for k in range(asked.runs)]
    sys.exit(0 if all(right) else 1)


if __name__ == "__main__":
    main()
