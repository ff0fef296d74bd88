#!/usr/bin/env python3
"""damage.py PROGRAM [--live LIVE] [--seed S] [--from N] [--runs K] [--jobs J] [--keep FOLDER]

Runs PROGRAM, a built ssled, on damaged specifications, scripts and saved files, on random bytes and on odd words, and
holds each run against what every run owes: it ends by itself with a status of docs/COMMANDS.md and a text that fits it,
in under 10 processor seconds and under 1 GiB.

The texts are those of examples/ beside this folder; saved files are also made of the terms to which its scripts lead.
Run N of seed S is always the same. Runs from N (0) on are made, K of them (1,000), by J processes (1). The files and the
words of a run that fails stay in FOLDER. `--runs 1 --from N` repeats a run.

With LIVE, a built ssled_live, each run is a session over the same specification, and its input is the script; it owes an
answer for each line that has one.
"""
import argparse
import os
import random
import re
import resource
import shutil
import sys
import tempfile
import time
from collections import Counter
from multiprocessing import Pool
from pathlib import Path

from refusals import is_answered

EXAMPLES = Path(__file__).resolve().parent.parent / "examples"
SECONDS = 10
BYTES = 1 << 30
PIECES = re.compile(rb'"(?:\\.|[^"\\\n])*"|\'[^\'\n]*\'|[A-Za-z_][A-Za-z0-9_]*|[0-9]+|::=|::|[ \t]+|.|\n', re.DOTALL)
NUMBERS = [b"0", b"1", b"2", b"16", b"17", b"1023", b"1024", b"1025", b"65536", b"9223372036854775807", b"9223372036854775808", b"00"]
ODD = [b"\0", b"\t", b"\r", b"\x7f", b"\x80", b"\xff", b"\xc3\xa9", b"/*", b"*/", b"`", b"\\", b'"', b"'", b"(", b")", b"%", b"@", b"^"]
LINES = ["next", "prev", "up", "first", "sibling", "delete", "remove", "insert-before", "insert-after", "cut", "copy", "paste", "erase",
         "enter", "abandon", "alternate", "elide", "undo", "redo", "extend", "extend", "shrink", "show", "save kept", "load again kept", "load b file", "new b",
         "save-text text", "load c text", "load d script", "load e spec", "load f none", "switch b", "switch a", "view", "view outline"]
SIGNS = [(b"+", b"-", b"*", b"/"), (b"<", b"==", b">"), (b"&", b"|"), (b":", b"::="), (b"@", b"^")]
# What a text has to begin with, by its status.
TEXTS = {2: b"usage: ", 3: b"read fault ", 4: b"fault ", 5: b"script ", 7: b"report "}
NO_TEXT = 8


class Corpus:
    """The texts that are damaged: of each language the specification, lines of scripts, and saved files."""

    def __init__(self, run):
        self.run = run
        self.specs = {p: p.read_bytes() for p in sorted(EXAMPLES.glob("**/*.ssl"))}
        self.whole = [p for p in self.specs if p.with_suffix(".script").exists() or p.stem == "calc_small"]
        self.lines = {p: self.commands(p) for p in self.whole}
        self.every = sorted({line for lines in self.lines.values() for line in lines})
        self.names = sorted({name for data in self.specs.values() for name in re.findall(rb"[A-Za-z_]\w*", data)})
        self.saved = {p: self.terms(p) for p in self.whole}

    @staticmethod
    def commands(spec):
        script = spec.with_suffix(".script")
        lines = script.read_text().splitlines() if script.exists() else ["new a", "next", 'do "+"']
        return [line for line in lines if line and not line.startswith("#")]

    def terms(self, spec):
        """The saved terms after some fronts of the script."""
        lines, found = self.lines[spec], []
        more = [f"{line}\nsave k{n}\n" for n, line in enumerate(lines)]
        self.run.answer(["run", "spec", "script"], {"spec": self.specs[spec], "script": "".join(more).encode()})
        for kept in sorted(Path().glob("k*")):
            found.append(kept.read_bytes())
        return sorted(set(found), key=len) or [b"SGT1\n"]


def damaged(rng, data, others, most=1_100_000):
    """The data with some damages, each of bytes, of words and signs, or of lines; at most so many bytes of it."""
    for _ in range(rng.choice((1, 1, 1, 2, 3, 8))):
        data = rng.choice((bytes_damaged, pieces_damaged, pieces_damaged, lines_damaged))(rng, data, others)[:most]
    return data


def times(rng, piece, choices):
    """How often a piece is to stand, which is not that often where it is long."""
    return min(rng.choice(choices), 1 + 200_000 // (len(piece) + 1))


def bytes_damaged(rng, data, _):
    at = rng.randrange(len(data) + 1)
    length = rng.choice((1, 1, 2, 10, 200))
    kind = rng.randrange(6)
    if kind == 0:
        return data[:at]
    if kind == 1:
        return data[:at] + data[at + length:]
    if kind == 2:
        return data[:at] + data[at:at + length] * rng.choice((2, 3, 100)) + data[at + length:]
    new = rng.choice(ODD) if kind < 5 else rng.randbytes(length)
    return data[:at] + new + data[at + (kind == 3):]


def pieces_damaged(rng, data, others):
    pieces = PIECES.findall(data)
    if not pieces:
        return rng.choice(ODD)
    at, to = rng.randrange(len(pieces)), rng.randrange(len(pieces))
    kind = rng.randrange(9)
    if kind == 0:
        del pieces[at]
    elif kind == 1:
        pieces[at], pieces[to] = pieces[to], pieces[at]
    elif kind == 2:
        pieces[at] = pieces[to]
    elif kind == 3:
        pieces.insert(at, pieces[to])
    elif kind == 4:
        pieces[at] = rng.choice(NUMBERS)
    elif kind == 5:
        pieces[at] = rng.choice(others)
    elif kind == 6:
        pieces[at] *= times(rng, pieces[at], (2, 17, 65, 130, 1100, 20_000))
    elif kind == 7:
        names = [n for n, piece in enumerate(pieces) if piece[:1].isalpha()]
        if names:
            pieces[rng.choice(names)] = pieces[rng.choice(names)]
    else:
        opened = rng.choice(((b"(", b")"), (b"[", b"]"), (b"{", b"}"), (b"- ", b""), (b"Pair(", b")"), (b"f(", b")")))
        count = rng.choice((1, 63, 64, 65, 127, 128, 1030, 30_000))
        pieces[at] = opened[0] * count + pieces[at] + opened[1] * rng.choice((count, count - 1))
    return b"".join(pieces)


def lines_damaged(rng, data, others):
    lines = data.split(b"\n")
    at, to = rng.randrange(len(lines)), rng.randrange(len(lines))
    kind = rng.randrange(5)
    if kind == 0:
        del lines[at]
    elif kind == 1:
        lines[at], lines[to] = lines[to], lines[at]
    elif kind == 2:
        lines.insert(at, lines[to])
    elif kind == 3:
        lines[at:at + 1] = [lines[at]] * times(rng, lines[at], (2, 40, 600))
    else:
        lines[at] = b" ".join(rng.choice(others) for _ in range(rng.randrange(1, 12)))
    return b"\n".join(lines)


def altered(rng, data):
    """A specification in which one or two words or signs are others of their kind, so that it is often one still."""
    pieces = PIECES.findall(data)
    for _ in range(rng.choice((1, 1, 2))):
        at = rng.randrange(len(pieces))
        while pieces[at].isspace() or pieces[at] in b";{}()":
            at = rng.randrange(len(pieces))
        piece = pieces[at]
        near = pieces[max(0, at - 150):at + 150]
        group = next((group for group in SIGNS if piece in group), None)
        if piece.isdigit():
            pieces[at] = rng.choice((b"0", b"1", b"2", b"3", b"7", b"9223372036854775807"))
        elif group:
            pieces[at] = rng.choice(group)
        elif piece[:1].isalpha():
            pieces[at] = rng.choice([p for p in near if p[:1].isalpha() and p[:1].islower() == piece[:1].islower()])
        elif piece[:1] in b"\"'":
            pieces[at] = rng.choice([p for p in near if p[:1] == piece[:1]])
        else:
            pieces[at:at + 1] = rng.choice(([], [piece, piece]))
    return b"".join(pieces)


def script(rng, corpus, spec):
    """A script, mostly of commands that are ones, many of them at home in the language."""
    own, lines = corpus.lines[spec], ["new a"]
    if rng.random() < 0.5:
        lines = own[:rng.randrange(len(own) + 1)]
    for _ in range(rng.choice((3, 10, 30, 30, 100))):
        kind = rng.randrange(8)
        if kind < 3:
            lines.append(rng.choice(LINES))
        elif kind == 3:
            lines.append(f"goto {rng.choice((1, 2, 3, 5, 9, 24, 999999999))} {rng.choice((1, 2, 7, 20, 81, 999999999))}")
        elif kind < 6:
            lines.append(rng.choice(own))
        elif kind == 6:
            lines.append(rng.choice(corpus.every))
        else:
            said = rng.choice([line for line in own if '"' in line] or ['text "1"'])
            head, _, rest = said.partition('"')
            inner = damaged(rng, rest.rstrip('"').encode("latin-1"), [b"1", b"x", b"(", b")", b" ", b"+"], 3000)
            inner = re.sub(rb'[\r\n"\\]', b" ", inner).decode("latin-1")
            lines.append(f'{rng.choice((head, "text ", "type ", "find ", "replace-all "))}"{inner}"')
    return "".join(f"{line}\n" for line in lines).encode("latin-1")


def made(rng, corpus):
    """The kind, the words and the files of a run."""
    spec = rng.choice(corpus.whole)
    files = {"spec": corpus.specs[spec], "script": script(rng, corpus, spec), "file": rng.choice(corpus.saved[spec])}
    words = ["run", "spec", "script"]
    if rng.random() < 0.2:
        words += [str(rng.choice((1, 2, 20, 80, 1024))), str(rng.choice((1, 3, 24, 200)))]
    kind = rng.choices(("spec", "language", "script", "commands", "saved", "report", "bytes", "words"),
                       (22, 20, 12, 18, 11, 6, 6, 5))[0]
    if kind == "spec":
        files["spec"] = damaged(rng, corpus.specs[rng.choice(list(corpus.specs))], corpus.names)
        words = rng.choice((["check", "spec"], ["check", "spec"], ["show", "spec"], words))
    elif kind == "language":
        files["spec"] = altered(rng, corpus.specs[spec])
    elif kind == "script":
        files["script"] = damaged(rng, files["script"], [line.encode() for line in corpus.every])
    elif kind == "saved":
        for name in ("file", "kept", "text", "more"):
            files[name] = damaged(rng, rng.choice(corpus.saved[spec]), corpus.names)
        files["script"] = b"load a file\nload b kept\nload c text\nload d more\nnext\nelide\nsave kept\nload e kept\n" + files["script"]
    elif kind == "report":
        texts = [line.split('"', 1)[1].rstrip('"').encode("latin-1") for line in corpus.lines[spec] if line.startswith("text ")]
        files["file"] = damaged(rng, rng.choice([*corpus.saved[spec], *texts]), corpus.names)
        parts = re.findall(rb"([A-Za-z_]\w*)(?:\$\d+)?\.([A-Za-z_]\w*)", corpus.specs[spec])
        words = ["report", "spec", "file", b".".join(rng.choice(parts)) if parts else b"x.y"]
    elif kind == "bytes":
        name = rng.choice(("spec", "script", "file"))
        size = rng.choice((0, 1, 2, 30, 3_000, 100_000, 1_048_576, 1_048_577, 4_194_304, 4_194_305))
        files[name] = rng.choice((rng.randbytes, lambda n: bytes(rng.choices(b"\n \"'()[]{}@:;=|az09+-*", k=min(n, 100_000))),
                                  lambda n: rng.choice(ODD) * n))(size)
        if name == "file":
            files["script"] = b"new a\nload b file\nshow\n" + files["script"]
    elif kind == "words":
        some = [b"run", b"check", b"show", b"load", b"spec", b"script", b"none", b"80", b"24", b"0", b"-1", b"1025", b"", b"\xff", b"--help"]
        words = rng.choices(some, k=rng.randrange(7))
        if words[:1] == [b"load"]:
            words = words[:1]
    return kind, words, files


class Run:
    """Runs the program in a folder, which is the one of this process from then on."""

    def __init__(self, program, folder):
        self.program = program
        os.chdir(folder)

    def answer(self, words, files, program=None, said=b""):
        """Status (negative: the signal), output, processor seconds and bytes of memory."""
        program = program or self.program
        for name in os.listdir():
            os.unlink(name)
        for name, data in files.items():
            Path(name).write_bytes(data)
        with open("output", "w+b", buffering=0) as output, open("input", "w+b", buffering=0) as given:
            os.unlink("output")
            os.unlink("input")
            given.write(said)
            given.seek(0)
            actions = [(os.POSIX_SPAWN_DUP2, given.fileno(), 0), (os.POSIX_SPAWN_DUP2, output.fileno(), 1)]
            child = os.posix_spawn(program, [program, *words], os.environ, file_actions=actions)
            for limit, most in ((resource.RLIMIT_CPU, SECONDS), (resource.RLIMIT_AS, BYTES), (resource.RLIMIT_CORE, 0)):
                # It may have ended, and is still to be waited for.
                resource.prlimit(child, limit, (most, most))
            _, status, used = os.wait4(child, 0)
            said = os.pread(output.fileno(), os.fstat(output.fileno()).st_size, 0)
        return os.waitstatus_to_exitcode(status), said, used.ru_utime + used.ru_stime, used.ru_maxrss * 1024


def commands_in(data):
    lines = (line.removesuffix(b"\r") for line in data.split(b"\n"))
    return sum(bool(line) and not line.startswith(b"#") for line in lines)


def wrong(words, files, status, output):
    """What is wrong with an answer, or None."""
    if status in TEXTS:
        fits = output.startswith(TEXTS[status]) and output.count(b"\n") == 1 and output.endswith(b"\n")
    elif status == NO_TEXT:
        fits = output == b"" and b"\xff" in words
    elif status == 0:
        blocks = [line for line in output.split(b"\n")[:-1] if not line.startswith(b"|")]
        first = os.fsencode(words[0])
        if first == b"check":
            fits = output == b"ok\n"
        elif first == b"report":
            fits = output.endswith(b"\n") and output.split(b"\n")[-2].startswith(b"values ")
        else:
            fits = all(line.startswith(b"= ") for line in blocks)
            given = files.get(os.fsdecode(words[2])) if first == b"run" else None
            if given is not None:
                fits = fits and len(blocks) == commands_in(given)
    else:
        return f"status {status}"
    return None if fits else f"status {status} with another text"


def as_session(words, files):
    """The words and the input of the session that stands for a run."""
    if words[:1] == ["run"] and len(words) in (3, 5):
        return [words[1], *words[3:]], files.get(words[2], b"")
    return [it for it in words if it not in ("check", "show", "report")][:1], files.get("script", b"")


def wrong_session(words, data, status, output):
    """What is wrong with what came of a session, or None."""
    if status != 0:
        return wrong(words, {}, status, output)
    answers = [line for line in output.split(b"\n")[:-1] if not line.startswith(b"|")]
    lines = [line + b"\n" for line in data.removesuffix(b"\n").split(b"\n")] if data else []
    fits = all(line.startswith((b"= ", b"! ")) for line in answers) and len(answers) == sum(map(is_answered, lines))
    return None if fits else "status 0 with another text"


def begin(program, live, seed, keep, folder):
    """Makes ready what a process needs for its runs."""
    global runs, corpus, options
    runs = Run(program, tempfile.mkdtemp(dir=folder))
    corpus, options = Corpus(runs), (live, seed, keep)


def work(numbers):
    live, seed, keep = options
    tally, worst, bad = Counter(), {"seconds": (0, 0), "bytes": (0, 0)}, []
    for number in numbers:
        kind, words, files = made(random.Random(f"{seed}/{number}"), corpus)
        if live:
            words, data = as_session(words, files)
            status, output, seconds, size = runs.answer(words, files, live, data)
        else:
            status, output, seconds, size = runs.answer(words, files)
        tally[kind, status] += 1
        worst["seconds"] = max(worst["seconds"], (seconds, number))
        worst["bytes"] = max(worst["bytes"], (size, number))
        told = wrong_session(words, data, status, output) if live else wrong(words, files, status, output)
        if told:
            bad.append((number, kind, told))
            if keep:
                place = Path(keep) / f"{seed}-{number}"
                shutil.rmtree(place, ignore_errors=True)
                place.mkdir(parents=True)
                for name, data in {**files, "WORDS": b"\n".join(map(os.fsencode, words)), "OUTPUT": output}.items():
                    (place / name).write_bytes(data)
    return tally, worst, bad


def main():
    words = argparse.ArgumentParser(description=__doc__, formatter_class=argparse.RawDescriptionHelpFormatter)
    words.add_argument("program", type=lambda path: str(Path(path).resolve()))
    words.add_argument("--live", type=lambda path: str(Path(path).resolve()))
    words.add_argument("--seed", default="1")
    words.add_argument("--from", type=int, default=0, dest="first")
    words.add_argument("--runs", type=int, default=1000)
    words.add_argument("--jobs", type=int, default=1)
    words.add_argument("--keep", type=lambda path: str(Path(path).resolve()))
    given = words.parse_args()
    began, ends = time.time(), given.first + given.runs
    parts = [range(at, min(at + 100, ends)) for at in range(given.first, ends, 100)]
    tally, worst, wrongs, done = Counter(), {"seconds": (0, 0), "bytes": (0, 0)}, 0, 0
    with tempfile.TemporaryDirectory() as folder, Pool(given.jobs, begin, (given.program, given.live, given.seed, given.keep, folder)) as pool:
        for part, most, bad in pool.imap_unordered(work, parts):
            tally += part
            worst = {what: max(worst[what], most[what]) for what in worst}
            for number, kind, told in bad:
                print(f"run {number} of seed {given.seed} ({kind}): {told}", flush=True)
            wrongs += len(bad)
            done += sum(part.values())
            if done % 10_000 < 100:
                print(f"{done} runs, {wrongs} wrong", flush=True)
    for (kind, status), count in sorted(tally.items()):
        print(f"{kind:9} status {status:2} {count:8}")
    print(f"{done} runs of seed {given.seed} from {given.first}, {wrongs} wrong, {time.time() - began:.0f} s; "
          f"longest {worst['seconds'][0]:.2f} s (run {worst['seconds'][1]}), "
          f"most {worst['bytes'][0] >> 20} MiB (run {worst['bytes'][1]})")
    sys.exit(wrongs > 0)


if __name__ == "__main__":
    main()
