"""What the makers of tables share: a table of cases, each a language with a script, and how its blocks are written.

What is wanted of a case is what PROGRAM answers, which takes the command line of ssled.
"""
import re
import subprocess
import sys
import tempfile
import time
from pathlib import Path

# The messages with which a command that names a file has called the shelf.
CALLED = {
    "load": ("ok", "read fault", "long file", "form at", "phylum", "size"),
    "save": ("ok", "write fault"),
    "save-text": ("ok", "write fault"),
}
REPEATED = re.compile(r"(.{1,40}?)\1{15,}")
SCRIPT = "script"

# Sums of numbers, without a typed-in form.
SUMS_TERMS = """
root calc;
calc : CalcTop(exp);
exp : Null() | Sum(exp exp) | Const(INT);
exp { synthesized INT v; };
exp : Null { $$.v = 0; };
exp : Sum { $$.v = exp$2.v + exp$3.v; };
exp : Const { $$.v = INT.value; };
calc : CalcTop [ @ : @ "%nVALUE = " exp.v ];
exp : Null [ @ ::= "<exp>" ];
exp : Sum [ @ ::= "(" @ " + " @ ")" ];
exp : Const [ @ ::= ^ ];
transform exp on "+" e : Sum(e, <exp>);
NUM : < "[0-9]+" >;
WHITESPACE : < "[ \\n]+" >;
"""

# The typed-in form of sums of numbers.
SUMS_ENTRY = """E { synthesized exp t; };
T { synthesized exp t; };
E ::= (E '+' T) { Sum(E$2.t, T.t) } | (T) { T.t };
T ::= (NUM) { Const(STRtoINT(NUM.value)) } | ('(' E ')') { E.t };
exp ~ E.t;
"""

# Both.
SUMS = SUMS_TERMS + SUMS_ENTRY


class Pieces(bytes):
    """Bytes that are some texts, each so many times, one behind the other."""

    def __new__(cls, *pieces):
        made = super().__new__(cls, b"".join(piece * times for piece, times in pieces))
        made.pieces = pieces
        return made


def line_of(piece, ends):
    """The lines of a table that stand for one line of a text, where a piece that comes often stands once."""
    rows, at = [], 0
    for found in REPEATED.finditer(piece):
        unit = found.group(1)
        times = len(found.group(0)) // len(unit)
        if len(found.group(0)) < 60:
            continue
        if found.start() > at:
            rows.append("." + piece[at:found.start()])
        rows.append(f"*{times} {unit}")
        at = found.end()
    rest = piece[at:]
    if ends:
        rows.append("|" + rest)
    elif rest:
        rows.append("." + rest)
    return rows


def text(data):
    """The lines of a table that stand for these bytes."""
    if isinstance(data, Pieces):
        return "".join(text(p) if n == 1 else f"*{n} {p.decode('ascii')}\n" for p, n in data.pieces)
    lines = data.split(b"\n")
    rows = []
    for number, line in enumerate(lines):
        ends = number + 1 < len(lines)
        if all(32 <= byte < 127 for byte in line):
            rows += line_of(line.decode("ascii"), ends)
        else:
            rows.append("%" + (line + b"\n" * ends).hex())
    return "".join(f"{row}\n" for row in rows)


def words_of(script):
    """The words of the lines that are commands."""
    lines = (line.strip(" \r") for line in script.split("\n"))
    return [line.split() for line in lines if line and not line.startswith("#")]


class Block:
    """What a command printed."""

    def __init__(self, header, lines):
        self.header = header
        self.lines = lines
        before, rest = header.split(" ev ", 1)
        self.place = before
        count, self.message = rest.split(" ", 1)
        self.count = int(count)


def blocks_of(output):
    blocks = []
    for line in output.decode("ascii").split("\n")[:-1]:
        if line.startswith("|"):
            blocks[-1].lines.append(line[1:])
        else:
            blocks.append(Block(line, []))
    return blocks


class Table:
    """A table that is being written."""

    def __init__(self, program, about):
        self.program = program
        self.blocks = ["".join(f"// {line}\n" for line in about.strip().split("\n"))]
        self.texts = {}
        self.cases = 0

    def text(self, name, data):
        """Gives a text a name."""
        self.texts[name] = data
        self.blocks.append(f"text {name}\n{text(data)}")

    def language(self, name, lines):
        self.text(name, lines.strip().encode("ascii") + b"\n")

    def content(self, data):
        """The line of a named text, or the lines of the bytes."""
        for name, named in self.texts.items():
            if named == data and data:
                return f"@{name} 0 {len(data)}\n"
        return text(data)

    def answer(self, language, script, size=None, files=None, broken=()):
        """Status, output, and the files that were kept. A broken file can neither be fetched nor kept."""
        shelf = {language: self.texts[language], SCRIPT: script, **(files or {})}
        words = ["run", language, SCRIPT, *map(str, size or ())]
        with tempfile.TemporaryDirectory() as folder:
            for name, data in shelf.items():
                if name not in broken:
                    (Path(folder) / name).write_bytes(data)
            for name in broken:
                (Path(folder) / name).mkdir()
            done = subprocess.run([self.program, *words], cwd=folder, stdout=subprocess.PIPE, check=False)
            kept = {p.name: p.read_bytes() for p in sorted(Path(folder).iterdir()) if p.is_file()}
        return words, shelf, done.returncode, done.stdout, {n: d for n, d in kept.items() if shelf.get(n) != d}

    def blocks_after(self, language, commands, **more):
        """The blocks of these commands, for a maker that asks before it writes its case."""
        script = "".join(f"{c}\n" for c in commands).encode("latin-1")
        return blocks_of(self.answer(language, script, **more)[3])

    def run(self, note, language, commands, size=None, files=None, broken=(), cut=None):
        """Adds the case of these commands, and answers their blocks. With cut (N, M) put N fails after M bytes, where
        the command of that put evaluates nothing."""
        script = "".join(f"{c}\n" for c in commands).encode("latin-1")
        done = "".join(f"{c}\n" for c in commands[:cut[0]]).encode("latin-1") if cut else script
        began = time.time()
        words, shelf, status, output, kept = self.answer(language, done, size, files, broken)
        shelf[SCRIPT] = script
        blocks = blocks_of(output) if status == 0 else []
        if cut:
            assert blocks[-1].count == 0 and len(blocks) == cut[0]
            last = "\n".join([blocks[-1].header, *("|" + line for line in blocks[-1].lines), ""])
            output, status = output[:len(output) - len(last) + cut[1]], 6
        calls, fails, stand = 2, [], set(shelf)
        for word, block in zip(words_of(script.decode("latin-1")), blocks):
            if not block.message.startswith(CALLED.get(word[0], ())):
                continue
            calls += 1
            if block.message == "write fault" or block.message == "read fault" and word[-1] in stand:
                fails.append(calls)
            if word[0] != "load":
                stand.add(word[1])
        case = [f"// {line}\n" for line in note.strip().split("\n")] + ["\n"] if note else []
        case.append(f"run {' '.join(words)}\n")
        for name, data in shelf.items():
            case.append(f"file {name}\n{self.content(data)}")
        case += [f"call {number}\n" for number in fails]
        case += [f"put {cut[0]} {cut[1]}\n"] if cut else []
        rise = sum(block.count for block in blocks)
        case.append(f"gives {status} {calls} {rise}\n{text(output)}")
        case += [f"after {name}\n{self.content(data)}" for name, data in kept.items()]
        self.blocks.append("".join(case))
        self.cases += 1
        print(f"{time.time() - began:6.1f} s {len(self.blocks[-1]):8} bytes  {note}", file=sys.stderr)
        return blocks

    def said(self, word, note, language):
        """Adds the case of `check` or `show` of this language, whole or the name of one."""
        data = self.texts.get(language) or language.strip().encode("ascii") + b"\n"
        with tempfile.TemporaryDirectory() as folder:
            (Path(folder) / "s").write_bytes(data)
            done = subprocess.run([self.program, word, "s"], cwd=folder, stdout=subprocess.PIPE, check=False)
        rise = sum(block.count for block in blocks_of(done.stdout)) if word == "show" and done.returncode == 0 else 0
        case = f"// {note}\n\n" if note else ""
        self.blocks.append(f"{case}run {word} s\nfile s\n{self.content(data)}gives {done.returncode} 1 {rise}\n{text(done.stdout)}")
        self.cases += 1
        return done.stdout

    def check(self, language, note=""):
        return self.said("check", note, language)

    def show(self, language, note=""):
        return self.said("show", note, language)

    def whole(self):
        return "\n".join(self.blocks)
