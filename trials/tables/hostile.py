"""A bad day: texts and scripts at their limits and past them, files that are none, devices that fail, deep things."""
from pathlib import Path

from frame import SCRIPT, SUMS, Pieces, blocks_of, text

ABOUT = """
Scripts at their limits and past them, files that are missing or none, calls and puts that fail one at a time, deep
terms and files, and a script that does each kind of thing once. Made by `trials/tables/make.py PROGRAM hostile`, where
PROGRAM was model/ssled.
"""

LINES = (Path(__file__).resolve().parents[2] / "examples" / "lines.ssl").read_text(encoding="ascii")

# A chain down the last part, with few cells a level.
CHAIN = """
root top;
top : Top(link);
link : End() | Leaf(INT) | Link(link);
link { synthesized INT n; };
link : End { $$.n = 0; };
link : Leaf { $$.n = INT.value; };
link : Link { $$.n = link$2.n + 1; };
top : Top [ @ : link.n " " @ ];
link : End [ @ ::= "." ];
link : Leaf [ @ ::= ^ ];
link : Link [ @ ::= "(" @ ];
transform link on "link" l : Link(l);
NUM : < "[0-9]+" >;
L { synthesized link t; };
L ::= (NUM) { Leaf(STRtoINT(NUM.value)) } | ('(' L) { Link(L$2.t) };
link ~ L.t;
INT dig(INT n) { n == 0 ? 0 : 1 + dig(n - 1) };
link Climb(INT n, link l) { n == 0 ? l : Climb(n - 1, Link(l)) };
transform link on "far" l : Leaf(dig(681));
transform link on "too far" l : Leaf(dig(682));
transform link on "deep" l : Leaf(dig(100000));
transform link on "climb" l : Climb(1022, l);
transform link on "climb far" l : Climb(1023, l);
"""

EVERY = """
new p
next
text "let a = 5; print a; print b;"
next
text "let a = 7"
copy
next
paste
undo
redo
elide
undo
insert-after
remove
type "print c"
enter
save t
load q t
""".strip().split("\n")

HEAD = b"SGT1\n"
USAGE = b"usage: ssled show SPEC | run SPEC SCRIPT [W H] | check SPEC | load N | report SPEC FILE ATTR\n"


def repeated(table, name, unit, base, times):
    """A named text: the unit base ^ times times, made of named texts that are each base times the one before."""
    data, rows = unit * base, text(unit) * base
    for level in range(times):
        own = name if level + 1 == times else f"{name}{level + 1}"
        table.texts[own] = data
        table.blocks.append(f"text {own}\n{rows}")
        rows = f"@{own} 0 {len(data)}\n" * base
        data *= base
    return table.texts[name]


def case(table, note, words, files, gives, written, fails=(), kept=None):
    """Adds a case. The status, the replies and the rise are those given."""
    rows = [f"// {note}\n\n"] if note else []
    rows.append(f"run {' '.join(words)}\n")
    rows += [f"file {name}\n{table.content(data)}" for name, data in files.items()]
    rows += [f"{fail}\n" for fail in fails]
    rows.append(f"gives {' '.join(map(str, gives))}\n{table.content(written)}")
    rows += [f"after {name}\n{table.content(data)}" for name, data in (kept or {}).items()]
    table.blocks.append("".join(rows))
    table.cases += 1


def long_scripts(table):
    language = {"calculator": table.texts["calculator"]}
    words = ["run", "calculator", SCRIPT]
    most = repeated(table, "newlines", b"\n", 16, 5)
    more = most + b"\n"
    table.texts["newlines-more"] = more
    table.blocks.append(f"text newlines-more\n@newlines 0 {len(most)}\n%0a\n")
    shows = repeated(table, "shows", b"show\n", 10, 4)
    told = repeated(table, "told", b"= - ev 0 no buffer\n", 10, 4)
    notes = ("A script of 1,048,576 newlines says nothing; one byte more is too long.", None, "10,000 commands are allowed, one more is not.", None)
    for note, script in zip(notes, (most, more, shows, shows + b"show\n")):
        if script[-10:] == b"show\nshow\n" and len(script) > len(shows):
            table.texts["shows-more"] = script
            table.blocks.append(f"text shows-more\n@shows 0 {len(shows)}\n|show\n")
        _, _, status, output, kept = table.answer("calculator", script)
        assert not kept and (output == told) == (script is shows)
        case(table, note, words, {**language, SCRIPT: script}, (status, 2, 0), output)


def device(table):
    """Each call of the shelf and each put that fails, in a script that keeps a file and loads it again."""
    commands = ["new a", "save o", "load b o"]
    script = "".join(f"{c}\n" for c in commands).encode()
    words, files, _, output, kept = table.answer("calculator", script)
    blocks = [f"{b.header}\n".encode() + b"".join(f"|{line}\n".encode() for line in b.lines) for b in blocks_of(output)]
    counts = [b.count for b in blocks_of(output)]
    new, save, load = blocks
    assert save.count(b" ok\n") == 1 and new.replace(b" ev 1 ", b" ev 0 ") == save
    write, read = save.replace(b" ok\n", b" write fault\n"), save.replace(b" ok\n", b" read fault\n")

    def failing(fails, gives, written, after=None, note=None, given=words):
        case(table, note, given, files, gives, written, fails, after)

    failing(["call 1"], (3, 1, 0), b"read fault specification\n", note="Each call fails.")
    failing(["call 2"], (3, 2, 0), b"read fault script\n")
    failing(["call 3"], (0, 4, counts[0]), new + write + read)
    failing(["call 4"], (0, 4, counts[0]), new + save + read, kept)
    failing(["call 3", "call 4"], (0, 4, counts[0]), new + write + read)
    note = "Each put fails after some bytes."
    for number, block in enumerate(blocks):
        for length in (0, 1, 20, len(block)):
            front = b"".join(blocks[:number]) + block[:length]
            failing([f"put {number + 1} {length}"], (6, 2 + number, sum(counts[:number + 1])), front, kept if number else None, note)
            note = None
    for length in (0, 7, len(USAGE)):
        failing([f"put 1 {length}"], (6, 0, 0), USAGE[:length], given=["run", "a"])


def chain(levels, leaf):
    """A file of the top, so many links and the leaf."""
    return Pieces((HEAD + b"Top(", 1), (b"Link(", levels), (leaf, 1), (b")", levels + 1), (b"\n", 1))


def add(table):
    table.language("calculator", SUMS)
    table.language("lines", LINES)
    table.language("chain", CHAIN)
    table.run("Eighteen commands that do each kind of thing once.", "lines", EVERY)
    long_scripts(table)
    table.run("65 times a file that is not there: no more than 64 are asked for.", "calculator", ["load b x"] * 65)
    table.run("Files that are no saved form, and one of another operand.", "calculator",
              ["load b zero", "load b empty", "load b number", "new b", "load c none"], (9, 2),
              {"zero": HEAD + b"CalcTop(Const(04))\n", "empty": b"", "number": HEAD + b"CalcTop(4)\n"})
    for length in (64, 65):
        name = "n" * length
        for command in (f"new {name}", f"load a {name}", f"load {name} f", f"switch {name}", f"save {name}", f"save-text {name}"):
            table.run(None, "calculator", ["new a", command], (3, 1))
    for place in ("999999999 1", "1 999999999", "1000000000 1", "1 1000000000", "0 1", "1 0", "01 1", "1 01"):
        table.run(None, "calculator", ["new a", f"goto {place}"], (3, 1))
    device(table)
    deep = ["load a deep", "load b deeper", "load b leaf", "goto 1 1024", 'text "7"', 'do "link"', "undo", "redo", "save kept", "save-text page",
            "load c kept", "up", "elide", "undo", "undo", "delete", "undo", "up", "copy", "new d", "next", "paste", "undo"]
    table.run("A term of depth 1,024: shown, replaced at its leaf, undone, kept, loaded, elided, copied.", "chain", deep, (40, 1),
              {"deep": chain(1022, b"End()"), "deeper": chain(1023, b"End()"), "leaf": chain(1021, b"Leaf(5)")})
    table.run("Files that nest as deep as a file can.", "chain", ["load a open", "load a closed", "load a inner", "new a"], (40, 1),
              {"open": Pieces((HEAD, 1), (b"a(", 2000000)), "closed": Pieces((HEAD, 1), (b"a(", 1390000), (b")", 1390000), (b"\n", 1)),
               "inner": Pieces((HEAD + b"Top(", 1), (b"Link(", 690000), (b"End()", 1), (b")", 690001), (b"\n", 1))})
    table.run("Calls that nest deep, and terms that they make.", "chain",
              ["new a", "next", 'do "too far"', 'do "deep"', 'do "climb far"', 'do "climb"', 'do "climb"', "undo", 'do "far"', 'do "climb"'], (40, 1))
    table.run("Texts that nest deep.", "chain",
              ["new a", "next", f'text "{"(" * 1021}1"', f'text "{"(" * 1022}1"', f'text "{"(" * 900000}1"', f'text "{"(" * 30000}"'], (40, 1))
