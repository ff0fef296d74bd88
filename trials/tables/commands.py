"""The lines of scripts: each form of a command, lines that are none, and the limits of a script."""
from frame import Pieces, blocks_of, text

ABOUT = """
The lines of scripts: each command in each of its forms, blanks, comments and line ends, lines that are no command, and
the limits on bytes and commands. Made by `trials/tables/make.py PROGRAM commands`, where PROGRAM was model/ssled.
"""

LANGUAGE = """
root r;
list r;
r : Nil() | Pair(STR r);
r : Nil [ @ : ];
r : Pair [ @ : @ [ "%n" ] @ ] [ @ : "- " @ [ "%n" ] @ ];
transform r on "+" t : "x" :: t;
transform r on "a b" t : "y z" :: t;
WORD : < "[^\\n]+" >;
W { synthesized STR t; };
W ::= (WORD) { WORD.value } | () { "" };
STR ~ W.t;
"""

LONG = "aaaaaaaaaabbbbbbbbbbccccccccccddddddddddeeeeeeeeeeffffffffffgggg"

# One line each, every command once and the forms of words.
LINES = [
    "new a_Z-9", f"new {LONG}", "load main calc.sgt", "switch 0", "show", "next", "prev", "up", "first", "sibling",
    "goto 1 999999999", 'do "+"', "delete", "remove", "insert-before", "insert-after", "cut", "copy", "paste", 'text ""',
    'type ""', "erase", "enter", "abandon", "alternate", "elide", "undo", "redo", "save a", 'save "x"', 'save "a',
    'save "x"y', "save !~/..", f"save {LONG}", "save-text a", "load - ~",
]

UPS = b"up\n" * 100
NO_BUFFER = b"= - ev 0 no buffer\n" * 100
NO_BUFFERS = NO_BUFFER * 100

# Texts of one command or more, whose spelling differs.
SPELLED = [
    b"show\r\n", b"show  ", b"show \r\n#\n\n", b"\r\n\n# up\nshow\n", b"new  a \nsave   b  \nload  c   b  \n",
    b"new a\ngoto  1   1 \n", b'new a\ndo "+"', b'new a\ndo  "a b"  ', b'new a\ndo "+"\nfirst\ntext "a b"',
    b'new a\ndo "+"\nfirst\ntext ""', b'new a\ndo "+"\nfirst\ntext "a\\n\\"\\\\nb"', b'new a\ntype "a\\n\\"\\\\nb"',
    b'new a\ntype "\x80\xff\t \x00"', b'new a\ntype "#"\r\n', b'new a\ntype "\\\\"', b"", b"\n", b"\r\n\r\n", b"#",
    b"# new a\n#\r\n", b"up\nup", b"new a\r\n\nup\n#\nup\r\n",
]

# Texts whose first line is no command.
NONE = [
    b" show", b" ", b" #", b"\r", b"show\r", b"show\r\r\n", b"show\tx", b"show x", b"shows", b"sho", b"Show", b"SHOW",
    b"insert_after", b'"show"', b"new", b"new ", b"new a b", b"new a.b", b'new "a"', f"new {LONG}g".encode(), b"load a",
    b"load a b c", b"load a/ b", b"save", b"save a b", b'save "a b"', b"save \x7f", f"save {LONG}g".encode(), b"goto 1",
    b"goto 0 1", b"goto 01 1", b"goto 1 0", b"goto 1 1234567890", b"goto 1 +2", b"goto 1 2 3", b"text", b"text a",
    b'text"a"', b'text "a"b', b'text "a" "b"', b'text "a', b'text "a\\', b'text "a\\t"', b'text "a\rb"',
]

# Texts with a later line that is none, and its number.
LATER = [
    (b"show\n ", 2), (b"show\n\n#\nnope\nnope", 4), (b'text "a\nb"', 1), (b"\r\nshow\r\n\r", 3), (b"\n\n\nup up\n", 4),
]

# Texts at the limits and past them, and what is told; nothing of those within.
# Texts at the limits and past them, as pieces and how often they stand, and what is told; nothing of those within.
LIMITS = [
    ([(b"#", 1_048_576)], b""),
    ([(b"#", 1_048_577)], b"script long\n"),
    ([(b"no", 524_289)], b"script long\n"),
    ([(UPS, 100)], NO_BUFFERS),
    ([(UPS, 99), (b"up\r\n#\n" * 99, 1), (b"\n\nup", 1)], NO_BUFFERS),
    ([(UPS, 100), (b"up\n", 1)], b"script many 10001\n"),
    ([(UPS, 3000)], b"script many 300000\n"),
    ([(UPS, 100), (b"up\nno", 1)], b"script line 10002\n"),
]


class Repeated(bytes):
    """Pieces, each so many times; a piece of lines is a text of the table with a name."""

    def __new__(cls, pieces):
        made = super().__new__(cls, b"".join(piece * times for piece, times in pieces))
        made.pieces = pieces
        return made


def rows_of(table, data):
    """The lines of the table for these bytes."""
    if not isinstance(data, Repeated):
        return table.content(data)
    return "".join((text(Pieces((piece, times))) if b"\n" not in piece else table.content(piece) * times)
                   for piece, times in data.pieces)


def run(table, note, script, calls=None):
    """Adds the case of a script of any bytes, and answers status and output."""
    words, shelf, status, output, kept = table.answer("lines", script)
    blocks = blocks_of(output) if status == 0 else []
    if calls is None:
        calls = 2 + sum(b.message in ("ok", "phylum") and w.startswith((b"save", b"load"))
                        for b, w in zip(blocks, commands_of(script)))
    case = [f"// {note}\n\n"] if note else []
    case.append(f"run {' '.join(words)}\n")
    case += [f"file {name}\n{rows_of(table, data)}" for name, data in shelf.items()]
    told = Repeated([(NO_BUFFER, 100)]) if output == NO_BUFFERS else output
    case.append(f"gives {status} {calls} 0\n{rows_of(table, told)}")
    case += [f"after {name}\n{table.content(data)}" for name, data in kept.items()]
    table.blocks.append("".join(case))
    table.cases += 1
    return status, output


def commands_of(script):
    lines = (line.strip(b" \r") for line in script.split(b"\n"))
    return [line for line in lines if line and not line.startswith(b"#")]


def add(table):
    table.language("lines", LANGUAGE)
    table.run("Each command, where there is no buffer and then in one.", "lines",
              [line for line in LINES if not line.startswith(("new", "load"))] + ["new a", *LINES])
    for number, script in enumerate(SPELLED):
        status, output = run(table, "Texts of a few commands, spelled otherwise." if number == 0 else "", script)
        assert status == 0, (script, output)
    for number, script in enumerate(NONE):
        status, output = run(table, "Lines that are no command." if number == 0 else "", script)
        assert (status, output) == (5, b"script line 1\n"), (script, output)
    for script, line in LATER:
        status, output = run(table, "", script)
        assert (status, output) == (5, b"script line %d\n" % line), (script, output)
    table.text("ups", UPS)
    table.text("answers", NO_BUFFER)
    for number, (pieces, told) in enumerate(LIMITS):
        note = "The limits on bytes and on commands." if number == 0 else ""
        status, output = run(table, note, Repeated(pieces))
        assert output == told and status == (5 if told.startswith(b"script") else 0), (pieces, output[:80])
