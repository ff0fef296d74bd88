"""Saved files: kept and read back, damaged, too many, and a shelf that fails."""
from frame import Pieces

ABOUT = """
The saved form: files that are kept and read back, files that are damaged at each byte or of another language, limits on
buffers and files, and a shelf whose calls fail. Made by `trials/tables/make.py PROGRAM saving`, where PROGRAM was model/ssled.
"""

KINDS = """
root top;
list parts;
top : Top(parts);
parts : End() | Part(part parts);
part : Int(INT) | Str(STR) | Yes(BOOL) | Word(WORD) | Pair(part part) | Hole();
WORD : < "[a-z\\n\\"\\\\\\\\]+" >;
NUM : < "-?[0-9]+" >;
STRING : < "'[^']*'" >;
WHITESPACE : < " +" >;
part { synthesized INT v; };
parts { synthesized INT v; };
part : Int { $$.v = INT.value; };
part : Str { $$.v = STRlen(STR.value); };
part : Yes { $$.v = BOOL.value ? 1 : 0; };
part : Word { $$.v = WORD.value == "" ? -1 : 1; };
part : Pair { $$.v = part$2.v + part$3.v; };
part : Hole { $$.v = 0; };
parts : End { $$.v = 0; };
parts : Part { $$.v = part.v + parts$2.v; };
top : Top [ @ : @ "%n= " parts.v ];
parts : End [ @ ::= ];
parts : Part [ @ ::= @ [ "%n" ] @ ];
part : Int [ @ ::= ^ ] [ @ ::= "#" ^ ];
part : Str [ @ ::= "\\"" @ "\\"" ];
part : Yes [ @ ::= ^ ];
part : Word [ @ ::= @ ];
part : Pair [ @ ::= "(" @ ", " @ ")" ];
part : Hole [ @ ::= "?" ];
transform part on "pair" p : Pair(p, <part>);
L { synthesized parts t; };
P { synthesized part t; };
S { synthesized STR t; };
L ::= () { End() } | (P L) { P.t :: L$2.t };
P ::= (NUM) { Int(STRtoINT(NUM.value)) } | (STRING) { Str(STRING.value) } | ('yes') { Yes(true) } | ('no') { Yes(false) }
    | (WORD) { Word(WORD.value) } | ('word') { Word([WORD]) } | ('(' P P ')') { Pair(P$2.t, P$3.t) } | ('?') { Hole() };
S ::= (STRING) { STRING.value };
parts ~ L.t; part ~ P.t; STR ~ S.t;
"""

# The same without attributes, for what is large.
PLAIN = "\n".join(line for line in KINDS.replace(' "%n= " parts.v', "").split("\n") if "$$.v" not in line and "INT v;" not in line)

HEAD = b"SGT1\n"


def saved(term):
    return HEAD + term + b"\n"


def listed(parts):
    """The file of a list of these parts."""
    return saved(b"Top(" + b"".join(b"Part(" + p + b"," for p in parts) + b"End()" + b")" * len(parts) + b")")


BACK = """
new a
next
text "1 -23 '' 'two words' yes no word x (? (4 '5')) 9223372036854775807 -9223372036854775808"
save all
load b all
next
goto 1 1
alternate
elide
save marked
load c marked
switch a
goto 7 1
text "'a\\n\\"b\\\\'"
goto 8 1
text "\\n\\"\\\\"
save escaped
load d escaped
save-text shown
load e shown
goto 9 2
do "pair"
cut
save cut
load f cut
type "x"
save typed
save-text typed.text
abandon
undo
undo
save all
load g all
next
delete
save empty
load h empty
""".strip().split("\n")

GOOD = listed([b"Int(-12)", b'Str("a\\n\\"\\\\ z")', b"Yes(true)", b'Pair(Word(""),Word("b"))'])

# Each damage is a change at one place: what stands there, and what comes instead.
FORMS = [
    (b"SGT1", b"SGT2"), (b"SGT1\n", b"SGT1\r\n"), (b"SGT1\n", b""), (b"Top(", b"Top ("), (b"Top(", b" Top("), (b"Top(", b"1op("),
    (b"Top(", b"Top["), (b"Top(", b"root("), (b"Top(", b"true("), (b"Int(-12)", b"Int(-012)"), (b"Int(-12)", b"Int(-0)"),
    (b"Int(-12)", b"Int(- 12)"), (b"Int(-12)", b"Int(12a)"), (b"Int(-12)", b"Int(+12)"), (b"Int(-12)", b"Int(00)"),
    (b"Int(-12)", b"Int(9223372036854775808)"), (b"Int(-12)", b"Int(-9223372036854775809)"), (b"Int(-12)", b"Int(-12"),
    (b"Int(-12)", b"Int"), (b"Int(-12)", b"Int(-12,)"), (b"Int(-12)", b"Int(,)"), (b"Int(-12)", b"(-12)"),
    (b"a\\n", b"a\n"), (b"a\\n", b"a\\t"), (b"a\\n", b"a\x80"), (b"a\\n", b"a\x7f"), (b"a\\n", b"a\""), (b"z\")", b"z)"),
    (b"z\")", b"z\\\")"), (b"Yes(true)", b"Yes(truth)"), (b"Yes(true)", b"Yes(True)"), (b"Yes(true)", b"Yes(true"),
    (b"End()", b"End"), (b"End()", b"End( )"), (b"End()", b"End(()"), (b"End()", b"let()"), (b"End()", b"default"),
    (b"End()", b"e" * 65 + b"()"), (b"))\n", b")\n"), (b"))\n", b")))\n"), (b"))\n", b"))"), (b"))\n", b"))\n\n"),
    (b"))\n", b"))\nTop"), (b"))\n", b")) \n"),
]

PHYLA = [
    (b"Top(", b"Tip("), (b"Top(", b"Int("), (b"Int(-12)", b"Int()"), (b"Int(-12)", b"Int(1,2)"), (b"Int(-12)", b"Int(true)"),
    (b"Int(-12)", b'Int("12")'), (b"Int(-12)", b"Hole(1)"), (b"Int(-12)", b"End()"), (b"Int(-12)", b"Part(Hole(),End())"),
    (b"Int(-12)", b"12"), (b"Int(-12)", b"Str(12)"), (b"Int(-12)", b"Yes(1)"), (b"Int(-12)", b"Yes(\"true\")"),
    (b"Int(-12)", b'Word("B")'), (b"Int(-12)", b'Word("bc d")'), (b"Int(-12)", b"Word(true)"), (b"Int(-12)", b"Word(Hole())"),
    (b"Int(-12)", b"Pair(Hole())"), (b"Int(-12)", b"Pair(Hole(),Tip())"), (b"End()", b"Hole()"), (b"End()", b"end()"),
    (b"End()", b"End(End())"), (b"End()", b"0"), (b"End()", b"e" * 64 + b"()"),
]


def damaged(changes, size=60):
    """For these changes of the good file, runs of at most so many: scripts and files."""
    for start in range(0, len(changes), size):
        files = {}
        for number, (old, new) in enumerate(changes[start:start + size]):
            assert old in GOOD, old
            at = GOOD.rindex(old)
            files[f"f{number}"] = GOOD[:at] + new + GOOD[at + len(old):]
        yield ["new a"] + [f"load b {name}" for name in files], files


def cuts():
    """Each front of a small file, and behind each front a byte that does not belong there."""
    small = saved(b'Top(Part(Int(-10),Part(Str("\\n"),End())))')
    fronts = {f"f{length}": small[:length] for length in range(len(small))}
    wrong = {f"w{length}": small[:length] + b"\x00" + small[length + 1:] for length in range(len(small))}
    return fronts, wrong


def deep(leaf, depth):
    """A file whose term nests so deep; the leaf is that of an operator without parts, or a part of a number."""
    levels = depth - 3 - (b"(" in leaf and not leaf.endswith(b"()"))
    return Pieces((HEAD + b"Top(Part(", 1), (b"Pair(Hole(),", levels), (leaf, 1), (b")", levels), (b",End()))\n", 1))


def pairs(leaves, first=b"Hole()"):
    """A tree of pairs with so many leaves."""
    if leaves == 1:
        return first
    return b"Pair(" + pairs(leaves // 2, first) + b"," + pairs(leaves - leaves // 2) + b")"


def wide(last):
    """A file of 65,410 nodes and those of one part more: the top, 511 parts of 127 nodes with their list nodes, the end."""
    return Pieces((HEAD + b"Top(", 1), (b"Part(" + pairs(64) + b",", 511), (b"Part(" + last + b",", 1), (b"End()", 1),
                  (b")", 513), (b"\n", 1))


SESSION = """
new a
next
text "1 2"
save kept
save locked
load b kept
load c locked
load c missing
load c kept
load c kept
load a kept
save kept
save-text locked
save kept2
switch a
goto 1 1
text "5"
save kept
load d kept
load e kept2
""".strip().split("\n")


def add(table):
    table.language("kinds", KINDS)
    table.run("Each kind of leaf is kept and read back; schemes and marks are not kept.", "kinds", BACK, (40, 12))
    for script, files in damaged(FORMS):
        table.run("Files that are in no form: the place is the longest front that begins one.", "kinds", script, (1, 1), files)
    for script, files in damaged(PHYLA):
        table.run("Files in form that do not fit the root, and a name of 64 bytes.", "kinds", script, (1, 1), files)
    for note, files in zip(("Each front of a file.", "A byte that begins nothing at each place of a file."), cuts()):
        table.run(note, "kinds", ["new a"] + [f"load b {name}" for name in files] + ["show"], (1, 1), files)
    table.run("Form comes before phylum, and phylum before size.", "kinds",
              ["load a both", "load a size", "load a deep", "load a nested", "load a broken", "new a"], (20, 2),
              {"both": GOOD.replace(b"Int(-12)", b"End()")[:-1], "size": deep(b"Tip()", 1100), "deep": deep(b"Int(1)", 1100),
               "nested": Pieces((HEAD, 1), (b"Top(", 300000), (b")", 300000), (b"\n", 1)), "broken": Pieces((HEAD, 1), (b"Top(", 300000), (b")", 299999), (b"\n", 1))})
    table.run("Depth 1,024 is allowed, one more is not.", "kinds", ["load a f0", "load b f1", "load c f2", "load d f3", "next"],
              (20, 1), {"f0": deep(b"Hole()", 1024), "f1": deep(b"Hole()", 1025), "f2": deep(b"Int(5)", 1023),
                        "f3": deep(b"Int(5)", 1024)})
    table.language("plain", PLAIN)
    table.run("65,536 nodes are allowed, one more is not.", "plain",
              ["load b f1", "load a f0", "goto 1 20", 'do "pair"', 'text "(1 2)"', 'text "(? 2)"', 'text "5"', "undo"], (10, 1),
              {"f0": wide(pairs(63)), "f1": wide(pairs(63, b"Int(0)"))})
    table.run("What cannot be fetched or kept.", "kinds", SESSION, (8, 3), {"locked": GOOD}, ("locked",))
    for cut in ((5, 0), (5, 7), (5, 34), (6, 1), (8, 20)):
        table.run("A write that fails: a front of its block stands, and its file.", "kinds",
                  ["new a", "next", "text \"1 2\"", "show", "save kept", "save-text shown", "load b missing", "up", "save more"],
                  (8, 3), {}, (), cut)
    table.run("64 loads have asked for a file, and no more do; those that did not ask are not counted.", "kinds",
              ["load a bad", "load b good", "load b good"] + ["load c bad"] * 61 + ["load d good"] * 2 +
              ["load b good", "load e good", "new e", "switch d", "save out", "load d out"], (4, 1),
              {"good": listed([]), "bad": b"SGT"})
    table.run("64 buffers, and no more; names come before the number of buffers.", "kinds",
              ["new b"] + [f"new b{n}" for n in range(63)] + ["new b", "new c", "load c good", "load b good", "switch b40", "new c",
                                                            "switch b", "show"], (4, 1), {"good": listed([])})
    table.run("A file of over 4 MiB is long; one of exactly 4 MiB is read.", "kinds", ["load a long", "load a most", "show"], (4, 1),
              {"long": HEAD + b"a" * (4194304 - 4), "most": HEAD + b'Top("' + b"a" * (4194304 - 13) + b'")\n'})
