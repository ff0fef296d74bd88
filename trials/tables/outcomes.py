"""Outcomes of expressions: each operator and form at its limits, and each fault."""

ABOUT = """
What expressions come to: each operator, function and form, at the limits of numbers, texts and terms, and each fault
where it arises first; as the outcome of a transformation in the place of a node, and as the value of an attribute on
the screen. What each comes to stands in trials/tables/outcomes.py, and the maker holds it against PROGRAM. Made by
`trials/tables/make.py PROGRAM outcomes`, where PROGRAM was model/ssled.
"""

LEAST = "(-9223372036854775807 - 1)"

# What comes, and of which expression. The phylum is the section's.
INT = [
    ("42", "20 + 22"),
    ("overflow", "9223372036854775807 + 1"),
    ("overflow", f"{LEAST} + -1"),
    ("-1", f"9223372036854775807 + {LEAST}"),
    ("-2", "20 - 22"),
    ("overflow", f"{LEAST} - 1"),
    ("overflow", "9223372036854775807 - -1"),
    ("overflow", f"0 - {LEAST}"),
    ("-42", "-6 * 7"),
    ("overflow", "9223372036854775807 * 2"),
    ("overflow", f"{LEAST} * 2"),
    ("overflow", f"{LEAST} * -1"),
    ("overflow", "4294967296 * 2147483648"),
    ("-9223372036854775808", "-4294967296 * 2147483648"),
    ("3", "7 / 2"),
    ("-3", "-7 / 2"),
    ("-3", "7 / -2"),
    ("divide", "7 / 0"),
    ("overflow", f"{LEAST} / -1"),
    ("1", "7 % 2"),
    ("-1", "-7 % 2"),
    ("1", "7 % -2"),
    ("divide", "7 % 0"),
    ("overflow", f"{LEAST} % -1"),
    ("7", "(7)"),
    ("-7", "-(7)"),
    ("overflow", "-(-9223372036854775807 - 1)"),
    ("-9223372036854775807", "-9223372036854775807"),
    ("42", 'STRtoINT("42")'),
    ("-7", 'STRtoINT("-007")'),
    ("9223372036854775807", 'STRtoINT("9223372036854775807")'),
    ("convert", 'STRtoINT("9223372036854775808")'),
    ("-9223372036854775808", 'STRtoINT("-9223372036854775808")'),
    ("convert", 'STRtoINT("-9223372036854775809")'),
    ("1", 'STRtoINT("00000000000000000000001")'),
    ("convert", 'STRtoINT("")'),
    ("convert", 'STRtoINT("-")'),
    ("convert", 'STRtoINT("+1")'),
    ("convert", 'STRtoINT("1.")'),
    ("convert", 'STRtoINT("--1")'),
    ("convert", 'STRtoINT("99999999999999999999999x")'),
    ("0", 'STRlen("")'),
    ("3", 'STRlen("abc")'),
    ("divide", '1 / 0 + STRtoINT("x")'),
    ("convert", 'STRtoINT("x") + 1 / 0'),
    ("1", "true ? 1 : 1 / 0"),
    ("2", "false ? 1 / 0 : 2"),
    ("divide", "1 / 0 == 1 ? 2 : 3"),
    ("42", "let x = 7 in (let y = 6 in (x * y))"),
    ("size", "let s = a(65536) in (1)"),
    ("2", "with (1) (2 : 20, x : x + 1, 3 : 30)"),
    ("20", "with (2) (2 : 20, x : x + 1, 3 : 30)"),
    ("4", "with (3) (2 : 20, x : x + 1, 3 : 30)"),
    ("nomatch", "with (3) (2 : 20)"),
    ("9", "with (3) (2 : 20, default : 9)"),
    ("divide", "with (1 / 0) (2 : 20, default : 9)"),
    ("8", "with (8 :: Nil()) (Nil() : 0, Pair(x, *) : x)"),
    ("0", "with (Nil()) (Nil() : 0, Pair(x, *) : x)"),
    ("2", 'with ("b") ("a" : 1, "b" : 2)'),
    ("2", "with (false) (true : 1, false : 2)"),
    ("2", "with (-3) (3 : 1, -3 : 2)"),
    ("2", "with (Some(0)) ([o] : 1, <o> : 2)"),
    ("1", "with (None()) ([o] : 1, <o> : 2)"),
    ("nomatch", "with (Some(1)) ([o] : 1, <o> : 2)"),
    ("depth", "f(1)"),
    ("4096", "g(12)"),
    ("fuel", "g(13)"),
    ("fuel", "g(20)"),
    ("681", "h(681)"),
    ("depth", "h(682)"),
    ("65535", "STRlen(a(32767) # a(32768))"),
    ("size", "STRlen(a(32768) # a(32768))"),
    ("65534", "with (Long(a(65534))) (Long(s) : STRlen(s))"),
]
BOOL = [
    ("true", "7 == 7"),
    ("false", "7 == -7"),
    ("false", "7 != 7"),
    ("true", "7 != -7"),
    ("true", "-1 < 0"),
    ("false", "0 < 0"),
    ("true", "0 <= 0"),
    ("false", "1 <= 0"),
    ("true", "0 > -1"),
    ("false", "0 > 0"),
    ("true", "0 >= 0"),
    ("false", "-1 >= 0"),
    ("true", "true == true"),
    ("true", "true != false"),
    ("true", '"ab" == "ab"'),
    ("false", '"ab" == "ac"'),
    ("true", '"ab" != "ac"'),
    ("true", "Some(1) == Some(1)"),
    ("false", "Some(1) == Some(2)"),
    ("false", "!true"),
    ("true", "!false"),
    ("divide", '1 / 0 == STRtoINT("x")'),
    ("false", "false && 1 / 0 == 1"),
    ("divide", "true && 1 / 0 == 1"),
    ("true", "true || 1 / 0 == 1"),
    ("divide", "false || 1 / 0 == 1"),
    ("divide", "1 / 0 == 1 || true"),
    ("true", "[xs] == 0 :: Nil()"),
    ("true", "<xs> == 0 :: Nil()"),
    ("true", "[o] == None()"),
    ("true", "<o> == Some(0)"),
]
STR = [
    ("abc", '"ab" # "c"'),
    ("", '"" # ""'),
    ("0", "INTtoSTR(0)"),
    ("-7", "INTtoSTR(-7)"),
    ("-9223372036854775808", f"INTtoSTR({LEAST})"),
]
XS = [
    ("convert", 'STRtoINT("x") :: 1 / 0 :: Nil()'),
    ("convert", '1 :: STRtoINT("x") :: Nil()'),
    ("1 2", "1 :: 2 :: Nil()"),
]
O = [
    ("divide", "Some(1 / 0)"),
    ("{3}", "Some(3)"),
]
D = [
    ("size", "Long(a(65535))"),
    ("..", "deep(1, Leaf())"),
    ("size", "Deep(deep(511, Deep(Leaf())))"),
]
FAULTS = ("fuel", "depth", "size", "divide", "overflow", "nomatch", "convert")
SECTIONS = [("INT", INT), ("STR", STR), ("BOOL", BOOL), ("xs", XS), ("o", O), ("d", D)]

LANGUAGE = """
root r;
r : R(INT STR BOOL xs o d);
d : Leaf() | Deep(d) | Long(STR);
list xs;
xs : Nil() | Pair(INT xs);
optional o;
o : None() | Some(INT);
r : R [ @ : "i " @ "%ns " @ "%nb " @ "%nx " @ "%no " @ "%nd " @ ];
d : Leaf [ @ : ];
d : Deep [ @ : "." @ ];
d : Long [ @ : @ ];
xs : Nil [ @ : ];
xs : Pair [ @ : @ [ " " ] @ ];
o : None [ @ : "none" ];
o : Some [ @ : "{" @ "}" ];
INT f(INT n) { f(n) };
INT g(INT n) { n == 0 ? 1 : g(n - 1) + g(n - 1) };
INT h(INT n) { n == 0 ? 0 : 1 + h(n - 1) };
STR a(INT n) { n == 0 ? "" : let s = a(n / 2) in (n % 2 == 0 ? s # s : s # s # "a") };
d deep(INT n, d t) { n == 0 ? t : deep(n - 1, Deep(Deep(t))) };
"""


def named():
    """Each expression with its phylum, what it comes to, and a name."""
    for phylum, rows in SECTIONS:
        for number, (told, expression) in enumerate(rows):
            yield phylum, told, expression, f"{phylum}-{number}".lower()


def transformed(table):
    """The outcome in the place of a node, and back again; or the fault as the message."""
    rows = [f'transform {phylum} on "{name}" * : {expression};' for phylum, _, expression, name in named()]
    table.language("transformed", LANGUAGE + "\n".join(rows))
    first = True
    for at, (phylum, rows) in enumerate(SECTIONS):
        mine = [(told, name) for its, told, _, name in named() if its == phylum]
        go = ["new a", "first", *["sibling"] * at]
        script = go + [line for _, name in mine for line in (f'do "{name}"', "undo")]
        note = "The outcome of each expression in the place of a node, or its fault as the message." if first else ""
        blocks = table.run(note, "transformed", script)[len(go):]
        first = False
        assert len(blocks) == 2 * len(mine)
        for (told, _), block in zip(mine, blocks[::2]):
            if told in FAULTS:
                assert block.message == f"result {told}", (told, block.message)
            else:
                assert block.message == "ok", (told, block.message)
                assert block.lines[at] == f"{phylum[0].lower()} {told}", (told, block.lines)


def stored(table):
    """The outcome as the value of a local, on the screen."""
    kinds = ("INT", "STR", "BOOL")
    mine = [(phylum, told, expression, f"v{n}") for n, (phylum, told, expression, _) in enumerate(named()) if phylum in kinds]
    for part, begin in enumerate(range(0, len(mine), 32)):
        rows = mine[begin:begin + 32]
        locals_ = " ".join(f"local {phylum} {name};" for phylum, _, _, name in rows)
        equations = " ".join(f"{name} = {expression};" for _, _, expression, name in rows)
        shown = " ".join(f'"%n{name} " {name}' for *_, name in rows)
        language = LANGUAGE.replace('r : R [ @ : "i " @', f'r : R [ @ : {shown} "%ni " @')
        table.language(f"stored-{part}", f"{language}r : R {{ {locals_} {equations} }};")
        note = "The value of each as that of a local." if part == 0 else ""
        blocks = table.run(note, f"stored-{part}", ["new a"], size=(80, 60))
        assert blocks[0].count == len(rows)
        for (_, told, _, name), line in zip(rows, blocks[0].lines[1:]):
            wanted = f"<{told}>" if told in FAULTS else told
            assert line == f"{name} {wanted}".rstrip() or line == f"{name} {wanted}", (line, wanted)


def add(table):
    transformed(table)
    stored(table)
