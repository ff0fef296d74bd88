"""References to attributes of enclosing nodes: what they mean, what they cost, and what is refused in them."""

ABOUT = """
References to attributes of enclosing nodes: values, evaluated equations after edits, the order of evaluation, and each fault
that speaks of them. Made by `trials/tables/make.py PROGRAM enclosing`, where PROGRAM was model/ssled.
"""

# The root's number is read from below; `b` is a chain between.
CHAIN = """
root r;
r : R(a);
a : A(b);
b : B() | C(b);
r { synthesized INT n; };
b { synthesized INT m; };
r : R { $$.n = 7; };
b : B { $$.m = {r.n} + 1; };
b : C { $$.m = b$2.m; };
r : R [ @ : @ ];
a : A [ @ : @ ];
b : B [ @ : "b" $$.m ];
b : C [ @ : "c" @ ];
transform b on "c" x : C(x);
"""

# Four phyla, one below the other.
DEEP = """
root q;
q : Q(r);
r : R(x);
x : X(y);
y : Y();
r {{ synthesized INT n; }};
x {{ synthesized INT s; }};
y {{ synthesized INT u; }};
r : R {{ $$.n = 5; }};
x : X {{ $$.s = 6; }};
y : Y {{ $$.u = {}; }};
q : Q [ @ : @ ];
r : R [ @ : @ $$.n ];
x : X [ @ : @ $$.s ];
y : Y [ @ : "y" $$.u ];
"""

# A listed phylum that uses the list itself: it gets the value from above, and hands down its own.
OWN = """
root t;
t : T(b);
b : B() | C(b);
t { synthesized INT n; };
b { inherited INT d; synthesized INT v; };
t : T { $$.n = 40; b.d = 0; };
b : B { $$.v = {b.d, t.n}; };
b : C { b$2.d = $$.d + 1; $$.v = b$2.v; };
t : T [ @ : @ ];
b : B [ @ : $$.v " b" ];
b : C [ @ : "c" @ ];
transform b on "c" x : C(x);
"""

ELEMENTS = """
root p;
list xs;
p : P(xs);
xs : N() | L(x xs);
x : X();
p { synthesized INT base; };
xs { synthesized INT sum; };
x { synthesized INT v; };
p : P { $$.base = 100; };
xs : N { $$.sum = 0; };
xs : L { $$.sum = x.v + xs$2.sum; };
x : X { $$.v = {p.base} + 1; };
p : P [ @ : @ " " xs.sum ];
xs : N [ @ : "" ];
xs : L [ @ : ^ [ "," ] @ ];
x : X [ @ : "x" $$.v ];
"""

LOCALS = """
root r;
r : R(a);
a : A(b);
b : B() | C(b);
r { synthesized INT n; };
a { synthesized INT k; };
b { inherited INT h; synthesized INT m; };
r : R { $$.n = 7; };
a : A { local INT w; w = {r.n} + 1; b.h = w + {r.n}; $$.k = let z = {r.n} in (z + w); };
b : B { local INT e0; e0 = {r.n} + 1; $$.m = e0 + {a.k}; };
b : C { local INT e0; local INT e1; e0 = {r.n, a.k} + $$.h; e1 = e0; b$2.h = e1 + {r.n}; $$.m = b$2.m; };
r : R [ @ : @ ];
a : A [ @ : "(" w " " @ ")" $$.k ];
b : B [ @ : "e0:" e0 " m" $$.m " h" $$.h ];
b : C [ @ : "c" e0 ":" e1 " " @ ];
transform b on "c" x : C(x);
"""

# The equations of r and of x and y say in which order the attributes can come.
ORDER = """
root r;
r : P(x y);
x : X();
y : Y();
r {{ synthesized INT n; }};
x {{ synthesized INT v; synthesized INT s; }};
y {{ inherited INT a; inherited INT b; synthesized INT w; synthesized INT z; }};
r : P {{ $$.n = y.w; y.a = x.s; y.b = {}; }};
x : X {{ $$.v = {{r.n}}; $$.s = {}; }};
y : Y {{ $$.w = $$.b; $$.z = $$.a; }};
r : P [ @ : @ @ ];
x : X [ @ : "x" $$.v ];
y : Y [ @ : "y" $$.w ];
"""

CIRCLE = """
root r;
r : R(a);
a : A(b);
b : B();
r { synthesized INT n; };
a { synthesized INT k; };
b { synthesized INT m; };
r : R { $$.n = a.k; };
a : A { $$.k = b.m; };
b : B { $$.m = {r.n}; };
r : R [ @ : @ ];
a : A [ @ : @ ];
b : B [ @ : "b" $$.m ];
"""


def line(number, new, language=CHAIN):
    """The language with another line."""
    lines = language.strip().split("\n")
    lines[number - 1] = new
    return "\n".join(lines)


def leaf(expression):
    """CHAIN with another value of the leaf."""
    return line(8, f"b : B {{ $$.m = {expression}; }};")


BARE = line(7, "r : R { $$.n = {r.n}; };")
UNUSED = CHAIN + """
a { synthesized INT k; };
a : A { $$.k = 3; };
z : Z(b);
z { synthesized INT w; };
z : Z { $$.w = {r.n} + {a.k, r.n}; };
z : Z [ @ : @ ];
"""
TYPED = leaf("{}").replace("r { synthesized INT n; };", "r { synthesized INT n; synthesized STR s; };\na { synthesized STR k; synthesized W w; };\nW : < \"[a-z]+\" >;") \
    .replace("r : R { $$.n = 7; };", 'r : R { $$.n = 7; $$.s = "x"; };\na : A { $$.k = "y"; $$.w = <W>; };')
FAULTS = [
    ("A node of the root phylum has no enclosing node.", BARE),
    ("It is told before a scheme that is missing, and behind an equation that is.", line(13, "", BARE)),
    ("", line(9, "b : C { };", BARE)),
    ("", line(9, "", BARE)),
    ("The first of two.", BARE.replace("r : R [ @ : @ ];", "r : R [ @ : @ ];\nr { synthesized INT q; };\nr : R { $$.q = {r.n}; };")),
    ("An operator that no term of the root has may lack one.", UNUSED),
    ("An enclosing node is never the node itself.", 'root b;\nb : B() | C(b);\nb { synthesized INT m; };\nb : B { $$.m = 1; };\nb : C { $$.m = {b.m}; };\nb : B [ @ : "b" ];\nb : C [ @ : "c" @ ];'),
    ("A phylum twice in a list, known or not.", leaf("{r.n,r.n}")),
    ("", leaf("{z.q,z.q}")),
    ("", CHAIN + "INT f(INT x) { {r.n,r.n} };\n"),
    ("Names that are not there.", leaf("{z.n}")),
    ("", leaf("{r.q}")),
    ("", leaf("{INT.value}")),
    ("", leaf("{E.t}") + '\nNUM : < "[0-9]+" >;\nE { synthesized b t; };\nE ::= (NUM) { B() };\nb ~ E.t;'),
    ("", CHAIN + "INT f(INT x) { {r.n} + x };\n"),
    ("", CHAIN + 'transform b on "q" x : with (x) (B() : {r.n}, default : x);\n'),
    ("", CHAIN + 'transform b on "q" x : {r.n};\n'),
    ("", leaf("{\nr.\nq\n}")),
    ("No reading.", leaf("{}")),
    ("", leaf("{r.n,}")),
    ("", leaf("{r.n r.n}")),
    ("", leaf("{r}")),
    ("", line(12, 'b : B [ @ : "b" {r.n} ];')),
    ("", line(7, "r : R { {r.n} = 1; };")),
    ("", leaf("-" * 128 + "{r.n}")),
    ("The longest that reads.", leaf("-" * 127 + "{r.n}")),
    ("One list has one type.", TYPED.replace("{}", "{r.n, a.k}")),
    ("", TYPED.replace("{}", "STRlen({r.s, a.w})")),
    ("", TYPED.replace("{}", "let x = {r.n, a.k} in (1)")),
    ("", TYPED.replace("{}", "{r.n, a.k} + {r.s, a.w}")),
    ("Where it has several, the reference itself is at fault, not what it stands in.", TYPED.replace("{}", "true ?\n{r.n, a.k} : 1")),
    ("", TYPED.replace("{}", "(true ? (\n{a.k, r.n}) : 1)")),
    ("", TYPED.replace("{}", "let x =\n{r.n, a.k} in (\nx + 1)")),
    ("", TYPED.replace("{}", "true ?\n\"\" : {r.n, a.k}")),
    ("No order, and a circle, through attributes that are handed down.", ORDER.format("y.z", "$$.v")),
    ("", ORDER.format("2", "$$.v")),
    ("", ORDER.format("y.z", "3")),
    ("", CIRCLE),
]
SHOWN = [
    ("Values through enclosing nodes.", CHAIN),
    ("A fault is handed down too.", line(7, "r : R { $$.n = 1 / 0; };")),
    ("", UNUSED),
    ("", TYPED.replace("{}", "STRlen({r.s, a.k})")),
    ("", TYPED.replace("{}", "let x = {r.n} in (x + {r.n})")),
    ("", TYPED.replace("{}", "({r.n} > 1 ? {r.n} : 2)")),
    ("The nearest of a list; two orders of one list are two.", DEEP.format("{r.n, x.s}")),
    ("", DEEP.format("{x.s, r.n}")),
    ("", DEEP.format("{r.n, x.s} + {x.s, r.n}")),
    ("", DEEP.format("{r.n} + {r.n}")),
    ("", DEEP.format("{r.n}")),
    ("", DEEP.format("{x.s}")),
    ("", ORDER.format("2", "3")),
    ("In locals, in equations of arguments, in `let`, shown in schemes.", LOCALS),
]


def wide(count):
    """CHAIN with so many written attributes of b."""
    more = "".join(f"synthesized INT m{i}; " for i in range(count - 1))
    equal = "".join(f"$$.m{i} = 1; " for i in range(count - 1))
    return CHAIN.replace("b { synthesized INT m; };", f"b {{ synthesized INT m; {more}}};") \
        .replace("{r.n} + 1;", "{r.n} + 1; " + equal).replace("$$.m = b$2.m;", "$$.m = b$2.m; " + equal)


def many():
    """CHAIN with 52 lists in one equation."""
    names = "".join(f"synthesized INT n{i}; " for i in range(31))
    keys = "".join(f"synthesized INT k{i}; " for i in range(20))
    numbers = "".join(f"$$.n{i} = {i}; " for i in range(31))
    ones = "".join(f"$$.k{i} = 1; " for i in range(20))
    lists = ["{r.n}"] + [f"{{r.n{i}}}" for i in range(31)] + [f"{{a.k{i}, r.n0}}" for i in range(20)]
    return CHAIN.replace("r { synthesized INT n; };", f"r {{ {names}synthesized INT n; }};\na {{ {keys}}};") \
        .replace("$$.n = 7; };", f"$$.n = 7; {numbers}}};\na : A {{ {ones}}};").replace("{r.n} + 1", " + ".join(lists))


def add(table):
    for note, language in FAULTS:
        table.check(language, note)
    for note, language in SHOWN:
        table.show(language, note)
    table.show(wide(32), "As many written attributes as may be, and one that is handed down.")
    table.check(wide(33), "One more.")
    table.show(many(), "Many lists in one equation.")
    table.language("chain", CHAIN)
    table.run("What edits evaluate.", "chain", ["new m", "next", "next", 'do "c"', "undo", "delete", "redo", "undo", "undo", "redo"], (40, 3))
    table.language("own", OWN)
    table.run("A listed phylum that uses the list.", "own", ["new a", "next", 'do "c"', "next", 'do "c"', "undo", "undo", "redo", "redo"], (40, 3))
    table.run("", "own", ["new a", "next", 'do "c"', 'do "c"', "undo", "undo", "redo"], (40, 3))
    table.language("elements", ELEMENTS)
    table.run("Elements of a list.", "elements", ["new a", "next", "insert-after", "next", "insert-after", "insert-after", "remove", "undo", "undo", "redo", "first", "next",
                                                  "insert-before", "insert-after", "extend", "cut", "paste", "undo"], (60, 3))
    table.language("locals", LOCALS)
    table.run("Locals beside what is handed down.", "locals", ["new a", "next", "next", 'do "c"', "next", 'do "c"', "undo", "redo"], (60, 3))
