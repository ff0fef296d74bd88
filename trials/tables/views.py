"""Views: what is seen and selected in them, what they leave alone, and what is refused in their declarations."""
from frame import SUMS

ABOUT = """
Views: schemes by name, the command that shows a buffer in one, undo and redo across views, and each fault of their declarations.
Made by `trials/tables/make.py PROGRAM views`, where PROGRAM was model/ssled.
"""

VIEWED = SUMS + """exp : Sum in post [ @ ::= @ " " @ " +" ];
calc : CalcTop in flat [ @ : .. "VALUE " exp.v ];
"""

# Schemes that go round, and views with more of them, with fewer, and with a tall margin at the root.
ROUND = """
root r;
list xs;
r : R(xs);
xs : N() | P(x xs);
x : A() | B(x x);
r { synthesized INT n; };
xs { synthesized INT n; };
r : R { $$.n = xs.n; };
xs : N { $$.n = 0; };
xs : P { $$.n = 1 + xs$2.n; };
r : R [ @ : @ ];
xs : N [ @ : "" ];
xs : P [ @ : @ [ "%n" ] @ ];
x : A [ @ ::= "a" ] [ @ ::= "aa" ] [ ^ : "aaa" ] [ @ : "aaaa" ];
x : B [ @ : "(" @ " " @ ")" ];
x : A in two [ @ : "1" ] [ @ : "2" ];
x : A in one [ @ : "x" ];
r : R in wide [ ^ : "%t%n%n%n" @ ];
transform x on "b" q : B(q, A());
"""
HIDING = ROUND + """xs : P in hid [ @ : ^ [ "," ] @ ];
x : A in hat [ ^ : "h" ];
"""
EDITABLE = VIEWED + """exp : Null in nop [ @ : "n" ];
exp : Const in nop [ @ ::= .. "c" ];
"""
NAMED = VIEWED + """transform exp on "n" Null() : Const(1);
"""

# Each is a line more of VIEWED.
MORE = [
    ("A second declaration of an operator in one view; one in another.", "exp : Sum in post [ @ : @ @ ];"),
    ("", "exp : Sum in other [ @ : @ @ ];"),
    ("Names that are not there.", "exp : Foo in post [ @ : ];"),
    ("", "foo : Sum in post [ @ : @ @ ];"),
    ("", "exp : Null in post [ @ : $$.w ];"),
    ("Schemes that do not fit.", "exp : Null in post [ @ : @ ];"),
    ("", 'exp : Null in post [ @ : "%x" ];'),
    ("", 'exp : Sum in other [ @ : @ [ " " ] @ ];'),
    ("No reading.", 'exp : Null in in [ @ : "n" ];'),
    ("", "exp : Null in post ;"),
    ("", 'exp : Null in [ @ : "n" ];'),
    ("", 'exp : Null in post flat [ @ : "n" ];'),
    ("Names of phyla and of other things are names of views.", 'exp : Null in exp [ @ : "n" ];'),
    ("", 'exp : Null in WHITESPACE [ @ : "n" ];'),
]
LINES = ["view a b", "view 9", "view a-b", 'view "a"', "views", "view " + "x" * 65, "view " + "x" * 64, "view root", "view  post ", "view _", " view", "View"]
BEGIN = ["new a", "next", 'do "+"', "next", 'text "4"']


def views(count):
    """VIEWED with so many views."""
    return VIEWED.replace(" in post", " in v0").replace(" in flat", " in v1") + "".join(f'exp : Null in v{i} [ @ : "{i}" ];\n' for i in range(2, count))


def add(table):
    for note, line in MORE:
        table.check(VIEWED + line, note)
    typed = VIEWED.replace("exp { synthesized INT v; };", "exp { synthesized INT v; synthesized exp t; };") \
        .replace("$$.v = 0;", "$$.v = 0; $$.t = Null();").replace("exp$3.v; };", "exp$3.v; $$.t = Null(); };").replace("INT.value; };", "INT.value; $$.t = Null(); };")
    table.check(typed + "calc : CalcTop in t [ @ : @ exp.t ];", "What a scheme cannot show.")
    early, late = "exp : Null in early [ @ : @ ];", "exp : Sum [ @ : @ ];"
    wrong = SUMS.replace('exp : Sum [ @ ::= "(" @ " + " @ ")" ];\n', "")
    for first, second in ((early, late), (late, early)):
        table.check(wrong.replace("exp : Null [", f"{first}\n{second}\nexp : Null ["), "Faults of views and of ordinary schemes come by place.")
    table.check(SUMS.replace("exp : Null [", "exp : Null in post ["), "A view's schemes are not the ordinary ones.")
    table.check(views(16), "As many views as may be; one more, which is told before what is unknown, and behind what is too many before it.")
    table.check(views(17))
    table.check(views(17) + 'exp : Foo in v3 [ @ : "x" ];')
    table.check(views(17) + f"E ::= ({' '.join(['E'] * 17)}) {{ Null() }};")
    table.language("sums", VIEWED)
    table.run("A buffer in two views, and back.", "sums", BEGIN + ["view post", 'text "5"', "view", "view flat", "view none", "view"], (40, 6))
    table.run("Undo and redo in another view.", "sums", BEGIN + ["view flat", "undo", "undo", "view", "redo", "redo", "undo"], (40, 6))
    table.run("", "sums", BEGIN + ["view flat", "undo", "undo", "view", "redo", "redo", "undo", "view flat", "redo", "view post", "undo", "redo"], (40, 6))
    table.run("What an earlier step kept.", "sums", ["new a", "next", 'text "1+2"', "next", "view post", "next", 'text "7"', "view", "undo", "undo", "redo", "redo"], (40, 6))
    table.run("Refusals.", "sums", ["view", "new a", "view none", "next", 'type "4"', "view post", "view none", "abandon", "view post", "view post"], (40, 6))
    for line in LINES:
        table.run("", "sums", ["new a", line], (20, 2))
    table.run("Each buffer has its own view; kept and saved text.", "sums",
              BEGIN + ["view post", "save f", "new b", "load c f", "switch a", "view flat", "switch b", "switch a", "switch c", "view post", "save-text g", "load d f"], (40, 6))
    table.language("editable", EDITABLE)
    table.run("Which places take a text is a matter of the view.", "editable",
              ["new a", "next", "view nop", 'text "4"', "view", 'text "4"', "view nop", 'type "5"', "view", "enter", "view", "undo"], (40, 6))
    table.language("named", NAMED)
    table.run("Search and replacement everywhere in views.", "named",
              ["new a", "next", 'do "+"', "view flat", 'find "n"', "view", 'find "n"', "view post", 'find "n"', 'find "n"', 'replace-all "n"', "undo", "view flat", 'replace-all "n"', "view"], (40, 6))
    table.language("round", ROUND)
    table.run("Schemes go round by the count of the view.", "round", ["new a", "next", "next", "alternate", "view two", "alternate", "view"], (20, 4))
    table.run("", "round", ["new a", "next", "next", "alternate", "view two", "alternate", "view", "view two", "alternate", "alternate", "view one", "alternate", "view",
                            "undo", "undo", "view two", "undo", "undo", "undo", "undo"], (20, 4))
    table.run("The window's top under another view.", "round", ["new a", "next", "next", "insert-after", "insert-after", "view wide", "undo", "redo", "view", "goto 1 1", "view wide",
                                                                "goto 1 1", "save-text t", "up", "up", "first"], (80, 2))
    table.run("", "round", ["new a", "next", "next"] + ["insert-after"] * 6 + ["view wide", "prev", "prev", "undo", "undo", "redo", "view", "undo", "undo", "view two", "redo", "redo",
                                                                               "alternate", "view wide", "alternate", "undo", "view"], (20, 3))
    table.run("Elided nodes.", "round", ["new a", "next", "next", 'do "b"', "elide", "view two", "undo", "redo", "view", "next", "alternate", "view two", "view one", "undo", "redo"], (20, 4))
    table.language("hiding", HIDING)
    table.run("Runs of elements, some hidden in a view.", "hiding",
              ["new a", "next", "next", "insert-after", "insert-after", "prev", "extend", "view two", "view hid", "view", "prev", "extend", "view hat", "view", "view wide", "view", "shrink",
               "extend", "copy", "view two", "paste", "undo", "view", "undo", "redo"], (20, 5))
