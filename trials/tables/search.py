"""A name as a pattern: the next place where it applies, and all of them replaced at once."""
from frame import SUMS

ABOUT = """
The next place at which a transformation of a name applies, and what all outermost ones make of a selection: languages and
scripts written by hand, with hidden and elided places, leaves, runs of elements, faults, and the limits of a term. Made by
`trials/tables/make.py PROGRAM search`, where PROGRAM was model/ssled.
"""

NAMES = SUMS + """
transform exp on "double" Const(n) : Sum(Const(n), Const(n));
transform exp on "flip" Sum(a, b) : Sum(b, a);
transform exp on "f" Const(1) : Const(9223372036854775807 + 1);
transform exp on "f" Const(2) : Const(1 / 0);
transform exp on "f" Sum(Const(3), b) : Const(7);
transform exp on "first" Sum(a, Const(1)) : a;
transform exp on "first" Sum(Const(n), b) : Const(n);
transform INT on "n" 4 : 5;
transform calc on "t" c : c;
transform exp on "" Null() : Const(0);
"""

LIMITS = SUMS + """
exp build(INT n) { n == 0 ? Const(1) : Sum(build(n - 1), build(n - 1)) };
exp deep(INT n) { n == 0 ? Const(1) : Sum(Const(1), deep(n - 1)) };
transform exp on "big" Const(0) : build(12);
transform exp on "big" Const(2) : Const(1 / 0);
transform exp on "deep" Const(0) : deep(400);
transform exp on "twice" Const(n) : Sum(Const(n), Const(n));
"""

LINES = """
root prog;
list stmts;
prog : Prog(stmts);
stmts : NoStmts() | Stmts(stmt stmts);
stmt : Empty() | Decl(ID INT) | Print(ID);
env : NoEnv() | Bind(ID INT env);
ID : < "[a-z][a-z0-9]*" >;
NUM : < "[0-9]+" >;
WHITESPACE : < "[ \\n]+" >;
stmts { inherited env e; synthesized INT errs; };
stmt { inherited env e; synthesized env out; synthesized INT errs; };
INT look(ID k, env e) { with (e) ( NoEnv() : 0 - 1, Bind(n, v, r) : n == k ? v : look(k, r) ) };
prog : Prog { stmts.e = NoEnv(); };
stmts : NoStmts { $$.errs = 0; };
stmts : Stmts { stmt.e = $$.e; stmts$2.e = stmt.out; $$.errs = stmt.errs + stmts$2.errs; };
stmt : Empty { $$.out = $$.e; $$.errs = 0; };
stmt : Decl { $$.out = Bind(ID.value, INT.value, $$.e); $$.errs = 0; };
stmt : Print { local INT val; val = look(ID.value, $$.e); $$.out = $$.e; $$.errs = val < 0 ? 1 : 0; };
prog : Prog [ @ : @ "%n" stmts.errs " errors" ];
stmts : NoStmts [ @ ::= ];
stmts : Stmts [ @ ::= @ [ "%n" ] @ ];
stmt : Empty [ @ ::= "<stmt>" ];
stmt : Decl [ @ ::= "let " ^ " = " ^ ];
stmt : Print [ @ ::= "print " ^ "  -- " val ];
transform stmt on "up" Decl(n, v) : Decl(n, v + 1);
transform stmt on "drop" Print(n) : Empty();
transform stmts on "cut" Stmts(Print(n), r) : r;
S { synthesized stmt t; };
L { synthesized stmts t; };
S ::= ('let' ID '=' NUM) { Decl(ID.value, STRtoINT(NUM.value)) } | ('print' ID) { Print(ID.value) };
L ::= () { NoStmts() } | (S ';' L) { S.t :: L$2.t };
stmt ~ S.t;
stmts ~ L.t;
"""

# A scheme that hides its second child, one that passes over it, and one that is elided: what the walk passes over.
HIDDEN = """
root top;
top : Top(node);
node : Leaf(INT) | Pair(node node);
top : Top [ @ : @ ];
node : Leaf [ @ ::= ^ ];
node : Pair [ @ ::= "(" @ " " @ ")" ] [ @ ::= "<" @ " " .. ">" ] [ @ ::= "{" ^ " " @ "}" ] [ ^ ::= "[" @ " " @ "]" ];
transform node on "one" Leaf(1) : Leaf(11);
transform node on "swap" Pair(a, b) : Pair(b, a);
transform node on "left" Pair(a, *) : a;
NUM : < "[0-9]+" >;
WHITESPACE : < " +" >;
N { synthesized node t; };
N ::= (NUM) { Leaf(STRtoINT(NUM.value)) } | ('(' N N ')') { Pair(N$2.t, N$3.t) };
node ~ N.t;
"""

CELLS = """
root sheet;
optional list rows;
optional list cells;
sheet : Sheet(rows);
rows : NoRows() | Rows(cells rows);
cells : NoCells() | Cells(cell cells);
cell : Cell(INT);
sheet : Sheet [ @ : @ ];
rows : NoRows [ @ ::= "no rows" ];
rows : Rows [ @ ::= @ [ "%n" ] @ ];
cells : NoCells [ @ ::= "no cells" ];
cells : Cells [ @ ::= @ [ " " ] @ ];
cell : Cell [ @ ::= ^ ];
transform cells on "pair" NoCells() : Cells(Cell(1), Cells(Cell(2), NoCells()));
NUM : < "[0-9]+" >;
WHITESPACE : < " +" >;
C { synthesized cell t; };
D { synthesized cells t; };
C ::= (NUM) { Cell(STRtoINT(NUM.value)) };
D ::= () { NoCells() } | (C D) { C.t :: D$2.t };
cell ~ C.t; cells ~ D.t;
"""

STATEMENTS = "let a = 5; print a; let b = 6; print b;"


def lines(commands):
    return commands.strip().split("\n")


DOUBLE = lines("""
find "double"
replace-all "double"
new a
next
text "1+2"
replace-all "double"
undo
find "double"
find "double"
find "double"
find "x"
find ""
""")

FLIP = lines("""
new a
next
text "1+2+3"
replace-all "flip"
undo
first
replace-all "flip"
find "flip"
up
find "flip"
find "flip"
redo
replace-all "flip"
undo
undo
undo
redo
""")

FAULTS = lines("""
new a
next
text "2+1"
replace-all "f"
first
sibling
replace-all "f"
up
text "3+1"
replace-all "f"
replace-all "f"
replace-all "q"
text "4+(3+2)+1"
replace-all "f"
text "4+(3+2)"
replace-all "f"
undo
text "1"
replace-all "f"
""")

MARKS = lines("""
new a
next
text "4+4"
first
elide
find "double"
find "double"
up
find "double"
find "n"
replace-all "n"
first
elide
up
replace-all "double"
undo
up
find "t"
replace-all "t"
undo
undo
replace-all "double"
undo
type "4"
find "x"
replace-all "x"
abandon
find "x"
replace-all ""
next
text "1+1+1"
replace-all "first"
""")

EMPTY = lines("""
new a
find ""
find ""
replace-all ""
up
replace-all ""
undo
next
replace-all ""
replace-all "first"
""")

STEPS = lines(f"""
new a
next
text "{STATEMENTS}"
replace-all "up"
replace-all "drop"
undo
replace-all "cut"
undo
find ""
up
find "cut"
replace-all "cut"
undo
first
find "up"
find "drop"
find "drop"
replace-all "up"
replace-all "drop"
""")

RUNS = lines(f"""
new a
next
text "{STATEMENTS}"
first
extend
extend
find "up"
up
first
extend
find "cut"
find "zip"
replace-all "up"
replace-all "zip"
find "drop"
extend
find "drop"
""")

PASSED = lines("""
new a
next
text "((1 1) (1 (1 2)))"
find "one"
find "one"
up
alternate
find "one"
find "one"
up
replace-all "one"
undo
next
up
alternate
find "one"
find "one"
find "one"
find "one"
goto 1 1
find "swap"
alternate
alternate
find "swap"
find "swap"
replace-all "left"
replace-all "left"
replace-all "swap"
undo
up
up
up
elide
find "one"
replace-all "one"
undo
undo
""")

ENDS = lines("""
new a
next
text "0 0"
replace-all "pair"
do "pair"
find "pair"
first
do "pair"
find "pair"
up
up
insert-after
find "pair"
replace-all "pair"
undo
""")

ROWS = lines("""
new a
find "pair"
next
insert-after
prev
replace-all "pair"
up
replace-all "pair"
undo
""")


def sizes():
    zeros = "+".join(["0"] * 8)
    return lines(f"""
new a
next
text "{zeros}"
replace-all "big"
text "{'+'.join(['0'] * 16)}+2"
replace-all "big"
find "big"
text "0"
replace-all "big"
undo
text "{zeros}"
first
replace-all "big"
up
replace-all "big"
""")


def depths():
    script = ["new a", "next"]
    for ones in (900, 622, 621):
        script += [f'text "0{"+1" * ones}"', 'replace-all "deep"']
    return script + ['text "0+0"', 'replace-all "deep"']


def doubles():
    """A term that grows twice as large until it may not."""
    return ["new a", "next", 'text "1"'] + ['replace-all "twice"'] * 16 + ["undo"] * 2


def walks():
    """Each match of a long list, one after another, and the whole list changed."""
    many = "let a = 1; print a; " * 40
    return ["new a", "next", f'text "{many.strip()}"', "first"] + ['find "drop"'] * 41 + ["up", 'replace-all "up"', 'replace-all "drop"', "undo", "undo", "redo"]


def add(table):
    table.language("sums", NAMES)
    table.run("All of a name as one change, and the next of a name; no buffer before.", "sums", DOUBLE, (40, 6))
    table.run("The outermost of the selection: what is above has no part, and what is below stays.", "sums", FLIP, (40, 6))
    table.run("The first fault in the order of places; one below a match does not count.", "sums", FAULTS, (40, 6))
    table.run("Elided places, leaves that do not rest, a term that is equal, and an open text.", "sums", MARKS, (40, 6))
    table.run("The empty name.", "sums", EMPTY, (40, 6))
    table.language("lines", LINES)
    table.run("Elements, their list, and the rest of a list.", "lines", STEPS, (40, 12))
    table.run("From runs of elements.", "lines", RUNS, (40, 12))
    table.run("Forty of them, one after another.", "lines", walks(), (30, 4))
    table.language("hidden", HIDDEN)
    table.run("Places that are hidden or passed over: replaced, and not found.", "hidden", PASSED, (40, 6))
    table.language("cells", CELLS)
    table.run("The end of a list is a place.", "cells", ENDS, (40, 6))
    table.run("Empty lists as elements.", "cells", ROWS, (40, 6))
    table.language("limits", LIMITS)
    table.run("Terms that would have too many nodes; a fault behind them comes first.", "limits", sizes(), (40, 1))
    table.run("Terms that would be too deep.", "limits", depths(), (40, 1))
    table.run("Twice as large until the limit.", "limits", doubles(), (20, 1))
