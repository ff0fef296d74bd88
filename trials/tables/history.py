"""The way back: 256 steps, marks, the root, a list's end, captures, and the window's top."""
from frame import SUMS_ENTRY

ABOUT = """
Undo and redo: the oldest of 257 changes is lost, a new change ends what could be done again, marks are changes, and term,
selection, values and the window's top of before come back. Made by `trials/tables/make.py PROGRAM history`, where PROGRAM
was model/ssled.
"""

SUMS = """
root calc;
calc : Calc(exp);
exp : Null() | Sum(exp exp) | Const(INT);
exp { synthesized INT v; };
exp : Null { $$.v = 0; };
exp : Sum { $$.v = exp$2.v + exp$3.v; };
exp : Const { $$.v = INT.value; };
calc : Calc [ @ : @ " = " exp.v ] [ @ ::= "sum " exp.v "%n" @ ];
exp : Null [ @ ::= "_" ];
exp : Sum [ @ ::= "(" @ " + " @ ")" ] [ @ : @ "%n+ " @ ] [ ^ : @ " " .. ];
exp : Const [ @ ::= ^ ];
transform exp on "+" e : Sum(e, <exp>);
transform calc on "double" Calc(e) : Calc(Sum(e, e));
NUM : < "[0-9]+" >;
WHITESPACE : < " +" >;
""" + SUMS_ENTRY

LINES = """
root book;
optional list rows;
list few;
book : Book(rows few);
rows : None() | Rows(row rows);
few : NoFew() | Few(row few);
row : Blank() | Row(INT) | Inner(rows);
rows { inherited INT n; synthesized INT sum; };
few { synthesized INT sum; };
row { inherited INT n; synthesized INT v; };
book : Book { rows.n = 1; };
rows : None { $$.sum = 0; };
rows : Rows { row.n = $$.n; rows$2.n = $$.n + 1; $$.sum = row.v + rows$2.sum; };
few : NoFew { $$.sum = 0; };
few : Few { row.n = few$2.sum; $$.sum = row.v + few$2.sum; };
row : Blank { $$.v = 0; };
row : Row { $$.v = INT.value; };
row : Inner { rows.n = $$.n * 10; $$.v = rows.sum; };
book : Book [ @ : @ "%nsum " rows.sum "%n" @ "%nsum " few.sum ];
rows : None [ @ ::= "none" ] [ @ ::= "nothing" ];
rows : Rows [ @ ::= @ [ "%n" ] @ ];
few : NoFew [ @ ::= ];
few : Few [ @ ::= @ [ ", " ] @ ];
row : Blank [ @ ::= $$.n ": -" ];
row : Row [ @ ::= $$.n ": " @ ] [ @ ::= @ ];
row : Inner [ @ ::= $$.n " {%t%n" @ "%b}" ] [ @ ::= "{" $$.v "}" .. ];
NUM : < "[0-9]+" >;
WHITESPACE : < "[ \\n]+" >;
R { synthesized rows t; };
S { synthesized row t; };
I { synthesized INT t; };
R ::= () { None() } | (S R) { S.t :: R$2.t };
S ::= (NUM) { Row(STRtoINT(NUM.value)) } | ('-') { Blank() } | ('{' R '}') { Inner(R.t) };
I ::= (NUM) { STRtoINT(NUM.value) };
rows ~ R.t; row ~ S.t; INT ~ I.t;
"""

MANY = ["new a", "next"] + [f'text "{n}"' for n in range(257)] + ["undo"] * 257 + ["redo"] * 40

# Long runs of the three kinds of change, so that a step of each falls off.
MIXED = ["new a", "copy", "next", 'text "1 + 2"', "up"] + ["alternate", "elide", "elide", "paste"] * 65 + ["undo"] * 257 + ["redo"] * 5

BRANCHES = """
new a
undo
redo
next
redo
text "1"
undo
undo
redo
redo
text "2"
text "3"
undo
undo
text "4"
redo
undo
redo
undo
undo
undo
text "5+"
redo
next
redo
redo
delete
redo
undo
copy
paste
redo
undo
undo
""".strip().split("\n")

MARKS = """
new a
next
text "(1 + 2) + 3"
next
alternate
undo
redo
alternate
next
undo
redo
undo
undo
up
elide
next
undo
elide
text "7"
undo
undo
undo
redo
redo
redo
undo
elide
up
alternate
alternate
undo
undo
undo
redo
text "8"
next
text "8 + 9"
alternate
next
elide
undo
undo
undo
undo
""".strip().split("\n")

AT_ROOT = """
new a
do "double"
elide
do "double"
undo
undo
undo
undo
redo
alternate
next
text "1"
up
do "double"
undo
undo
undo
redo
redo
redo
delete
paste
copy
undo
paste
undo
redo
""".strip().split("\n")

ENDS = """
new b
next
text "1 2 3"
goto 3 1
remove
undo
redo
insert-after
undo
undo
insert-after
text "4"
undo
undo
redo
goto 1 1
insert-before
undo
redo
remove
remove
remove
remove
undo
undo
undo
undo
undo
undo
up
delete
alternate
insert-after
undo
redo
text "{5 6 {}}"
goto 4 5
insert-before
undo
redo
undo
goto 3 5
remove
undo
goto 2 5
cut
remove
remove
undo
undo
undo
goto 6 1
insert-after
undo
remove
undo
redo
alternate
undo
elide
undo
""".strip().split("\n")

CAPTURES = """
new b
next
type "1 2"
undo
redo
next
show
enter
undo
redo
type "9"
abandon
undo
type "7 8"
type "\\n"
type "x"
enter
erase
show
enter
redo
undo
goto 1 4
type "5"
switch b
undo
enter
undo
undo
redo
erase
abandon
type ""
abandon
undo
redo
""".strip().split("\n")

TOPS = ["new b", "next", f'text "{" ".join(str(n % 10) for n in range(1, 31))}"'] + """
goto 20 1
text "{1 2 3 4 5 6 7 8}"
goto 25 5
undo
undo
redo
redo
up
next
elide
goto 2 1
remove
undo
undo
redo
undo
redo
redo
goto 30 1
insert-after
text "11"
insert-after
goto 5 1
undo
undo
undo
undo
redo
redo
redo
goto 1 1
alternate
goto 28 1
alternate
goto 14 1
undo
undo
redo
redo
save-text end
""".strip().split("\n")

# Each buffer has a history of its own.
BUFFERS = """
new a
next
text "1"
new b
next
text "2"
text "3"
switch a
undo
undo
switch b
undo
undo
undo
switch a
redo
redo
switch b
redo
save kept
switch a
load c kept
undo
redo
delete
undo
switch d
switch c
redo
""".strip().split("\n")


def add(table):
    table.language("sums", SUMS)
    table.run("The oldest of 257 changes is lost; all others come back, and are done again.", "sums", MANY, (6, 1))
    table.run("Replacements and marks that fall off.", "sums", MIXED, (8, 1))
    table.run("A new change ends what could be done again; what is refused does not.", "sums", BRANCHES, (20, 3))
    table.run("Marks and their undo: schemes, elision, and where the selection settles.", "sums", MARKS, (20, 5))
    table.run("Changes of the root.", "sums", AT_ROOT, (24, 4))
    table.run("Each buffer has its own history.", "sums", BUFFERS, (20, 2))
    table.language("lines", LINES)
    table.run("Elements at both ends of a list, of an inner one, and of one that is not optional.", "lines", ENDS, (24, 10))
    table.run("Texts that are being typed.", "lines", CAPTURES, (24, 6))
    table.run("The window's top comes back.", "lines", TOPS, (24, 5))
