"""Runs of elements of a list: what extends and shrinks them, and what each command makes of them."""

ABOUT = """
Runs of elements of a list: how they grow and shrink, what is copied, cut, deleted and removed of them, put before and
behind them, and pasted over them; what wants one node; hidden elements; undo and redo, and the limits. Made by
`trials/tables/make.py PROGRAM elements`, where PROGRAM was model/ssled with runs.
"""

PROGRAM = """
root prog;
list stmts;
prog : Prog(stmts);
stmts : NoStmts() | Stmts(stmt stmts);
stmt : Empty() | Decl(ID INT) | Print(ID);
env : NoEnv() | Bind(ID INT env);
ID : < "[a-z][a-z0-9]*" >;
NUM : < "[0-9]+" >;
WHITESPACE : < "[ \\n]+" >;
stmts { inherited env e; synthesized INT errs; };
stmt { inherited env e; synthesized env out; synthesized INT errs; };
INT look(ID k, env e) { with (e) ( NoEnv() : 0 - 1, Bind(n, v, r) : n == k ? v : look(k, r) ) };
prog : Prog { stmts.e = NoEnv(); };
stmts : NoStmts { $$.errs = 0; };
stmts : Stmts { stmt.e = $$.e; stmts$2.e = stmt.out; $$.errs = stmt.errs + stmts$2.errs; };
stmt : Empty { $$.out = $$.e; $$.errs = 0; };
stmt : Decl { $$.out = Bind(ID.value, INT.value, $$.e); $$.errs = 0; };
stmt : Print { local INT val; val = look(ID.value, $$.e); $$.out = $$.e; $$.errs = val < 0 ? 1 : 0; };
prog : Prog [ @ : @ "%n" stmts.errs " errors" ];
stmts : NoStmts [ @ ::= ];
stmts : Stmts [ @ ::= @ [ "%n" ] @ ]SECOND;
stmt : Empty [ @ ::= EMPTY ];
stmt : Decl [ @ ::= "let " ^ " = " ^ ];
stmt : Print [ @ ::= "print " ^ "  -- " val ];
S { synthesized stmt t; };
L { synthesized stmts t; };
S ::= ('let' ID '=' NUM) { Decl(ID.value, STRtoINT(NUM.value)) } | ('print' ID) { Print(ID.value) };
L ::= () { NoStmts() } | (S ';' L) { S.t :: L$2.t };
stmt ~ S.t;
stmts ~ L.t;
transform stmt on "empty" s : Empty();
transform stmts on "none" l : NoStmts();
"""


def program(second="", empty='"<stmt>"'):
    return PROGRAM.replace("SECOND", second).replace("EMPTY", empty)


TABLE = """
root table;
optional list rows;
optional list cells;
table : Table(rows);
rows : NoRows() | Rows(cells rows);
cells : NoCells() | Cells(cell cells);
cell : Cell() | Word(STR);
rows { synthesized INT n; };
rows : NoRows { $$.n = 0; };
rows : Rows { $$.n = rows$2.n + 1; };
table : Table [ @ : @ "%n" rows.n " rows" ];
rows : NoRows [ @ ::= "no rows" ];
rows : Rows [ @ ::= @ [ "%n" ] @ ];
cells : NoCells [ @ ::= "nothing" ];
cells : Cells [ @ ::= @ [ " " ] @ ];
cell : Cell [ @ ::= "_" ];
cell : Word [ @ ::= @ ];
transform rows on "two" NoRows() : Rows(NoCells(), Rows(NoCells(), NoRows()));
"""

BEGIN = ["new p", "next", 'text "let a = 5; print a; print b;"', "next"]
TWO_ROWS = ["new t", "next", 'do "two"', "next"]


def add(table):
    table.language("program", program())
    table.language("hiding", program(second=' [ @ ::= @ " more" .. ]'))
    table.language("unseen", program(empty=""))
    table.language("table", TABLE)

    def run(note, commands, language="program", begin=BEGIN, **more):
        return table.run(note, language, begin + commands.strip().split("\n"), **more)

    run("A run is cut, pasted and given back; then what it may not be.", """
extend
cut
paste
undo
undo
do "x"
extend
remove
next
up
extend
first
shrink
""")
    run("The last two of three elements are removed, and there is no further one.", """
sibling
extend
remove
undo
extend
""")
    run("All elements of a list that may not be empty.", """
extend
extend
delete
undo
remove
cut
paste
undo
redo
""")
    run("New elements before and behind a run.", """
extend
insert-after
undo
insert-before
undo
redo
""")
    run("A run over one element, and over a run.", """
extend
copy
next
next
paste
undo
redo
paste
undo
shrink
paste
""")
    run("A run in the place of a whole list, and where it does not belong; in another buffer.", """
extend
copy
up
paste
undo
up
paste
new q
next
paste
""")
    run("One term over a run, and a whole list over one.", """
copy
next
extend
paste
undo
up
copy
first
extend
paste
""")
    run("What wants one node, before and while a text is typed.", """
extend
type "a"
text "a"
alternate
elide
do "empty"
shrink
type "a"
extend
shrink
abandon
extend
save f
save-text g
""")
    run("A move from a run selects one node, also in the run; a refused move leaves it.", """
extend
goto 2 1
prev
extend
goto 9 9
first
shrink
extend
up
sibling
""")
    run("The window's top goes by the first element.", """
extend
extend
sibling
""", size=(20, 1))
    run("A run that is changed in the middle of a list, step by step and back.", """
sibling
copy
extend
paste
undo
delete
undo
shrink
remove
undo
undo
redo
redo
""")
    run("Where the list is shown without its rest the hidden elements are selected.", """
up
alternate
first
extend
extend
extend
shrink
remove
undo
shrink
copy
extend
paste
""", language="hiding")
    run("The region of a run ends with an element of no cell.", """
sibling
sibling
insert-after
prev
extend
copy
prev
extend
paste
""", language="unseen")
    run("Elements that are lists: a run is not filled, one node is.", """
extend
insert-before
undo
insert-after
undo
shrink
insert-before
undo
extend
delete
undo
remove
paste
undo
copy
up
paste
""", language="table", begin=TWO_ROWS)
    table.run("A run too long to be pasted; it is shown by one line.", "program",
              ["new p", "next", 'text "' + "print a;" * 700 + '"', "next"] + ["extend"] * 400
              + ["copy", "up", "first", "paste", "shrink", "remove"], size=(20, 1))
