"""Attributes shown on the screen: after each edit each stored value stands there."""

ABOUT = """
Attributes that schemes show: after each edit each stored value stands on the screen, and the header tells how many
equations were evaluated. Six languages: synthesized and inherited attributes with one that nothing reads, two visits
with the new subterm's top between them, names in a list with functions and matching, faults as values, a list of 1,000
elements, and a term of depth 1,024. Made by `trials/tables/make.py PROGRAM values`, where PROGRAM was model/ssled.
"""

# Each node shows its depth, a number that nothing reads, its value, the greatest depth below it, and a local.
SUMS = """
root top;
top : Top(exp);
exp : Null() | Num(INT) | Sum(exp exp) | Neg(exp);
exp { inherited INT depth; inherited INT spare; synthesized INT v; synthesized INT low; };
INT most(INT a, INT b) { a < b ? b : a };
top : Top { exp.depth = 1; exp.spare = 7; };
exp : Null { $$.v = 0; $$.low = $$.depth; };
exp : Num { local INT twice; twice = INT.value * 2; $$.v = INT.value; $$.low = $$.depth; };
exp : Sum { local BOOL same; same = exp$2.v == exp$3.v; $$.v = exp$2.v + exp$3.v;
  exp$2.depth = $$.depth + 1; exp$3.depth = $$.depth + 1; exp$2.spare = $$.depth * 10; exp$3.spare = $$.spare + 1;
  $$.low = most(exp$2.low, exp$3.low); };
exp : Neg { $$.v = -exp$2.v; exp$2.depth = $$.depth + 1; exp$2.spare = 0; $$.low = exp$2.low; };
top : Top [ @ : @ "%n= " exp.v ];
exp : Null [ @ ::= "_" $$.depth "," $$.spare "," $$.v "," $$.low ];
exp : Num [ @ ::= ^ "'" $$.depth "," $$.spare "," $$.v "," $$.low "," twice ];
exp : Sum [ @ ::= "(" $$.depth "," $$.spare "," $$.v "," $$.low "," same " " @ " + " @ ")" ];
exp : Neg [ @ ::= "-" $$.depth "," $$.spare "," $$.v "," $$.low " " @ ];
transform exp on "+" e : Sum(e, <exp>);
transform exp on "-" e : Neg(e);
transform exp on "swap" Sum(a, b) : Sum(b, a);
transform exp on "turn" Sum(a, Sum(b, c)) : Sum(Sum(a, b), c);
NUM : < "[0-9]+" >;
WHITESPACE : < " +" >;
E { synthesized exp t; };
T { synthesized exp t; };
E ::= (E '+' T) { Sum(E$2.t, T.t) } | (T) { T.t };
T ::= (NUM) { Num(STRtoINT(NUM.value)) } | ('-' T) { Neg(T$2.t) } | ('_') { Null() } | ('(' E ')') { E.t };
exp ~ E.t;
"""

SUMS_SCRIPT = """
new s
next
text "1 + 2"
next
text "3"
text "3"
sibling
text "-(4 + 5)"
next
next
text "5"
do "+"
next
sibling
text "0"
up
do "swap"
undo
redo
delete
undo
goto 1 1
do "turn"
do "swap"
text "(1 + 2) + (3 + (4 + 5))"
do "turn"
do "turn"
next
copy
sibling
paste
do "-"
do "-"
undo
undo
undo
up
cut
paste
undo
undo
redo
""".strip().split("\n")

# Each leaf shows the least number of all, and each fork hands each side what the other one has found: two visits.
LEAST = """
root top;
top : Top(tree);
tree : Leaf(INT) | Fork(tree tree) | Cover(tree);
tree { synthesized INT min; inherited INT all; inherited INT other; synthesized INT sum; synthesized STR said; };
INT less(INT a, INT b) { a < b ? a : b };
top : Top { tree.all = tree.min; tree.other = 100; };
tree : Leaf { $$.min = INT.value; $$.sum = $$.all + $$.other; $$.said = INT.value == $$.all ? "least" : ""; };
tree : Fork { $$.min = less(tree$2.min, tree$3.min); tree$2.all = $$.all; tree$3.all = $$.all;
  tree$2.other = tree$3.min; tree$3.other = tree$2.min;
  $$.sum = tree$2.sum + tree$3.sum; $$.said = tree$2.said # tree$3.said; };
tree : Cover { $$.min = tree$2.min + 1; tree$2.all = $$.min; tree$2.other = $$.all; $$.sum = tree$2.sum; $$.said = "c" # tree$2.said; };
top : Top [ @ : @ "%nmin " tree.min " sum " tree.sum " said " tree.said ];
tree : Leaf [ @ ::= ^ ":" $$.min "," $$.all "," $$.other "," $$.sum "," $$.said ];
tree : Fork [ @ ::= "[" $$.min "," $$.all "," $$.other "," $$.sum "," $$.said " " @ " " @ "]" ];
tree : Cover [ @ ::= "{" $$.min "," $$.all "," $$.other "," $$.sum "," $$.said " " @ "}" ];
transform tree on "fork" t : Fork(t, Leaf(9));
transform tree on "cover" t : Cover(t);
transform tree on "swap" Fork(a, b) : Fork(b, a);
NUM : < "[0-9]+" >;
WHITESPACE : < " +" >;
T { synthesized tree t; };
T ::= (NUM) { Leaf(STRtoINT(NUM.value)) } | ('[' T T ']') { Fork(T$2.t, T$3.t) } | ('{' T '}') { Cover(T$2.t) };
tree ~ T.t;
"""

LEAST_SCRIPT = """
new l
next
text "[5 [7 6]]"
next
text "8"
text "6"
text "2"
do "fork"
sibling
next
do "cover"
next
text "1"
up
up
do "swap"
text "{[4 3]}"
text "3"
undo
undo
goto 1 1
do "cover"
do "swap"
undo
delete
undo
text "[[1 1] [1 1]]"
next
text "[1 1]"
do "swap"
next
text "0"
undo
redo
""".strip().split("\n")

# Declarations and uses in a list; what is known goes forward as a tree, which a function makes a text of.
NAMES = """
root prog;
optional list lines;
prog : Prog(lines);
lines : None() | Some(line lines);
line : Blank() | Let(ID INT) | Use(ID) | In(lines);
env : Empty() | Bind(STR INT env);
ID : < "[a-z]+" >;
NUM : < "-?[0-9]+" >;
WHITESPACE : < "[ \\n]+" >;
lines { inherited env known; synthesized INT sum; synthesized INT bad; };
line { inherited env known; synthesized env after; synthesized INT v; synthesized INT bad; };
INT look(STR n, env e) { with (e) ( Empty() : -1, Bind(m, v, more) : m == n ? v : look(n, more) ) };
STR told(env e) { with (e) ( Bind(n, v, Empty()) : n, Bind(n, *, more) : n # "," # told(more), default : "." ) };
prog : Prog { lines.known = Empty(); };
lines : None { $$.sum = 0; $$.bad = 0; };
lines : Some { line.known = $$.known; lines$2.known = line.after;
  $$.sum = line.v + lines$2.sum; $$.bad = line.bad + lines$2.bad; };
line : Blank { $$.after = $$.known; $$.v = 0; $$.bad = 0; };
line : Let { $$.after = Bind(ID.value, INT.value, $$.known); $$.v = INT.value; $$.bad = 0; };
line : Use { local INT found; local BOOL there; found = look(ID.value, $$.known); there = found >= 0;
  $$.after = $$.known; $$.v = there ? found : 0; $$.bad = there ? 0 : 1; };
line : In { local STR inside; inside = "(" # told($$.known) # ")"; lines.known = Bind("in", 0, $$.known);
  $$.after = $$.known; $$.v = lines.sum; $$.bad = lines.bad; };
prog : Prog [ @ : @ "%nsum " lines.sum " bad " lines.bad ];
lines : None [ @ ::= ];
lines : Some [ @ ::= @ [ "%n" ] @ ];
line : Blank [ @ ::= "-" ];
line : Let [ @ ::= "let " ^ " = " ^ ];
line : Use [ @ ::= "use " ^ " = " found " " there ];
line : In [ @ ::= "in " inside " = " $$.v ":%t%n" @ "%b" ];
transform line on "in" l : In(l :: None());
L { synthesized lines t; };
S { synthesized line t; };
L ::= () { None() } | (S ';' L) { S.t :: L$2.t };
S ::= ('let' ID '=' NUM) { Let(ID.value, STRtoINT(NUM.value)) } | ('use' ID) { Use(ID.value) }
    | ('in' '{' L '}') { In(L.t) } | ('-') { Blank() };
line ~ S.t;
lines ~ L.t;
"""

NAMES_SCRIPT = """
new n
next
text "let a = 1; use a; use b; in { use a; let a = 5; use a; }; use a;"
goto 1 1
text "let a = 2"
text "let a = 2"
text "let b = 2"
text "let b = -2"
undo
undo
goto 5 3
text "let b = 7"
insert-after
text "use in"
do "in"
undo
up
sibling
remove
undo
goto 1 1
cut
sibling
paste
undo
remove
goto 4 1
do "in"
next
next
text "let c = 1"
delete
goto 1 1
insert-before
text "let a = 3"
up
delete
insert-after
text "use q"
undo
undo
undo
""".strip().split("\n")

# Each row shows the outcome of one expression on two numbers, and what another one makes of it.
FAULTS = """
root sheet;
list rows;
sheet : Sheet(rows);
rows : End() | Row(row rows);
row : Calc(op INT INT);
op : Div() | Rem() | Mul() | Text() | Deep() | Loop() | Big() | Case() | Short();
tree : Nil() | Two(tree tree);
op { inherited INT a; inherited INT b; synthesized INT v; };
row { synthesized INT v; };
rows { synthesized INT sum; synthesized INT same; };
INT down(INT n) { n == 0 ? 0 : 1 + down(n - 1) };
INT loop(INT n) { n == 0 ? 1 : loop(n - 1) + loop(n - 1) };
tree full(INT n) { n == 0 ? Nil() : let t = full(n - 1) in (Two(t, t)) };
INT both(INT a, INT b) { a == b ? 1 : 0 };
op : Div { $$.v = $$.a / $$.b; };
op : Rem { $$.v = $$.a % $$.b; };
op : Mul { $$.v = $$.a * $$.b; };
op : Text { $$.v = STRtoINT(INTtoSTR($$.a) # INTtoSTR($$.b)); };
op : Deep { $$.v = down($$.a) - $$.b; };
op : Loop { $$.v = loop($$.a) - $$.b; };
op : Big { $$.v = full($$.a) == full($$.b) ? 1 : 0; };
op : Case { $$.v = with ($$.a) ( 0 : $$.b, 1 : $$.b / 0, -2 : 1 ); };
op : Short { $$.v = $$.a > 0 || 1 / $$.a == $$.b && 1 / $$.b == 0 ? 7 : 8; };
row : Calc { op.a = INT$1.value; op.b = INT$2.value; $$.v = op.v; };
rows : End { $$.sum = 0; $$.same = 0; };
rows : Row { $$.sum = row.v + rows$2.sum; $$.same = both(row.v, rows$2.sum); };
sheet : Sheet [ @ : @ "%nsum " rows.sum ];
rows : End [ @ : ];
rows : Row [ @ : @ [ "%n" ] @ ];
row : Calc [ @ : @ " " @ " " @ " = " op.v ];
op : Div [ @ : "div" ]; op : Rem [ @ : "rem" ]; op : Mul [ @ : "mul" ]; op : Text [ @ : "text" ]; op : Deep [ @ : "deep" ];
op : Loop [ @ : "loop" ]; op : Big [ @ : "big" ]; op : Case [ @ : "case" ]; op : Short [ @ : "short" ];
transform op on "rem" * : Rem(); transform op on "mul" * : Mul(); transform op on "text" * : Text();
transform op on "deep" * : Deep(); transform op on "loop" * : Loop(); transform op on "big" * : Big();
transform op on "case" * : Case(); transform op on "short" * : Short(); transform op on "div" * : Div();
NUM : < "-?[0-9]+" >;
N { synthesized INT t; };
N ::= (NUM) { STRtoINT(NUM.value) };
INT ~ N.t;
"""

LEAST_INT, MOST_INT = -(1 << 63), (1 << 63) - 1


def faults_script():
    """The operators in turn, each on numbers at which its outcome changes, in the first of two rows."""
    pairs = {
        "div": [(7, 2), (-7, 2), (7, 0), (LEAST_INT, -1)],
        "rem": [(-7, 2), (LEAST_INT, -1), (LEAST_INT, 0)],
        "mul": [(MOST_INT, 1), (MOST_INT, 2), (LEAST_INT, 1), (LEAST_INT, -1)],
        "text": [(12, 34), (1, -1), (MOST_INT, 0)],
        "deep": [(600, 1), (700, 1), (1, 700)],
        "loop": [(12, 0), (13, 0), (14, 0)],
        "big": [(14, 14), (15, 14), (15, 15), (16, 1)],
        "case": [(0, 5), (1, 5), (-2, 5), (3, 5)],
        "short": [(1, 0), (0, 0), (-1, 0), (-1, -1), (-2, 0)],
    }
    commands = ["new f", "next", "next", "insert-after", "goto 1 1"]
    first = (0, 0)
    for word, rows in pairs.items():
        commands.append(f'do "{word}"')
        for a, b in rows:
            moved = []
            if a != first[0]:
                moved += ["sibling", f'text "{a}"']
            if b != first[1]:
                moved += ["sibling"] * (1 if moved else 2) + [f'text "{b}"']
            first = (a, b)
            commands += moved + ["up", "next"]
    # The row below has the same fault, and another one: what stands above it changes or does not.
    return commands + ["up", "copy", "goto 2 4", "paste", "next", 'do "rem"', 'do "case"', "undo", "undo", "undo"]


# A list whose elements show their number, which an element may hold back.
LONG = """
root book;
list items;
book : Book(items);
items : End() | Item(item items);
item : One() | Skip() | Put(INT);
items { inherited INT n; synthesized INT count; };
item { inherited INT n; synthesized INT after; };
book : Book { items.n = 1; };
items : End { $$.count = 0; };
items : Item { item.n = $$.n; items$2.n = item.after; $$.count = items$2.count + 1; };
item : One { $$.after = $$.n + 1; };
item : Skip { $$.after = $$.n; };
item : Put { $$.after = INT.value; };
book : Book [ @ : items.count " of%n" @ ];
items : End [ @ ::= ];
items : Item [ @ ::= @ [ "%n" ] @ ];
item : One [ @ ::= $$.n ];
item : Skip [ @ ::= $$.n "-" ];
item : Put [ @ ::= $$.n "=" ^ ];
NUM : < "[0-9]+" >;
L { synthesized items t; };
S { synthesized item t; };
L ::= () { End() } | (S L) { S.t :: L$2.t };
S ::= ('.') { One() } | ('-') { Skip() } | ('=' NUM) { Put(STRtoINT(NUM.value)) };
items ~ L.t;
item ~ S.t;
"""

LONG_SCRIPT = f"""
new l
next
text "{'.' * 1000}"
save-text first
goto 500 1
text "."
text "-"
text "=499"
text "=501"
goto 1001 1
insert-after
text "-"
goto 2 1
text "=0"
save-text second
remove
goto 1000 1
cut
up
undo
undo
undo
goto 500 1
undo
undo
text "{'.' * 1000}"
up
text "{'.' * 998}-."
goto 901 1
text "-"
save-text third
""".strip().split("\n")


# A term of depth 1,024 whose nodes are visited twice: heights come up, what the top makes of them goes down and up again.
DEEP = """
root top;
top : Top(nest);
nest : Leaf(INT) | In(nest) | Wide(nest nest);
nest { synthesized INT height; inherited INT below; synthesized INT sum; };
top : Top { nest.below = nest.height; };
nest : Leaf { $$.height = INT.value; $$.sum = $$.below; };
nest : In { $$.height = nest$2.height + 1; nest$2.below = $$.below - 1; $$.sum = nest$2.sum + 1; };
nest : Wide { $$.height = nest$3.height; nest$2.below = nest$3.height; nest$3.below = nest$2.height; $$.sum = nest$2.sum + nest$3.sum; };
top : Top [ @ : "height " nest.height " sum " nest.sum "%n" @ ];
nest : Leaf [ @ ::= ^ ":" $$.height ":" $$.below ":" $$.sum ];
nest : In [ @ ::= "." @ ];
nest : Wide [ @ ::= "(" @ " " @ ")" ];
transform nest on "in" n : In(n);
NUM : < "[0-9]+" >;
N { synthesized nest t; };
N ::= (NUM) { Leaf(STRtoINT(NUM.value)) } | ('.' N) { In(N$2.t) } | ('(' N '|' N ')') { Wide(N$2.t, N$3.t) };
nest ~ N.t;
"""

DEEP_SCRIPT = f"""
new d
next
text "{'.' * 1021}5"
do "in"
goto 2 1022
text "6"
text "6"
undo
undo
redo
goto 2 500
text "{'.' * 522}5"
copy
text "({'.' * 521}5|{'.' * 521}6)"
next
paste
undo
delete
undo
save deep
load e deep
next
text "{'.' * 1022}5"
undo
switch d
goto 1 1
delete
undo
redo
""".strip().split("\n")


def add(table):
    table.language("sums", SUMS)
    table.run("Synthesized and inherited attributes, locals, and an inherited attribute that nothing reads.", "sums",
              SUMS_SCRIPT, (260, 3))
    table.language("least", LEAST)
    table.run("Two visits: what the new subterm gives in the first comes back to it in the second.", "least", LEAST_SCRIPT,
              (150, 3))
    table.language("names", NAMES)
    table.run("Functions and matching: names are known forward through a list, and in the lists below its elements.",
              "names", NAMES_SCRIPT, (60, 12))
    table.language("faults", FAULTS)
    table.run("Faults as values: each kind, on both sides of its limit, and an equal fault that stops at once.", "faults",
              faults_script(), (60, 4))
    table.language("long", LONG)
    table.run("A list of 1,000 elements that is typed in: a change goes on as far as the numbers change.", "long", LONG_SCRIPT,
              (12, 4))
    table.language("deep", DEEP)
    table.run("Depth 1,024 with two visits.", "deep", DEEP_SCRIPT, (24, 2))
