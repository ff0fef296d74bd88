"""Transformations: each kind of pattern, what they make, faults, and the limits of what is made."""

ABOUT = """
Transformations: which one of a name applies, each kind of pattern on terms that it matches and on terms that it does not,
what is made, faults as outcome, and the limits of 65,536 nodes and depth 1,024. Made by `trials/tables/make.py PROGRAM
matching`, where PROGRAM was model/ssled.
"""

PATTERNS = """
root top;
list parts;
optional gap;
optional list many;
top : Top(parts gap many);
parts : End() | Part(part parts);
part : Hole() | Int(INT) | Str(STR) | Yes(BOOL) | Word(WORD) | Pair(part part) | Gap(gap) | Many(many);
gap : Empty() | Open(part) | Shut();
many : None() | More(part many);
WORD : < "[a-z]+" >; NUM : < "-?[0-9]+" >; STRING : < "'[^']*'" >; WHITESPACE : < " +" >;
top : Top [ @ : @ " | " @ " | " @ ];
parts : End [ @ ::= ]; parts : Part [ @ ::= @ [ " " ] @ ];
part : Hole [ @ ::= "?" ]; part : Int [ @ ::= @ ] [ @ ::= "#" @ ]; part : Str [ @ ::= "'" @ "'" ]; part : Yes [ @ ::= @ ];
part : Word [ @ ::= @ ]; part : Pair [ @ ::= "(" @ " " @ ")" ]; part : Gap [ @ ::= "<" @ ">" ]; part : Many [ @ ::= "{" @ "}" ];
gap : Empty [ @ ::= "." ]; gap : Open [ @ ::= "o" @ ]; gap : Shut [ @ ::= "s" ];
many : None [ @ ::= "-" ]; many : More [ @ ::= @ [ "," ] @ ];
transform part on "name" Hole() : Word([WORD]); transform part on "name" Int(0) : Str("zero");
transform part on "name" Int(-7) : Str("less"); transform part on "name" Int(n) : Str(INTtoSTR(n));
transform part on "name" Str("zero") : Int(0); transform part on "name" Str("less") : Int(-7);
transform part on "name" Str(s) : Int(STRtoINT(s)); transform part on "name" Yes(true) : Yes(false);
transform part on "name" Yes(false) : Hole(); transform part on "name" Word("") : Word([WORD]);
transform part on "name" Word("a") : Str("A"); transform part on "name" Word(w) : Str(w # "." # INTtoSTR(STRlen(w)));
transform part on "name" Pair(a, *) : a;
transform part on "same" Pair(Int(a), Int(b)) : a == b ? Int(a) : Pair(Int(b), Int(a));
transform part on "same" Pair(Pair(a, b), Pair(c, d)) : Pair(a, Pair(b, Pair(c, d)));
transform part on "same" Pair(<part>, x) : x; transform part on "same" Pair(x, [part]) : Pair([part], x);
transform part on "same" Gap(<gap>) : Gap([gap]); transform part on "same" Gap([gap]) : Gap(Shut()); transform part on "same" Gap(g) : Gap(<gap>);
transform part on "same" Many([many]) : Many(<many>); transform part on "same" Many(<many>) : Many(Hole() :: <many>);
transform part on "same" Many(More(a, More(b, r))) : Many(b :: a :: r);
transform part on "any" * : Many(Hole() :: None()); transform part on "wrap" p : Gap(Open(p)); transform part on "many" p : Many(p :: p :: None());
transform part on "none" Pair(Hole(), Hole()) : Hole();
transform parts on "swap" Part(a, Part(b, r)) : a :: b :: r; transform parts on "swap" Part(a, End()) : a :: a :: End();
transform parts on "turn" Part(a, Part(b, r)) : b :: a :: r; transform parts on "one" <parts> : Hole() :: Hole() :: End();
transform gap on "name" Empty() : Open(<part>); transform gap on "name" <gap> : Shut(); transform gap on "name" [gap] : <gap>; transform gap on "name" g : [gap];
transform many on "more" m : <part> :: m; transform many on "one" <many> : [many];
transform INT on "up" n : n + 1; transform INT on "up" 5 : 50; transform INT on "five" 5 : 50; transform INT on "five" -5 : -50;
transform STR on "twice" s : s # s; transform STR on "a" "a" : "b"; transform BOOL on "not" true : false; transform BOOL on "not" b : !b;
transform WORD on "gone" w : [WORD]; transform WORD on "a" "a" : <WORD>; transform top on "top" Top(p, g, m) : Top(<parts>, Open(Int(3)), m);
L { synthesized parts t; }; P { synthesized part t; }; M { synthesized many t; }; I { synthesized INT t; };
L ::= () { End() } | (P L) { P.t :: L$2.t };
M ::= () { None() } | (P M) { P.t :: M$2.t };
P ::= (NUM) { Int(STRtoINT(NUM.value)) } | (STRING) { Str(STRING.value) } | ('yes') { Yes(true) } | ('no') { Yes(false) }
    | (WORD) { Word(WORD.value) } | ('word') { Word([WORD]) } | ('(' P P ')') { Pair(P$2.t, P$3.t) } | ('?') { Hole() }
    | ('<' '>') { Gap(Empty()) } | ('<' 'o' P '>') { Gap(Open(P$2.t)) } | ('<' 's' '>') { Gap(Shut()) } | ('{' M '}') { Many(M.t) };
I ::= (NUM) { STRtoINT(NUM.value) };
parts ~ L.t; part ~ P.t; INT ~ I.t;
"""

# On each of these parts each transformation of parts is tried.
PARTS = ("?", "0", "-7", "12", "yes", "no", "word", "a", "ab", "(? 1)", "(1 ?)", "(? ?)", "(2 2)", "(2 3)", "((1 2) (3 ?))", "<>", "<s>",
         "<o ?>", "<o 1>", "{}", "{?}", "{? 1}", "{1 2 3}")

LISTS = """
new m
next
do "swap"
do "swap"
do "turn"
do "one"
text "1"
do "swap"
do "one"
text ""
do "swap"
do "one"
do "turn"
text "1 2 3"
do "swap"
do "turn"
do "one"
insert-before
undo
sibling
do "name"
do "name"
do "name"
do "name"
do "swap"
sibling
do "one"
do "more"
do "one"
do "more"
do "more"
do "one"
up
do "top"
do "name"
undo
""".strip().split("\n")

LEAVES = """
new l
next
text "4"
next
next
do "up"
do "up"
do "five"
text "5"
do "five"
text "-5"
do "five"
text "9223372036854775807"
do "up"
up
alternate
do "same"
do "name"
do "name"
alternate
do "name"
text "yes"
next
do "not"
do "not"
do "up"
up
do "name"
text "a"
next
do "a"
do "a"
undo
do "gone"
do "gone"
up
text "no"
do "wrap"
next
do "name"
do "name"
do "name"
""".strip().split("\n")

# Each kind of fault as outcome, and what stands just inside a limit.
FAULTS = """
root top;
top : Top(part);
part : Int(INT) | Str(STR) | Pair(part part) | Deep(part);
part { synthesized INT v; };
part : Int { $$.v = INT.value; };
part : Str { $$.v = STRlen(STR.value); };
part : Pair { $$.v = part$2.v + part$3.v; };
part : Deep { $$.v = part$2.v + 1; };
INT down(INT n) { n == 0 ? 0 : 1 + down(n - 1) };
INT loop(INT n) { n == 0 ? 1 : loop(n - 1) + loop(n - 1) };
part full(INT n) { n == 0 ? Int(1) : let p = full(n - 1) in (Pair(p, p)) };
part nest(INT n, part p) { n == 0 ? p : Deep(nest(n - 1, p)) };
STR long(INT n, STR s) { n == 0 ? s : long(n - 1, s # s) };
top : Top [ @ : part.v " " @ ];
part : Int [ @ ::= @ ]; part : Str [ @ ::= "'" @ "'" ]; part : Pair [ @ ::= "(" @ " " @ ")" ]; part : Deep [ @ ::= "." @ ];
transform part on "divide" Int(n) : Int(10 / n); transform part on "rest" Int(n) : Int(10 % n);
transform part on "add" Int(n) : Int(n + 9223372036854775807); transform part on "down" Int(n) : Int(down(n));
transform part on "loop" Int(n) : Int(loop(n)); transform part on "full" Int(n) : full(n); transform part on "nest" Int(n) : nest(n, Int(0));
transform part on "nest2" p : nest(500, nest(500, p));
transform part on "long" Int(n) : Str(long(n, "ab")); transform part on "long" Str(s) : Str(s # s # "x");
transform part on "case" Int(n) : with (n) ( 0 : Str("zero"), 1 : Int(1 / 0), 2 : Str("two") );
transform part on "to" Str(s) : Int(STRtoINT(s)); transform part on "to" Int(n) : Str(INTtoSTR(n) # "x");
transform part on "pair" p : Pair(p, p); transform part on "deep" p : Deep(p); transform part on "out" Deep(p) : p; transform part on "out" Pair(p, *) : p;
transform INT on "divide" n : 10 / n;
NUM : < "-?[0-9]+" >;
P { synthesized part t; };
P ::= (NUM) { Int(STRtoINT(NUM.value)) } | ('/' NUM) { Int(10 / STRtoINT(NUM.value)) };
part ~ P.t;
"""

FAULTS_SCRIPT = """
new f
next
do "divide"
do "rest"
do "add"
text "1"
do "add"
undo
do "case"
text "3"
do "case"
text "2"
do "case"
do "to"
text "600"
do "down"
text "2000"
do "down"
text "12"
do "loop"
undo
text "14"
do "loop"
text "/0"
text "/5"
text "99999999999999999999"
do "to"
do "to"
undo
text "0"
next
do "divide"
do "rest"
""".strip().split("\n")

# The same without attributes, for what is large: 2 ^ (n + 1) - 1 nodes of n doublings, and 1,000 levels by one command.
LIMITS = """
root top;
top : Top(part);
part : Leaf() | Int(INT) | Pair(part part) | Deep(part);
part full(INT n) { n == 0 ? Leaf() : let p = full(n - 1) in (Pair(p, p)) };
part nest(INT n, part p) { n == 0 ? p : Deep(nest(n - 1, p)) };
top : Top [ @ : ": " @ ];
part : Leaf [ @ ::= "x" ];
part : Int [ @ ::= @ ];
part : Pair [ @ ::= "(" @ " " @ ")" ];
part : Deep [ @ ::= "." @ ];
transform part on "full" Int(n) : full(n);
transform part on "22" p : nest(22, p);
transform part on "1000" p : nest(500, nest(500, p));
transform part on "pair" p : Pair(p, Leaf());
transform part on "deep" p : Deep(p);
transform top on "again" Top(p) : Top(Deep(p));
NUM : < "[0-9]+" >;
P { synthesized part t; };
P ::= (NUM) { Int(STRtoINT(NUM.value)) };
part ~ P.t;
"""

# With the top 65,536 nodes; a made term of 65,536 that is one too many below the top, and one that is too large itself.
NODES = """
new n
next
text "15"
do "full"
do "deep"
do "pair"
up
do "again"
next
undo
text "14"
do "full"
copy
text "1"
do "pair"
next
paste
sibling
paste
do "deep"
up
copy
paste
delete
text "16"
do "full"
""".strip().split("\n")

# Depth 1,024 by transformations and by paste, and one more.
DEPTH = """
new d
next
do "1000"
copy
do "22"
elide
do "deep"
up
do "again"
next
delete
do "22"
do "1000"
undo
do "deep"
do "1000"
undo
do "deep"
do "1000"
delete
do "22"
goto 1 25
paste
undo
do "deep"
next
paste
up
delete
do "pair"
next
paste
do "22"
do "deep"
""".strip().split("\n")

TEXTS = """
new t
next
text "14"
do "long"
elide
do "long"
elide
save-text long
text "15"
do "long"
text "14"
do "long"
do "long"
do "long"
""".strip().split("\n")


def add(table):
    table.language("patterns", PATTERNS)
    for word in ("name", "same"):
        script = ["new p", "next"]
        for part in PARTS:
            script += [f'text "{part}"', "next", f'do "{word}"', "up"]
        table.run(f"Each kind of part under the transformations {word}.", "patterns", script, (30, 1))
    table.run("Patterns that always match, and names that are of no transformation here.", "patterns",
              ["new p", "next", "next"] + ['do "any"', 'do "wrap"', 'do "many"', 'do "none"', 'do "swap"', 'do ""', 'do "Name"',
                                           'text "(? ?)"', 'do "none"', "undo", 'do "any"', "elide", 'do "wrap"', "next", 'do "name"'],
              (50, 1))
    table.run("Lists, optional phyla and the root.", "patterns", LISTS, (50, 1))
    table.run("Leaves, and terms in other schemes.", "patterns", LEAVES, (50, 1))
    table.language("faults", FAULTS)
    table.run("Faults as outcome of transformations and of texts.", "faults", FAULTS_SCRIPT, (30, 1))
    table.run("Texts of the greatest length.", "faults", TEXTS, (20, 1))
    table.language("limits", LIMITS)
    table.run("How many nodes a made term may have, and the term of a buffer.", "limits", NODES, (20, 1))
    table.run("How deep a made term may be, and the term of a buffer.", "limits", DEPTH, (20, 1))
