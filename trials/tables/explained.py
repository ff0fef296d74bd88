"""Explanations of specifications that are refused."""
import random
import re
import subprocess
import tempfile
from pathlib import Path

from frame import SUMS, SUMS_TERMS, Pieces, text

ABOUT = """
Explanations of specifications that are refused: of declarations without a reading where reading stops, each change of one token that
mends it, and how a line is shown; the smallest text of each fault; all mismatches, all that operators lack, cycles with their reasons,
samples of conflicts, nonterminals without a sentence; what unknown and second names are, the first of two equations and entries,
signatures, chains without an enclosing node. Made by `trials/tables/make.py PROGRAM explained`, where PROGRAM was
model/ssled_explain.
"""

SPECIFICATIONS = Path(__file__).resolve().parents[2] / "docs" / "SSL-P.md"

# What the texts below begin with: a root r over x, y and the list l.
ROOTED = """root r;
r : R(x y l);
x : X() | W(INT) | V(x x);
y : Y(STR);
l : Nil() | Pair(x l);
list l;
"""

MISMATCHES = (
    ("One type is wanted, another is there; a name of one phylum for a tree of another.", """INT f(INT n) { "a" };
x g(y a) { a };
INT h() { f(true) + f(g(Y(""))) };
"""),
    ("Branches and cases go by the first; what compares with the left side; a list; a pattern.", """INT f(BOOL b, x a) { b ? 1 : "a" };
BOOL g(x a, y b) { a == b };
BOOL h(l a) { 1 == "a" || a == a };
INT i(x a) { with (a) ( X() : 1, W(n) : "a", default : true ) };
INT j(x a) { with (a) ( Y(s) : 1, W("a") : 2, 3 : 4, default : 5 ) };
l k(x a) { a :: a };
l m(x a, y b, l c) { b :: c };
"""),
    ("A mismatch in another, and several on one line.", "INT f(INT n) { f(f(true) + \"a\") - (n ? 1 : 2) };\nSTR g(INT n) { n # 1 # true };\n"),
    ("A let, a name that has a type of its own, no type at all.", """INT f(x a) { let b = a in (b) };
STR g(x a) { let b = "a" in (let c = 1 in (b + c)) };
"""),
    ("In equations, locals, transformations and productions.", """x { synthesized INT n; inherited STR s; };
x : X { local BOOL b; b = 1; $$.n = $$.s; };
x : V { $$.n = x$2.n # "a"; x$2.s = 1; x$3.s = $$.n; };
transform x on "t" V(X(), a) : 1;
transform x on "u" Y(a) : X();
E { synthesized x t; };
E ::= ('a' E) { E$2.t + 1 } | ('b') { Y("") };
"""),
    ("References to enclosing nodes of two types.", """r { synthesized INT n; }; x { synthesized STR s; synthesized INT m; };
x : X { $$.m = {r.n,x.s}; };
"""),
    ("A long line: the columns go on, and are counted from each line's beginning.",
     "INT f() { " + "1 + " * 30 + '"a" + ' + "2 + " * 30 + "true + " + "3 };\nINT g() { true };\n"),
)

LACKS = (
    ("An inherited attribute that the left side has is handed on; of another type it is not.", """x { inherited INT e; synthesized INT v; };
y { inherited STR e; synthesized INT v; };
r : R { x.e = 1; };
x : V { x$2.e = 1; };
"""),
    ("Locals, and arguments of one phylum by their numbers.", """x { synthesized INT v; inherited INT e; };
x : V { local INT a; local STR b; a = 1; };
l { inherited INT e; };
"""),
)

CYCLES = (
    ("Within an operator, through a local.", """root r; r : R(); r : R [ @ : ];
r { synthesized INT v; synthesized INT w; };
r : R { local INT l; $$.v = l; $$.w = $$.v; l = $$.w + 1; };
"""),
    ("Down and up, through several operators.", """root doc;
doc : Doc(blocks); blocks : None() | Blocks(block blocks); optional list blocks;
block : Section(inlines blocks); inlines : Nothing() | More(inline inlines); optional list inlines; inline : Ref(STR) | Bold(inlines);
doc : Doc [ @ : @ ]; blocks : None [ @ : ]; blocks : Blocks [ @ : @ [ "%n" ] @ ]; block : Section [ @ : @ @ ];
inlines : Nothing [ @ : ]; inlines : More [ @ : @ [ " " ] @ ]; inline : Ref [ @ : ^ ]; inline : Bold [ @ : @ ];
blocks { inherited STR all; synthesized STR out; };
block { inherited STR all; synthesized STR out; };
inlines { inherited STR all; synthesized STR out; };
inline { inherited STR all; synthesized STR out; };
doc : Doc { blocks.all = blocks.out; };
blocks : None { $$.out = ""; }; blocks : Blocks { block.all = $$.all; blocks$2.all = $$.all; $$.out = block.out # blocks$2.out; };
block : Section { inlines.all = $$.all; blocks.all = inlines.out; $$.out = inlines.out # blocks.out; };
inlines : Nothing { $$.out = $$.all; }; inlines : More { inline.all = $$.all; inlines$2.all = inline.out; $$.out = inlines$2.out; };
inline : Ref { $$.out = $$.all; }; inline : Bold { inlines.all = $$.all; $$.out = inlines.out; };
"""),
    ("Equations alone, layers, and equations between them.", """root r; r : R(x x); x : X() | Z(x); r : R [ @ : @ @ ]; x : X [ @ : ]; x : Z [ @ : @ ];
x { inherited INT i; inherited INT j; synthesized INT s; synthesized INT t; };
x : X { $$.s = $$.i; $$.t = $$.j; }; x : Z { x$2.i = $$.i; x$2.j = $$.j; $$.s = x$2.s; $$.t = x$2.t; };
r : R { x$1.i = x$2.s; x$1.j = 0; x$2.i = 0; x$2.j = x$1.t; };
"""),
    ("What is handed down for a reference.", """root r; r : R(x); x : X(); r : R [ @ : @ ]; x : X [ @ : ];
r { synthesized INT n; }; x { synthesized INT v; };
r : R { $$.n = x.v; }; x : X { $$.v = {r.n}; };
"""),
)

GRAMMARS = (
    ("Sums without levels: the prefix has a nonterminal, of which a shortest sentence is put in.", SUMS_TERMS + """E { synthesized exp t; };
E ::= (E '+' E) { Sum(E$2.t, E$3.t) } | (NUM) { Const(STRtoINT(NUM.value)) };
exp ~ E.t;
"""),
    ("Two nonterminals that end alike.", """root r; r : R(); r : R [ @ : ];
N : < "n" >;
A { synthesized r t; }; B { synthesized r t; }; C { synthesized r t; };
A ::= (B 'x') { R() } | (C 'x' 'y') { R() };
B ::= (N) { R() } | (B N) { R() };
C ::= (N) { R() } | (C N) { R() };
r ~ A.t;
"""),
    ("Sentences of one and of two terminals.", """root r; r : R(); r : R [ @ : ];
A { synthesized r t; }; B { synthesized r t; }; C { synthesized r t; }; D { synthesized r t; }; E { synthesized r t; };
A ::= (B C C D) { R() } | (B C C E) { R() };
B ::= ('b') { R() };
C ::= (B 'c') { R() };
D ::= ('d') { R() };
E ::= ('d') { R() };
r ~ A.t;
"""),
    ("Nonterminals without a sentence, one of them behind another; one that has one.", """root r; r : R(); r : R [ @ : ];
A { synthesized r t; }; B { synthesized r t; }; C { synthesized r t; };
A ::= ('a' B) { B.t };
B ::= (B 'b') { B$2.t } | (A) { A.t };
C ::= ('c') { R() };
r ~ C.t;
"""),
    ("The same of a nonterminal with levels.", """root r; r : R(); r : R [ @ : ];
E { synthesized r t; };
E ::= (E '+' E) { R() } | (E '*' E) { R() };
left '+'; left '*';
r ~ E.t;
"""),
)


NAMES = (
    ("Unknown names. One that is declared as something else, and one near it.", """INT f(INT n, x abc) { with (abd) ( X() : 1, W(m) : m + n, default : 0 ) };
"""),
    ("An attribute that is a function and an attribute of another phylum.", """INT tree(x a) { 1 };
x { synthesized INT tree; synthesized INT tre; };
y { synthesized INT tee; synthesized INT teer; };
r { synthesized INT t; };
r : R { $$.t = y.tree; };
"""),
    ("A type, an operator of another phylum, an operator in a pattern, a function.", "xx f(INT n) { X() };\n"),
    ("", "y : X { };\n"),
    ("", "INT f(x a) { with (a) ( Y(s) : 1, VV(b, c) : 2, default : 3 ) };\n"),
    ("", "INT ab(INT n) { n };\nINT f(INT n) { ba(n) };\n"),
    ("A byte more, less and another, two neighbours turned; two edits; capitals are other bytes.", """INT abcd(INT n) { n };
INT f(INT n) { abxcd(n) };
"""),
    ("", "INT abcd(INT n) { n };\nINT f(INT n) { abd(n) };\n"),
    ("", "INT abcd(INT n) { n };\nINT f(INT n) { bbcd(n) };\n"),
    ("", "INT abcd(INT n) { n };\nINT f(INT n) { abdc(n) };\n"),
    ("", "INT abcd(INT n) { n };\nINT f(INT n) { ab(n) };\n"),
    ("", "INT abcd(INT n) { n };\nINT f(INT n) { adcb(n) };\n"),
    ("", "INT abcd(INT n) { n };\nINT f(INT n) { ABcd(n) };\n"),
    ("", "INT abcd(INT n) { n };\nINT f(INT n) { abcD(n) };\n"),
    ("Names of one byte; a name of 64 bytes and one of 63.", "INT f(INT n) { m };\n"),
    ("", "INT " + "a" * 64 + "(INT n) { n };\nINT f(INT n) { " + "a" * 63 + "(n) };\n"),
    ("Several near names, of which some are no function; more than eight, of which the first are tried.", """INT ab(INT n) { n };
INT ac(INT n) { n };
INT f(INT ad) { ae(ad) };
INT af(INT n) { n };
"""),
    ("", "".join("INT a%s(INT n) { n };\n" % c for c in "bcdefghijk") + "INT f(INT n) { aa(n) };\n"),
    ("", "INT f(" + ", ".join("INT a" + c for c in "bcdefghij") + ") { 1 };\nINT ak(INT n) { n };\nINT g(INT n) { aa(n) };\n"),
    ("An unknown name behind the one that is told: the mend need not know it.", """INT abc(INT n) { n };
INT f(INT n) { abd(n) + g(n) + abd(n) };
"""),
    ("A keyword, a name in a comment and one in a string are no names.", """/* abc */ INT g() { with ("abc") ( "adc" : 1, default : 2 ) };
INT f(INT n) { abd(n) };
"""),
    ("", "INT f(INT n) { lis };\n"),
    ("", "INT f(INT STRlon) { STRlen(\"\") + STRlan(\"\") };\n"),
    ("What is declared under the name: more than eight things.", "".join("INT g%d(INT v) { v };\n" % k for k in range(9)) + "INT f() { v };\n"),
    ("A lexeme, a nonterminal, a local; an entry of none.", """N : < "n" >;
x { synthesized INT v; };
x : X { local INT k; k = 1; $$.v = 1; };
E { synthesized x t; };
E ::= (N) { X() };
k ~ E.t;
"""),
    ("", """N : < "n" >;
E { synthesized x t; };
E ::= (N) { X() };
x : V { x$2.E = N; };
"""),
    ("", """E { synthesized x t; };
E ::= ('e') { X() };
N f(INT n) { E(n) };
"""),
    ("An occurrence of a number that is not there.", "x { synthesized INT v; };\nr : R { x$3.v = 1; };\n"),
    ("A phylum of an enclosing node, and its attribute.", "x { synthesized INT v; };\nx : X { $$.v = {rr.v}; };\n"),
    ("", "x { synthesized INT v; };\nr { synthesized INT vv; };\nx : X { $$.v = {r.v}; };\n"),
    ("Second definitions. Of a phylum by a lexeme and by a nonterminal, of an operator by a function.", 'x : < "n" >;\n'),
    ("", "x ::= ('x') { X() };\n"),
    ("", 'N : < "n" >;\nN : < "m" >;\n'),
    ("", "E ::= ('x') { X() };\nE ::= ('y') { X() };\nE : F();\n"),
    ("", "INT W(INT n) { n };\n"),
    ("", "y : Z() | W(INT);\nx : Y();\n"),
    ("", "INT f() { 1 };\nSTR f() { \"\" };\n"),
    ("What is there before each text.", "STR : S();\n"),
    ("", "STR ::= ('s') { X() };\n"),
    ("", 'INT : < "n" >;\n'),
    ("", "x : STRlen(INT);\n"),
    ("", "INT INTtoSTR(INT n) { n };\n"),
    ("Attributes and locals of one owner; the same names of another are no second ones.", """y { synthesized INT v; };
x { synthesized INT w; synthesized INT v; };
x { inherited STR v; };
"""),
    ("", "x : X { local INT k; local INT k; };\n"),
    ("", "x : X { local INT k; };\nx : W { local INT k; };\nx : V { local INT j; };\nx : X { local INT k; };\n"),
    ("A list twice, schemes twice, in a view too, literals twice, a phylum of one reference twice.", "optional l;\n"),
    ("", "x : X [ @ : ];\ny : Y [ @ : ^ ];\nx : X [ @ : \"a\" ];\n"),
    ("", "x : X [ @ : ];\nx : X in v [ @ : ];\nx : X in w [ @ : ];\nx : X in v [ @ : ];\n"),
    ("", "left '+' '-';\nleft '*';\nright '-';\n"),
    ("", "x { synthesized INT v; };\nx : X { $$.v = {r.v, l.v, r.v}; };\n"),
    ("Signatures. Of an operator in an expression and in a pattern, of one without arguments.", "x f() { V(X()) };\n"),
    ("", "INT f(x a) { with (a) ( V(b) : 1, default : 2 ) };\n"),
    ("", "x f() { X(1) };\n"),
    ("Of functions and builtins.", "INT f(INT n, x a, STR s) { f(n) };\n"),
    ("", "INT f() { f(1) };\n"),
    ("", 'INT f() { STRtoINT("1", "2") };\n'),
    ("", "STR f() { INTtoSTR() };\n"),
    ("", 'INT f() { STRlen("", "") };\n'),
    ("Of an operator whose scheme does not fit it.", "r : R [ @ : @ @ ];\nx : X [ @ : ]; x : W [ @ : ^ ]; x : V [ @ : @ @ ];\n"
     "y : Y [ @ : ^ ]; l : Nil [ @ : ]; l : Pair [ @ : @ @ ];\n"),
)

TWICE = (
    ("A second equation of the left side, of an argument, which is named in two ways, of a local; in another declaration.",
     "x : X { $$.v = 1;\n  $$.v = 2; };\nx : W { $$.v = 1; };\nx : V { $$.v = 1; };\n"),
    ("", "x : X { $$.v = 1; }; x : W { $$.v = 1; };\nx : V { x$1.v = 1; };\nx : V { $$.v = 2; };\n"),
    ("", "x : X { local INT k; k = 1;\n$$.v = 1;\nk = 2; };\nx : W { $$.v = 1; }; x : V { $$.v = 1; };\n"),
    ("", "x : X { $$.v = 1; };\nx : W { $$.v = 1; };\nx : X { $$.v = 2; };\nx : W { $$.v = 3; };\nx : V { $$.v = 1; };\n"),
    ("", "x : X { $$.v = 1; }; x : W { $$.v = 1; }; x : V { $$.v = 1; };\ny { inherited INT i; };\n"
     "r : R { y.i = 1;\ny$1.i = 2; };\n"),
    ("A third one.", "x : X { $$.v = 1;\n$$.v = 2;\n$$.v = 3; };\nx : W { $$.v = 1; }; x : V { $$.v = 1; };\n"),
)

ENTRIES = (
    ("A second entry.", "X { synthesized x t; };\nX ::= ('x') { X() };\nx ~ X.t;\nY { synthesized x t; };\nY ::= ('y') { X() };\nx ~ Y.t;\nx ~ X.t;\n"),
)

BARE = (
    ("Enclosing nodes. A chain past the one that is named.", """root r; r : R(x); x : X(y) | Z(z); y : Y(); z : Q(y);
z { synthesized INT n; }; y { synthesized INT m; };
z : Q { $$.n = 1; }; y : Y { $$.m = {z.n}; };
"""),
    ("At the root itself.", "root r; r : S() | R(r);\nr { synthesized INT n; };\nr : R { $$.n = 1; }; r : S { $$.n = {r.n}; };\n"),
    ("The shortest of several chains, the first of two that are as short; a phylum that is below itself.", """root r; r : R(a b) | R2(c);
a : A2() | A(a d); b : B(d) | B2(e); c : C(d); d : D(e); e : E();
c { synthesized INT n; }; e { synthesized INT m; };
c : C { $$.n = 1; }; e : E { $$.m = {c.n}; };
"""),
    ("", """root r; r : R(a b);
a : A(d); b : B(d); d : D(c e) | D2(); c : C(e); e : E();
c { synthesized INT n; }; e { synthesized INT m; };
c : C { $$.n = 1; }; e : E { $$.m = {c.n}; };
"""),
    ("The second reference is the first without; two phyla are named.", """root r; r : R(a b); a : A(e) | A2(); b : B(e) | B2(f); e : E(); f : F(e);
a { synthesized INT n; }; b { synthesized INT n; }; e { synthesized INT m; synthesized INT k; };
a : A { $$.n = 1; }; a : A2 { $$.n = 1; }; b : B { $$.n = 1; }; b : B2 { $$.n = 2; };
e : E { $$.m = {a.n, b.n}; $$.k = 1 + {a.n}; };
"""),
)


def smallest():
    """The smallest text of each fault that a text of the language's description has."""
    said = SPECIFICATIONS.read_text(encoding="utf-8")
    faults = said[said.index("Below each fault has a smallest text"):].split("\n### ")[1:]
    for fault in faults:
        found = re.search("```ssl\\n(.*?)```", fault, re.DOTALL)
        if found:
            yield found.group(1)

SIGNS = b";)}({"


def explained(program, data, *words):
    with tempfile.TemporaryDirectory() as folder:
        (Path(folder) / "s").write_bytes(data)
        done = subprocess.run([program, "s", *words], cwd=folder, stdout=subprocess.PIPE, check=True and False)
    return done.returncode, done.stdout


def add(table):
    def told(note, data, *words, broken=None):
        """Adds the case of this text; with a broken put the bytes that it writes before it fails."""
        data = data.encode() if isinstance(data, str) else data
        status, said = explained(table.program, data, *words)
        assert status == 4, (status, data)
        if broken is not None:
            status, said = 6, said[:broken]
        case = [f"// {it}\n" for it in note.strip().split("\n")] + ["\n"] if note else []
        case.append(f"explain {' '.join(['s', *words])}\nfile s\n{table.content(data)}")
        case += [f"put 1 {broken}\n"] if broken is not None else []
        case.append(f"gives {status} 1 0\n{text(said)}")
        table.blocks.append("".join(case))
        table.cases += 1

    def other(words, status, said, call=""):
        table.blocks.append(f"explain{''.join(' ' + word for word in words)}\n{call}gives {status} {int(status == 3)} 0\n{text(said)}")
        table.cases += 1

    told("A `;` is left out: what follows belongs to the declaration.", 'r : R [ @ : "a" ]\nINT f(INT n) { n };\n')
    told("A token too many, one in place of another, and none that mends it.", "exp : Add(exp, exp);\n")
    told("", "exp { synthesized env in; };\n")
    told("", "r : R { $$.n = n = m ? 1 : 2; };\n")
    told("", "Ty ::= 'int' { 1 };\n")
    told("Several pieces mend it, and more than eight may stand there.", "INT f(INT n) { n + };\n")
    told("", "r : R { $$.n = 1 2; };\n")
    told("", "INT f(INT n) { g(n 1 1 1) };\n")
    told("The text ends too early: with nothing behind a token, with blanks, with a comment.", "root r")
    told("", "root r \n\n")
    told("", "root r /* r */\n")
    told("One token alone, and only a `;`.", ";")
    told("", "r")
    told("", "root")
    told("A bracket too many, and one that is left out and takes what follows with it.", "root r;\nr : R(r));\nroot r;\n")
    told("", "r : R(r;\nroot r;\nroot r;\n")
    told("Two slips: nothing mends both.", "r : R(r;\nroot r;\nroot ;\n")
    told("A later declaration.", "root r;\nr : R();\nr : R [ : ];\n")
    told("Bytes that are no signs of ASCII, a tab and a carriage return stand as blanks.", b"/*\xc3\xa9*/\troot\r r r;\n")
    told("A line is cut 60 bytes before and behind its place.", "/*" + "-" * 70 + "*/ root r r; /*" + "-" * 70 + "*/\n")
    told("The place stands 60 bytes behind the line's beginning, and 61.", " " * 60 + "root r r;")
    told("", " " * 61 + "root r r;")
    told("The line goes on for 60 bytes, and for 61.", "root " + "r" * 60 + " 1;")
    told("", "root 1" + " " * 59)
    told("", "root 1" + " " * 60)
    long = 65536 - len("root r;r;")
    told("A declaration of 65,536 bytes is tried, one of a byte more is not.", Pieces((b"root r", 1), (b" ", long + 1), (b"r;", 1)))
    told("", Pieces((b"root r", 1), (b" ", long + 2), (b"r;", 1)))
    told("A put that fails.", "root r r;", broken=0)
    told("", "root r r;", broken=20)
    told("One that is refused has no plan.", "root r r;", "plan")
    told("", "root r; r : R(); r : R [ @ : s ];\n", "plan")
    for words in ([], ["a", "b"], ["a", "Plan"], ["a", "plans"], ["plan", "a"], ["a", "plan", "plan"]):
        other(words, 2, b"usage: ssled_explain SPEC [plan]\n")
    for words in (["none"], ["none", "plan"], ["plan"]):
        other(words, 3, b"read fault specification\n")
    seen = set()
    rng = random.Random(1)
    data = SUMS.strip().encode() + b"\n"
    while len(seen) < 40:
        at = rng.randrange(len(data))
        if data[at] in SIGNS and at not in seen:
            seen.add(at)
            if explained(table.program, data[:at] + data[at + 1:])[0] == 4:
                told("" if len(seen) > 1 else "Signs that are left out.", data[:at] + data[at + 1:])
    for number, data in enumerate(smallest()):
        told("" if number else "The smallest text of each fault.", data)
    told("A text that is too long, and a place behind a tab, a long line and a byte that is no sign.", Pieces((b" ", 1048577)))
    told("", b"/*" + b"-" * 4000 + b"*/\troot r;\t/*\x80*/ r : R();\tr : R();\n")
    for note, rest in MISMATCHES:
        told("Mismatches. " + note, ROOTED + rest)
    for note, rest in LACKS:
        told("Equations. " + note, ROOTED + rest)
    told("", SUMS.replace("exp : Sum { $$.v = exp$2.v + exp$3.v; };\n", "").replace("exp : Null { $$.v = 0; };\n", ""))
    for note, whole in CYCLES:
        told("Cycles. " + note, whole)
    for note, whole in GRAMMARS:
        told("Grammars. " + note, whole)
    for note, rest in NAMES:
        told("Names. " + note if note else "", ROOTED + rest)
    for note, whole in BARE:
        told(note, whole)
    for note, rest in TWICE:
        told("Equations of the same. " + note if note else "", ROOTED + "x { synthesized INT v; };\n" + rest)
    for note, rest in ENTRIES:
        told(note, ROOTED + rest)
