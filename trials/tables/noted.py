"""Notes on accepted specifications, and their plans."""
import subprocess
import tempfile
from pathlib import Path

from frame import SUMS, SUMS_TERMS, text

ABOUT = """
What is told of accepted specifications: a note for each part that nothing uses and for each entry that is missed, and the plan by which
they are evaluated and parsed. Made by `trials/tables/make.py PROGRAM noted`, where PROGRAM was model/ssled_explain.
"""

EXAMPLES = Path(__file__).resolve().parents[2] / "examples"

# The language to which lines are added for one note each.
PLAIN = """root r;
r : R(e);
e : N(INT) | A(e e);
e { synthesized INT v; };
e : N { $$.v = INT.value; };
e : A { $$.v = e$2.v + e$3.v; };
r : R [ @ : @ " = " e.v ];
e : N [ @ ::= ^ ];
e : A [ @ ::= @ "+" @ ];
NUM : < "[0-9]+" >;
E { synthesized e t; };
E ::= (E '+' E) { A(E$2.t, E$3.t) } | (NUM) { N(STRtoINT(NUM.value)) };
e ~ E.t;
left '+';
"""

# A language whose phylum x is visited twice.
TWICE = """root r;
r : R(x);
x : X() | Y(x x);
x { synthesized INT s; inherited INT i; inherited INT j; synthesized INT t; };
r : R { x.i = 1; x.j = x.s + 1; };
x : X { $$.s = $$.i; $$.t = $$.j; };
x : Y {
  local INT l;
  x$2.i = $$.i; x$3.i = x$2.s; $$.s = x$3.s; l = $$.j + x$2.s;
  x$2.j = l; x$3.j = x$2.t; $$.t = x$3.t;
};
r : R [ @ : @ " " x.t ];
x : X [ @ : "x" ];
x : Y [ @ : @ @ ];
"""

# A language with an attribute that is handed down, a list, a view, and operators without equations.
HANDED = """root d;
d : D(b s);
list b;
b : Z() | B(s b);
s : S() | T(u);
u : U();
d { synthesized INT depth; };
s { synthesized INT n; };
d : D { $$.depth = 3; };
s : S { $$.n = {d.depth}; };
s : T { $$.n = {d.depth} + 1; };
d : D [ @ : @ @ ];
b : Z [ @ : ];
b : B [ @ : @ [ "," ] @ ];
s : S [ @ : $$.n ];
s : T [ @ : @ $$.n ];
u : U [ @ : "u" ];
u : U in more [ @ : "uu" ];
"""


def add(table):
    def told(note, data, *words, broken=None):
        """Adds the case of this text; with a broken put the bytes that it writes before it fails."""
        data = data.encode() if isinstance(data, str) else data
        with tempfile.TemporaryDirectory() as folder:
            (Path(folder) / "s").write_bytes(data)
            done = subprocess.run([table.program, "s", *words], cwd=folder, stdout=subprocess.PIPE, check=False)
        assert done.returncode == 0, (done.returncode, data)
        status, said = (0, done.stdout) if broken is None else (6, done.stdout[:broken])
        case = [f"// {note}\n\n"] if note else []
        case.append(f"explain {' '.join(['s', *words])}\nfile s\n{table.content(data)}")
        case += [f"put 1 {broken}\n"] if broken is not None else []
        case.append(f"gives {status} 1 0\n{text(said)}")
        table.blocks.append("".join(case))
        table.cases += 1

    def with_lines(note, lines, *words):
        told(note, PLAIN + lines, *words)

    told("Nothing to note.", PLAIN)
    with_lines("A function that only calls itself, two that call each other, and one that is called.",
               "INT f(INT n) { n < 1 ? 0 : f(n - 1) };\nINT g(INT n) { h(n) };\nINT h(INT n) { g(n) };\n")
    told("", PLAIN.replace("e$2.v + e$3.v", "sum(e$2.v, e$3.v)") + "INT sum(INT a, INT b) { a + b };\n")
    told("An attribute that nothing reads, and the same where its own equation reads it.",
         PLAIN.replace("INT v; };", "INT v; synthesized INT w; };").replace("$$.v = INT", "$$.w = 0; $$.v = INT").replace("$$.v = e$2", "$$.w = 1; $$.v = e$2"))
    told("", PLAIN.replace("INT v; };", "INT v; synthesized INT w; };").replace("$$.v = INT", "$$.w = 0; $$.v = INT").replace("$$.v = e$2", "$$.w = e$2.w; $$.v = e$2"))
    told("An inherited one.", PLAIN.replace("INT v; };", "INT v; inherited INT d; };").replace("R(e);", "R(e);\nr : R { e.d = 0; };")
         .replace("$$.v = e$2", "e$2.d = 1; e$3.d = 2; $$.v = e$2"))
    told("A local that nothing reads, one that an equation reads, and one that a scheme shows.",
         PLAIN.replace("e : N {", "e : N {\n  local INT a; local INT b;\n  local STR c; a = 1; b = 2; c = INTtoSTR(b);").replace("[ @ ::= ^ ]", "[ @ ::= ^ c ]"))
    with_lines("Phyla of which nothing is made but their own terms; an operator of no document has a scheme.",
               "u : O() | U(u);\nu : O [ @ : \"o\" ] [ ^ : \"p\" ];\nw : W();\n")
    with_lines("A phylum of values, which a function takes: its scheme is shown in no document.",
               "p : P(INT INT);\np : P [ @ : ^ \",\" ^ ];\nINT f(p x) { with (x) (P(a, b) : a + b) };\n")
    with_lines("A lexeme that nothing uses; WHITESPACE is used.", "ID : < \"[a-z]+\" >;\nWHITESPACE : < \" +\" >;\n")
    with_lines("A nonterminal that is reached from another unreached one, and one that only reaches itself.",
               "X { synthesized e t; };\nX ::= ('x' Y) { Y.t };\nY { synthesized e t; };\nY ::= ('y') { N(1) };\n"
               "Z { synthesized e t; };\nZ ::= ('z' Z) { Z$2.t } | ('y' 'z') { N(2) };\n")
    with_lines("A literal that groups no production, in a line with one that does, and in its own.", "right '*';\nnonassoc '<' '>';\n")
    told("", PLAIN.replace("left '+';", "left '-' '+';"))
    told("An entry that is missed: of the root's argument, of a base phylum that rests, of an element of a list whose list has one.",
         "".join(line + "\n" for line in PLAIN.split("\n")[:-5]))
    told("", PLAIN.replace("e : N [ @ ::= ^ ];", "e : N [ @ ::= @ ];"))
    told("", SUMS.replace("calc : CalcTop(exp);", "calc : CalcTop(exps);\nlist exps;\nexps : None() | More(exp exps);")
         .replace('calc : CalcTop [ @ : @ "%nVALUE = " exp.v ];',
                  'calc : CalcTop [ @ : @ ];\nexps : None [ @ ::= ];\nexps : More [ @ ::= @ [ "%n" ] @ ];')
         .replace("exp ~ E.t;", "L { synthesized exps t; };\nL ::= () { None() } | (E ';' L) { More(E.t, L$2.t) };\nexps ~ L.t;"))
    told("The root rests wherever its schemes begin, and may be typed in.", PLAIN.replace('r : R [ @ :', 'r : R [ ^ ::='))
    told("A place behind a tab, on the text's last line.", PLAIN + "\tINT f() { 1 };")
    lines = PLAIN.replace("left '+';", "left '-' '+';").replace("e : N {", "e : N { local INT a; local INT b; a = 1; b = a; ")
    told("Places on one line and on two, some of them before the last one.", lines.replace("\n", " ") + "INT f() { 1 };")
    told("", lines.replace(";\n", "; ").replace("left", "\nleft") + "INT f() { 1 }; u : U();\nINT g() { 1 };w : W();")
    told("Several kinds, told in the order of kinds.", PLAIN.replace("left '+';", "left '-';").replace("(E '+' E)", "('+' E E)").replace("e ~ E.t;", "") +
         "INT f() { 1 };\nINT g() { 2 };\nu : U();\nw : W();\nw { synthesized INT a; };\nw : W { $$.a = 0; };\n")
    for path in sorted(EXAMPLES.glob("*.ssl")):
        told(f"The language {path.name} of examples/.", path.read_bytes())
    told("Plans: of sums, without and with a form to be typed in.", SUMS_TERMS, "plan")
    told("", SUMS, "plan")
    told("Of the calculator.", (EXAMPLES / "calculator.ssl").read_bytes(), "plan")
    told("Of a phylum that is visited twice.", TWICE, "plan")
    told("Of an attribute that is handed down, a list, and operators without equations.", HANDED, "plan")
    told("Notes stand before the plan.", PLAIN + "INT f() { 1 };\n", "plan")
    told("A put that fails.", PLAIN + "INT f() { 1 };\n", broken=0)
    told("", PLAIN + "INT f() { 1 };\n", "plan", broken=70)
