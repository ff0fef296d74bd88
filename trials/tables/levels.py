"""Precedence lines: how they group texts, and what is told of grammars with them."""
from frame import SUMS_TERMS

ABOUT = """
Precedence lines: how they group typed-in texts, what is refused in them, and the conflicts of grammars with levels. Made by
`trials/tables/make.py PROGRAM levels`, where PROGRAM was model/ssled.
"""

# A language of sums up to the attribute of E, whose typed-in form is still to come.
HEAD = (SUMS_TERMS + "E { synthesized exp t; };").strip().split("\n")
ENTRY = "exp ~ E.t;"
SUM = "{ Sum(E$2.t, E$3.t) }"
TURNED = "{ Sum(E$3.t, E$2.t) }"
NUMBER = "(NUM) { Const(STRtoINT(NUM.value)) }"


def infix(*literals):
    """The alternatives of E with these literals between, and a number."""
    return [f"(E '{literal}' E) {SUM}" for literal in literals]


def rule(*alternatives, name="E"):
    return f"{name} ::= {' | '.join(alternatives)};"


PLAIN = rule(*infix("+", "*"), NUMBER)
CALCULATOR = rule(*infix("+", "-"), f"(E '*' E) {TURNED}", "('-' E) { E$2.t }", NUMBER, "('(' E ')') { E$2.t }")
FACTORS = [
    "left '+';",
    "E ::= (E '+' F) { Sum(E$2.t, F.t) } | (F) { F.t };",
    "F { synthesized exp t; };",
    "F ::= (F '*' F) { Sum(F$2.t, F$3.t) } | (NUM) { Const(STRtoINT(NUM.value)) };",
]

CHECKED = [
    ("A literal twice in one line, in two, behind the productions.", ["left '+' '*' '+';", PLAIN]),
    ("", [PLAIN, "left '+';", "left '+';"]),
    ("It is told before an unknown name.", ["left '+';", f"E ::= (E '+' Q) {SUM} | {NUMBER};", "right '+';"]),
    ("Lines that are none.", ["foo '+';", PLAIN]),
    ("", ["left ;", PLAIN]),
    ("", ["left '+' x;", PLAIN]),
    ("", ["local '+';", PLAIN]),
    ("", ["left '+'", PLAIN]),
    ("", ["left '+', '-';", PLAIN]),
    ("The words are names elsewhere.", ["left '+' '*';", "left : Lft();", 'left : Lft [ @ : "l" ];', PLAIN]),
    ("A literal that no production uses.", ["left 'zz';", "left '+' '*';", PLAIN]),
    ("A nonterminal without a sentence is told by its written name.", ["left '+';", rule(*infix("+"))]),
    ("", ["left '+';", rule(*infix("+"), "(F) { F.t }", NUMBER), "F { synthesized exp t; };", "F ::= (F '+' F) { Sum(F$2.t, F$3.t) };"]),
    ("Conflicts, whose symbols have levels.", ["left '+';", rule(*infix("+", "-"), NUMBER)]),
    ("", ["left '+';", "left '*';", "right '^';", rule(*infix("+", "*", "^", "?"), NUMBER)]),
    ("", ["left '+';", rule(*infix("+"), "('let' NUM 'in' E) { E$2.t }", NUMBER)]),
    ("", ["left '+';", rule(*infix("+", "+"), NUMBER)]),
    ("A nonterminal is spread where a production of its own is infix.", FACTORS + ["left '*';"]),
    ("", FACTORS),
    ("No infix literal is grouped without a line.", [PLAIN]),
    ("Prefix productions need no line.", ["nonassoc '<' '>';", rule(*infix("<", ">"), "('<' E) { E$2.t }", NUMBER)]),
    ("Sixty lines.", [f"left 'o{i}';" for i in range(60)] + [rule(*infix(*(f"o{i}" for i in range(60))), NUMBER)]),
]
TEXTS = ["1+2*3", "1*2+3", "1-2+3", "-1*2", "1+-2*3", "1*(2+3)*4", "1+", "1*2*"]


def language(lines):
    return "\n".join(HEAD + lines + [ENTRY])


def texts(*typed):
    return ["new a", "next"] + [f'text "{text}"' for text in typed]


def add(table):
    for note, lines in CHECKED:
        table.check(language(lines), note)
    table.check(language(["left '+';", "E ::= (E '+' T) { Sum(E$2.t, T.t) } | (T) { T.t };"]), "A nonterminal that is not there.")
    table.language("calculator", language(["left '+' '-';", "left '*';", CALCULATOR]))
    table.run("Two levels, a prefix, parentheses.", "calculator", texts(*TEXTS), (40, 3))
    table.language("behind", language([CALCULATOR, "left '+' '-';", "left '*';"]))
    table.run("The lines stand behind the productions.", "behind", texts(*TEXTS), (40, 3))
    table.language("turned", language(["left '*';", "left '+' '-';", CALCULATOR]))
    table.run("The lines in the other order.", "turned", texts(*TEXTS), (40, 3))
    table.language("three", language(["left '+';", "right '^';", "nonassoc '<';", rule(*infix("+", "^", "<"), NUMBER)]))
    table.run("A line of each kind; a text in two pieces.", "three",
              texts("1+2+3", "1+2^3^4", "1^2+3", "1<2<3", "1<2+3<4", "1<2^3<4") + ['type "1+2+"', "enter", 'type "3"', "enter"], (60, 3))
    table.language("nonassoc", language(["nonassoc '<' '>';", rule(*infix("<", ">"), "('<' E) { E$2.t }", NUMBER)]))
    table.run("No two of one line beside each other.", "nonassoc", texts("1<2>3", "1<2", "<1<2", "<<1", "1<<2"), (40, 3))
    table.language("unused", language(["left 'zz';", "left '+' '*';", PLAIN]))
    table.run("A literal that no production uses is none.", "unused", texts("1 zz", "1+2*3", "1+2+3"), (40, 3))
