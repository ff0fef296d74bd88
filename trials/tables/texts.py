"""Texts that are typed in: values, the place at which one stops, faults of results, and long texts."""
from frame import SUMS_ENTRY

ABOUT = """
Texts that are typed in at an entry of each kind of phylum: their values, the first byte that is not allowed, the first
place without a token, the first token that cannot stand, faults of results, and texts of some 20 KB; by `text`, and by
`type` and `enter` with the point moved by what is refused. Made by `trials/tables/make.py PROGRAM texts`, where PROGRAM
was model/ssled.
"""

# Sums of numbers. Of the phyla exp alone has an entry.
SUMS = r"""
root calc;
calc : CalcTop(exp);
exp : Null() | Sum(exp exp) | Const(INT) | Digits(NUM);
calc : CalcTop [ @ : @ ] [ @ ::= "= " @ ];
exp : Null [ @ ::= "<exp>" ];
exp : Sum [ @ ::= "(" @ " + " @ ")" ];
exp : Const [ @ ::= @ ];
exp : Digits [ @ ::= "#" @ ];
transform exp on "digits" * : Digits([NUM]);
NUM : < "[0-9]+" >;
WHITESPACE : < "[ \n]+" >;
""" + SUMS_ENTRY

# Programs of statements: the entry of stmt comes first, and that of stmts, which derives no token too, second.
STATEMENTS = r"""
root prog;
list stmts;
stmts : NoStmts() | Stmts(stmt stmts);
prog : Prog(stmts);
stmt : Empty() | Decl(ID INT) | Print(ID);
ID : < "[a-z][a-z0-9]*" >;
NUM : < "[0-9]+" >;
WHITESPACE : < "[ \n]+" >;
prog : Prog [ @ : @ ] [ @ ::= "begin%t%n" @ "%b%nend" ];
stmts : NoStmts [ @ ::= ];
stmts : Stmts [ @ ::= @ [ "%n" ] @ ];
stmt : Empty [ @ ::= "<stmt>" ];
stmt : Decl [ @ ::= "let " ^ " = " ^ ];
stmt : Print [ @ ::= "print " ^ ];
S { synthesized stmt t; };
L { synthesized stmts t; };
S ::= ('let' ID '=' NUM) { Decl(ID.value, STRtoINT(NUM.value)) } | ('print' ID) { Print(ID.value) };
L ::= () { NoStmts() } | (S ';' L) { S.t :: L$2.t };
stmt ~ S.t;
stmts ~ L.t;
"""

# Notes: names before numbers in base 16, of which some look like names; functions with each kind of fault; results in
# another order than they are written, results that are not named, one production in two brackets, lists that grow to the
# right, and entries for a lexeme, texts, numbers and truth values.
NOTES = r"""
root page;
page : Page(note);
list notes;
notes : NoNotes() | Notes(note notes);
note : Null() | Num(INT) | Str(STR) | Var(NAME) | Hex(HEX) | Truth(BOOL) | Pair(note note) | Block(notes);
NAME : < "[a-z]+" >;
NUMBER : < "[0-9]+" >;
HEX : < "[0-9a-f]+" >;
WHITESPACE : < "[ \n]+" >;
page : Page [ @ : @ ];
notes : NoNotes [ @ ::= ];
notes : Notes [ @ ::= @ [ "; " ] @ ];
note : Null [ @ ::= "?" ];
note : Num [ @ ::= "#" @ ];
note : Str [ @ ::= "'" @ "'" ];
note : Var [ @ ::= @ ];
note : Hex [ @ ::= "x" @ ];
note : Truth [ @ ::= @ "!" ];
note : Pair [ @ ::= "(" @ " - " @ ")" ];
note : Block [ @ ::= "{" @ "}" ];
INT deep(INT n) { deep(n) };
INT long(INT n) { n == 0 ? 1 : long(n - 1) + long(n - 1) };
INT one(INT n) { with (n) ( 1 : 10 ) };
STR large(INT n) { n == 0 ? "a" : let s = large(n - 1) in (s # s) };
transform note on "hex" * : Hex([HEX]);
transform note on "truth" * : Truth(false);
E { synthesized note t; };
T { synthesized note t; };
A { synthesized NAME t; };
L { synthesized notes t; };
N { synthesized INT n; };
B { synthesized BOOL b; };
E ::= (E '-' T) { Pair(T.t, E$2.t) } | (T) { T.t };
T ::= (NAME) { Var(NAME.value) } | (HEX) { Str(HEX.value) } | (N) { Num(N.n) } | ('{' L '}') { Block(L.t) }
    | ('skip' T) { Null() } | ('!') { <note> } | ('?') { Block([notes]) } | ('large' N) { Str(large(N.n)) }
    | ('<' A '>') { Var(A.t) } | ('<=' A '=>') { Str(A.t) } | ('in' NAME T NAME) { Pair(Var(NAME$2.value), T$2.t) };
A ::= (NAME '@') { NAME.value };
L ::= () { NoNotes() } | (L E ';') { E.t :: L$2.t };
N ::= (NUMBER) { STRtoINT(NUMBER.value) } | ('deep') { deep(1) } | ('long') { long(20) } | ('one' N) { one(N$2.n) }
    | ('half' N N) { N$2.n / N$3.n } | ('more' N) { N$2.n + 9223372036854775807 };
B ::= (N '==' N) { N$1.n == N$2.n };
note ~ E.t;
notes ~ L.t;
NAME ~ A.t;
INT ~ N.n;
BOOL ~ B.b;
STR ~ A.t;
"""

# Sums that are read; where texts end too early, and where a token cannot stand, which a number that is too large does not
# hide; bytes that no text holds, which come before all else, and bytes that begin no token, which come before tokens.
SUM = ("4", "0", "4 + 1", "1+2+3", "1+(2+3)", "((7))\n", "9223372036854775807+1", "0009223372036854775807")
NO_SUM = ("4+", " 4 + ", "", " ", " \n ", "(4", "4 5", "4)", "()", "+ +", "9223372036854775808 +", "9223372036854775808 5",
          "(1+2) +", "(1+2) 3")
FAULTS = ("9223372036854775808", "1 + (9223372036854775808)", "\x80", "4+\x80", "4\t", "a\x80", "+\x0b", "4\x7f", "4\x00", "\xff4",
          "~", "4+a", "4 + + a", "1\n+\n~", "\\", "4+\"")

STMT = ("let a = 7", "print b", "print lets", "let let1=01", "", "print b;", "print let", "print A", "let a=1b",
        "let a=9223372036854775808")
STMTS = ("", " \n", "let a = 5; print a; print b;", "print b", ";", "print a;;", "print a; let", "let a=9223372036854775808;print b;",
         "let a=9223372036854775808;print b", "print a; \x1f", "print\na\n;\n")

# The longest token, and of several of one length a literal before a lexeme and the first lexeme; completing terms and
# placeholders; where a note stops, also where a production was reduced before a token that stands behind it elsewhere.
NOTE = ("a", "1", "1a", "a1", "skipper", "a-b-c", "!", "?", "{}", "{a;1;}", "in a b c", "in a in b c d e", "<a@>", "<=a@=>")
NO_NOTE = ("abz1", "{a;1}", "{a;1;;", "<a@=>", "<=a@>", "<a", "< =a@=>", "skip", "in a b", "deep {", "")

# Each fault, the first of two, and one that is not named.
NOTE_RESULTS = ("large 3", "large 15", "large 16", "large 17", "skip large 17", "skip deep", "skip deep - half 1 0")
NOTES_ROWS = ("", "a;b;", "a;deep;b;", "a", "a;-")
INT = ("12", "12 3", "a", "", "deep", "long", "one 1", "one 2", "half 7 2", "half 7 0", "more 0", "more 1", "99999999999999999999",
       "half one 2 deep")
BOOL = ("1==01", "1==2", "1=2", "1", "half 1 0 == deep", "deep == half 1 0")
STR = ("a @", "a", "b@\n", "@", "b@@")
NAME = ("a@", "ab @ ", "a", "skip@", "A@")


def quoted(text):
    return '"' + text.replace("\\", "\\\\").replace('"', '\\"').replace("\n", "\\n") + '"'


def texts(*rows):
    return [f"text {quoted(row)}" for row in rows]


def typed(text, *more):
    """Types a text in two pieces and enters it, and does more after what has refused it."""
    half = len(text) // 2
    return [f"type {quoted(text[:half])}", f"type {quoted(text[half:])}", "enter", *more]


# What is refused moves the point: what is typed or erased next shows where it is.
TYPED_SUMS = ["new t", 'type "4"', "enter", "alternate", 'type "4"', "next"] + [
    *typed("4 + 1"),
    *typed("4+", 'type "1"', "enter"),
    *typed(" 4 + ", 'type "(5"', "enter", 'type ")"', "enter"),
    *typed("", 'type "6"', "enter"),
    *typed(" \n ", "erase", "enter", 'type "7"', "enter"),
    *typed("4 5", 'type "+"', "enter"),
    *typed("4)", 'type "4"', "erase", "erase", "enter", 'type "("', "enter", 'type "8"', "enter"),
    *typed("()", 'type "1"', "enter"),
    *typed("+ +", 'type "1"', "enter", 'type "2"', "enter", 'type "3"', "enter"),
    *typed("9223372036854775808", "erase", "enter"),
    *typed("1 + (9223372036854775808)", "enter", "erase", "enter", 'type ")"', "erase", "erase", "enter", 'type ")"', "enter"),
    *typed("9223372036854775808 5", 'type "+"', "enter", "abandon"),
    *typed("4+a", "erase", "enter", 'type "\\\\"', "enter", "abandon"),
    *typed("1\n+\n~", 'type "1"', "enter", "erase", "enter", "abandon"),
    'type "\x80"', "enter", 'type "4+"', 'type "5\x80"', "show", 'type "\t"', 'type "5\x7f\x80"', 'type "5"', "enter",
    'type "a"', "enter", 'type "1\x01"', 'type "1"', "enter", 'type "2"', "abandon",
    "save typed",
]

TYPED_STATEMENTS = ["new t", "next"] + [
    *typed("print a;;", "erase", "enter"),
    *typed("let a = 5; print a; print b", 'type ";"', "enter"),
    "alternate", "up", "alternate", "next", "next", "sibling",
    *typed("print b;", 'type "c"', "enter", "abandon"),
    *typed("let a\n= ", 'type "12"', "enter"),
    *typed("print let", 'type "1"', "enter", 'type "x"', "enter", "abandon"),
    *typed("let a=1b", "erase", "enter", "abandon"),
    *typed("let a=9223372036854775808", "erase", "enter"),
    *typed("print A", 'type "a"', "enter", "abandon"),
    "sibling",
    *typed("", 'type "print"', "enter", 'type " print1"', "enter"),
    "up",
    *typed(""),
    *typed("print a; let", 'type "b"', "enter", "abandon"),
    *typed("let a=9223372036854775808;print b;", "enter", "abandon"),
    *typed("let a=9223372036854775808;print b", 'type ";"', "enter", "abandon"),
    'type "print a; \x1f"', 'type "print a; "', "enter",
    "save typed",
]

TYPED_NOTES = ["new t", 'type "a"', "next"] + [
    *typed("a-b-c"),
    *typed("abz1", 'type "-"', "enter"),
    *typed("{a;1}", 'type ";"', "enter"),
    *typed("{a;1;;", "erase", "enter", "abandon"),
    *typed("<a@=>", "erase", "enter", 'type "@"', "enter", "abandon"),
    *typed("< =a@=>", "erase", "enter", "abandon"),
    *typed("in a b", 'type "b"', "enter", 'type " c"', "enter"),
    *typed("skip deep - half 1 0", "erase", 'type "7"', "enter"),
    *typed("large 17", "erase", "erase", 'type "2"', "enter"),
    "next",
    *typed("a@"),
    "up",
    *typed("{}"),
    "next",
    *typed("a;deep;b;", "erase", "enter", 'type ";"', "enter", "abandon"),
    *typed("a;1a;a1;"),
    "next",
    *typed("1"),
    "next",
    *typed("deep", "enter", 'type "1"', "enter", "abandon"),
    *typed("long", "abandon"),
    *typed("one 2", "erase", 'type "1"', "enter"),
    *typed("half 7 0", "enter", 'type "7"', "enter"),
    *typed("more 1", "erase", 'type "0"', "enter"),
    *typed("12 3", "erase", "enter"),
    "up",
    "sibling",
    "next",
    *typed("a", 'type "@"', "enter"),
    "up",
    "sibling",
    "next",
    *typed("ab skip", "erase", 'type "@"', "enter", "abandon"),
    *typed("A@", 'type "b"', "enter", "abandon"),
    *typed("c @"),
    "up",
    'do "truth"',
    "next",
    *typed("1=2", "erase", 'type "2="', "enter", "abandon"),
    *typed("1", 'type "==01"', "enter"),
    *typed("deep == half 1 0", "abandon"),
    "save typed",
]


def at_sums():
    return ["new s", *texts("4"), "alternate", *texts("4", "\x80", "~"), "next", *texts(*SUM, *NO_SUM, *FAULTS), *texts("4+1"), "next",
            "next", *texts("4"), "up", 'do "digits"', "next", *texts("4"), "save sums"]


def at_statements():
    return ["new s", *texts(""), "next", "next", *texts(*STMT), "up", *texts(*STMTS), "up", "alternate", *texts("", "\x80"), "next",
            *texts("let a=1;print a;let b=2;"), "next", "sibling", *texts("print lets"), "save statements"]


def at_notes():
    return ["new n", *texts("a"), "next", *texts(*NOTE, *NO_NOTE, *NOTE_RESULTS), *texts("{}"), "next", *texts(*NOTES_ROWS), "up",
            *texts("{?;in a b c;}"), "save notes"]


def at_leaves():
    return ["new n", "next", *texts("1"), "next", *texts(*INT), "up", *texts("a1"), "next", *texts(*STR), "up", *texts("a"), "next",
            *texts(*NAME), "up", 'do "truth"', "next", *texts(*BOOL), "up", 'do "hex"', "next", *texts("1"), "save leaves"]


def long_sums():
    """With the top 1,021 sums are as deep as a term may be, and 1,022 as deep as a value may be."""
    rows = ["1" + "+1" * count for count in (1_021, 1_022, 1_023, 9_999)]
    rows += ["1" + "+1" * 9_999 + "+", "1" + "+1" * 5_000 + "~" + "+1" * 4_999, "1" + "+1" * 500 + "\x80" + "+1~" * 100]
    rows += ["(" * 10_000 + "7" + ")" * 10_000, "(" * 10_000 + "7" + ")" * 9_999, "(" * 10_000 + "8" + ")" * 10_001]
    rows += [" " * 20_000, "0" * 20_000 + "7", "9" * 20_000, "0 " * 10_000]
    return ["new s", "next", *texts(rows[0]), "save sums", *texts(*rows[1:])]


def long_statements():
    """The same of a list: three levels to a statement, with one for the end and one for the top."""
    rows = ["print a;" * count for count in (1_021, 1_022, 1_023, 2_500)]
    rows += ["print a;" * 2_500 + "print", "let a=1;print a;" * 500, " \n" * 10_000, "print " + "a" * 20_000 + ";",
             "print a;" * 500 + "print\n\n"]
    return ["new s", "next", *texts(rows[0]), "save statements", *texts(*rows[1:])]


def long_notes():
    rows = ["{" + "a;" * count + "}" for count in (1_020, 1_021, 1_022, 10_000)]
    rows += ["skip " * 4_000 + "a", "skip " * 4_000, "in a " * 1_020 + "b" + " c" * 1_020, "in a " * 1_021 + "b" + " c" * 1_021,
             "in a " * 1_022 + "b" + " c" * 1_022, "in a " * 2_000 + "b" + " c" * 1_999]
    return ["new n", "next", *texts(rows[0]), *texts(*rows[1:]), "save notes"]


def long_typed():
    """Long texts in pieces, which are shown while they are typed."""
    pieces = ["(" * 10_000, "7", ")" * 9_999]
    return ["new s", "next", *(f"type {quoted(piece)}" for piece in pieces), "enter", 'type ")"', "enter",
            *typed("1" + "+1" * 5_000 + "~" + "+1" * 4_999, "erase", "enter", "abandon"),
            *typed("1" + "+1" * 9_999 + "+", 'type "2"', "enter", "abandon"),
            *typed("1" + "+1" * 1_021), *typed("1" + "+1" * 1_022, "erase", "erase", "enter"), "save-text typed"]


def add(table):
    for name, language, scripts in (
        ("sums", SUMS, (("", at_sums()), (" typed", TYPED_SUMS))),
        ("statements", STATEMENTS, (("", at_statements()), (" typed", TYPED_STATEMENTS))),
        ("notes", NOTES, (("", at_notes()), (" at leaves", at_leaves()), (" typed", TYPED_NOTES))),
    ):
        table.language(name, language)
        for how, script in scripts:
            table.run(f"Texts of {name}{how}.", name, script, (40, 4))
    table.run("Long sums.", "sums", long_sums(), (40, 1))
    table.run("Long sums, typed.", "sums", long_typed(), (40, 1))
    table.run("Long programs of statements.", "statements", long_statements(), (40, 1))
    table.run("Long notes.", "notes", long_notes(), (40, 1))
