"""Pages, regions, owners and moves."""

ABOUT = """
Pages: margins, tabs, separators, marks, texts that are being typed, the cut at 1,048,576 cells; regions and owners of
cells; each move at each place of six terms, and goto on each cell of a small page. Made by `trials/tables/make.py PROGRAM
pages`, where PROGRAM was model/ssled.
"""

# Blocks with margins. A list of words has separators, a note is not shown, a rule shows nothing that can be edited.
BLOCKS = """
root page;
list items;
optional list words;
optional side;
page : Page(STR items side);
items : NoItems() | Items(item items);
item : Line(words) | Block(STR items) | Two(item item) | Rule() | Note(STR item);
words : NoWords() | Words(word words);
word : Word(STR) | Number(INT) | Flag(BOOL) | Id(ID);
side : NoSide() | Side(words);
ID : < "[a-z]+" >; NUM : < "[0-9]+" >; STRING : < "'[^']*'" >; WHITESPACE : < " +" >;
page : Page [ @ : @ "%n%t" @ "%b%n" @ "%n-%b-%b%n-" ];
items : NoItems [ @ ::= "%n" ]; items : Items [ @ ::= @ [ "%n" ] @ ];
item : Line [ @ ::= "- " @ ] [ @ : "~" ^ ] [ @ : .. ] [ ^ : "= " @ ];
item : Block [ @ ::= @ " {%t%n" @ "%b%n}" ] [ @ : @ " {" .. "}" ] [ @ : "[%t%t%t" @ "%n%t%n" @ "%b%b%b%b%b]" ];
item : Two [ @ ::= @ " & " @ ] [ @ : ^ "%%" .. ] [ @ : .. @ ] [ ^ : @ "%n& " ^ ];
item : Rule [ ^ : "%n----" ]; item : Note [ @ ::= .. @ ] [ @ : @ "%n\\"" .. "\\"\\n" ];
words : NoWords [ @ ::= ] [ @ ::= "()" ]; words : Words [ @ ::= @ [ "," " " ] @ ] [ @ : "<" @ ">" [ ] @ ];
word : Word [ @ ::= ^ ]; word : Number [ @ ::= "#" @ ]; word : Flag [ ^ : @ ]; word : Id [ @ ::= @ "." ];
side : NoSide [ @ : ]; side : Side [ @ : "side " @ ];
transform item on "rule" i : Rule(); transform item on "two" i : Two(i, i); transform item on "note" i : Note("n\\nm", i);
transform item on "block" i : Block("b", i :: <items>); transform side on "side" NoSide() : <side>;
P { synthesized items t; }; I { synthesized item t; }; L { synthesized words t; }; W { synthesized word t; }; T { synthesized STR t; };
P ::= (I) { I.t :: NoItems() } | (I ';' P) { I.t :: P$2.t };
I ::= ('-' L) { Line(L.t) } | (STRING '{' P '}') { Block(STRING.value, P.t) } | ('(' I '&' I ')') { Two(I$2.t, I$3.t) }
    | ('=') { Rule() } | ('!' STRING I) { Note(STRING.value, I$2.t) };
L ::= () { NoWords() } | (W L) { W.t :: L$2.t };
W ::= (STRING) { Word(STRING.value) } | (NUM) { Number(STRtoINT(NUM.value)) } | ('yes') { Flag(true) } | (ID) { Id(ID.value) }
    | ('id') { Id([ID]) };
T ::= (STRING) { STRING.value };
items ~ P.t; item ~ I.t; words ~ L.t; word ~ W.t; STR ~ T.t;
"""

TERMS = (
    "-a 'b c' 3",
    "'x'{-1 2;=;-}",
    "(-a&(=&-yes 4));!'note'-q",
    "'x'{'y'{'z'{-1}}};-",
    "-id '';(!'m''w'{-}&-'1\\n2')",
    "!'a'!'b'(-a&-b);-;'q'{=;-c d;=}",
)

# What is done with each term before the moves: schemes and marks at places that are reached by these commands.
DONE = (
    [],
    ["goto 2 4", "next", "next"],
    ["goto 2 3", "next", "alternate", "up"],
    ["goto 3 5", "next", "alternate", "next"],
    ["next", "next", "next", "alternate", "next", "alternate"],
    ["goto 4 4", "elide", "up", "up"],
)


def places(table, begin):
    """For each resting place the number of the place to which a move leads, by how often prev is done from there."""
    found = {}
    count = len([b for b in table.blocks_after("blocks", begin + ["next"] * 40) if b.message == "ok"]) - len(begin) + 1
    asked, script = [], list(begin)
    for place in range(count):
        for word in ("up", "first", "sibling"):
            asked.append((place, word))
            script += ["next"] * place + [word] + ["prev"] * (count + 1)
    blocks = table.blocks_after("blocks", script, size=(1, 1))[len(begin):]
    for place, word in asked:
        mine, blocks = blocks[:place + count + 2], blocks[place + count + 2:]
        if mine[place].message == "ok":
            found[place, word] = sum(b.message == "ok" for b in mine[place + 1:])
    return count, found


def moves(table, begin):
    """From the root on each move at each place, and the way back to that place."""
    count, found = places(table, begin)
    script = list(begin)
    for place in range(count):
        script += ["next"] if place else []
        for word in ("up", "first", "sibling"):
            script.append(word)
            if (place, word) in found:
                to = found[place, word]
                script += ["next"] * (place - to) + ["prev"] * (to - place)
    return script + ["next"] + ["prev"] * count


def every_cell(table, begin):
    """Goto on each cell of the page, and on places that have none."""
    lines = table.blocks_after("blocks", begin, size=(60, 60))[-1].lines
    script = list(begin)
    for number, line in enumerate(lines, 1):
        script += [f"goto {number} {column}" for column in range(1, len(line) + 3)]
    return script + [f"goto {len(lines) + 1} 1", "goto 999999999 1", "goto 1 999999999"]


MARKS = """
new p
next
text "'title'"
next
text "'x'{-a b;(=&-1 2);!'n'-c}"
goto 3 5
alternate
next
undo
alternate
alternate
first
alternate
undo
undo
undo
first
alternate
first
up
elide
goto 5 10
alternate
first
alternate
first
alternate
undo
goto 5 11
undo
goto 2 5
alternate
first
alternate
sibling
first
undo
undo
elide
first
undo
goto 6 5
up
elide
alternate
elide
do "note"
alternate
do "two"
do "block"
do "rule"
undo
undo
undo
undo
undo
up
up
up
sibling
do "side"
next
text "a 1"
alternate
text ""
alternate
elide
save-text marks
""".strip().split("\n")

CAPTURES = """
new p
next
type "title"
type "\\n\\n below"
show
enter
type ""
abandon
next
text "'x'{-a;'y'{-b}}"
goto 4 7
type "-c"
type "\\nd"
erase
erase
enter
goto 3 6
type "q\\nq"
enter
type "\\n\\n"
erase
erase
erase
erase
erase
erase
erase
type "- yes 7"
enter
next
next
type "12"
type " "
enter
enter
erase
erase
enter
erase
enter
erase
enter
abandon
up
up
type ""
enter
abandon
goto 1 1
type "'a\\nb'"
enter
save-text typed
""".strip().split("\n")

WINDOW = ["new p", "next", "next", 'text "' + ";".join(f"'x{n}'{{-a b c d e f}}" for n in range(4)) + '"'] + """
goto 14 1
goto 1 1
goto 9 1
prev
prev
next
next
goto 3 12
up
up
sibling
up
goto 11 3
insert-after
insert-before
first
save-text window
""".strip().split("\n")

# A text of 32,768 bytes, shown 31 times behind a digit, and a text that is typed in behind it.
LARGE = f"""
root book;
book : Book(INT tail);
tail : Tail(STR) | More(tail tail);
STR twice(INT n, STR s) {{ n == 0 ? s : twice(n - 1, s # s) }};
book : Book {{ local STR most; most = INT.value == 0 ? "" : twice(15, INT.value == 1 ? "a" : "\\n"); }};
book : Book [ @ : @ {"most " * 31}@ ]
  [ @ : @ "%t%t%t" {"most " * 5}"%n" @ ];
tail : Tail [ @ ::= ^ ];
tail : More [ @ ::= @ @ ];
transform tail on "more" t : More(t, Tail("end"));
NUM : < "[0-9]+" >;
STRING : < ".+" >;
I {{ synthesized INT t; }};
T {{ synthesized tail t; }};
I ::= (NUM) {{ STRtoINT(NUM.value) }};
T ::= (STRING) {{ Tail(STRING.value) }};
INT ~ I.t;
tail ~ T.t;
"""

LARGE_SCRIPT = f"""
new b
next
text "1"
next
text "{'b' * 32767}"
save-text whole
text "{'b' * 32768}"
save-text cut
goto 1 1048576
goto 1 1048577
up
goto 1 1
goto 1 2
next
next
do "more"
next
next
up
goto 1 1
text "0"
save-text small
up
alternate
next
text "2"
goto 149797 3
goto 149797 4
goto 149797 5
next
type "x\\ny"
save-text no
abandon
undo
""".strip().split("\n")


def add(table):
    table.language("blocks", BLOCKS)
    for term, done in zip(TERMS, DONE):
        begin = ["new p", "next", "next", f'text "{term}"', *done, "up", "up", "up", "up"]
        table.run("Each move at each place.", "blocks", moves(table, begin), (30, 1))
    begin = ["new p", "next", "text \"'t'\"", "next", "text \"'x'{-a 3;(=&-)};!'n'-'b c'\"", "goto 3 5", "show"]
    table.run("Goto on each cell, and beside the page.", "blocks", every_cell(table, begin), (1, 1))
    table.run("Schemes and marks: margins, tabs, what is not shown, and where the selection settles.", "blocks", MARKS, (30, 10))
    table.run("Texts that are being typed, with newlines, in margins.", "blocks", CAPTURES, (40, 12))
    table.run("The window follows the selection.", "blocks", WINDOW, (8, 3))
    table.language("large", LARGE)
    table.run("A page of 1,048,576 cells is whole, one of more is cut.", "large", LARGE_SCRIPT, (20, 2))
