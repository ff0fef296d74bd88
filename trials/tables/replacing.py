"""Replacements at many places: long scripts from fixed seeds, and small ones written by hand."""
import random

ABOUT = """
Replacements by text, paste, transformations, deletion, insertion and their undo at places reached by moves. The long
scripts come from fixed seeds; with a window of one line each block shows what the selected node stores, and pages of
all stored values are kept on the way. Made by `trials/tables/make.py PROGRAM replacing`, where PROGRAM was model/ssled.
"""

# Values go down, to the right and up, and meet again; small remainders make many of them equal to what they were.
WAYS = """
root top;
list nodes;
top : Top(node);
node : Leaf(INT) | Pair(node node) | Group(nodes);
nodes : None() | Some(node nodes);
node { inherited INT down; synthesized INT up; synthesized INT sum; synthesized BOOL odd; };
nodes { inherited INT down; synthesized INT up; synthesized INT sum; };
top : Top { node.down = 1; };
node : Leaf { $$.up = ($$.down + INT.value) % 5; $$.sum = INT.value % 10; $$.odd = INT.value % 2 == 1; };
node : Pair { local INT met; node$2.down = $$.down; node$3.down = node$2.up; $$.up = node$3.up;
  met = node$2.up * 10 + node$3.up; $$.sum = (node$2.sum + node$3.sum) % 10; $$.odd = node$2.odd != node$3.odd; };
node : Group { nodes.down = ($$.down + 1) % 5; $$.up = nodes.up; $$.sum = nodes.sum; $$.odd = nodes.sum % 2 == 1; };
nodes : None { $$.up = $$.down; $$.sum = 0; };
nodes : Some { node.down = $$.down; nodes$2.down = node.odd ? node.up : $$.down; $$.up = nodes$2.up;
  $$.sum = (node.sum + nodes$2.sum) % 10; };
top : Top [ @ : "top " node.up " " node.sum " " node.odd "%n" @ ];
node : Leaf [ @ ::= @ " " $$.down $$.up $$.sum $$.odd ];
node : Pair [ @ ::= "pair " $$.down $$.up $$.sum $$.odd met "%t%n" @ "%n" @ "%b" ];
node : Group [ @ ::= "group " $$.down $$.up $$.sum $$.odd "%t%n" @ "%b" ];
nodes : None [ @ ::= "none " $$.down $$.up $$.sum ];
nodes : Some [ @ ::= $$.down $$.up $$.sum ": " @ "%n" @ ];
transform node on "pair" n : Pair(n, Leaf(3)); transform node on "swap" Pair(a, b) : Pair(b, a);
transform node on "turn" Pair(a, Pair(b, c)) : Pair(Pair(a, b), c); transform node on "group" n : Group(n :: <nodes>);
transform node on "turn" Pair(Pair(a, b), c) : Pair(a, Pair(b, c)); transform node on "first" Group(Some(n, *)) : n;
transform top on "both" Top(Pair(a, b)) : Top(Pair(b, Pair(a, Leaf(1)))); transform top on "one" Top(Pair(a, *)) : Top(a);
NUM : < "[0-9]+" >; WHITESPACE : < " +" >;
N { synthesized node t; }; L { synthesized nodes t; }; I { synthesized INT t; };
N ::= (NUM) { Leaf(STRtoINT(NUM.value)) } | ('(' N N ')') { Pair(N$2.t, N$3.t) } | ('[' L ']') { Group(L.t) };
L ::= () { None() } | (N L) { N.t :: L$2.t };
I ::= (NUM) { STRtoINT(NUM.value) };
node ~ N.t; nodes ~ L.t; INT ~ I.t;
"""

# Weights come up in a first visit; what the top and the neighbours know of them goes down, and ranks come up in a second.
RANKS = """
root top;
optional list nodes;
top : Top(node);
node : Hole() | Leaf(INT) | Fork(node node) | Bag(nodes);
nodes : None() | Some(node nodes);
node { synthesized INT weight; inherited INT all; inherited INT left; synthesized INT rank; };
nodes { synthesized INT weight; inherited INT all; inherited INT left; synthesized INT rank; };
top : Top { node.all = node.weight % 4; node.left = 0; };
node : Hole { $$.weight = 0; $$.rank = $$.left; };
node : Leaf { $$.weight = INT.value % 8; $$.rank = ($$.left + $$.all) % 6; };
node : Fork { $$.weight = (node$2.weight + node$3.weight) % 8; node$2.all = $$.all; node$3.all = node$2.weight % 4;
  node$2.left = node$3.weight; node$3.left = node$2.rank; $$.rank = node$2.rank + node$3.rank; };
node : Bag { local BOOL level; level = nodes.rank == $$.left; $$.weight = 8 / (nodes.weight + 1); nodes.all = $$.all;
  nodes.left = $$.left; $$.rank = level ? 1 : nodes.rank % 6; };
nodes : None { $$.weight = 0; $$.rank = $$.left; };
nodes : Some { $$.weight = (node.weight + nodes$2.weight) % 8; node.all = nodes$2.weight; nodes$2.all = $$.all;
  node.left = $$.left; nodes$2.left = node.rank % 4; $$.rank = nodes$2.rank; };
top : Top [ @ : "top " node.weight " " node.rank "%n" @ ];
node : Hole [ @ ::= "hole " $$.weight $$.all $$.left $$.rank ];
node : Leaf [ @ ::= @ " " $$.weight $$.all $$.left $$.rank ];
node : Fork [ @ ::= "fork " $$.weight $$.all $$.left $$.rank "%t%n" @ "%n" @ "%b" ];
node : Bag [ @ ::= "bag " $$.weight $$.all $$.left $$.rank level "%t%n" @ "%b" ];
nodes : None [ @ ::= "none " $$.weight $$.all $$.left $$.rank ];
nodes : Some [ @ ::= $$.weight $$.all $$.left $$.rank ": " @ "%n" @ ];
transform node on "pair" n : Fork(n, <node>); transform node on "swap" Fork(a, b) : Fork(b, a);
transform node on "turn" Fork(a, Fork(b, c)) : Fork(Fork(a, b), c); transform node on "group" n : Bag(n :: None());
transform node on "first" Bag(Some(n, *)) : n; transform top on "both" Top(n) : Top(Fork(n, Leaf(1)));
transform top on "one" Top(Fork(a, *)) : Top(a);
NUM : < "[0-9]+" >; WHITESPACE : < " +" >;
N { synthesized node t; }; L { synthesized nodes t; }; I { synthesized INT t; };
N ::= (NUM) { Leaf(STRtoINT(NUM.value)) } | ('(' N N ')') { Fork(N$2.t, N$3.t) } | ('[' L ']') { Bag(L.t) };
L ::= () { None() } | (N L) { N.t :: L$2.t };
I ::= (NUM) { STRtoINT(NUM.value) };
node ~ N.t; nodes ~ L.t; INT ~ I.t;
"""

MOVES = ("next", "prev", "up", "first", "sibling")
TRANSFORMATIONS = ("pair", "pair", "swap", "swap", "turn", "turn", "group", "first", "both", "one")


def tree(dice, depth):
    """The text of a random tree."""
    kind = dice.randrange(10)
    if depth == 0 or kind < 3:
        return str(dice.randrange(12))
    if kind < 7:
        return f"({tree(dice, depth - 1)} {tree(dice, depth - 1)})"
    return "[" + " ".join(tree(dice, depth - 1) for _ in range(dice.randrange(4))) + "]"


def change(dice):
    """A random command that may change the term."""
    kind = dice.randrange(24)
    if kind < 9:
        return f'text "{tree(dice, dice.randrange(4))}"'
    if kind < 13:
        return f'do "{dice.choice(TRANSFORMATIONS)}"'
    words = ("paste", "paste", "delete", "cut", "insert-before", "insert-after", "insert-after", "remove", "undo", "undo", "redo")
    return words[kind - 13]


def steps(dice):
    """Rounds that begin with a tree of some size: ways to a place, each with what is tried there."""
    for number in range(20):
        whole = f"({tree(dice, 3)} [{tree(dice, 3)} {tree(dice, 2)} ({tree(dice, 2)} {tree(dice, 3)})])"
        yield ["goto 2 1", f'text "{whole}"']
        for _ in range(12):
            way = [dice.choice(MOVES) for _ in range(dice.randrange(3))]
            if dice.randrange(4):
                way.append(f"goto {dice.randrange(4, 24)} {dice.randrange(3, 14)}")
            yield way + ["copy"] * (dice.randrange(7) == 0) + [change(dice)]
        if number % 4 == 3:
            yield [f"save-text page{number}"]


def long_script(table, language, seed):
    """Commands of which some 200 evaluate something. Of what is refused only a third is left in."""
    dice = random.Random(seed)
    script = ["new t", "next", "copy"] + [command for way in steps(dice) for command in way]
    blocks = table.blocks_after(language, script, size=(1, 1))
    return [c for c, b in zip(script, blocks) if b.message == "ok" or dice.randrange(3) == 0]


MEET = """
new m
next
text "(1 (2 3))"
goto 3 4
text "6"
text "11"
text "2"
undo
undo
redo
redo
goto 3 3
text "7"
text "17"
text "0"
goto 6 6
text "8"
goto 4 3
do "swap"
goto 2 1
do "turn"
do "swap"
text "[1 [2 3] 4]"
goto 3 9
text "6"
goto 3 8
text "3"
goto 4 8
remove
undo
goto 5 11
text "[2 8]"
text "[7 3]"
goto 3 8
text "13"
text "10"
undo
""".strip().split("\n")

ROOT = """
new r
do "both"
next
text "(4 [])"
up
copy
do "both"
do "both"
do "one"
undo
undo
undo
redo
paste
delete
paste
undo
undo
cut
paste
goto 2 2
text "44"
text "44"
goto 2 1
text "45"
text "45"
goto 1 1
paste
delete
delete
undo
""".strip().split("\n")


def heavy():
    """A list of 100 trees of some 30 nodes each, of which one is exchanged many times."""
    one = "((1 (2 3)) [4 (5 6) [7 8] (9 (10 11))])"
    script = ["new h", "next", f'text "[{" ".join([one] * 100)}]"']
    script.append("goto 3 8")
    for number in range(12):
        script.append(f'text "{one.replace("6", str(6 + number % 3))}"')
    script += ["goto 1027 14", f'text "{one.replace("3", "4")}"', "undo", "undo", "redo", "redo"]
    return script


def add(table):
    table.language("ways", WAYS)
    table.run("Two ways from one change meet; equal values stop at once.", "ways", MEET, (40, 12))
    table.run("The root, a leaf, and what puts the same term in its own place.", "ways", ROOT, (30, 8))
    table.run("One element of a list of 100 heavy ones: what stands beside it is not evaluated.", "ways", heavy(), (30, 3))
    table.run("A long script.", "ways", long_script(table, "ways", 1), (30, 1))
    table.language("ranks", RANKS)
    table.run("Two visits: the same small script.", "ranks", MEET, (40, 12))
    table.run("Two visits: the root and a leaf.", "ranks", ROOT, (30, 8))
    table.run("Two visits: a long script.", "ranks", long_script(table, "ranks", 2), (30, 1))
