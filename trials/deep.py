#!/usr/bin/env python3
"""deep.py PROGRAM [--live LIVE] [--oracle ORACLE] [--kib K]: runs PROGRAM, a built ssled, with a stack of K KiB (8,192)
on what nests as deep as it may, and on what nests deeper by one: terms, lists and texts with references through all of
them, in each view and by each way in which a script can use them, specifications, saved files and reports. With LIVE, a
built ssled_live, the scripts are also sessions.

What is wanted is what PROGRAM answers with 1 GiB of stack, or ORACLE; of a grammar with 1,022 levels it stands here.
model/ssled takes half a minute for each term, and far longer for a list. It tells what came otherwise, and how many
runs there were.
"""
import argparse
import resource
import subprocess
import sys
import tempfile
from pathlib import Path

MOST = 1024  # the depth that a term may have
GIB = 1 << 20  # KiB

NESTED = """
root top;
top : Top(exp);
exp : Hole() | Neg(exp) | Far() | Add(exp exp);
top { synthesized INT size; };
exp { synthesized INT size; inherited INT depth; };
top : Top { exp.depth = 2; $$.size = exp.size; };
exp : Hole { $$.size = 1; };
exp : Far { local INT all; local INT near; all = {top.size}; near = {exp.depth, top.size}; $$.size = 1; };
exp : Neg { exp$2.depth = $$.depth + 1; $$.size = exp$2.size + 1; };
exp : Add { exp$2.depth = $$.depth + 1; exp$3.depth = {exp.depth, top.size} + 2; $$.size = exp$2.size + exp$3.size; };
top : Top [ @ : @ ];
exp : Hole [ @ ::= "?" ];
exp : Far [ @ ::= "far " all " " near ];
exp : Neg [ @ ::= "-" @ ] [ @ : "~" @ ];
exp : Add [ @ ::= "(" @ " + " @ ")" ];
top : Top in out [ @ : "out of " exp.size "%t%n" @ ];
exp : Neg in out [ @ : ^ ];
exp : Far in out [ @ : near ];
exp : Add in out [ @ ::= @ "%n" @ ] [ @ : .. @ ];
exp : Neg in steps [ @ ::= "%t%n" @ "%b" ];
transform exp on "neg" e : Neg(e);
transform exp on "bare" Neg(e) : e;
transform exp on "end" Far() : Hole();
transform exp on "turn" Add(a, b) : Add(b, a);
WHITESPACE : < "[ ]+" >;
E { synthesized exp t; };
exp ~ E.t;
left '+';
right '^';
E ::= ('-' E) { Neg(E$2.t) } | ('?') { Hole() } | ('far') { Far() } | ('(' E ')') { E$2.t }
    | (E '+' E) { Add(E$2.t, E$3.t) } | (E '^' E) { Add(E$2.t, E$3.t) };
"""

LISTED = """
root prog;
prog : Prog(items);
optional list items;
items : None() | Items(item items);
item : Item(INT) | Ask();
prog { synthesized INT all; };
items { synthesized INT sum; inherited INT place; };
item { synthesized INT value; };
prog : Prog { items.place = 1; $$.all = items.sum; };
items : None { $$.sum = 0; };
items : Items { items$2.place = $$.place + 1; $$.sum = item.value + items$2.sum; };
item : Item { $$.value = INT.value; };
item : Ask { local INT share; share = {prog.all} * 100 + {items.place}; $$.value = 1; };
prog : Prog [ @ : @ "%n" items.sum ];
items : None [ @ ::= ];
items : Items [ @ ::= @ [ "%n" ] @ ];
item : Item [ @ ::= ^ ];
item : Ask [ @ ::= "ask " share ];
items : Items in line [ @ ::= @ [ "," ] @ ];
item : Item in line [ @ ::= "." .. ];
items : Items in rest [ @ : .. @ ];
transform item on "more" Item(n) : Item(n + 1);
transform item on "ask" Item(n) : Ask();
NUM : < "[0-9]+" >;
I { synthesized item t; };
L { synthesized items t; };
items ~ L.t;
item ~ I.t;
I ::= (NUM) { Item(STRtoINT(NUM.value)) } | ('?') { Ask() };
L ::= () { None() } | (I) { I.t :: None() } | (I ';' L) { I.t :: L$2.t };
"""

# What a script does with a deep term, in a buffer of its own for each part.
TERM = """
show
save f
view out
first
next
up
find "end"
find "bare"
alternate
elide
elide
view steps
find "end"
do "end"
do "neg"
save-text u
load b f
next
do "neg"
undo
redo
copy
paste
cut
paste
undo
undo
view out
elide
view
elide
load c f
next
view out
replace-all "bare"
undo
redo
undo
replace-all "end"
replace-all "neg"
load d f
next
view
alternate
alternate
save-text t
find "turn"
do "turn"
undo
view steps
view out
find "end"
type "-"
erase
abandon
insert-after
extend
delete
undo
switch a
"""


def term(text):
    """A script over the term of a text in the language of nested ones."""
    return f'new a\nnext\ntext "{text}"\n{TERM}'


def listed(count, last):
    """A script over a list of so many elements with this last one: single ones, all as a run, and everywhere."""
    text = ";".join([*["7"] * (count - 1), last])
    run = "next\nfirst\n" + "extend\n" * (count - 1)
    return (f'new a\nnext\ntext "{text}"\nsave f\nview line\nup\n{run}extend\nshrink\nextend\ncopy\npaste\ncut\nundo\n'
            f"view rest\nview\nload b f\ngoto {count} 1\ninsert-after\nload c f\ngoto 1 1\ninsert-before\nload d f\ngoto {count} 1\n"
            f'prev\ndo "ask"\nview line\nundo\nload e f\nreplace-all "more"\nundo\nreplace-all "ask"\nundo\nredo\n'
            f'load g f\n{run}remove\nundo\nload h f\nview rest\nfind "ask"\nview\nfind "ask"\n')


def levels(count):
    """A grammar with so many levels, each of one literal, to the left and to the right in turn."""
    lines = "".join(f"{'right' if n % 2 else 'left'} '+{n}';\n" for n in range(count))
    rules = "".join(f" | (E '+{n}' E) {{ F(E$2.t, E$3.t) }}" for n in range(count))
    return ('root top;\ntop : Top(exp);\nexp : X() | F(exp exp);\ntop : Top [ @ : @ ];\nexp : X [ @ ::= "x" ];\n'
            'exp : F [ @ ::= "(" @ @ ")" ];\nE { synthesized exp t; };\nexp ~ E.t;\nWHITESPACE : < "[ ]+" >;\n'
            f"{lines}E ::= ('x') {{ X() }}{rules};\n")


def operands(count):
    """A text in which each sign binds more tightly than the one before it."""
    return "x" + "".join(f" +{n} x" for n in range(count))


def chain(count):
    """A chain of phyla, from the last of which a reference leads up to the root."""
    rows = ["root p0;\np0 { synthesized INT n; };\np0 : P0 { $$.n = 5; };"]
    for n in range(count):
        rows.append(f"p{n} : P{n}(p{n + 1});\np{n} : P{n} [ @ : @ ];\np{n} : P{n} in v [ @ : ^ ];")
    rows.append(f"p{count} : P{count}();\np{count} : P{count} {{ local INT far; far = {{p0.n}}; }};\np{count} : P{count} [ @ : far ];")
    return "\n".join(rows) + "\n"


def bracketed(count):
    """A specification in which a reference stands in so many brackets."""
    return ("root r;\nr : R(x);\nx : X();\nr { synthesized INT n; };\nr : R { $$.n = 5; };\n"
            f"x : X {{ local INT far; far = {'(' * count}{{r.n}}{')' * count}; }};\nr : R [ @ : @ ];\nx : X [ @ : far ];\n")


def tried():
    """Words and files of each run, and what is wanted of it where that is known here."""
    def run(spec, script):
        return ["run", "s", "c"], {"s": spec, "c": script}, None

    for depth in range(MOST - 2, MOST + 2):
        # The root is one level, and what ends a term another.
        yield run(NESTED, term("-" * (depth - 2) + "far"))
        yield run(NESTED, term("?^" * (depth - 2) + "far"))
        yield run(NESTED, term("far" + "+?" * (depth - 2)))
        yield run(NESTED, term("(" * (depth - 2) + "far" + ")" * (depth - 2)))
        # A list of n elements of which the last asks is n + 2 deep, and one deeper with a number in it.
        yield run(LISTED, listed(depth - 2, "?"))
        yield run(LISTED, listed(depth - 3, "7"))
        file = "SGT1\nTop(" + "Neg(" * (depth - 2) + "Far()" + ")" * (depth - 1) + "\n"
        for name in ("exp.size", "exp.depth"):
            yield ["report", "s", "f", name], {"s": NESTED, "f": file}, None
        yield ["run", "s", "c"], {"s": NESTED, "c": 'load a f\nview out\nfind "end"\n', "f": file}, None
    for count in (126, 127, 128):
        yield ["show", "s"], {"s": bracketed(count)}, None
    for count in (510, 511, 512):
        yield run(chain(count), "new a\nview v\nnext\nview\nnext\nup\n")
    for count in (2_000, 200_000, 520_000):
        yield run(NESTED, f'new a\nnext\ntext "{"-" * count}far"\n')
        yield run(NESTED, f'new a\nnext\ntext "{"(" * count}far{")" * count}"\n')
        file = "SGT1\nTop(" + "Neg(" * count + "Far()" + ")" * count + ")\n"
        yield ["run", "s", "c"], {"s": NESTED, "c": "load a f\nnew b\n", "f": file}, None
        yield ["report", "s", "f", "exp.size"], {"s": NESTED, "f": file}, None
    top = "= a 1:1-1:1 top top 1 ev 0 ok\n|x\n= a 1:1-1:1 exp top 1 ev 0 ok\n|x\n"
    for count in (MOST - 3, MOST - 2, MOST - 1):
        script = f'new a\nnext\ntext "{operands(count)}"\n'
        deep = "(x" * count + "x" + ")" * count
        last = (f"= a 1:1-1:{len(deep)} exp top 1 ev 0 ok\n|{deep[:80]}\n" if count + 2 <= MOST
                else "= a 1:1-1:1 exp top 1 ev 0 size\n|x\n")
        yield ["run", "s", "c"], {"s": levels(count), "c": script}, (0, top + last, {})
    yield ["check", "s"], {"s": levels(MOST)}, (4, f"fault Limit productions {MOST + 1}\n", {})


def came(program, words, files, kib, data=None):
    """Status, output and the files that are not as before, with a stack of so many KiB."""
    def small():
        resource.setrlimit(resource.RLIMIT_STACK, (kib * 1024, resource.RLIM_INFINITY))

    with tempfile.TemporaryDirectory() as folder:
        for name, content in files.items():
            (Path(folder) / name).write_bytes(content)
        done = subprocess.run([program, *words], cwd=folder, input=data, stdout=subprocess.PIPE, preexec_fn=small, check=False)
        kept = {it.name: it.read_bytes() for it in Path(folder).iterdir()}
    return done.returncode, done.stdout, {name: data for name, data in kept.items() if files.get(name) != data}


def main():
    words = argparse.ArgumentParser(description=__doc__, formatter_class=argparse.RawDescriptionHelpFormatter)
    words.add_argument("program", type=lambda path: str(Path(path).resolve()))
    words.add_argument("--live", type=lambda path: str(Path(path).resolve()))
    words.add_argument("--oracle", type=lambda path: str(Path(path).resolve()))
    words.add_argument("--kib", type=int, default=8192)
    given = words.parse_args()
    runs = wrong = 0
    for number, (job, texts, wanted) in enumerate(tried(), 1):
        files = {name: text.encode() for name, text in texts.items()}
        if wanted is None:
            wanted = came(given.oracle or given.program, job, files, GIB)
            wrong += wanted[0] < 0
        else:
            wanted = wanted[0], wanted[1].encode(), wanted[2]
        ways = [(given.program, job, None)]
        if given.live and job[0] == "run":
            ways.append((given.live, ["s"], files["c"]))
        for program, asked, data in ways:
            got = came(program, asked, files, given.kib, data)
            runs += 1
            if got != wanted:
                wrong += 1
                print(f"case {number}, {Path(program).name} {' '.join(asked)}: status {got[0]}, wanted {wanted[0]}; "
                      f"{len(got[1])} bytes, wanted {len(wanted[1])}; files {sorted(got[2])}, wanted {sorted(wanted[2])}", flush=True)
    print(f"deep: {runs} runs with {given.kib} KiB of stack, {wrong} wrong")
    sys.exit(wrong > 0)


if __name__ == "__main__":
    main()
