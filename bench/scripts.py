#!/usr/bin/env python3
"""scripts.py PROGRAM [PROGRAM..] [--only NAME..]: prints what scripts take that use one part of the program much.

Each program runs each script seven times, by turns. Printed are the least processor milliseconds, how often they are
those of the first program (in brackets the median of that over the turns), the most memory, which is at least that of
this script, and the status; a script whose output is not the same of all programs and turns is marked.
"""
import argparse
import hashlib
import os
import random
import statistics
import subprocess
import tempfile

TURNS = 7
HERE = os.path.dirname(os.path.abspath(__file__))
with open(os.path.join(HERE, "../examples/lines.ssl"), encoding="ascii") as file:
    LINES = file.read()

CHAIN = """root r;
r : R(c);
c : Leaf(INT) | Link(c);
c { inherited INT d; synthesized INT v; };
r : R { c.d = 0; };
c : Leaf { $$.v = INT.value + $$.d; };
c : Link { c$2.d = $$.d + 1; $$.v = c$2.v + 1; };
r : R [ @ : @ " = " c.v ];
c : Leaf [ @ : ^ ];
c : Link [ @ : @ ];
transform c on "inc" Leaf(n) : Leaf(n + 1);
"""

SUMS = """root r;
r : R(exp);
exp : Num(INT) | Add(exp exp);
exp { synthesized INT v; };
exp : Num { $$.v = INT.value; };
exp : Add { $$.v = exp$2.v + exp$3.v; };
r : R [ @ : @ " = " exp.v ];
exp : Num [ @ : ^ ];
exp : Add [ @ : "(" @ "%t%n+ " @ "%b)" ];
transform exp on "mirror" e : mirror(e);
exp mirror(exp e) { with (e) ( Add(a, b) : Add(mirror(b), mirror(a)), default : e ) };
"""


def statement(rng):
    """A line of the language of lines."""
    name = f"v{rng.randrange(8)}"
    return f"let {name} = {rng.randrange(1000)}" if rng.randrange(2) else f"print {name}"


def saved(lines):
    """A saved program of these lines."""
    parts = [line.split() for line in lines]
    terms = [f'Decl("{it[1]}",{it[3]})' if it[0] == "let" else f'Print("{it[1]}")' for it in parts]
    return "SGT1\nProg(" + "".join(f"Stmts({term}," for term in terms) + "NoStmts()" + ")" * (len(terms) + 1) + "\n"


def balanced(leaves, rng):
    """A sum of so many numbers."""
    if leaves == 1:
        return f"Num({rng.randrange(100)})"
    return f"Add({balanced(leaves // 2, rng)},{balanced(leaves - leaves // 2, rng)})"


def one_text(rng):
    """One text of 1,000 statements, eight times, undone between."""
    text = "".join(statement(rng) + ";" for _ in range(1000))
    return LINES, None, "new b\nnext\n" + f'text "{text}"\nundo\n' * 8


def edits(rng):
    """150 edits in 300 lines, with some 200 look-ups below each."""
    lines = [f"let v{n} = {n}" for n in range(60)] + [f"print v{rng.randrange(60)}" for _ in range(240)]
    script = ["load b saved", "next", "next"]
    for _ in range(150):
        script += [f"goto {rng.randrange(1, 40)} 1", f'text "let v{rng.randrange(60)} = {rng.randrange(1000)}"']
    return LINES, saved(lines), "\n".join(script) + "\n"


def chain(_):
    """400 edits at the end of a chain of 1,000 nodes."""
    term = "SGT1\nR(" + "Link(" * 1000 + "Leaf(1)" + ")" * 1001 + "\n"
    return CHAIN, term, "load b saved\nnext\n" + "next\n" * 1000 + 'do "inc"\n' * 400


def loads(rng):
    """Three loads of 60,000 nodes, and a save."""
    return SUMS, f"SGT1\nR({balanced(20000, rng)})\n", "load a saved\nload b saved\nload c saved\nsave out\n"


def undo(rng):
    """1,000 changes of some 540 nodes, of which 256 are taken back and done again."""
    term = f"SGT1\nR({balanced(180, rng)})\n"
    return SUMS, term, "load b saved\nnext\n" + 'do "mirror"\n' * 1000 + "undo\n" * 256 + "redo\n" * 256


def scan(rng):
    """A text of 500 KB with a fault at its end."""
    text = ";".join(statement(rng) for _ in range(40000))
    return LINES, None, f'new b\nnext\ntext "{text[:500000]} $"\n'


def lists(rng):
    """200 elements put into a list of 250, taken out or typed anew."""
    script, count = ["load b saved", "next", "next"], 250
    for _ in range(200):
        script.append(f"goto {rng.randrange(1, count + 1)} 1")
        change = rng.randrange(3)
        if change == 0:
            script += ["insert-after", f'text "{statement(rng)}"']
            count += 1
        elif change == 1:
            script.append("remove")
            count -= 1
        else:
            script.append(f'text "{statement(rng)}"')
    return LINES, saved([statement(rng) for _ in range(250)]), "\n".join(script) + "\n"


WORKLOADS = {it.__name__.replace("_", "-"): it for it in (one_text, edits, chain, loads, undo, scan, lists)}


def run(program, folder):
    """Runs the script there, and returns the processor milliseconds, the MiB, the status and a sum of the output."""
    words = [program, "run", "spec.ssl", "script"]
    child = subprocess.Popen(words, cwd=folder, stdout=subprocess.PIPE, stderr=subprocess.DEVNULL)
    total = hashlib.sha256(child.stdout.read()).hexdigest()
    _, status, used = os.wait4(child.pid, 0)
    child.returncode = os.waitstatus_to_exitcode(status)
    return 1000 * (used.ru_utime + used.ru_stime), used.ru_maxrss / 1024, child.returncode, total


def measure(name, programs):
    """Prints the row of a workload."""
    spec, term, script = WORKLOADS[name](random.Random(1))
    with tempfile.TemporaryDirectory() as folder:
        for file_name, text in (("spec.ssl", spec), ("saved", term), ("script", script)):
            if text is not None:
                with open(os.path.join(folder, file_name), "w", encoding="ascii") as out:
                    out.write(text)
        runs = [[run(program, folder) for program in programs] for _ in range(TURNS)]
    row = f"{name:10}"
    for at in range(len(programs)):
        least = [min(turn[k][0] for turn in runs) for k in (0, at)]
        middle = statistics.median(turn[at][0] / turn[0][0] for turn in runs)
        row += f"  {least[1]:8.1f} {least[1] / least[0]:5.2f} ({middle:4.2f}) {max(turn[at][1] for turn in runs):6.1f}"
    said = {it[2:] for turn in runs for it in turn}
    print(row, runs[0][0][2] if len(said) == 1 else "not the same", flush=True)


def main():
    words = argparse.ArgumentParser(description=__doc__, formatter_class=argparse.RawDescriptionHelpFormatter)
    words.add_argument("programs", nargs="+", metavar="PROGRAM")
    words.add_argument("--only", nargs="+", choices=WORKLOADS, default=list(WORKLOADS), metavar="NAME")
    words = words.parse_args()
    for name in words.only:
        measure(name, [os.path.abspath(it) for it in words.programs])


if __name__ == "__main__":
    main()
