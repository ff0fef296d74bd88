"""Sessions that answer line by line."""
import re
import subprocess
import tempfile
from pathlib import Path

from elements import BEGIN, program
from frame import Pieces, text
from hostile import CALCULATOR

ABOUT = """
Sessions that answer line by line: lines that are commands, that say nothing, that are none or too long; what applies, also
while a text is typed, where a run is selected, and where there is no buffer; files and a shelf and a console that fail;
specifications with a fault, and words that are no job. Made by `trials/tables/make.py PROGRAM live`, where PROGRAM was
model/ssled_live.
"""

# Names as no other has them, one name twice, one that is tried and does not apply, and one of another phylum.
NAMES = """
root top;
top : Top(item);
item : None() | Some(INT) | Pair(item item);
top : Top [ @ : @ ];
item : None [ @ ::= "?" ];
item : Some [ @ ::= ^ ];
item : Pair [ @ ::= "(" @ " " @ ")" ];
NUM : < "[0-9]+" >;
WHITESPACE : < "[ ]+" >;
I { synthesized item t; };
I ::= (NUM) { Some(STRtoINT(NUM.value)) } | ('(' I I ')') { Pair(I$2.t, I$3.t) };
item ~ I.t;
transform item on "say \\"pair\\"" i : Pair(i, <item>);
transform item on "back\\\\slash" i : i;
transform item on "twice" Pair(a, b) : Pair(b, a);
transform top on "of the top" t : t;
transform item on "two\\nlines" i : i;
transform item on "twice" i : Pair(i, i);
transform item on "swap" Pair(a, b) : Pair(b, a);
transform item on "" i : i;
"""

MOST = 1048576  # bytes of a line


def answered(program_of, words, data, files):
    """Status, what is written, and the files that are kept."""
    with tempfile.TemporaryDirectory() as folder:
        for name, content in files.items():
            (Path(folder) / name).write_bytes(content)
        done = subprocess.run([program_of, *words], cwd=folder, input=data, stdout=subprocess.PIPE, check=False)
        kept = {it.name: it.read_bytes() for it in sorted(Path(folder).iterdir()) if it.name not in files}
    return done.returncode, done.stdout, kept


def tenfold(table, name, unit):
    """Texts of a line 10, 100, 1,000 and 10,001 times."""
    table.text(f"{name}10", unit * 10)
    for times in (100, 1000, 10001):
        part = f"@{name}{times // 10} 0 {len(unit) * (times // 10)}\n"
        table.texts[f"{name}{times}"] = unit * times
        table.blocks.append(f"text {name}{times}\n" + part * 10 + (text(unit) if times % 10 else ""))


def lines(commands):
    """The lines that a bar parts."""
    return "".join(f"{it}\n" for it in commands.split("|")).encode("ascii")


def add(table):
    table.language("sums", CALCULATOR)
    table.language("program", program())
    table.language("names", NAMES)

    def lived(note, words, data, files=None, replies=1, calls=(), console=(), came=None, rise=None):
        """Adds the case of a session with this input. Where calls fail, the status and what is written are given."""
        files = files or {name: table.texts[name] for name in words[:1] if name in table.texts}
        status, said, kept = came + ({},) if came else answered(table.program, words, data, files)
        counts = [int(it) for it in re.findall(r"^= .*? ev (\d+) ", said.decode("ascii"), re.MULTILINE)]
        case = [f"// {it}\n" for it in note.strip().split("\n")] + ["\n"] if note else []
        case.append(" ".join(["live", *words]) + "\n" + table.content(data))
        case += [f"file {name}\n{table.content(content)}" for name, content in files.items()]
        case += [f"call {it}\n" for it in calls] + [f"console {it}\n" for it in console]
        case.append(f"gives {status} {replies} {sum(counts) if rise is None else rise}\n{table.content(said)}")
        case += [f"after {name}\n{table.content(content)}" for name, content in kept.items()]
        table.blocks.append("".join(case))
        table.cases += 1

    sums = ["sums"]
    lived("Blocks, a word that is no command, an empty line and a comment.", sums,
          lines('new a|next|do "+"|jump|next||# c|text "4"'))
    lived("A window of its own.", ["sums", "7", "2"], lines('new a|next|do "+"|up|show'))
    lived("The last line has no newline.", sums, b"new a\nnext\nshow")
    lived("Lines that say nothing: none, an empty one, a comment without a newline, blanks.", sums, b"")
    lived("", sums, b"\n")
    lived("", sums, b"#")
    lived("", sums, b"\n\n  \n \r\n# next\n#\n")
    lived("No buffer.", sums, lines("next"))
    lived("A carriage return before the newline is none of the line's; without the newline it is.", sums, b"show\r\n")
    lived("", sums, b"show\r")
    lived("Bytes that no command has.", sums, b"show\0\n\xff\nshow\xc3\xa9\n\x1b[A\nshow\n")
    lived("Words as in no command.", sums, lines('Show|show | show|show show|new|new a b|do +|do "+|?|??|=|!'))

    none = b"= - ev 0 no buffer\n"
    tenfold(table, "show", b"show\n")
    tenfold(table, "none", none)
    lived("More commands than a script may have.", sums, b"show\n" * 10001)

    lived("A line of a byte more than a line may have with its newline, and one of as many as it may have.", sums,
          Pieces((b"x", MOST), (b"\n", 1), (b"show\n", 1)))
    lived("", sums, Pieces((b"x", MOST - 1), (b"\n", 1), (b"show\n", 1)))
    lived("The same for a comment, and without a newline.", sums, Pieces((b"#", MOST), (b"\n", 1), (b"show\n", 1)))
    lived("", sums, Pieces((b"#", MOST - 1), (b"\n", 1), (b"show\n", 1)))
    lived("", sums, Pieces((b"#", MOST + 1)))
    lived("", sums, Pieces((b"#", MOST)))
    lived("Its rest is no command.", sums, Pieces((b"x", MOST), (b"show", 1), (b"\n", 1), (b"show\n", 1)))

    lived("Files: one is kept, loaded, and one is none.", sums,
          lines('new a|next|text "4"|save o|save-text t|load b o|load c none|load a o|switch a'), replies=5)
    lived("The second call of the shelf fails: the file is not kept.", sums, lines("new a|save o|load b o"), replies=3, calls=[2],
          came=(0, b"= a 1:1-2:9 calc top 1 ev 1 ok\n|<exp>\n|VALUE = 0\n"
                         b"= a 1:1-2:9 calc top 1 ev 0 write fault\n|<exp>\n|VALUE = 0\n"
                         b"= a 1:1-2:9 calc top 1 ev 0 read fault\n|<exp>\n|VALUE = 0\n"))
    lived("A session may load 64 times.", sums, lines("load b x") * 65, replies=65)
    made = b"= a 1:1-2:9 calc top 1 ev 1 ok\n|<exp>\n|VALUE = 0\n"
    shown, lost = made.replace(b"ev 1", b"ev 0"), b"read fault input\n"
    whole = none + made + shown
    notes = ["Reads and puts that fail: of the calls of the console each odd one reads here, and each even one puts. What a put that\n"
             "fails would have said was done."]
    for console, came in (([2], (6, b"")), ([4], (6, none)), ([6], (6, none + made)), ([1], (3, lost)), ([3], (3, none + lost)),
                          ([5], (3, none + made + lost)), ([7], (3, whole + lost)), ([1, 2], (6, b"")), ([3, 4], (6, none)),
                          ([7, 8], (6, whole))):
        lived(notes.pop() if notes else "", sums, lines("show|new a|show"), console=console, came=came,
              rise=1 if console == [4] else None)
    lived("A line that says nothing wants no put, one that is no command does, and one that asks what applies.", sums,
          lines("|# c|show"), console=[4], came=(6, b""))
    lived("", sums, lines("jump"), console=[2], came=(6, b""))
    lived("", sums, lines("?do"), console=[2], came=(6, b""))
    lived("", sums, Pieces((b"x", MOST + 1)), console=[2], came=(6, b""))

    lived("What applies: with no buffer, at the root, at a place of the language.", sums, lines('?do|new a|?do|next|?do|do "+"|?do'))
    lived("While a text is typed, and after it was read.", sums,
          lines('new a|next|?do|type "1"|?do|type " +"|?do|enter|?do|abandon|?do|text "1+"|?do|abandon|text "1+2"|?do'))
    lived("Where a run is selected.", ["program"], lines("|".join(BEGIN) + "|?do|extend|?do|extend|?do|shrink|shrink|?do|up|?do"))
    lived("It changes nothing: neither the buffer nor the way back.", sums, lines('new a|next|do "+"|undo|?do|redo|?do|undo|?do|show'))
    lived("It ends with a carriage return and a newline, or with neither.", sums, b"new a\nnext\n?do\r\n?do")
    lived("It is not what is asked.", sums, lines('new a|next| ?do|?do |?Do|?d|?doo|? do|#?do|?do "+"') + b"?do\r")
    lived("Names with signs that a string writes otherwise, one of two declarations, and those that do not apply.", ["names"],
          lines('new a|?do|next|?do|text "(1 2)"|?do|do "say \\"pair\\""|?do|do "twice"|'
                'next|?do|do "two\\nlines"|do ""|do "back\\\\slash"'))
    lived("In the buffer that is current, at what is selected there.", sums,
          lines('new a|next|new b|?do|switch a|?do|switch b|next|do "+"|?do|goto 1 2|?do'))

    notes = ["Words that are no job."]
    for words in ("", "sums 0 5", "sums 80", "sums 1025 5", "sums 5 1025", "sums x 5", "sums 5 5 5", "sums 01 5"):
        lived(notes.pop() if notes else "", words.split(), lines("show"), replies=0)
    lived("", [], b"", replies=0, console=[1], came=(6, b""))
    lived("The narrowest window, and the widest.", ["sums", "1", "1"], lines("new a|show"))
    lived("", ["sums", "1024", "1024"], lines("new a|show"))
    lived("A specification that is missing, and a shelf that does not fetch it.", ["none"], lines("show"))
    lived("", sums, lines("show"), calls=[1], came=(3, b"read fault specification\n"))
    lived("", ["none"], lines("show"), console=[1], came=(6, b""))
    notes = ["Specifications with a fault."]
    for spec in ("", "root top", CALCULATOR + "root calc;\n", CALCULATOR + "exp : Twice(exp);\n",
                 CALCULATOR.replace("INT.value", "exp.v", 1), CALCULATOR.replace("E.t;", "E.u;")):
        lived(notes.pop() if notes else "", ["fault"], lines("show"), files={"fault": spec.encode("ascii")})
    lived("", ["fault"], lines("show"), files={"fault": b"root top"}, console=[1], came=(6, b""))
