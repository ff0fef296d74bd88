#!/usr/bin/env python3
"""docs.py [--edges]: holds the documents against crates.txt and against each other, and prints what is not so.

Each crate stands once in the rooms of ARCHITECTURE.md, under the same room in crates.txt, and once in the rows of
PROVED.md, and stands on crates before it; the calls of such a row are names of the crate's source, as is a name `sg_x::y` between backticks; what a
section of DEFINITIONS.md defines stands in the specs of its crates; what an edit takes away stands once in its file. README.md, PROVED.md and DEFINITIONS.md share no
nine words in a row, and no table of README.md has over ten rows. With --edges it prints crates.txt without the edges
that others imply.
"""
import re
import sys
from itertools import combinations
from pathlib import Path

ROOT = Path(__file__).resolve().parent.parent
ITEM = r"\b(?:fn|struct|enum|trait|type|const|mod)"
ANYWHERE = ("sg_kinds", "sg_outside", "sg_replies")  # what crates that come before may stand on
CRATE = r"\b(?:sg_[a-z_]+|ssled(?:_[a-z]+)?)\b(?![./])"


def page(name):
    return (ROOT / name).read_text()


def listed():
    """What stands in crates.txt: each crate's room, and what of the repository it stands on."""
    rooms, edges, room = {}, {}, None
    for line in page("crates.txt").splitlines():
        if found := re.match(r"# ([A-Z]+): ", line):
            room = found[1]
        elif found := re.match(r"([a-z_]+):(.*)", line):
            rooms[found[1]], edges[found[1]] = room, found[2].split()
    return rooms, {name: [on for on in below if on in edges] for name, below in edges.items()}


def drawn():
    """The crates of each room in the drawing, as often as they stand there."""
    parts = re.split(r"(?m)^[^A-Z\n]*\b([A-Z]{3,})\b", re.search(r"(?s)```rooms\n(.*?)```", page("docs/ARCHITECTURE.md"))[1])
    return [(name, room) for room, text in zip(parts[1::2], parts[2::2]) for name in re.findall(CRATE, text)]


def sources(crate):
    return " ".join(path.read_text() for path in (ROOT / "crates" / crate / "src").glob("**/*.rt"))


def named_items(text):
    """What is wrong with names of the form sg_x::y."""
    for crate, name in re.findall(r"`(sg_[a-z_]+)::(?:[A-Z]\w*::)?(\w+)`", text):
        if not re.search(rf"{ITEM} {name}\b", sources(crate)):
            yield f"{crate}::{name} is no name of {crate}"


def calls_of_rows():
    """What is wrong with the second column of PROVED.md."""
    for crate, calls in re.findall(rf"(?m)^\| ({CRATE}) \| ([^|]*) \|", page("docs/PROVED.md")):
        for name in re.findall(r"`(?:\w+::)?(\w+)`", calls):
            if not re.search(rf"{ITEM} {name}\b", sources(crate)):
                yield f"PROVED.md: {name} is no name of {crate}"


def definitions():
    """What is wrong with the first column of DEFINITIONS.md."""
    for section in re.split(r"(?m)^## ", page("docs/DEFINITIONS.md"))[1:]:
        title, *rows = section.splitlines()
        files = [path for crate in re.findall(CRATE, title) for path in (ROOT / "crates" / crate / "specs").glob("**/*.antt")]
        text = " ".join(path.read_text() for path in files)
        for row in rows:
            for name in re.findall(r"`(\w+)`", row.split("|")[1]) if row.startswith("| `") else []:
                if name not in {path.stem for path in files} and not re.search(rf"\b{name}\b", text):
                    yield f"DEFINITIONS.md: {name} is no definition of {title.split(':')[0]}"


def edits():
    """What is wrong with the edits that have to be refused."""
    for path in sorted(ROOT.glob("crates/*/must-fail/*.edit")):
        file = text = ""
        for line in path.read_text().splitlines():
            kind, _, told = line.partition(": ")
            if kind == "file":
                file, at = told, path.parents[1] / told
                text = at.read_text() if at.is_file() else ""
            elif kind == "old" and text.count(told) != 1:
                yield f"{path.relative_to(ROOT)}: what it takes away stands {text.count(told)} times in {file}"


def runs(name):
    words = re.findall(r"[\w`:]+", re.sub(r"(?sm)```.*?```|^#[^\n]*", "", page(name)).lower())
    return {" ".join(words[k:k + 9]) for k in range(len(words) - 8)}


def wrong():
    rooms, edges = listed()
    proved = re.findall(rf"(?m)^\| ({CRATE}) \|", page("docs/PROVED.md"))
    drawing = drawn()
    for name in sorted({*rooms, *proved, *(name for name, _ in drawing)}):
        if [room for crate, room in drawing if crate == name] != [rooms.get(name)]:
            yield f"{name} does not stand once in its room of ARCHITECTURE.md and of crates.txt"
        if proved.count(name) != 1:
            yield f"{name} has {proved.count(name)} rows in PROVED.md"
    for path in [ROOT / "README.md", *sorted((ROOT / "docs").glob("*.md"))]:
        yield from (f"{path.name}: {told}" for told in named_items(path.read_text()))
    place = {name: number for number, name in enumerate(rooms)}
    yield from (f"{name} stands before {on} in crates.txt" for name, below in edges.items() for on in below
                if place[on] > place[name] and on not in ANYWHERE)
    yield from calls_of_rows()
    yield from definitions()
    yield from edits()
    for one, other in combinations(("README.md", "docs/PROVED.md", "docs/DEFINITIONS.md"), 2):
        yield from (f"{one} and {other}: {run}" for run in sorted(runs(one) & runs(other)))
    yield from ("README.md: a table of over ten rows" for _ in re.findall(r"(?:^\|.*\n){13,}", page("README.md"), re.M))


def short_form():
    """crates.txt without the edges that others say by way of a crate between."""
    _, edges = listed()

    def reached(name):
        return {name}.union(*map(reached, edges[name]))

    for name, below in edges.items():
        yield f"{name}: " + " ".join(on for on in below if not any(on in reached(other) for other in below if other != on))


if __name__ == "__main__":
    short = sys.argv[1:] == ["--edges"]
    told = list(short_form() if short else wrong())
    print("".join(f"{line}\n" for line in told), end="")
    sys.exit(bool(told) and not short)
