"""Scripts: lines that are commands."""

import re

from .forms import FORMS
from .kinds import MAX_COMMANDS, MAX_SCRIPT

BUFFER = re.compile(rb"[A-Za-z0-9_-]{1,64}\Z")
FILE = re.compile(rb"[\x21-\x7e]{1,64}\Z")
NAME = re.compile(rb"[A-Za-z_][A-Za-z0-9_]{0,63}\Z")
COUNT = re.compile(rb"[1-9][0-9]{0,8}\Z")

# command -> forms of its words
COMMANDS = {
    "new": [["B"]], "load": [["B", "F"]], "switch": [["B"]], "show": [[]],
    "next": [[]], "prev": [[]], "up": [[]], "first": [[]], "sibling": [[]],
    "goto": [["N", "N"]],
    "do": [["S"]], "delete": [[]], "remove": [[]],
    "insert-before": [[]], "insert-after": [[]],
    "cut": [[]], "copy": [[]], "paste": [[]],
    "text": [["S"]], "type": [["S"]],
    "erase": [[]], "enter": [[]], "abandon": [[]],
    "alternate": [[]], "elide": [[]],
    "undo": [[]], "redo": [[]],
    "save": [["F"]], "save-text": [["F"]],
}
if "runs" in FORMS:
    COMMANDS.update({"extend": [[]], "shrink": [[]]})
if "search" in FORMS:
    COMMANDS.update({"find": [["S"]], "replace-all": [["S"]]})
if "views" in FORMS:
    COMMANDS.update({"view": [[], ["V"]]})


class ScriptFault(Exception):
    """`long`, `line N` or `many COUNT`."""


class NoCommand(Exception):
    pass


def blanks(line, at):
    """The place after the spaces that stand here; there is at least one."""
    e = at
    while e < len(line) and line[e] == 0x20:
        e += 1
    if e == at:
        raise NoCommand()
    return e


def word_at(line, at):
    e = line.find(b" ", at)
    e = len(line) if e < 0 else e
    return line[at:e], e


def string_at(line, at):
    out = bytearray()
    at += 1
    while at < len(line):
        c = line[at]
        if c == 0x22:
            return bytes(out), at + 1
        if c == 0x5C:
            at += 1
            if at == len(line) or line[at] not in b'"\\n':
                raise NoCommand()
            c = 10 if line[at] == 0x6E else line[at]
        elif c == 13:
            raise NoCommand()
        out.append(c)
        at += 1
    raise NoCommand()


SHAPES = {"B": BUFFER, "F": FILE, "V": NAME, "N": COUNT}


def words_of(line, at, forms):
    """The words of the rest of a line, each in its form."""
    out = []
    for form in forms:
        at = blanks(line, at)
        if form == "S":
            if line[at:at + 1] != b'"':
                raise NoCommand()
            value, at = string_at(line, at)
            out.append(value)
            continue
        word, at = word_at(line, at)
        if not SHAPES[form].match(word):
            raise NoCommand()
        out.append(int(word) if form == "N" else word.decode())
    if line[at:].strip(b" "):
        raise NoCommand()
    return out


def command(line):
    """(name, list of words) of one line."""
    word, at = word_at(line, 0)
    name = word.decode("latin-1")
    for form in COMMANDS.get(name, []):
        try:
            return name, words_of(line, at, form)
        except NoCommand:
            pass
    raise NoCommand()


def read(data):
    """The commands, or the first fault."""
    if len(data) > MAX_SCRIPT:
        raise ScriptFault("script long")
    lines = data.split(b"\n")
    last = lines.pop()
    lines = [s[:-1] if s.endswith(b"\r") else s for s in lines]
    if last:
        lines.append(last)
    out = []
    for k, line in enumerate(lines, 1):
        if line == b"" or line.startswith(b"#"):
            continue
        try:
            out.append(command(line))
        except NoCommand:
            raise ScriptFault("script line %d" % k) from None
    if len(out) > MAX_COMMANDS:
        raise ScriptFault("script many %d" % len(out))
    return out
