"""A session that answers line by line: the program ssled_live."""

from . import script
from .editor import Editor
from .kinds import MAX_SCRIPT, MAX_SPEC, SpecFault
from .load import load
from .run import number
from .saved import spell_text
from .terms import found

USAGE = b"usage: ssled_live SPEC [W H]\n"


def offers(editor):
    """The names of the transformations that apply to the selected node, each once,
    in the order in which those that apply are declared."""
    b = editor.current
    if b is None or b.capture is not None or b.count > 1:
        return []
    first = lambda t: found(editor.spec, b.selected(), t.name)
    return [t.name for t in editor.spec.transforms if first(t) is not None and first(t)[0] is t]


def answer(editor, line, shelf):
    """What is written for a line, and how many instances were evaluated."""
    if len(line) > MAX_SCRIPT:
        return b"! long line\n", 0
    if line in (b"?do", b"?do\n", b"?do\r\n"):
        return b"".join([b"! do", *(b" " + spell_text(name) for name in offers(editor)), b"\n"]), 0
    try:
        commands = script.read(line)
    except script.ScriptFault:
        return b"! no command\n", 0
    for name, words in commands:
        message, count = editor.step(name, words, shelf)
        return editor.screen(message, count), count
    return b"", 0


class Lost(Exception):
    """The input cannot be read."""


class Live:
    """A whole run. `lines` gives the lines of the input, each with its newline if it
    has one, or raises Lost; `put` writes bytes and answers whether it could."""

    def __init__(self, shelf, put):
        self.shelf = shelf
        self.put = put
        self.total = 0

    def said(self, text, status):
        return status if self.put(text) else 6

    def run(self, words, lines):
        """The status."""
        size = (80, 24)
        if len(words) == 3:
            size = (number(words[1], 1024), number(words[2], 1024))
        if len(words) not in (1, 3) or None in size:
            return self.said(USAGE, 2)
        data = self.shelf.fetch(words[0], MAX_SPEC + 1)
        if data is None:
            return self.said(b"read fault specification\n", 3)
        try:
            editor = Editor(load(data), *size)
        except SpecFault as fault:
            return self.said(fault.printed().encode("latin-1") + b"\n", 4)
        return self.talk(editor, lines)

    def talk(self, editor, lines):
        try:
            for line in lines:
                text, count = answer(editor, line, self.shelf)
                self.total += count
                if text and not self.put(text):
                    return 6
        except Lost:
            return self.said(b"read fault input\n", 3)
        return 0
