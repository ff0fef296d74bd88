"""Unparsing: cells, lines and regions."""

import bisect

from .kinds import PAGE, Fault, Leaf
from .terms import is_nil, is_pair


def schemes_of(op, view):
    """The schemes of an operator in a view; view None is the ordinary one."""
    if view is not None and view in op.views:
        return op.views[view]
    return op.schemes


def scheme_of(n, view):
    """The current scheme of a node."""
    schemes = schemes_of(n.op, view)
    return schemes[n.scheme % len(schemes)]


def places(scheme):
    """The marks of the child places, in order."""
    return [i.mark for i in scheme.items if i.kind == "place"]


def shown(v, phylum):
    """The printed form of a value of a leaf type."""
    if type(v) is Fault:
        return b"<%s>" % v.value.encode()
    if type(v) is bool:
        return b"true" if v else b"false"
    if type(v) is int:
        return b"%d" % v
    if v == b"" and phylum.kind == "lexeme":
        return b"<%s>" % phylum.name.encode()
    return v


class Page:
    """The first cells of an unparsing, with the part of each unparsed node."""

    def __init__(self):
        self.text = bytearray()
        self.cut = False
        self.span = {}              # node number -> (first cell, cell after the last)
        self.owners = []            # (first cell, node number) in rising order
        self.breaks = None

    def write(self, data, owner):
        room = PAGE - len(self.text)
        if len(data) > room:
            self.cut = True
            data = data[:room]
        if data:
            self.owners.append((len(self.text), owner))
            self.text += data

    def finish(self):
        self.breaks = [k for k, c in enumerate(self.text) if c == 10] \
            if self.text.count(10) else []
        self.text = bytes(self.text)

    def lines(self):
        return self.text.split(b"\n")

    def position(self, cell):
        """(line, column) of a cell, or of the place after the last one."""
        before = bisect.bisect_left(self.breaks, cell)
        start = self.breaks[before - 1] + 1 if before else 0
        return before + 1, cell - start + 1

    def region(self, number):
        """First and last position of an unparsed node, else None."""
        if number not in self.span:
            return None
        a, b = self.span[number]
        return self.position(a), self.position(max(a, b - 1))

    def owner(self, line, col):
        if line > len(self.breaks) + 1:
            return None
        start = self.breaks[line - 2] + 1 if line > 1 else 0
        end = self.breaks[line - 1] + 1 if line <= len(self.breaks) else len(self.text)
        cell = start + col - 1
        if cell >= end:
            return None
        k = bisect.bisect_right(self.owners, (cell, float("inf"))) - 1
        return self.owners[k][1]


class Unparser:
    def __init__(self, attribution, view, captured, text):
        self.a = attribution
        self.view = view
        self.captured = captured    # node number or None
        self.text = text
        self.margin = 0
        self.page = Page()

    def run(self):
        """The fold, with a stack of its own: it holds items still to do."""
        self.todo = [("node", 0)]
        while self.todo:
            what, *rest = self.todo.pop()
            getattr(self, what)(*rest)
        self.page.finish()
        return self.page

    def node(self, k):
        n = self.a.nodes[k]
        start = len(self.page.text)
        self.todo.append(("close", k, start))
        if k == self.captured:
            self.plain(self.text, k)
        elif n.elided:
            self.page.write(b"...", k)
        elif type(n) is Leaf:
            self.plain(shown(n.value, n.phylum), k)
        else:
            scheme = scheme_of(n, self.view)
            child = len(n.kids)
            for item in reversed(scheme.items):
                if item.kind == "place":
                    child -= 1
                    if item.mark != "..":
                        self.todo.append(("node", self.a.kids[k][child]))
                else:
                    self.todo.append(("item", item, k, n))

    def close(self, k, start):
        self.page.span[k] = (start, len(self.page.text))

    def item(self, item, k, n):
        if item.kind == "string":
            self.string(item.value, k)
        elif item.kind == "separator":
            if not is_nil(n.kids[1]):
                for s in item.strings:
                    self.string(s.value, k)
        else:
            child, slot, phylum = item.shows
            at = k if child == 0 else self.a.kids[k][child - 1]
            self.plain(shown(self.a.value(at, slot), phylum), k)

    def newline(self, k):
        spaces = min(self.margin, PAGE)
        self.page.write(b"\n" + b" " * spaces, k)

    def plain(self, data, k):
        """A value, a leaf or a capture: a byte 10 acts as %n."""
        for j, part in enumerate(data.split(b"\n")):
            if j:
                self.newline(k)
            self.page.write(part, k)

    def string(self, data, k):
        """A scheme's string. A byte 10 in it is a plain cell: the margin
        comes in values, leaves and captures alone."""
        at = 0
        while at < len(data):
            e = data.find(b"%", at)
            if e < 0:
                e = len(data)
            self.page.write(data[at:e], k)
            if e == len(data):
                break
            c = data[e + 1:e + 2]
            if c == b"n":
                self.newline(k)
            elif c == b"t":
                self.margin += 2
            elif c == b"b":
                self.margin = max(0, self.margin - 2)
            else:
                self.page.write(b"%", k)
            at = e + 2


def unparse(attribution, view=None, captured=None, text=b""):
    return Unparser(attribution, view, captured, text).run()
