"""The saved form of a term."""

from .kinds import MAX_DEPTH, MAX_NODES, Fault, Tree
from .text import DIGITS, LETTERS, NAME_BYTES, RESERVED

HEAD = b"SGT1\n"


def spell_text(data):
    return (b'"' + data.replace(b"\\", b"\\\\").replace(b'"', b'\\"')
            .replace(b"\n", b"\\n") + b'"')


def spell(v):
    """The spelling of a value as a term."""
    out = []
    todo = [v]
    while todo:
        x = todo.pop()
        if type(x) is _Piece:
            out.append(x.data)
        elif type(x) is Tree:
            out.append(x.op.name.encode() + b"(")
            todo.append(_Piece(b")"))
            for k in range(len(x.kids) - 1, -1, -1):
                todo.append(x.kids[k])
                if k:
                    todo.append(_Piece(b","))
        elif type(x) is bool:
            out.append(b"true" if x else b"false")
        elif type(x) is int:
            out.append(b"%d" % x)
        else:
            out.append(spell_text(x))
    return b"".join(out)


class _Piece:
    def __init__(self, data):
        self.data = data


def write(spec, t):
    return HEAD + spell(spec.val(t)) + b"\n"


class FormFault(Exception):
    def __init__(self, at):
        Exception.__init__(self, at)
        self.at = at


class Parsed:
    """A term of a file before its phylum is known. kind is "op" or a leaf kind;
    start is its first byte."""
    __slots__ = ("kind", "value", "start", "kids", "depth")

    def __init__(self, kind, value, start):
        self.kind = kind
        self.value = value
        self.start = start
        self.kids = []


class Scanner:
    """Reads a saved form from left to right. A fault comes at the first byte
    after which no file could go on; what was passed begins some file."""

    def __init__(self, data):
        self.data = data
        self.at = 0

    def fail(self):
        raise FormFault(self.at)

    def byte(self):
        """The byte here, or a fault at the end of the bytes."""
        if self.at >= len(self.data):
            self.fail()
        return self.data[self.at]

    def exact(self, wanted):
        for c in wanted:
            if self.byte() != c:
                self.fail()
            self.at += 1

    def file(self):
        """All nodes in preorder, each with its children's list filled."""
        self.exact(HEAD)
        nodes = []
        open_ = []                  # operators whose parts are being read
        while True:
            node = self.start(after_open=bool(open_) and not open_[-1].kids)
            if node is not None:
                nodes.append(node)
                if open_:
                    open_[-1].kids.append(node)
                if node.kind == "op":
                    open_.append(node)
                    continue
            # a term has ended, or `)` stands directly after `(`
            else:
                open_.pop()
            while open_:
                c = self.byte()
                if c == 0x29:
                    self.at += 1
                    open_.pop()
                elif c == 0x2C:
                    self.at += 1
                    break
                else:
                    self.fail()
            if not open_:
                self.exact(b"\n")
                if self.at != len(self.data):
                    self.fail()
                return nodes

    def start(self, after_open):
        """One leaf, or an operator up to its `(`; None for `)` after `(`."""
        c = self.byte()
        at = self.at
        if c == 0x29 and after_open:
            self.at += 1
            return None
        if c == 0x22:
            return Parsed("text", self.text(), at)
        if c in DIGITS or c == 0x2D:
            return Parsed("int", self.number(), at)
        if c in LETTERS:
            return self.word(at)
        self.fail()

    def text(self):
        self.at += 1
        out = bytearray()
        while True:
            c = self.byte()
            if c == 0x22:
                self.at += 1
                return bytes(out)
            if c == 0x5C:
                self.at += 1
                e = self.byte()
                if e not in b'"\\n':
                    self.fail()
                out.append(10 if e == 0x6E else e)
            elif 32 <= c <= 126:
                out.append(c)
            else:
                self.fail()
            self.at += 1

    def number(self):
        sign = 1
        if self.byte() == 0x2D:
            sign = -1
            self.at += 1
            if self.byte() not in b"123456789":
                self.fail()
        if self.byte() == 0x30:
            self.at += 1
            if self.at < len(self.data) and self.data[self.at] in DIGITS:
                self.fail()
            return 0
        most = (1 << 63) - (1 if sign > 0 else 0)
        n = 0
        while self.at < len(self.data) and self.data[self.at] in DIGITS:
            m = n * 10 + self.data[self.at] - 48
            if m > most:
                self.fail()
            n = m
            self.at += 1
        return sign * n

    def word(self, at):
        while self.at < len(self.data) and self.data[self.at] in NAME_BYTES:
            if self.at - at == 64:
                self.fail()
            self.at += 1
        name = self.data[at:self.at].decode()
        c = self.byte()
        if c == 0x28 and name not in RESERVED:
            self.at += 1
            return Parsed("op", name, at)
        if c != 0x28 and name in ("true", "false"):
            return Parsed("bool", name == "true", at)
        self.fail()


def fits(spec, node, phylum):
    """Does the node by itself fit the phylum? Its children stand apart."""
    if phylum.kind == "ops":
        op = spec.op_by_name.get(node.value) if node.kind == "op" else None
        return op is not None and op.phylum is phylum and len(op.args) == len(node.kids)
    if phylum.kind == "lexeme":
        return node.kind == "text" and (node.value == b"" or
                                        phylum.pattern.matches(node.value))
    return node.kind == {"INT": "int", "STR": "text", "BOOL": "bool"}[phylum.name]


def read(spec, data):
    """("ok", value), ("form", at), ("phylum", at) or ("size", nodes, depth)."""
    try:
        nodes = Scanner(data).file()
    except FormFault as f:
        return "form", f.at
    todo = [(nodes[0], spec.root)]
    while todo:
        n, p = todo.pop()
        if not fits(spec, n, p):
            return "phylum", n.start
        if n.kind == "op":
            todo.extend(reversed(list(zip(n.kids, spec.op_by_name[n.value].args))))
    for n in reversed(nodes):
        n.depth = 1 + max([k.depth for k in n.kids], default=0)
    if len(nodes) > MAX_NODES or nodes[0].depth > MAX_DEPTH:
        return "size", len(nodes), nodes[0].depth
    values = {}
    for n in reversed(nodes):
        if n.kind == "op":
            kids = tuple([values[id(k)] for k in n.kids])
            values[id(n)] = spec.tree(spec.op_by_name[n.value], kids)
        else:
            values[id(n)] = n.value
    return "ok", values[id(nodes[0])]


def printed(v):
    """A value of a report: as a saved term, a fault as on a screen."""
    if type(v) is Fault:
        return b"<%s>" % v.value.encode()
    return spell(v)
