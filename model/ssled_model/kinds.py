"""Records: limits, values, terms, the specification."""

import enum

MAX_SPEC = 1048576
MAX_SCRIPT = 1048576
MAX_FILE = 4194304
MAX_COMMANDS = 10000
MAX_LOADS = 64
MAX_BUFFERS = 64
MAX_NODES = 65536
MAX_DEPTH = 1024
MAX_SIZE = 65536
FUEL = 100000
NESTING = 2048
HISTORY = 256
PAGE = 1048576
STATES = 65536
EXPR_DEPTH = 128

BASE = ("BOOL", "INT", "STR")


class Fault(enum.Enum):
    """A fault value."""
    FUEL = "fuel"
    DEPTH = "depth"
    SIZE = "size"
    DIVIDE = "divide"
    OVERFLOW = "overflow"
    NOMATCH = "nomatch"
    CONVERT = "convert"


# A value is a bool, an int, a bytes (text), a Tree or a Fault.

class Tree:
    """An operator over values. Made by Spec.tree alone, so that equal trees
    are one object."""
    __slots__ = ("op", "kids", "size", "depth")

    def __init__(self, op, kids):
        self.op = op
        self.kids = kids
        self.size = 1 + sum(size_of(k) for k in kids)
        self.depth = 1 + max([depth_of(k) for k in kids], default=0)


def size_of(v):
    if type(v) is bytes:
        return 1 + len(v)
    if type(v) is Tree:
        return v.size
    return 1


def depth_of(v):
    return v.depth if type(v) is Tree else 1


def same(a, b):
    """Equality of values."""
    if type(a) is Tree or type(b) is Tree:
        return a is b
    return type(a) is type(b) and a == b


class Leaf:
    """A leaf of a base or lexeme phylum."""
    __slots__ = ("phylum", "value")
    nodes = 1
    depth = 1
    kids = ()
    op = None
    scheme = 0
    elided = False

    def __init__(self, phylum, value):
        self.phylum = phylum
        self.value = value


class Node:
    """An operator, a scheme number, an elided mark and children."""
    __slots__ = ("op", "scheme", "elided", "kids", "nodes", "depth", "_value")

    def __init__(self, op, scheme, elided, kids):
        self.op = op
        self.scheme = scheme
        self.elided = elided
        self.kids = tuple(kids)
        self.nodes = 1 + sum(k.nodes for k in self.kids)
        self.depth = 1 + max([k.depth for k in self.kids], default=0)
        self._value = None

    @property
    def phylum(self):
        return self.op.phylum


class Attr:
    __slots__ = ("name", "kind", "type", "hidden")

    def __init__(self, name, kind, type_, hidden=False):
        self.name = name
        self.kind = kind            # "synthesized" or "inherited"
        self.type = type_
        self.hidden = hidden


class Phylum:
    """kind is "base", "lexeme" or "ops"; listing is None, "list",
    "optional" or "optional list"."""
    __slots__ = ("name", "kind", "ops", "attrs", "listing", "decl", "pattern")

    def __init__(self, name, kind):
        self.name = name
        self.kind = kind
        self.ops = []
        self.attrs = [] if kind == "ops" else [Attr("value", "synthesized", name)]
        self.listing = None
        self.decl = None
        self.pattern = None

    @property
    def leaf(self):
        return self.kind != "ops"

    @property
    def is_list(self):
        return self.listing in ("list", "optional list")


class Operator:
    __slots__ = ("number", "name", "phylum", "args", "place", "line", "locals",
                 "rules", "schemes", "views")

    def __init__(self, number, name, phylum, args, place, line):
        self.number = number
        self.name = name
        self.phylum = phylum        # its Phylum
        self.args = args            # list of Phylum
        self.place = place
        self.line = line
        self.locals = []            # list of (name, type)
        self.rules = {}             # (occurrence, slot) -> Rule
        self.schemes = []
        self.views = {}             # view name -> list of Scheme

    def occurrences(self):
        return [self.phylum] + self.args


class Rule:
    """An equation. args are (occurrence, slot); keys are the names under
    which the expression finds them."""
    __slots__ = ("number", "op", "occ", "slot", "args", "keys", "expr")

    def __init__(self, number, op, occ, slot, args, keys, expr):
        self.number = number
        self.op = op
        self.occ = occ
        self.slot = slot
        self.args = args
        self.keys = keys
        self.expr = expr


class Spec:
    """The record of an accepted specification."""

    def __init__(self):
        self.phyla = {}             # name -> Phylum, base ones first
        for b in BASE:
            self.phyla[b] = Phylum(b, "base")
        self.ops = []
        self.op_by_name = {}
        self.functions = {}
        self.transforms = []
        self.lexemes = []           # Phylum records, in declaration order
        self.productions = []
        self.entries = []
        self.levels = []
        self.views = []
        self.root = None
        self.rules = []
        self._trees = {}
        self._completing = {}
        self._placeholder = {}

    def tree(self, op, kids):
        key = (op.number, kids)
        t = self._trees.get(key)
        if t is None:
            t = self._trees[key] = Tree(op, kids)
        return t

    def val(self, t):
        """The value of a term: it forgets schemes and marks."""
        if type(t) is Leaf:
            return t.value
        if t._value is None:
            t._value = self.tree(t.op, tuple([self.val(k) for k in t.kids]))
        return t._value

    def plain(self, v, phylum):
        """The term of v that fits the phylum, scheme 0 and no mark."""
        if phylum.leaf:
            return Leaf(phylum, v)
        return Node(v.op, 0, False,
                    [self.plain(k, p) for k, p in zip(v.kids, v.op.args)])

    def completing(self, p):
        if p.name not in self._completing:
            self._completing[p.name] = self._make(p, False)
        return self._completing[p.name]

    def placeholder(self, p):
        if p.name not in self._placeholder:
            self._placeholder[p.name] = self._make(p, True)
        return self._placeholder[p.name]

    def _make(self, p, hold):
        if p.leaf:
            value = {"INT": 0, "BOOL": False}.get(p.name, b"")
            return Leaf(p, value)
        op = made_operator(p, hold)
        if p.is_list and op.args:
            nil = Node(p.ops[0], 0, False, ())
            return Node(op, 0, False, (self.completing(op.args[0]), nil))
        return Node(op, 0, False, [self.completing(a) for a in op.args])


def made_operator(p, hold):
    """The top operator of the completing term (hold false) or placeholder."""
    if p.listing == "list":
        return p.ops[1]
    if p.listing in ("optional", "optional list"):
        return p.ops[1 if hold else 0]
    return p.ops[0]


class SpecFault(Exception):
    """A static fault: code, printed detail, and its place in the text."""

    def __init__(self, code, detail="", place=0):
        Exception.__init__(self, code)
        self.code = code
        self.detail = detail
        self.place = place

    def printed(self):
        return ("fault %s %s" % (self.code, self.detail)).rstrip(" ")
