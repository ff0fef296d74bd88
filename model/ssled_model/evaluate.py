"""Evaluation of expressions, with fuel, and matching of patterns."""

from .kinds import FUEL, MAX_DEPTH, MAX_SIZE, NESTING, Fault, Tree, depth_of, same, size_of

LEAST = -(1 << 63)
MOST = (1 << 63) - 1


class Stop(Exception):
    """The first fault met: the outcome of the whole."""

    def __init__(self, fault):
        Exception.__init__(self, fault)
        self.fault = fault


def whole(n):
    if not LEAST <= n <= MOST:
        raise Stop(Fault.OVERFLOW)
    return n


def divide(a, b):
    """Quotient truncated toward zero, and remainder with the dividend's sign."""
    if b == 0:
        raise Stop(Fault.DIVIDE)
    if a == LEAST and b == -1:
        raise Stop(Fault.OVERFLOW)
    q = abs(a) // abs(b)
    if (a < 0) != (b < 0):
        q = -q
    return q, a - q * b


def to_int(s):
    digits = s[1:] if s[:1] == b"-" else s
    if not digits or any(not 48 <= c <= 57 for c in digits):
        raise Stop(Fault.CONVERT)
    digits = digits.lstrip(b"0") or b"0"
    n = int(digits) if len(digits) <= 19 else MOST + 2
    if s[:1] == b"-":
        n = -n
    if not LEAST <= n <= MOST:
        raise Stop(Fault.CONVERT)
    return n


ARITHMETIC = {
    "+": lambda a, b: whole(a + b),
    "-": lambda a, b: whole(a - b),
    "*": lambda a, b: whole(a * b),
    "/": lambda a, b: divide(a, b)[0],
    "%": lambda a, b: divide(a, b)[1],
    "<": lambda a, b: a < b,
    "<=": lambda a, b: a <= b,
    ">": lambda a, b: a > b,
    ">=": lambda a, b: a >= b,
    "==": same,
    "!=": lambda a, b: not same(a, b),
    "#": lambda a, b: a + b,
}


class Evaluation:
    """One evaluation with its fuel."""

    def __init__(self, spec):
        self.spec = spec
        self.fuel = FUEL

    def outcome(self, e, bound):
        try:
            return self.value(e, bound, 0)
        except Stop as s:
            return s.fault

    def value(self, e, b, n):
        """The value of e under bindings b, where n nodes are entered and not
        left. A fault ends the whole."""
        if self.fuel == 0:
            raise Stop(Fault.FUEL)
        if n == NESTING:
            raise Stop(Fault.DEPTH)
        self.fuel -= 1
        v = self.cases(e, b, n + 1)
        if type(v) is Fault:
            raise Stop(v)
        if size_of(v) > MAX_SIZE or depth_of(v) > MAX_DEPTH:
            raise Stop(Fault.SIZE)
        return v

    def cases(self, e, b, n):
        k = e.kind
        if k == "name":
            return b[e.name]
        if k == "attr" or k == "remote":
            return b[e.ref]
        if k in ("number", "string", "bool"):
            return e.value
        if k == "call":
            return self.call(e, b, n)
        if k in ARITHMETIC:
            left = self.value(e.kids[0], b, n)
            return ARITHMETIC[k](left, self.value(e.kids[1], b, n))
        if k == "if":
            chosen = e.kids[1] if self.value(e.kids[0], b, n) else e.kids[2]
            return self.value(chosen, b, n)
        if k == "paren":
            return self.value(e.kids[0], b, n)
        if k == "with":
            return self.with_(e, b, n)
        if k == "let":
            v = self.value(e.kids[0], b, n)
            return self.value(e.kids[1], {**b, e.name.value: v}, n)
        if k == "&&":
            return self.value(e.kids[0], b, n) and self.value(e.kids[1], b, n)
        if k == "||":
            return self.value(e.kids[0], b, n) or self.value(e.kids[1], b, n)
        if k == "not":
            return not self.value(e.kids[0], b, n)
        if k == "neg":
            return whole(-self.value(e.kids[0], b, n))
        if k == "::":
            element = self.value(e.kids[0], b, n)
            rest = self.value(e.kids[1], b, n)
            return self.spec.tree(rest.op.phylum.ops[1], (element, rest))
        if k == "hold":
            return self.spec.val(self.spec.placeholder(self.spec.phyla[e.name.value]))
        if k == "comp":
            return self.spec.val(self.spec.completing(self.spec.phyla[e.name.value]))
        raise AssertionError(k)

    def call(self, e, b, n):
        args = tuple([self.value(k, b, n) for k in e.kids])
        op = self.spec.op_by_name.get(e.name)
        if op is not None:
            return self.spec.tree(op, args)
        f = self.spec.functions.get(e.name)
        if f is not None:
            names = [name.value for _, name in f.params]
            return self.value(f.body, dict(zip(names, args)), n)
        if e.name == "STRtoINT":
            return to_int(args[0])
        if e.name == "INTtoSTR":
            return str(args[0]).encode()
        return len(args[0])         # STRlen

    def with_(self, e, b, n):
        v = self.value(e.of, b, n)
        for p, body in e.cases:
            bound = match(self.spec, p, v, {})
            if bound is not None:
                return self.value(body, {**b, **bound}, n)
        if e.default is None:
            raise Stop(Fault.NOMATCH)
        return self.value(e.default, b, n)


def match(spec, p, v, bound):
    """The variables that the pattern binds on the value, or None."""
    k = p.kind
    if k == "any":
        return bound
    if k == "var":
        bound[p.name.value] = v
        return bound
    if k == "op":
        if type(v) is not Tree or v.op.name != p.name:
            return None
        for kid, x in zip(p.kids, v.kids):
            if match(spec, kid, x, bound) is None:
                return None
        return bound
    if k == "hold":
        wanted = spec.val(spec.placeholder(spec.phyla[p.name.value]))
    elif k == "comp":
        wanted = spec.val(spec.completing(spec.phyla[p.name.value]))
    else:
        wanted = p.value
    return bound if same(wanted, v) else None


def outcome(spec, e, bound):
    """The outcome of an expression with full fuel and nesting 0."""
    return Evaluation(spec).outcome(e, bound)


class Outcomes:
    """Outcomes of rules, remembered by rule and arguments. An outcome depends
    on these alone, so that remembering changes no answer."""

    MOST = 400000

    def __init__(self, spec):
        self.spec = spec
        self.known = {}

    def of(self, rule, args):
        key = (rule.number, args)
        v = self.known.get(key)
        if v is None:
            if len(self.known) >= self.MOST:
                self.known.clear()
            v = outcome(self.spec, rule.expr, dict(zip(rule.keys, args)))
            self.known[key] = v
        return v
