"""All mismatches of a specification, with the types that are wanted and those that are there."""

from . import names as naming
from .reader import read
from .text import cut, lex, line_of
from .typing import Types

UNKNOWN = "an unknown type"


class AllTypes(Types):
    """All mismatches with what is wanted and what is there; None is the type of what has none."""

    def __init__(self, names):
        super().__init__(names)
        self.rows = []

    def put(self, at, tree, wanted, have):
        self.rows.insert(at, (tree.place, wanted or UNKNOWN, have or "none"))

    def accepted(self, have, want):
        return have is not None and super().accepted(have, want)

    def want(self, e, env, type_):
        at = len(self.rows)
        have = self.expr(e, env)
        if not self.accepted(have, type_):
            self.put(at, e, type_, have)
        return have

    def operator(self, e, env):
        if e.kind not in ("==", "!="):
            return super().operator(e, env)
        a = self.expr(e.kids[0], env)
        at = len(self.rows)
        b = self.expr(e.kids[1], env)
        if a is None or a != b and not (self.texts(a) and self.texts(b)):
            self.put(at, e.kids[1], a and "what compares with " + a, b)
        return "BOOL"

    def cons(self, e, env):
        first = len(self.rows)
        have = self.expr(e.kids[0], env)
        second = len(self.rows)
        list_ = self.expr(e.kids[1], env)
        if self.names.listing.get(list_) in ("list", "optional list"):
            element = self.names.by_phylum[list_][1].args[0]
            if not self.accepted(have, element):
                self.put(first, e.kids[0], element, have)
        else:
            self.put(second, e.kids[1], "a list", list_)
        return list_

    def with_(self, e, env):
        of = self.expr(e.of, env)
        for number, (p, body) in enumerate(e.cases):
            inner = dict(env)
            self.pattern(p, of, inner)
            if number:
                self.want(body, inner, result)
            else:
                result = self.expr(body, inner)
        if e.default:
            self.want(e.default, env, result)
        return result

    def remote(self, e):
        types = [self.names.attribute(n.value, a.value)[1] for n, a in e.pairs]
        if any(t != types[0] for t in types):
            self.put(len(self.rows), e, "a type", None)
        return types[0]

    def pattern(self, p, want, env):
        k = p.kind
        if k == "var":
            env[p.name.value] = want
        elif k in ("number", "bool"):
            have = {"number": "INT", "bool": "BOOL"}[k]
            self.fits(p, have == want, want, have)
        elif k == "string":
            self.fits(p, self.texts(want), want, "STR")
        elif k in ("hold", "comp"):
            self.fits(p, self.accepted(p.name.value, want), want, p.name.value)
        elif k == "op":
            op = self.names.ops[p.name]
            self.fits(p, op.phylum == want, want, op.phylum)
            for kid, a in zip(p.kids, op.args):
                self.pattern(kid, a, env)

    def fits(self, p, good, want, have):
        if not good:
            self.put(len(self.rows), p, want, have)


def rows_of(data):
    """The mismatches of a specification that is refused for one."""
    names = naming.resolve(read(cut(lex(data))))
    types = AllTypes(names)
    for d in names.decls:
        if d.kind == "equations":
            types.op = names.op_of(d.name.value, d.op.value)
            env = dict(names.locals_of(types.op))
            for target, e in d.rules:
                types.want(e, env, env[target.name.value] if target.kind == "local" else types.attr(target))
        elif d.kind == "function":
            types.want(d.body, {name.value: type_.value for type_, name in d.params}, d.type.value)
        elif d.kind == "transform":
            env = {}
            types.pattern(d.pattern, d.name.value, env)
            types.want(d.expr, env, d.name.value)
        elif d.kind == "productions":
            for r in d.rights:
                types.symbols = [d.name.value] + [s.value if s.kind == "name" else None for s in r.symbols]
                types.want(r.expr, {}, names.attrs[d.name.value][0][1])
                types.symbols = None
    return types.rows


def lines_of(data):
    """What is told of them."""
    lines = []
    for place, wanted, have in rows_of(data):
        column = place - (data.rfind(b"\n", 0, place) + 1) + 1
        lines.append(f"  {line_of(data, place)}:{column}: {wanted} is wanted, {have} is there")
    return lines
