"""Types: the faults Mismatch and ShownType."""

from .names import Faults, occurrence

ARITHMETIC = ("+", "-", "*", "/", "%")
COMPARE = ("<", "<=", ">", ">=")


class Types:
    """Types of expressions and patterns. A type is the name of a phylum."""

    def __init__(self, names):
        self.names = names
        self.faults = Faults("Mismatch")
        self.op = None              # the operator, in equations
        self.symbols = None         # the names, in input productions

    def lexeme(self, t):
        return self.names.kind.get(t) == "lexeme"

    def accepted(self, have, want):
        return have == want or (self.lexeme(have) and want == "STR")

    def texts(self, t):
        return t == "STR" or self.lexeme(t)

    def bad(self, tree):
        self.faults.add(tree.place, "line %d" % tree.line)

    def want(self, e, env, type_):
        have = self.expr(e, env)
        if type_ is not None and not self.accepted(have, type_):
            self.bad(e)
        return have

    def expr(self, e, env):
        """The type of an expression; what is inside is checked."""
        k = e.kind
        if k == "number":
            return "INT"
        if k == "string":
            return "STR"
        if k == "bool":
            return "BOOL"
        if k == "name":
            return env[e.name]
        if k == "attr":
            return self.attr(e)
        if k in ("hold", "comp"):
            return e.name.value
        if k == "remote":
            return self.remote(e)
        if k == "paren":
            return self.expr(e.kids[0], env)
        if k == "call":
            args, result = self.names.callable(e.name)
            for kid, a in zip(e.kids, args):
                self.want(kid, env, a)
            return result
        if k == "let":
            type_ = self.expr(e.kids[0], env)
            return self.expr(e.kids[1], dict(env, **{e.name.value: type_}))
        if k == "with":
            return self.with_(e, env)
        if k == "if":
            self.want(e.kids[0], env, "BOOL")
            type_ = self.expr(e.kids[1], env)
            self.want(e.kids[2], env, type_)
            return type_
        return self.operator(e, env)

    def operator(self, e, env):
        k = e.kind
        if k in ARITHMETIC or k == "neg" or k in COMPARE:
            for kid in e.kids:
                self.want(kid, env, "INT")
            return "BOOL" if k in COMPARE else "INT"
        if k in ("&&", "||", "not"):
            for kid in e.kids:
                self.want(kid, env, "BOOL")
            return "BOOL"
        if k == "#":
            for kid in e.kids:
                self.want(kid, env, "STR")
            return "STR"
        if k in ("==", "!="):
            a = self.expr(e.kids[0], env)
            b = self.expr(e.kids[1], env)
            if a != b and not (self.texts(a) and self.texts(b)):
                self.bad(e.kids[1])
            return "BOOL"
        return self.cons(e, env)

    def cons(self, e, env):
        list_ = self.expr(e.kids[1], env)
        element = None
        if self.names.listing.get(list_) in ("list", "optional list"):
            element = self.names.by_phylum[list_][1].args[0]
        else:
            self.bad(e.kids[1])
        self.want(e.kids[0], env, element)
        return list_

    def with_(self, e, env):
        of = self.expr(e.of, env)
        result = None
        for p, body in e.cases:
            inner = dict(env)
            self.pattern(p, of, inner)
            type_ = self.want(body, inner, result)
            result = result or type_
        if e.default:
            self.want(e.default, env, result)
        return result

    def attr(self, e):
        if self.symbols is not None:
            at = occurrence(e.occ, self.symbols)
            return self.names.attribute(self.symbols[at], e.attr.value)[1]
        at = occurrence(e.occ, self.op.occurrences)
        return self.names.attribute(self.op.occurrences[at], e.attr.value)[1]

    def remote(self, e):
        types = [self.names.attribute(n.value, a.value)[1] for n, a in e.pairs]
        if any(t != types[0] for t in types):
            self.bad(e)
        return types[0]

    def pattern(self, p, want, env):
        """Checks a pattern where a type is wanted and binds its variables."""
        k = p.kind
        if k == "var":
            env[p.name.value] = want
        elif k == "number":
            self.fits(p, want == "INT")
        elif k == "bool":
            self.fits(p, want == "BOOL")
        elif k == "string":
            self.fits(p, self.texts(want))
        elif k in ("hold", "comp"):
            self.fits(p, self.accepted(p.name.value, want))
        elif k == "op":
            op = self.names.ops[p.name]
            self.fits(p, op.phylum == want)
            for kid, a in zip(p.kids, op.args):
                self.pattern(kid, a, env)

    def fits(self, p, good):
        if not good:
            self.bad(p)


def fault_mismatch(names):
    t = Types(names)
    for d in names.decls:
        if d.kind == "equations":
            t.op = names.op_of(d.name.value, d.op.value)
            env = dict(names.locals_of(t.op))
            for target, e in d.rules:
                want = env[target.name.value] if target.kind == "local" else t.attr(target)
                t.want(e, env, want)
        elif d.kind == "function":
            env = {name.value: type_.value for type_, name in d.params}
            t.want(d.body, env, d.type.value)
        elif d.kind == "transform":
            env = {}
            t.pattern(d.pattern, d.name.value, env)
            t.want(d.expr, env, d.name.value)
        elif d.kind == "productions":
            want = names.attrs[d.name.value][0][1]
            for r in d.rights:
                t.symbols = [d.name.value] + [s.value if s.kind == "name" else None
                                              for s in r.symbols]
                t.want(r.expr, {}, want)
                t.symbols = None
    t.faults.check()


def fault_shown_type(names):
    faults = Faults("ShownType")
    t = Types(names)
    for d in names.decls:
        if d.kind != "schemes":
            continue
        t.op = names.op_of(d.name.value, d.op.value)
        types = dict(names.locals_of(t.op))
        for s in d.schemes:
            for item in s.items:
                if item.kind == "attr":
                    type_ = t.attr(item)
                elif item.kind == "local":
                    type_ = types[item.name.value]
                else:
                    continue
                if not names.is_leaf(type_):
                    faults.add(item.place, "line %d" % item.line)
    faults.check()


def check(names):
    """The first fault of types, or nothing."""
    fault_mismatch(names)
    fault_shown_type(names)
