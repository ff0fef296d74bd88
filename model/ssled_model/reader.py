"""SSL-P declarations as trees: the fault Syntax."""

from .forms import FORMS
from .kinds import EXPR_DEPTH, SpecFault
from .text import RESERVED


class NoReading(Exception):
    pass


class Syntax:
    """A syntax tree. Its fields depend on its kind."""

    def __init__(self, kind, first, **fields):
        self.kind = kind
        self.place = first.place
        self.line = first.line
        self.__dict__.update(fields)

    def __repr__(self):
        return "%s@%d" % (self.kind, self.line)


def depth_of_kids(kids):
    return max([k.depth for k in kids], default=0)


class Reader:
    """Recursive descent over the tokens of one declaration."""

    def __init__(self, toks):
        self.toks = toks
        self.at = 0
        self.open = 0               # nodes that are surely above this place

    # tokens ---------------------------------------------------------------

    def peek(self, ahead=0):
        k = self.at + ahead
        return self.toks[k] if k < len(self.toks) else None

    def sees(self, value, ahead=0):
        """Is the token this symbol or word?"""
        t = self.peek(ahead)
        return t is not None and t.kind in ("symbol", "name") and t.value == value

    def is_name(self, ahead=0):
        t = self.peek(ahead)
        return t is not None and t.kind == "name" and t.value not in RESERVED

    def take(self, value):
        if not self.sees(value):
            raise NoReading()
        self.at += 1
        return self.toks[self.at - 1]

    def of_kind(self, kind):
        t = self.peek()
        if t is None or t.kind != kind or (kind == "name" and t.value in RESERVED):
            raise NoReading()
        self.at += 1
        return t

    def name(self):
        return self.of_kind("name")

    def one_of(self, *values):
        for v in values:
            if self.sees(v):
                return self.take(v)
        raise NoReading()

    def node(self, kind, token, kids, **fields):
        depth = 1 + depth_of_kids(kids)
        if depth > EXPR_DEPTH:
            raise NoReading()
        return Syntax(kind, token, kids=kids, depth=depth, **fields)

    def inside(self, rule):
        """Reads what stands below a node that is surely there."""
        self.open += 1
        if self.open >= EXPR_DEPTH:
            raise NoReading()
        out = rule()
        self.open -= 1
        return out

    # declarations -----------------------------------------------------------

    def declaration(self):
        first = self.peek()
        if self.sees("root") or self.sees("list"):
            word = self.one_of("root", "list")
            d = Syntax(word.value, word, name=self.name())
        elif self.sees("optional"):
            word = self.take("optional")
            is_list = self.sees("list")
            if is_list:
                self.take("list")
            d = Syntax("optional", word, is_list=is_list, name=self.name())
        elif self.sees("transform"):
            d = self.transform()
        elif self.is_name():
            d = self.named(first)
        else:
            raise NoReading()
        self.take(";")
        if self.at != len(self.toks):
            raise NoReading()
        return d

    def named(self, first):
        second = self.peek(1)
        if second is None:
            raise NoReading()
        if second.kind == "quoted" and "levels" in FORMS:
            return self.precedence()
        if self.is_name(1):
            return self.function()
        if self.sees(":", 1):
            return self.of_phylum()
        if self.sees("{", 1):
            return self.attributes()
        if self.sees("::=", 1):
            return self.productions()
        if self.sees("~", 1):
            name = self.name()
            self.take("~")
            nonterminal = self.name()
            self.take(".")
            return Syntax("entry", first, name=name, nonterminal=nonterminal,
                         attr=self.name())
        raise NoReading()

    def precedence(self):
        word = self.name()
        if word.value not in ("left", "right", "nonassoc"):
            raise NoReading()
        literals = [self.of_kind("quoted")]
        while not self.sees(";"):
            literals.append(self.of_kind("quoted"))
        return Syntax("prec", word, group=word.value, literals=literals)

    def function(self):
        type_ = self.name()
        name = self.name()
        self.take("(")
        params = []
        if not self.sees(")"):
            params.append((self.name(), self.name()))
            while self.sees(","):
                self.take(",")
                params.append((self.name(), self.name()))
        self.take(")")
        self.take("{")
        body = self.expr()
        self.take("}")
        return Syntax("function", type_, type=type_, name=name, params=params, body=body)

    def of_phylum(self):
        name = self.name()
        self.take(":")
        if self.sees("<"):
            self.take("<")
            pattern = self.of_kind("string")
            self.take(">")
            return Syntax("lexeme", name, name=name, pattern=pattern)
        if self.is_name() and self.sees("(", 1):
            alts = [self.alt()]
            while self.sees("|"):
                self.take("|")
                alts.append(self.alt())
            return Syntax("ops", name, name=name, alts=alts)
        op = self.name()
        if self.sees("{"):
            return self.equations(name, op)
        view = None
        if "views" in FORMS and self.sees("in"):
            self.take("in")
            view = self.name()
        schemes = [self.scheme()]
        while self.sees("["):
            schemes.append(self.scheme())
        return Syntax("schemes", name, name=name, op=op, view=view, schemes=schemes)

    def alt(self):
        name = self.name()
        self.take("(")
        args = []
        while not self.sees(")"):
            args.append(self.name())
        self.take(")")
        return Syntax("alt", name, name=name, args=args)

    def attributes(self):
        name = self.name()
        self.take("{")
        items = []
        while not self.sees("}"):
            kind = self.one_of("synthesized", "inherited")
            items.append((kind.value, self.name(), self.name()))
            self.take(";")
        self.take("}")
        return Syntax("attributes", name, name=name, items=items)

    def equations(self, name, op):
        self.take("{")
        locals_ = []
        while self.sees("local"):
            self.take("local")
            locals_.append((self.name(), self.name()))
            self.take(";")
        rules = []
        while not self.sees("}"):
            target = self.target()
            self.take("=")
            rules.append((target, self.expr()))
            self.take(";")
        self.take("}")
        return Syntax("equations", name, name=name, op=op, locals=locals_, rules=rules)

    def target(self):
        if self.is_name() and not self.sees("$", 1) and not self.sees(".", 1):
            t = self.name()
            return Syntax("local", t, name=t)
        occ = self.occ()
        self.take(".")
        return Syntax("attr", occ.token, occ=occ, attr=self.name())

    def occ(self):
        if self.sees("$$"):
            t = self.take("$$")
            return Syntax("occ", t, token=t, name="$$", number=None)
        t = self.name()
        number = None
        if self.sees("$"):
            self.take("$")
            number = self.of_kind("number").value
        return Syntax("occ", t, token=t, name=t.value, number=number)

    def scheme(self):
        first = self.take("[")
        mark = self.one_of("@", "^").value
        edit = self.one_of(":", "::=").value == "::="
        items = []
        while not self.sees("]"):
            items.append(self.item())
        self.take("]")
        return Syntax("scheme", first, mark=mark, edit=edit, items=items)

    def item(self):
        t = self.peek()
        if t is None:
            raise NoReading()
        if t.kind == "string":
            self.at += 1
            return Syntax("string", t, value=t.value)
        if t.kind == "symbol" and t.value in ("@", "^", ".."):
            self.at += 1
            return Syntax("place", t, mark=t.value)
        if self.sees("["):
            self.take("[")
            strings = []
            while not self.sees("]"):
                s = self.of_kind("string")
                strings.append(Syntax("string", s, value=s.value))
            self.take("]")
            return Syntax("separator", t, strings=strings)
        return self.target()

    def transform(self):
        word = self.take("transform")
        name = self.name()
        self.take("on")
        title = self.of_kind("string")
        pattern = self.pattern()
        self.take(":")
        return Syntax("transform", word, name=name, title=title, pattern=pattern,
                     expr=self.expr())

    def productions(self):
        name = self.name()
        self.take("::=")
        rights = [self.right()]
        while self.sees("|"):
            self.take("|")
            rights.append(self.right())
        return Syntax("productions", name, name=name, rights=rights)

    def right(self):
        first = self.take("(")
        symbols = []
        while not self.sees(")"):
            t = self.peek()
            symbols.append(self.of_kind("quoted" if t and t.kind == "quoted" else "name"))
        self.take(")")
        self.take("{")
        expr = self.expr()
        self.take("}")
        return Syntax("right", first, symbols=symbols, expr=expr)

    # expressions --------------------------------------------------------------

    def start(self):
        t = self.peek()
        if t is None:
            raise NoReading()
        return t

    def expr(self):
        first = self.start()
        cond = self.left(self.and_, ("||",))
        if not self.sees("?"):
            return cond
        self.take("?")
        yes = self.inside(self.expr)
        self.take(":")
        no = self.inside(self.expr)
        return self.node("if", first, [cond, yes, no])

    def left(self, below, words):
        """Repeated operators that group to the left."""
        first = self.start()
        out = below()
        while any(self.sees(w) for w in words):
            word = self.one_of(*words).value
            out = self.node(word, first, [out, self.inside(below)])
        return out

    def and_(self):
        return self.left(self.cmp, ("&&",))

    def cmp(self):
        first = self.start()
        out = self.cons()
        for w in ("==", "!=", "<", "<=", ">", ">="):
            if self.sees(w):
                self.take(w)
                return self.node(w, first, [out, self.inside(self.cons)])
        return out

    def cons(self):
        first = self.start()
        out = self.left(self.sum, ("#",))
        if self.sees("::"):
            self.take("::")
            return self.node("::", first, [out, self.inside(self.cons)])
        return out

    def sum(self):
        return self.left(self.prod, ("+", "-"))

    def prod(self):
        return self.left(self.unary, ("*", "/", "%"))

    def unary(self):
        if self.sees("-") or self.sees("!"):
            t = self.one_of("-", "!")
            kid = self.inside(self.unary)
            return self.node("neg" if t.value == "-" else "not", t, [kid])
        return self.atom()

    def atom(self):
        t = self.start()
        if t.kind in ("number", "string"):
            self.at += 1
            return self.node(t.kind, t, [], value=t.value)
        if self.sees("true") or self.sees("false"):
            self.at += 1
            return self.node("bool", t, [], value=t.value == "true")
        if self.sees("("):
            self.take("(")
            kid = self.inside(self.expr)
            self.take(")")
            return self.node("paren", t, [kid])
        if self.sees("<"):
            return self.made("<", ">", "hold")
        if self.sees("["):
            return self.made("[", "]", "comp")
        if self.sees("let"):
            return self.let()
        if self.sees("with"):
            return self.with_()
        if self.sees("{") and "enclosing" in FORMS:
            return self.remote()
        if self.sees("$$") or (self.is_name() and (self.sees("$", 1) or self.sees(".", 1))):
            occ = self.occ()
            self.take(".")
            return self.node("attr", t, [], occ=occ, attr=self.name())
        name = self.name()
        if not self.sees("("):
            return self.node("name", t, [], name=name.value)
        self.take("(")
        kids = []
        if not self.sees(")"):
            kids.append(self.inside(self.expr))
            while self.sees(","):
                self.take(",")
                kids.append(self.inside(self.expr))
        self.take(")")
        return self.node("call", t, kids, name=name.value)

    def made(self, before, after, kind):
        t = self.take(before)
        name = self.name()
        self.take(after)
        return self.node(kind, t, [], name=name)

    def let(self):
        t = self.take("let")
        name = self.name()
        self.take("=")
        value = self.inside(self.expr)
        self.take("in")
        self.take("(")
        body = self.inside(self.expr)
        self.take(")")
        return self.node("let", t, [value, body], name=name)

    def with_(self):
        t = self.take("with")
        self.take("(")
        of = self.inside(self.expr)
        self.take(")")
        self.take("(")
        cases = [self.case()]
        default = None
        while self.sees(","):
            self.take(",")
            if self.sees("default"):
                self.take("default")
                self.take(":")
                default = self.inside(self.expr)
                break
            cases.append(self.case())
        self.take(")")
        kids = [of] + [e for _, e in cases] + ([default] if default else [])
        return self.node("with", t, kids, of=of, cases=cases, default=default)

    def case(self):
        above, self.open = self.open, 0
        pattern = self.pattern()
        self.open = above
        self.take(":")
        return pattern, self.inside(self.expr)

    def remote(self):
        t = self.take("{")
        pairs = []
        while True:
            name = self.name()
            self.take(".")
            pairs.append((name, self.name()))
            if not self.sees(","):
                break
            self.take(",")
        self.take("}")
        return self.node("remote", t, [], pairs=pairs)

    # patterns -------------------------------------------------------------------

    def pattern(self):
        t = self.start()
        if t.kind == "number" or self.sees("-"):
            sign = 1
            if self.sees("-"):
                self.take("-")
                sign = -1
            return self.node("number", t, [], value=sign * self.of_kind("number").value)
        if t.kind == "string":
            self.at += 1
            return self.node("string", t, [], value=t.value)
        if self.sees("true") or self.sees("false"):
            self.at += 1
            return self.node("bool", t, [], value=t.value == "true")
        if self.sees("*"):
            self.at += 1
            return self.node("any", t, [])
        if self.sees("<"):
            return self.made("<", ">", "hold")
        if self.sees("["):
            return self.made("[", "]", "comp")
        name = self.name()
        if not self.sees("("):
            return self.node("var", t, [], name=name)
        self.take("(")
        kids = []
        if not self.sees(")"):
            kids.append(self.inside(self.pattern))
            while self.sees(","):
                self.take(",")
                kids.append(self.inside(self.pattern))
        self.take(")")
        return self.node("op", t, kids, name=name.value)


def read_one(toks):
    """The tree of one declaration, or None where it has no reading."""
    try:
        return Reader(toks).declaration()
    except NoReading:
        return None


def read(groups):
    """The trees, or the fault of the first declaration without one."""
    out = []
    for toks in groups:
        d = read_one(toks)
        if d is None:
            raise SpecFault("Syntax", "line %d" % toks[0].line, toks[0].place)
        out.append(d)
    return out
