"""Names and shapes: the faults Limit to Arity."""

from .kinds import BASE, SpecFault

BUILTINS = {"STRtoINT": (["STR"], "INT"), "INTtoSTR": (["INT"], "STR"),
            "STRlen": (["STR"], "INT")}


class Faults:
    """Collects the places of one kind of fault; `check` raises the first one."""

    def __init__(self, code):
        self.code = code
        self.found = []

    def add(self, place, detail):
        self.found.append((place, len(self.found), detail))

    def name(self, token, name=None):
        text = token.value if name is None else name
        self.add(token.place, "line %d %s" % (token.line, text))

    def check(self):
        if self.found:
            place, _, detail = min(self.found)
            raise SpecFault(self.code, detail, place)


class OpDecl:
    """An operator as it is written."""

    def __init__(self, alt, phylum):
        self.alt = alt
        self.name = alt.name.value
        self.phylum = phylum
        self.args = [a.value for a in alt.args]
        self.occurrences = [phylum] + self.args
        self.locals = []            # (name, type)


class Names:
    """Tables of names, by the text. The first declaration of a name counts."""

    def __init__(self, decls):
        self.decls = decls
        self.kind = {b: "base" for b in BASE}   # ops, lexeme or nonterminal besides
        self.first = {}             # name of a phylum or nonterminal -> token
        self.ops = {}
        self.op_list = []
        self.by_phylum = {}
        self.functions = {}
        self.attrs = {}             # owner -> list of (kind, type, name)
        self.listing = {}
        self.locals = {}            # (phylum, operator) -> list of (name, type)
        self.lexemes = []
        self.nonterminals = []
        self.roots = []
        self.views = []
        for d in decls:
            getattr(self, "see_" + d.kind, lambda d: None)(d)

    def define(self, name, kind):
        if name.value not in self.kind:
            self.kind[name.value] = kind
            self.first[name.value] = name

    def see_root(self, d):
        self.roots.append(d.name)

    def see_list(self, d):
        self.listing.setdefault(d.name.value, "list")

    def see_optional(self, d):
        self.listing.setdefault(d.name.value, "optional list" if d.is_list else "optional")

    def see_ops(self, d):
        self.define(d.name, "ops")
        for alt in d.alts:
            op = OpDecl(alt, d.name.value)
            self.ops.setdefault(op.name, op)
            self.op_list.append(op)
            self.by_phylum.setdefault(d.name.value, []).append(op)

    def see_lexeme(self, d):
        self.define(d.name, "lexeme")
        self.lexemes.append(d)

    def see_productions(self, d):
        if d.name.value not in self.kind:
            self.nonterminals.append(d.name.value)
        self.define(d.name, "nonterminal")

    def see_attributes(self, d):
        for kind, type_, name in d.items:
            self.attrs.setdefault(d.name.value, []).append((kind, type_.value, name.value))

    def see_function(self, d):
        self.functions.setdefault(d.name.value, d)

    def see_equations(self, d):
        seen = self.locals.setdefault((d.name.value, d.op.value), [])
        for type_, name in d.locals:
            seen.append((name.value, type_.value))

    def see_schemes(self, d):
        if d.view is not None and d.view.value not in self.views:
            self.views.append(d.view.value)

    # questions --------------------------------------------------------------

    def is_phylum(self, name):
        return self.kind.get(name) in ("base", "ops", "lexeme") and not self.white(name)

    def is_leaf(self, name):
        return self.kind.get(name) in ("base", "lexeme")

    def white(self, name):
        return name == "WHITESPACE" and self.kind.get(name) == "lexeme"

    def op_of(self, phylum, op):
        for o in self.by_phylum.get(phylum, []):
            if o.name == op:
                return o
        return None

    def attribute(self, owner, name):
        """(kind, type) of an attribute, or None."""
        if self.is_leaf(owner):
            return ("synthesized", owner) if name == "value" else None
        for kind, type_, n in self.attrs.get(owner, []):
            if n == name:
                return kind, type_
        return None

    def locals_of(self, op):
        return self.locals.get((op.phylum, op.name), [])

    def callable(self, name):
        """(argument types, result type) of an operator, function or builtin."""
        if name in self.ops:
            op = self.ops[name]
            return op.args, op.phylum
        if name in self.functions:
            f = self.functions[name]
            return [t.value for t, _ in f.params], f.type.value
        return BUILTINS.get(name)


def occurrence(occ, names):
    """The place of an occurrence in the list of phylum names, or None."""
    if occ.name == "$$":
        return 0
    places = [k for k, n in enumerate(names) if n == occ.name]
    if occ.number is None:
        return places[0] if len(places) == 1 else None
    if 1 <= occ.number <= len(places):
        return places[occ.number - 1]
    return None


# counts ------------------------------------------------------------------------

def fault_limit(names):
    decls = names.decls
    phyla = {d.name.value for d in decls if d.kind in ("ops", "lexeme")} - set(BASE)
    alts = [a for d in decls if d.kind == "ops" for a in d.alts]
    functions = [d for d in decls if d.kind == "function"]
    rights = [r for d in decls if d.kind == "productions" for r in d.rights]
    transforms = [d for d in decls if d.kind == "transform"]
    limit("phyla", len(phyla), 512)
    limit("operators", len(alts), 2048)
    for a in alts:
        limit("arity", len(a.args), 16)
    added_up("attributes", 32, [(d.name.value, len(d.items)) for d in decls
                                if d.kind == "attributes"])
    added_up("locals", 32, [((d.name.value, d.op.value), len(d.locals)) for d in decls
                            if d.kind == "equations"])
    limit("functions", len(functions), 1024)
    for f in functions:
        limit("parameters", len(f.params), 16)
    limit("transforms", len(transforms), 1024)
    for d in decls:
        if d.kind == "schemes":
            limit("schemes", len(d.schemes), 16)
    limit("productions", len(rights), 1024)
    for r in rights:
        limit("symbols", len(r.symbols), 16)
    limit("views", len(names.views), 16)


def limit(word, count, most):
    if count > most:
        raise SpecFault("Limit", "%s %d" % (word, count))


def added_up(word, most, counts):
    """Counts of one owner add up; the owner that is first over the limit."""
    total = {}
    first = None
    for owner, n in counts:
        total[owner] = total.get(owner, 0) + n
        if total[owner] > most and first is None:
            first = owner
    if first is not None:
        limit(word, total[first], most)


# second definitions --------------------------------------------------------------------------

def fault_duplicate(names):
    faults = Faults("Duplicate")
    seen = set()
    kinds = {b: "base" for b in BASE}

    def once(key, token, printed=None):
        if key in seen:
            faults.name(token, printed)
        seen.add(key)

    def kind(token, k):
        if kinds.setdefault(token.value, k) != k:
            faults.name(token)

    for b in BUILTINS:
        seen.add(("op", b))
    for d in names.decls:
        if d.kind == "ops":
            kind(d.name, "ops")
            for alt in d.alts:
                once(("op", alt.name.value), alt.name)
        elif d.kind == "lexeme":
            kind(d.name, "lexeme")
            once(("pattern", d.name.value), d.name)
        elif d.kind == "productions":
            kind(d.name, "nonterminal")
        elif d.kind == "function":
            once(("op", d.name.value), d.name)
        elif d.kind == "attributes":
            for _, _, name in d.items:
                once(("attr", d.name.value, name.value), name)
        elif d.kind == "equations":
            for _, name in d.locals:
                once(("local", d.name.value, d.op.value, name.value), name)
        elif d.kind in ("list", "optional"):
            once(("listing", d.name.value), d.name)
        elif d.kind == "schemes":
            view = d.view.value if d.view else None
            once(("schemes", d.name.value, d.op.value, view), d.op)
        elif d.kind == "prec":
            for t in d.literals:
                once(("literal", t.value), t, "'%s'" % t.value.decode())
        for pairs in remote_atoms(d):
            inside = set()
            for name, _ in pairs.pairs:
                if name.value in inside:
                    faults.name(name)
                inside.add(name.value)
    faults.check()


def expressions(d):
    """The expressions of a declaration."""
    if d.kind == "equations":
        return [e for _, e in d.rules]
    if d.kind == "function":
        return [d.body]
    if d.kind == "transform":
        return [d.expr]
    if d.kind == "productions":
        return [r.expr for r in d.rights]
    return []


def walk(e):
    """All nodes of an expression, in preorder."""
    yield e
    for k in e.kids:
        yield from walk(k)


def remote_atoms(d):
    return [n for e in expressions(d) for n in walk(e) if n.kind == "remote"]


# a walk with scopes -----------------------------------------------------

class Scoped:
    """Walks expressions and patterns with the variables that are visible, and
    collects unknown names, variables bound twice and wrong numbers of parts."""

    def __init__(self, names):
        self.names = names
        self.unknown = Faults("UnknownName")
        self.twice = Faults("TwiceBound")
        self.arity = Faults("Arity")
        self.reference = None       # what an attribute reference means here
        self.equation = False

    def phylum(self, token):
        if not self.names.is_phylum(token.value):
            self.unknown.name(token)

    def bind(self, token, visible):
        if token.value in visible:
            self.twice.name(token)
        return visible | {token.value}

    def expr(self, e, visible):
        k = e.kind
        if k == "name":
            if e.name not in visible:
                self.unknown.add(e.place, "line %d %s" % (e.line, e.name))
        elif k == "attr":
            self.reference(e)
        elif k in ("hold", "comp"):
            self.phylum(e.name)
        elif k == "remote":
            self.remote(e)
        elif k == "let":
            self.expr(e.kids[0], visible)
            self.expr(e.kids[1], self.bind(e.name, visible))
        elif k == "with":
            self.expr(e.of, visible)
            for p, body in e.cases:
                self.expr(body, self.pattern(p, visible))
            if e.default:
                self.expr(e.default, visible)
        else:
            if k == "call":
                self.called(e, self.names.callable(e.name))
            for kid in e.kids:
                self.expr(kid, visible)

    def called(self, e, found):
        detail = "line %d %s" % (e.line, e.name)
        if found is None:
            self.unknown.add(e.place, detail)
        elif len(found[0]) != len(e.kids):
            self.arity.add(e.place, detail)

    def pattern(self, p, visible):
        if p.kind == "var":
            return self.bind(p.name, visible)
        if p.kind in ("hold", "comp"):
            self.phylum(p.name)
        if p.kind == "op":
            op = self.names.ops.get(p.name)
            self.called(p, None if op is None else (op.args, op.phylum))
            for kid in p.kids:
                visible = self.pattern(kid, visible)
        return visible

    def remote(self, e):
        for name, attr in e.pairs:
            if not self.equation or self.names.kind.get(name.value) != "ops":
                self.unknown.name(name)
            elif self.names.attribute(name.value, attr.value) is None:
                self.unknown.name(attr)

    # what attribute references mean

    def none(self, e):
        """In functions and transformations there are none."""
        token = e.attr if e.occ.name == "$$" else e.occ.token
        self.unknown.name(token)

    def in_operator(self, op):
        def look(e):
            at = occurrence(e.occ, op.occurrences)
            if at is None or e.occ.name != "$$" and not self.names.is_phylum(e.occ.name):
                self.unknown.name(e.occ.token, e.occ.name)
            elif self.names.attribute(op.occurrences[at], e.attr.value) is None:
                self.unknown.name(e.attr)
        return look

    def in_production(self, left, symbols):
        names = [left] + [s.value if s.kind == "name" else None for s in symbols]

        def look(e):
            at = occurrence(e.occ, names)
            if e.occ.name == "$$":
                self.unknown.name(e.attr)
            elif at is None or at == 0 or self.names.white(e.occ.name):
                self.unknown.name(e.occ.token, e.occ.name)
            elif self.names.attribute(names[at], e.attr.value) is None:
                self.unknown.name(e.attr)
        return look

    # declarations

    def declaration(self, d):
        getattr(self, "in_" + d.kind, lambda d: None)(d)

    def has_operators(self, token):
        if self.names.kind.get(token.value) != "ops":
            self.unknown.name(token)
            return False
        return True

    def in_root(self, d):
        self.has_operators(d.name)

    in_list = in_root
    in_optional = in_root

    def in_ops(self, d):
        for alt in d.alts:
            for a in alt.args:
                self.phylum(a)

    def in_attributes(self, d):
        if self.names.kind.get(d.name.value) not in ("ops", "nonterminal"):
            self.unknown.name(d.name)
        for _, type_, _ in d.items:
            self.phylum(type_)

    def operator(self, d):
        if self.names.kind.get(d.name.value) is None or self.names.kind[d.name.value] == "nonterminal" or self.names.white(d.name.value):
            self.unknown.name(d.name)
            return None
        op = self.names.op_of(d.name.value, d.op.value)
        if op is None:
            self.unknown.name(d.op)
        return op

    def in_equations(self, d):
        op = self.operator(d)
        for type_, _ in d.locals:
            self.phylum(type_)
        if op is None:
            return
        visible = frozenset(n for n, _ in self.names.locals_of(op))
        self.reference = self.in_operator(op)
        self.equation = True
        for target, e in d.rules:
            self.shown(target, visible)
            self.expr(e, visible)
        self.equation = False

    def shown(self, item, visible):
        """A target of an equation or an item of a scheme."""
        if item.kind == "attr":
            self.reference(item)
        elif item.kind == "local" and item.name.value not in visible:
            self.unknown.name(item.name)

    def in_schemes(self, d):
        op = self.operator(d)
        if op is None:
            return
        visible = frozenset(n for n, _ in self.names.locals_of(op))
        self.reference = self.in_operator(op)
        for s in d.schemes:
            for item in s.items:
                self.shown(item, visible)

    def in_function(self, d):
        self.phylum(d.type)
        visible = frozenset()
        for type_, name in d.params:
            self.phylum(type_)
            visible = self.bind(name, visible)
        self.reference = self.none
        self.expr(d.body, visible)

    def in_transform(self, d):
        self.phylum(d.name)
        self.reference = self.none
        self.expr(d.expr, self.pattern(d.pattern, frozenset()))

    def in_productions(self, d):
        for r in d.rights:
            for s in r.symbols:
                if s.kind == "name" and (
                        self.names.kind.get(s.value) not in ("lexeme", "nonterminal")
                        or self.names.white(s.value)):
                    self.unknown.name(s)
            self.reference = self.in_production(d.name.value, r.symbols)
            self.expr(r.expr, frozenset())

    def in_entry(self, d):
        self.phylum(d.name)
        if self.names.kind.get(d.nonterminal.value) != "nonterminal":
            self.unknown.name(d.nonterminal)
        elif self.names.attribute(d.nonterminal.value, d.attr.value) is None:
            self.unknown.name(d.attr)


def scoped(names):
    s = Scoped(names)
    for d in names.decls:
        s.declaration(d)
    return s


# roots, lists, made terms -----------------------------------------------------------------------

def fault_result_count(names):
    faults = Faults("ResultCount")
    for n in names.nonterminals:
        kinds = [kind for kind, _, _ in names.attrs.get(n, [])]
        if kinds != ["synthesized"]:
            faults.name(names.first[n])
    faults.check()


def fault_root_count(names):
    if len(names.roots) != 1:
        raise SpecFault("RootCount", str(len(names.roots)))


def fault_list_shape(names):
    faults = Faults("ListShape")
    for d in names.decls:
        if d.kind == "list" or (d.kind == "optional" and d.is_list):
            ops = names.by_phylum[d.name.value]
            p = d.name.value
            good = (len(ops) == 2 and not ops[0].args and len(ops[1].args) == 2
                    and ops[1].args[1] == p and ops[1].args[0] != p)
            if not good:
                faults.name(d.name)
    faults.check()


def fault_optional_shape(names):
    faults = Faults("OptionalShape")
    for d in names.decls:
        if d.kind == "optional" and not d.is_list:
            ops = names.by_phylum[d.name.value]
            if len(ops) < 2 or ops[0].args:
                faults.name(d.name)
    faults.check()


def made_size(names):
    """(nodes, depth) of the completing term and the placeholder of each phylum,
    None where the term is not finite: the least solution, found by rounds."""
    sizes = {}                      # (phylum, hold) -> (nodes, depth)
    for p, kind in names.kind.items():
        if kind in ("base", "lexeme"):
            sizes[p, False] = sizes[p, True] = (1, 1)
    todo = [(p, hold) for p in names.by_phylum for hold in (False, True)]
    again = True
    while again:
        again = False
        for p, hold in todo:
            if (p, hold) in sizes:
                continue
            kids = [sizes.get(k) for k in made_kids(names, p, hold)]
            if None not in kids:
                sizes[p, hold] = (1 + sum(n for n, _ in kids),
                                  1 + max([d for _, d in kids], default=0))
                again = True
    return sizes


def made_kids(names, p, hold):
    """The children of the made term, as (phylum, hold); a list's own nullary
    term stands for itself."""
    ops = names.by_phylum[p]
    listing = names.listing.get(p)
    if listing == "optional":
        return [(a, False) for a in ops[1 if hold else 0].args]
    if listing == "optional list" and not hold:
        return []
    if listing in ("list", "optional list"):
        return [(ops[1].args[0], False), ("INT", False)]    # Nil counts as a leaf does
    return [(a, False) for a in ops[0].args]


def fault_no_completion(names):
    faults = Faults("NoCompletion")
    sizes = made_size(names)
    for p in names.by_phylum:
        for hold in (False, True):
            s = sizes.get((p, hold))
            if s is None or s[0] > 65536 or s[1] > 1024:
                faults.name(names.first[p])
    faults.check()


def fault_root_inherits(names):
    faults = Faults("RootInherits")
    root = names.roots[0]
    if any(kind == "inherited" for kind, _, _ in names.attrs.get(root.value, [])):
        faults.name(root)
    faults.check()


def resolve(decls):
    """The tables of names, or the first fault of names and shapes."""
    names = Names(decls)
    fault_limit(names)
    fault_duplicate(names)
    scopes = scoped(names)
    scopes.unknown.check()
    fault_result_count(names)
    fault_root_count(names)
    fault_list_shape(names)
    fault_optional_shape(names)
    fault_no_completion(names)
    fault_root_inherits(names)
    scopes.twice.check()
    scopes.arity.check()
    return names
