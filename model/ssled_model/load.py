"""All static phases: the first fault of a text, or its record."""

from . import equations, names as naming, orders, patterns, remote, typing, views
from .grammar import Grammar
from .kinds import (MAX_SPEC, Attr, Operator, Phylum, Rule, Spec, SpecFault)
from .lalr import tables
from .names import Faults, occurrence
from .prec import Production, nonterminal
from .reader import read
from .text import cut, lex


class Loaded:
    def __init__(self, spec, tables_):
        self.spec = spec
        self.tables = tables_


# schemes, patterns, entries --------------------------------------------------------------------

def shown_phyla(names):
    seen = []
    todo = [names.roots[0].value]
    while todo:
        p = todo.pop()
        if p not in seen:
            seen.append(p)
            for op in names.by_phylum.get(p, []):
                todo.extend(op.args)
    return seen


def fault_no_scheme(names):
    faults = Faults("NoScheme")
    have = {(d.name.value, d.op.value) for d in names.decls
            if d.kind == "schemes" and d.view is None}
    shown = shown_phyla(names)
    for op in names.op_list:
        if op.phylum in shown and (op.phylum, op.name) not in have:
            faults.name(op.alt.name)
    faults.check()


def scheme_kids_good(names, op, scheme):
    marks = [i for i in scheme.items if i.kind in ("place", "separator")]
    separators = [i for i in marks if i.kind == "separator"]
    if len(marks) - len(separators) != len(op.args):
        return False
    if not separators:
        return True
    is_list = names.listing.get(op.phylum) in ("list", "optional list")
    return (is_list and len(op.args) == 2 and len(separators) == 1
            and marks[1].kind == "separator")


def fault_scheme_kids(names):
    faults = Faults("SchemeKids")
    for d in names.decls:
        if d.kind == "schemes":
            op = names.op_of(d.name.value, d.op.value)
            for s in d.schemes:
                if not scheme_kids_good(names, op, s):
                    faults.add(s.place, "line %d %s" % (s.line, op.name))
    faults.check()


def scheme_strings(scheme):
    for i in scheme.items:
        if i.kind == "string":
            yield i
        elif i.kind == "separator":
            yield from i.strings


def escapes(data):
    """What follows each `%`."""
    at = data.find(b"%")
    while at >= 0:
        yield data[at + 1:at + 2]
        at = data.find(b"%", at + 2)


def fault_scheme_text(names):
    faults = Faults("SchemeText")
    for d in names.decls:
        if d.kind == "schemes":
            for s in d.schemes:
                for i in scheme_strings(s):
                    if any(c not in (b"n", b"t", b"b", b"%") for c in escapes(i.value)):
                        faults.add(i.place, "line %d" % i.line)
    faults.check()


def read_patterns(names):
    return [(d, patterns.read(d.pattern.value)) for d in names.lexemes]


def fault_pattern_form(found):
    faults = Faults("PatternForm")
    for d, p in found:
        if p is None:
            faults.add(d.pattern.place, "line %d %s" % (d.pattern.line, d.name.value))
    faults.check()


def fault_empty_lexeme(found):
    faults = Faults("EmptyLexeme")
    for d, p in found:
        if p.matches(b""):
            faults.add(d.pattern.place, "line %d %s" % (d.pattern.line, d.name.value))
    faults.check()


def fault_entry_twice(names):
    faults = Faults("EntryTwice")
    seen = set()
    for d in names.decls:
        if d.kind == "entry":
            if d.name.value in seen:
                faults.name(d.name)
            seen.add(d.name.value)
    faults.check()


def fault_entry_type(names):
    faults = Faults("EntryType")
    t = typing.Types(names)
    for d in names.decls:
        if d.kind == "entry":
            have = names.attribute(d.nonterminal.value, d.attr.value)[1]
            if not t.accepted(have, d.name.value):
                faults.name(d.name)
    faults.check()


def fault_unproductive(names, grammar):
    bad = grammar.unproductive()
    if bad:
        faults = Faults("Unproductive")
        for n in bad:
            faults.name(names.first[n])
        faults.check()


# the record ---------------------------------------------------------------------

class Builder:
    """The record of trees that have no fault before those of tables and orders."""

    def __init__(self, names, found_patterns):
        self.names = names
        self.spec = Spec()
        self.phyla()
        self.patterns(found_patterns)
        self.hidden = remote.hidden_attributes(self.spec, names)
        self.rules()
        self.rest()

    def slot(self, phylum, name):
        """The slot of an attribute of a phylum."""
        for k, a in enumerate(phylum.attrs):
            if a.name == name:
                return k
        raise AssertionError(name)

    def phyla(self):
        spec, names = self.spec, self.names
        for d in names.decls:
            if d.kind in ("ops", "lexeme") and d.name.value not in spec.phyla:
                spec.phyla[d.name.value] = Phylum(d.name.value, d.kind)
        for p in spec.phyla.values():
            p.listing = names.listing.get(p.name)
        for o in names.op_list:
            op = Operator(len(spec.ops), o.name, spec.phyla[o.phylum],
                          [spec.phyla[a] for a in o.args], o.alt.name.place,
                          o.alt.name.line)
            op.locals = [(n, spec.phyla[t]) for n, t in names.locals_of(o)]
            spec.ops.append(op)
            spec.op_by_name[op.name] = op
            op.phylum.ops.append(op)
        for p in spec.phyla.values():
            if p.leaf:
                p.attrs = [Attr("value", "synthesized", p)]
            else:
                p.attrs = [Attr(n, k, spec.phyla[t])
                           for k, t, n in names.attrs.get(p.name, [])]
        spec.root = spec.phyla[names.roots[0].value]

    def patterns(self, found):
        for d, p in found:
            phylum = self.spec.phyla[d.name.value]
            phylum.pattern = p
            self.spec.lexemes.append(phylum)

    def rules(self):
        for o, target, e in equations.all_equations(self.names):
            op = self.spec.op_by_name[o.name]
            if target.kind == "local":
                occ, slot = 0, self.local_slot(op, target.name.value)
            else:
                occ, slot = self.instance(op, o, target)
            args, keys = self.arguments(op, o, e)
            self.rule(op, occ, slot, args, keys, e)
        for key in self.hidden:
            for op in self.spec.ops:
                self.hidden_rules(op, key)

    def rule(self, op, occ, slot, args, keys, e):
        r = Rule(len(self.spec.rules), op, occ, slot, args, keys, e)
        self.spec.rules.append(r)
        op.rules[occ, slot] = r

    def hidden_rules(self, op, key):
        name = remote.spelled(key)
        for k, p in enumerate(op.args, 1):
            if any(a.hidden and a.name == name for a in p.attrs):
                source = remote.hidden_source(op, key, self.slot)
                self.rule(op, k, self.slot(p, name), [(0, source)], [(0, source)],
                          Reference((0, source)))

    def local_slot(self, op, name):
        at = [n for n, _ in op.locals].index(name)
        return len(op.phylum.attrs) + at

    def instance(self, op, o, tree):
        """(occurrence, slot) of a written attribute reference."""
        occ = occurrence(tree.occ, o.occurrences)
        return occ, self.slot(op.occurrences()[occ], tree.attr.value)

    def arguments(self, op, o, e):
        """The instances that an expression names, each once, and the names
        under which the expression finds them."""
        local = {n for n, _ in op.locals}
        args, keys = [], []
        for n in naming.walk(e):
            if n.kind == "attr":
                n.ref = arg = self.instance(op, o, n)
                key = arg
            elif n.kind == "remote":
                n.ref = arg = (0, self.slot(op.phylum, remote.spelled(remote.key_of(n))))
                key = arg
            elif n.kind == "name" and n.name in local:
                arg = (0, self.local_slot(op, n.name))
                key = n.name
            else:
                continue
            if arg not in args:
                args.append(arg)
                keys.append(key)
        return args, keys

    def rest(self):
        spec, names = self.spec, self.names
        for d in names.decls:
            getattr(self, "take_" + d.kind, lambda d: None)(d)
        spec.views = list(names.views)

    def take_function(self, d):
        self.spec.functions[d.name.value] = d

    def take_transform(self, d):
        self.spec.transforms.append(Transform(self.spec.phyla[d.name.value], d.title.value,
                                              d.pattern, d.expr))

    def take_schemes(self, d):
        op = self.spec.op_by_name[d.op.value]
        o = self.names.ops[d.op.value]
        for s in d.schemes:
            for i in s.items:
                if i.kind == "attr":
                    occ, slot = self.instance(op, o, i)
                    i.shows = occ, slot, op.occurrences()[occ].attrs[slot].type
                elif i.kind == "local":
                    slot = self.local_slot(op, i.name.value)
                    i.shows = 0, slot, dict(op.locals)[i.name.value]
        views.put_schemes(op, d.view.value if d.view else None, d.schemes)

    def take_prec(self, d):
        self.spec.levels.append((d.group, [t.value for t in d.literals], d.line, d.place))

    def take_productions(self, d):
        for r in d.rights:
            symbols = []
            written = [d.name.value]
            for s in r.symbols:
                if s.kind == "quoted":
                    symbols.append(("literal", s.value))
                elif self.names.kind[s.value] == "lexeme":
                    symbols.append(("lexeme", s.value))
                else:
                    symbols.append(nonterminal(s.value))
                written.append(s.value if s.kind == "name" else None)
            for n in naming.walk(r.expr):
                if n.kind == "attr":
                    n.ref = ("@", occurrence(n.occ, written))
            self.spec.productions.append(Production(nonterminal(d.name.value), symbols,
                                                    r.expr, r.line, r.place))

    def take_entry(self, d):
        self.spec.entries.append(Entry(d))


class Reference:
    """The expression of a hidden rule: one attribute reference."""
    kind = "attr"
    kids = ()

    def __init__(self, ref):
        self.ref = ref


class Transform:
    def __init__(self, phylum, name, pattern, expr):
        self.phylum = phylum
        self.name = name
        self.pattern = pattern
        self.expr = expr


class Entry:
    def __init__(self, d):
        self.phylum = d.name.value
        self.nonterminal = d.nonterminal.value
        self.line = d.line
        self.place = d.place


# all phases -----------------------------------------------------------------------

def load(data):
    """Loaded, or SpecFault with the first fault."""
    if len(data) > MAX_SPEC:
        raise SpecFault("TooLong")
    decls = read(cut(lex(data)))
    names = naming.resolve(decls)
    typing.check(names)
    equations.rules(names)
    remote.fault_no_enclosing(names)
    fault_no_scheme(names)
    fault_scheme_kids(names)
    fault_scheme_text(names)
    found = read_patterns(names)
    fault_pattern_form(found)
    fault_empty_lexeme(found)
    fault_entry_twice(names)
    fault_entry_type(names)
    spec = Builder(names, found).spec
    grammar = Grammar(spec)
    fault_unproductive(names, grammar)
    made = tables(grammar)
    orders.order(spec)
    return Loaded(spec, made)
