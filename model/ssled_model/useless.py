"""What of a record nothing uses, and what its texts miss: the notes on an accepted specification."""

from .names import walk
from .prec import is_infix
from .unparse import places

FUNCTION, ATTRIBUTE, LOCAL, PHYLUM, NONTERMINAL, SCHEMES, ENTRY, LITERAL = range(8)


def expressions(spec):
    """(function or None, expression) of each expression of the record."""
    for r in spec.rules:
        yield None, r.expr
    for name, f in spec.functions.items():
        yield name, f.body
    for t in spec.transforms:
        yield None, t.expr
    for p in spec.productions:
        yield None, p.expr


def schemes_of(op):
    """The schemes of an operator in all views."""
    return op.schemes + [s for schemes in op.views.values() for s in schemes]


def slot_key(op, occ, slot):
    """The attribute or local that an occurrence of an operator is."""
    p = op.occurrences()[occ]
    if slot < len(p.attrs):
        return ATTRIBUTE, p.name, slot
    return LOCAL, op.number, slot - len(p.attrs)


def reached(starts, steps):
    """What can be reached from the starts along the steps."""
    found = set(starts)
    again = True
    while again:
        again = False
        for a, b in steps:
            if a in found and b not in found:
                found.add(b)
                again = True
    return found


def entered(spec):
    """The nonterminals to which an entry leads."""
    steps = [(p.left[1], s[1]) for p in spec.productions for s in p.symbols
             if s[0] == "nonterminal"]
    return reached([e.nonterminal for e in spec.entries], steps)


def shown(spec):
    """The phyla of which a document may have a node."""
    steps = [(op.phylum.name, a.name) for op in spec.ops for a in op.args]
    return reached([spec.root.name], steps)


def used_by_expressions(spec):
    for own, e in expressions(spec):
        for n in walk(e):
            if n.kind == "call" and n.name in spec.op_by_name:
                yield PHYLUM, spec.op_by_name[n.name].phylum.name
            elif n.kind == "call" and n.name in spec.functions and n.name != own:
                yield FUNCTION, n.name
            elif n.kind in ("hold", "comp"):
                yield PHYLUM, n.name.value


def used_slots(spec):
    for r in spec.rules:
        for occ, slot in r.args:
            yield slot_key(r.op, occ, slot)
    for op in spec.ops:
        for s in schemes_of(op):
            for i in s.items:
                if i.kind in ("attr", "local"):
                    yield slot_key(op, i.shows[0], i.shows[1])


def used_phyla(spec):
    yield spec.root.name
    yield "WHITESPACE"
    for e in spec.entries:
        yield e.phylum
    for op in spec.ops:
        for t in op.args + [t for _, t in op.locals]:
            if t is not op.phylum:
                yield t.name
    for p in spec.phyla.values():
        for a in p.attrs:
            if not p.leaf and a.type is not p:
                yield a.type.name
    for f in spec.functions.values():
        yield f.type.value
        for t, _ in f.params:
            yield t.value
    for p in spec.productions:
        for s in p.symbols:
            if s[0] == "lexeme":
                yield s[1]


def resting(spec):
    """The phyla of which a node may be selected and edited as text."""
    seen = shown(spec)
    yield spec.root.name
    for op in spec.ops:
        if op.phylum.name in seen:
            for s in schemes_of(op):
                for k, mark in enumerate(places(s)):
                    tail = op.phylum.is_list and len(op.args) == 2 and k == 1
                    if mark == "@" and not tail:
                        yield op.args[k].name


def is_typed_in(spec, p):
    """Is a selected node of the phylum editable as text in some scheme?"""
    if p.leaf:
        return True
    return any(s.edit and (s.mark == "@" or p is spec.root) for op in p.ops for s in schemes_of(op))


def uses(spec):
    """What is used: each a kind with what tells one from another."""
    found = set(used_by_expressions(spec)) | set(used_slots(spec))
    found |= {(PHYLUM, name) for name in used_phyla(spec)}
    found |= {(NONTERMINAL, name) for name in entered(spec)}
    found |= {(SCHEMES, op.number) for op in spec.ops if op.phylum.name in shown(spec)}
    found |= {(ENTRY, e.phylum) for e in spec.entries}
    held = {literal for _, literals, _, _ in spec.levels for literal in literals}
    found |= {(LITERAL, p.symbols[1][1]) for p in spec.productions if is_infix(p, p.left, held)}
    return found


def things(spec):
    """What may be of no use, in the order in which it is told."""
    for name in spec.functions:
        yield FUNCTION, name
    for p in spec.phyla.values():
        if not p.leaf:
            for k, a in enumerate(p.attrs):
                if not a.hidden:
                    yield ATTRIBUTE, p.name, k
    for op in spec.ops:
        for k in range(len(op.locals)):
            yield LOCAL, op.number, k
    for p in spec.phyla.values():
        if p.kind != "base":
            yield PHYLUM, p.name
    told = set()
    for p in spec.productions:
        if p.left[1] not in told:
            told.add(p.left[1])
            yield NONTERMINAL, p.left[1]
    for op in spec.ops:
        if schemes_of(op):
            yield SCHEMES, op.number
    rests = set(resting(spec))
    for p in spec.phyla.values():
        if p.name in rests and is_typed_in(spec, p):
            yield ENTRY, p.name
    for _, literals, _, _ in spec.levels:
        for literal in literals:
            yield LITERAL, literal


def useless(spec):
    used = uses(spec)
    return [thing for thing in things(spec) if thing not in used]
