"""All that operators lack: attributes and locals that no equation of theirs defines."""

from . import equations, names as naming
from .reader import read
from .text import cut, lex


def vertex(op, key):
    """An attribute or a local of an operator as it is printed."""
    at, name = key
    if at is None:
        return name
    if at == 0:
        return "$$." + name
    phylum = op.occurrences[at]
    return "%s$%d.%s" % (phylum, op.occurrences[:at + 1].count(phylum), name)


def handed(names, op, key):
    """Has the left side an inherited attribute of the name and type of this one of an argument?"""
    types = {(kind, name): type_ for kind, type_, name in names.attrs.get(op.occurrences[key[0]], [])}
    return any(kind == "inherited" and name == key[1] and type_ == types["inherited", name]
               for kind, type_, name in names.attrs.get(op.phylum, []))


def first_of(data, place):
    """What is told of an equation at a place that stands twice: the line of the first one."""
    names = naming.resolve(read(cut(lex(data))))
    found = [(op.name, equations.key_of(op, target), target) for op, target, _ in equations.all_equations(names)]
    for op, key, target in found:
        if target.place == place:
            first = next(t for o, k, t in found if (o, k) == (op, key))
            return ["  the first equation of it, line %d" % first.line]
    return []


def lines_of(data):
    """What is told of them."""
    names = naming.resolve(read(cut(lex(data))))
    defined = {(op.name, equations.key_of(op, target)) for op, target, _ in equations.all_equations(names)}
    lines = []
    for op in names.op_list:
        owed = [key for key in equations.instances(names, op) if (op.name, key) not in defined]
        for key in sorted(owed, key=lambda key: (key[0] or 0, key[0] is None)):
            word = vertex(op, key)
            copy = ", such as %s = $$.%s;" % (word, key[1]) if key[0] and handed(names, op, key) else ""
            lines.append("  %s : %s, line %d, lacks %s%s" % (op.phylum, op.name, op.alt.name.line, word, copy))
    return lines
