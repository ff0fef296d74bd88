"""Equations that are owed: the faults NotDefinedHere, Twice and Missing."""

from .names import Faults, occurrence


def instances(names, op):
    """What the equations of an operator have to define, as keys
    (occurrence, attribute name), or (None, local name)."""
    out = []
    for k, phylum in enumerate(op.occurrences):
        if names.is_leaf(phylum):
            continue
        for kind, _, name in names.attrs.get(phylum, []):
            if kind == ("synthesized" if k == 0 else "inherited"):
                out.append((k, name))
    out.extend((None, name) for name, _ in names.locals_of(op))
    return out


def key_of(op, target):
    if target.kind == "local":
        return None, target.name.value
    return occurrence(target.occ, op.occurrences), target.attr.value


def all_equations(names):
    """(operator, target, expression) of each equation, in the text's order."""
    for d in names.decls:
        if d.kind == "equations":
            op = names.op_of(d.name.value, d.op.value)
            for target, e in d.rules:
                yield op, target, e


def fault_not_defined_here(names):
    faults = Faults("NotDefinedHere")
    for op, target, _ in all_equations(names):
        if key_of(op, target) not in instances(names, op):
            faults.add(target.place, "line %d" % target.line)
    faults.check()


def fault_twice(names):
    faults = Faults("Twice")
    seen = set()
    for op, target, _ in all_equations(names):
        key = (op.name, key_of(op, target))
        if key in seen:
            faults.add(target.place, "line %d" % target.line)
        seen.add(key)
    faults.check()


def fault_missing(names):
    faults = Faults("Missing")
    defined = {(op.name, key_of(op, t)) for op, t, _ in all_equations(names)}
    for op in names.op_list:
        if any((op.name, k) not in defined for k in instances(names, op)):
            faults.name(op.alt.name)
    faults.check()


def rules(names):
    """The first fault of equations, or nothing."""
    fault_not_defined_here(names)
    fault_twice(names)
    fault_missing(names)
