"""Attributes of enclosing nodes: the fault NoEnclosing and the hidden attributes."""

from .kinds import Attr, SpecFault
from .names import Faults, expressions, walk


def key_of(atom):
    """The list of pairs of an atom, as it is written."""
    return tuple((n.value, a.value) for n, a in atom.pairs)


def spelled(key):
    return "{%s}" % ",".join("%s.%s" % pair for pair in key)


def uses(names):
    """(operator, atom) of each atom, in the text's order."""
    for d in names.decls:
        if d.kind == "equations":
            op = names.op_of(d.name.value, d.op.value)
            for e in expressions(d):
                for n in walk(e):
                    if n.kind == "remote":
                        yield op, n


def bare(names, listed):
    """The phyla of which some term of the root phylum has a node without a
    proper ancestor of a listed phylum."""
    reached = set()
    todo = [names.roots[0].value]
    while todo:
        p = todo.pop()
        if p in reached:
            continue
        reached.add(p)
        if p not in listed:
            for op in names.by_phylum.get(p, []):
                todo.extend(op.args)
    return reached


def chain(names, listed, phylum):
    """A shortest chain of operators from the root phylum, each below the one before and none of a listed phylum, down to
    an operator that has a phylum among its arguments; none for the root."""
    root = names.roots[0].value
    above = {root: None}            # phylum -> the operator above, the first that was met
    todo = [root]
    for p in todo:
        if p in listed:
            continue
        for op in names.by_phylum.get(p, []):
            for arg in op.args:
                if arg not in above:
                    above[arg] = op
                    todo.append(arg)
    found = []
    while above[phylum] is not None:
        found.append(above[phylum])
        phylum = above[phylum].phylum
    return found[::-1]


def lines_of(names, place):
    """What is told of the reference to enclosing nodes at a place."""
    for op, atom in uses(names):
        if atom.place == place:
            listed = {n.value for n, _ in atom.pairs}
            ops = chain(names, listed, op.phylum) + [op]
            return ["such as, each below the one before:"] + [
                "  %s : %s, line %d" % (o.phylum, o.name, o.alt.name.line) for o in ops]
    return []


def fault_no_enclosing(names):
    faults = Faults("NoEnclosing")
    for op, atom in uses(names):
        listed = {n.value for n, _ in atom.pairs}
        if op.phylum in bare(names, listed):
            faults.add(atom.place, "line %d" % atom.line)
    faults.check()


def holders(spec, key, users):
    """The phyla that have the hidden attribute of a list of pairs."""
    listed = {p for p, _ in key}
    have = set(users)
    again = True
    while again:
        again = False
        for op in spec.ops:
            p = op.phylum.name
            if p not in have and p not in listed and any(a.name in have for a in op.args):
                have.add(p)
                again = True
    return have


def hidden_attributes(spec, names):
    """Adds the hidden attributes to the phyla, in order of first use. Answers
    the lists of pairs with the types of their attributes."""
    users = {}
    for op, atom in uses(names):
        users.setdefault(key_of(atom), set()).add(op.phylum)
    for key, who in users.items():
        type_ = names.attribute(*key[0])[1]
        for p in holders(spec, key, who):
            spec.phyla[p].attrs.append(Attr(spelled(key), "inherited", spec.phyla[type_],
                                            hidden=True))
    return list(users)


def hidden_source(op, key, slot):
    """The slot of the left side that gives a child its hidden attribute."""
    for p, a in key:
        if p == op.phylum.name:
            return slot(op.phylum, a)
    return slot(op.phylum, spelled(key))
