"""Terms: subterms, replacement, transformations."""

from .evaluate import match, outcome
from .kinds import MAX_DEPTH, MAX_NODES, Leaf, Node


def sub(t, path):
    """The subterm at the path."""
    for k in path:
        t = t.kids[k]
    return t


def put(t, path, s):
    """The term with s in the place of the subterm at the path."""
    above = []
    for k in path:
        above.append((t, k))
        t = t.kids[k]
    for parent, k in reversed(above):
        kids = list(parent.kids)
        kids[k] = s
        s = Node(parent.op, parent.scheme, parent.elided, kids)
    return s


def marked(n, scheme, elided):
    return Node(n.op, scheme, elided, n.kids)


def in_limits(t):
    return t.nodes <= MAX_NODES and t.depth <= MAX_DEPTH


def preorder(t):
    """All (path, subterm) in preorder."""
    todo = [((), t)]
    while todo:
        path, n = todo.pop()
        yield path, n
        for k in range(len(n.kids) - 1, -1, -1):
            todo.append((path + (k,), n.kids[k]))


def transforms(spec, phylum, name):
    return [t for t in spec.transforms if t.name == name and t.phylum is phylum]


def found(spec, t, name):
    """The first transform of that name whose pattern matches the term, with its
    bindings, or None."""
    v = spec.val(t)
    for tr in transforms(spec, t.phylum, name):
        bound = match(spec, tr.pattern, v, {})
        if bound is not None:
            return tr, bound
    return None


def trans(spec, t, name):
    """The refusal "unknown", "no match", or the outcome."""
    if not transforms(spec, t.phylum, name):
        return "unknown"
    hit = found(spec, t, name)
    if hit is None:
        return "no match"
    return outcome(spec, hit[0].expr, hit[1])


def spine(spec, t, path):
    """The spine node's path where the path is child 0 of a list's binary
    operator, else None."""
    if not path or path[-1] != 0:
        return None
    parent = sub(t, path[:-1])
    return path[:-1] if is_pair(parent) else None


def is_pair(n):
    """Is the node the binary operator of a list?"""
    return type(n) is not Leaf and n.phylum.is_list and n.op is n.phylum.ops[1]


def is_nil(n):
    return type(n) is not Leaf and n.phylum.is_list and n.op is n.phylum.ops[0]


def list_head(t, path):
    """The path of the first spine node of the list in which the spine node at
    the path stands."""
    phylum = sub(t, path).phylum
    while path and path[-1] == 1:
        above = sub(t, path[:-1])
        if not (is_pair(above) and above.phylum is phylum):
            break
        path = path[:-1]
    return path


def elements(t):
    """The elements of a list term."""
    out = []
    while is_pair(t):
        out.append(t.kids[0])
        t = t.kids[1]
    return out


def pair(phylum, element, rest):
    return Node(phylum.ops[1], 0, False, (element, rest))
