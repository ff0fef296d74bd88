"""Search, and replacement everywhere."""

from .evaluate import outcome
from .kinds import Fault
from .terms import found, preorder, put, sub


def known(spec, name):
    """Has some phylum a transform of that name?"""
    return any(t.name == name for t in spec.transforms)


def found_paths(spec, t, name):
    """Found(t, name), in preorder."""
    return [path for path, n in preorder(t) if found(spec, n, name) is not None]


def outer(paths):
    """Those that have no proper prefix among them; preorder is kept."""
    out = []
    for p in paths:
        if not out or p[:len(out[-1])] != out[-1]:
            out.append(p)
    return out


def all_(spec, t, path, name):
    """All(t, path, name), or "unknown", "no match", or a Fault."""
    if not known(spec, name):
        return "unknown"
    top = sub(t, path)
    places = outer(found_paths(spec, top, name))
    if not places:
        return "no match"
    results = []
    for p in places:
        n = sub(top, p)
        tr, bound = found(spec, n, name)
        v = outcome(spec, tr.expr, bound)
        if type(v) is Fault:
            return v
        results.append((p, spec.plain(v, n.phylum)))
    for p, s in results:
        top = put(top, p, s)
    return top
