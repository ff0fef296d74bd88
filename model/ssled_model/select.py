"""Resting places and the moves."""

from .kinds import Leaf
from .terms import is_pair
from .unparse import places, scheme_of


def rest(t, view):
    """The paths of the resting places, in preorder."""
    out = []
    todo = [(t, (), True, True)]    # node, path, its place allows it, no bar above
    while todo:
        n, path, place, free = todo.pop()
        starts = type(n) is Leaf or scheme_of(n, view).mark == "@"
        if not path or (free and place and starts):
            out.append(path)
        if type(n) is Leaf:
            continue
        free = free and not n.elided
        if not free:
            continue
        marks = places(scheme_of(n, view))
        for k in range(len(n.kids) - 1, -1, -1):
            tail = is_pair(n) and k == 1
            todo.append((n.kids[k], path + (k,), marks[k] == "@" and not tail,
                         marks[k] != ".."))
    return out


def settle(t, path, view):
    """The longest prefix of the path that is a resting place."""
    good = ()
    n = t
    free = True
    for d, k in enumerate(path):
        if n.elided:
            break
        mark = places(scheme_of(n, view))[k]
        if mark == "..":
            break
        tail = is_pair(n) and k == 1
        n = n.kids[k]
        starts = type(n) is Leaf or scheme_of(n, view).mark == "@"
        if mark == "@" and not tail and starts:
            good = path[:d + 1]
    return good


def is_prefix(a, b):
    return b[:len(a)] == a


def upper(held, path):
    """The nearest resting proper ancestor, or None."""
    for d in range(len(path) - 1, -1, -1):
        if path[:d] in held:
            return path[:d]
    return None


def move(t, path, view, word):
    """The path that a move selects, or None."""
    r = rest(t, view)
    held = set(r)
    if word == "up":
        return upper(held, path)
    at = r.index(path)
    if word == "next":
        return r[at + 1] if at + 1 < len(r) else None
    if word == "prev":
        return r[at - 1] if at > 0 else None
    if word == "first":
        inside = r[at + 1] if at + 1 < len(r) else None
        return inside if inside is not None and is_prefix(path, inside) else None
    mine = upper(held, path)        # sibling
    for q in r[at + 1:]:
        if mine is not None and upper(held, q) == mine:
            return q
    return None
