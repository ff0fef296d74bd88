"""Attributes from scratch and the set of evaluated instances of a replacement."""

from .kinds import Leaf, same


class Attribution:
    """A whole term with every value from scratch. Nodes are numbered in
    preorder; an instance is a pair of a node's number and a slot."""

    def __init__(self, spec, outcomes, term):
        self.spec = spec
        self.outcomes = outcomes
        self.term = term
        self.nodes = []
        self.parent = []            # number of the parent, -1 at the root
        self.place = []             # child number
        self.kids = []
        self.number(term)
        self.values = [{} for _ in self.nodes]
        for k, n in enumerate(self.nodes):
            if type(n) is Leaf:
                self.values[k][0] = n.value
        self.instances = list(self.all_instances())
        for i in self.instances:
            self.demand(i)

    def number(self, term):
        todo = [(term, -1, 0)]
        while todo:
            n, parent, place = todo.pop()
            k = len(self.nodes)
            self.nodes.append(n)
            self.parent.append(parent)
            self.place.append(place)
            self.kids.append([0] * len(n.kids))
            if parent >= 0:
                self.kids[parent][place] = k
            for j in range(len(n.kids) - 1, -1, -1):
                todo.append((n.kids[j], k, j))

    def find(self, path):
        k = 0
        for j in path:
            k = self.kids[k][j]
        return k

    def path(self, k):
        out = []
        while self.parent[k] >= 0:
            out.append(self.place[k])
            k = self.parent[k]
        return tuple(reversed(out))

    def rule(self, k, slot):
        """(the rule, the number of the node whose operator has it), or None."""
        n = self.nodes[k]
        if type(n) is Leaf:
            return None
        r = n.op.rules.get((0, slot))
        if r is not None:
            return r, k
        up = self.parent[k]
        if up < 0:
            return None
        r = self.nodes[up].op.rules.get((self.place[k] + 1, slot))
        return None if r is None else (r, up)

    def all_instances(self):
        for k, n in enumerate(self.nodes):
            if type(n) is Leaf:
                continue
            for slot in range(len(n.phylum.attrs) + len(n.op.locals)):
                if self.rule(k, slot) is not None:
                    yield k, slot

    def args(self, i):
        """The rule of an instance, its node, and the instances it names."""
        r, k = self.rule(*i)
        return r, k, [(k if occ == 0 else self.kids[k][occ - 1], slot)
                      for occ, slot in r.args]

    def demand(self, i):
        """The value of an instance, and before it those of its arguments."""
        todo = [i]
        while todo:
            k, slot = todo[-1]
            if slot in self.values[k]:
                todo.pop()
                continue
            r, _, args = self.args((k, slot))
            missing = [a for a in args if a[1] not in self.values[a[0]]]
            if missing:
                todo.extend(missing)
                continue
            given = tuple([self.values[a][s] for a, s in args])
            self.values[k][slot] = self.outcomes.of(r, given)
            todo.pop()

    def value(self, k, slot):
        return self.values[k][slot]


def evaluated(old, new, path):
    """How many instances the replacement at the path evaluates. It compares
    two whole attributions; `new` is that of the term after the replacement.

    Preorder numbers outside the two subtrees are the same before them and
    shifted after them."""
    at = new.find(path)
    size = new.nodes[at].nodes
    shift = old.nodes[at].nodes - size

    def changed(a):
        k, slot = a
        before = k if k <= at else k + shift
        return not same(old.values[before][slot], new.values[k][slot])

    count = 0
    for i in new.instances:
        _, k, args = new.args(i)
        if at <= k < at + size:
            count += 1
        elif any(changed(a) for a in args):
            count += 1
    return count
