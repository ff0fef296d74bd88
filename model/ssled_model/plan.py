"""What ssled_explain tells of how an accepted specification is evaluated and parsed: visits, their steps, entries, states."""

from .orders import bits, closure, order


class Plan:
    """Visits of attributes, places of vertices and steps of visits."""

    def __init__(self, spec):
        self.spec = spec
        self.order = order(spec)
        self.visits = {p.name: self.visits_of(p) for p in spec.phyla.values()}
        self.places = [self.places_of(op) for op in spec.ops]

    def visits_of(self, p):
        """The visit of each attribute: two layers are one visit, and the layer that is taken last comes first."""
        layer = {a: k for k, layer in enumerate(self.order.layers(p)) for a in layer}
        pairs = [layer[a] // 2 + 1 for a in range(len(p.attrs))]
        most = max(pairs, default=1)
        return [most + 1 - n for n in pairs]

    def count(self, p):
        return max(self.visits[p.name], default=1)

    def places_of(self, op):
        """The rank of each vertex: by how many vertices it waits for, then by its number."""
        closed = closure(self.order.edp[op.number])
        waits = [0] * len(closed)
        for row in closed:
            for b in bits(row):
                waits[b] += 1
        ranked = sorted(range(len(waits)), key=lambda v: (waits[v], v))
        return {v: k for k, v in enumerate(ranked)}

    def place(self, op, occ, slot):
        return self.places[op.number][self.order.vertex(self.order.vertices[op.number], occ, slot)]

    def given(self, p, visit):
        """The synthesized attributes of a visit."""
        return [k for k, a in enumerate(p.attrs)
                if a.kind == "synthesized" and self.visits[p.name][k] == visit]

    def visit_at(self, op, place):
        """The visit of the left side to which a place belongs."""
        count = self.count(op.phylum)
        for visit in range(1, count + 1):
            if any(self.place(op, 0, a) >= place for a in self.given(op.phylum, visit)):
                return visit
        return count

    def steps(self, op):
        """Each step of an operator: its place and its words."""
        v = self.order.vertices[op.number]
        for r in op.rules.values():
            yield self.place(op, r.occ, r.slot), v.names[self.order.vertex(v, r.occ, r.slot)]
        for k, p in enumerate(op.args):
            if not p.leaf:
                child = "%s$%d" % (p.name, op.occurrences()[:k + 2].count(p))
                for visit in range(1, self.count(p) + 1):
                    seats = [self.place(op, k + 1, a) for a in self.given(p, visit)]
                    yield min(seats, default=v.count + k), "visit %d of %s" % (visit, child)

    def steps_of(self, op, visit):
        return [words for place, words in sorted(self.steps(op)) if self.visit_at(op, place) == visit]


def plan(loaded):
    spec = loaded.spec
    of = Plan(spec)
    out = ""
    for p in spec.phyla.values():
        if not p.leaf:
            for visit in range(1, of.count(p) + 1):
                names = {"inherited": "", "synthesized": ""}
                for k, a in enumerate(p.attrs):
                    if of.visits[p.name][k] == visit:
                        names[a.kind] += " " + a.name
                out += "phylum %s, visit %d:%s ->%s\n" % (p.name, visit, names["inherited"],
                                                          names["synthesized"])
    for op in spec.ops:
        for visit in range(1, of.count(op.phylum) + 1):
            steps = ", ".join(of.steps_of(op, visit))
            out += "%s of %s, visit %d:%s\n" % (op.name, op.phylum.name, visit, " " + steps if steps else "")
    for e in spec.entries:
        out += "entry %s: %s\n" % (e.phylum, e.nonterminal)
    return out + "%d states\n" % len(loaded.tables.states)
