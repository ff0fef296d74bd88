"""The ordering test: the faults Direct, Induced and Ordered.

A relation on 0..n-1 is a list of successor sets, each an int used as bits.
"""

from .kinds import SpecFault


def bits(x):
    while x:
        low = x & -x
        yield low.bit_length() - 1
        x ^= low


def closure(rel):
    out = list(rel)
    for k in range(len(out)):
        bit = 1 << k
        for a in range(len(out)):
            if out[a] & bit:
                out[a] |= out[k]
    return out


def least_cycle(rel):
    """The cycle that is told: from the least vertex on a cycle, a shortest one,
    and the least such sequence. None where there is no cycle."""
    closed = closure(rel)
    start = next((a for a in range(len(rel)) if closed[a] >> a & 1), None)
    if start is None:
        return None
    n = len(rel)
    distance = [None] * n           # steps to come back to start, at least one
    back = [0] * n
    for a in range(n):
        for b in bits(rel[a]):
            back[b] |= 1 << a
    front, steps, seen = 1 << start, 0, 0
    while front:
        steps += 1
        new = 0
        for b in bits(front):
            new |= back[b]
        front = new & ~seen
        seen |= new
        for a in bits(front):
            distance[a] = steps
    cycle = [start]
    left = distance[start]
    while left > 1:
        left -= 1
        cycle.append(min(b for b in bits(rel[cycle[-1]]) if distance[b] == left
                         and b != start))
    return cycle


class Vertices:
    """The vertices of an operator: by occurrence, by attribute, then locals."""

    def __init__(self, op):
        self.op = op
        self.start = []
        self.names = []
        for k, p in enumerate(op.occurrences()):
            self.start.append(len(self.names))
            for a in p.attrs:
                self.names.append(self.spell(k, p, a))
        self.local = len(self.names)
        self.names.extend(n for n, _ in op.locals)
        self.count = len(self.names)

    def spell(self, k, p, a):
        if k == 0:
            return "$$." + a.name
        before = sum(1 for q in self.op.occurrences()[:k + 1] if q is p)
        return "%s$%d.%s" % (p.name, before, a.name)

    def of(self, occ, slot):
        return self.start[occ] + slot   # locals follow the left side's attributes


class Order:
    """All dependency relations, by rounds."""

    def __init__(self, spec):
        self.spec = spec
        self.vertices = [Vertices(op) for op in spec.ops]
        self.dp = [self.direct(op) for op in spec.ops]

    def vertex(self, v, occ, slot):
        """A slot past the attributes of the left side is a local."""
        own = len(v.op.phylum.attrs)
        if occ == 0 and slot >= own:
            return v.local + slot - own
        return v.of(occ, slot)

    def direct(self, op):
        v = self.vertices[op.number]
        rel = [0] * v.count
        for r in op.rules.values():
            to = self.vertex(v, r.occ, r.slot)
            for occ, slot in r.args:
                rel[self.vertex(v, occ, slot)] |= 1 << to
        return rel

    def induced(self):
        self.ids = {p.name: [0] * len(p.attrs) for p in self.spec.phyla.values()}
        self.idp = [list(rel) for rel in self.dp]
        again = True
        while again:
            again = False
            for op in self.spec.ops:
                again |= self.round(op)

    def round(self, op):
        """IDS into IDP of one operator, and its closure back into IDS."""
        v = self.vertices[op.number]
        rel = self.idp[op.number]
        self.project(v, rel, self.ids)
        closed = closure(rel)
        changed = False
        for k, p in enumerate(op.occurrences()):
            at = v.start[k]
            mask = (1 << len(p.attrs)) - 1
            for a in range(len(p.attrs)):
                found = closed[at + a] >> at & mask
                if found & ~self.ids[p.name][a]:
                    self.ids[p.name][a] |= found
                    changed = True
        return changed

    def project(self, v, rel, pairs):
        for k, p in enumerate(v.op.occurrences()):
            at = v.start[k]
            for a in range(len(p.attrs)):
                rel[at + a] |= pairs[p.name][a] << at

    def layers(self, p):
        """The layers of a phylum, the one that is evaluated last first."""
        left = set(range(len(p.attrs)))
        taken = set()
        out = []
        kind = "synthesized"
        while left:
            layer = {a for a in left if p.attrs[a].kind == kind}
            while True:
                good = {a for a in layer
                        if all(b in layer or b in taken for b in bits(self.ids[p.name][a]))}
                if good == layer:
                    break
                layer = good
            out.append(layer)
            taken |= layer
            left -= layer
            kind = "inherited" if kind == "synthesized" else "synthesized"
        return out

    def full(self):
        """DS into EDP."""
        ds = {}
        for p in self.spec.phyla.values():
            pairs = list(self.ids[p.name])
            later = 0
            for layer in self.layers(p):
                for a in layer:
                    pairs[a] |= later
                for a in layer:
                    later |= 1 << a
            ds[p.name] = pairs
        self.edp = []
        for op in self.spec.ops:
            rel = list(self.idp[op.number])
            self.project(self.vertices[op.number], rel, ds)
            self.edp.append(rel)

    def refuse(self, code, relations):
        for op in self.spec.ops:
            cycle = least_cycle(relations[op.number])
            if cycle is not None:
                names = self.vertices[op.number].names
                detail = "line %d %s: %s" % (op.line, op.name,
                                             " ".join(names[k] for k in cycle))
                fault = SpecFault(code, detail, op.place)
                fault.cycle = self, op, cycle
                raise fault


def order(spec):
    """The first fault of the ordering test, or nothing."""
    o = Order(spec)
    o.refuse("Direct", o.dp)
    o.induced()
    o.refuse("Induced", o.idp)
    o.full()
    o.refuse("Ordered", o.edp)
    return o
