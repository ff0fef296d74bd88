"""The steps of a cycle of dependencies with their causes.

Each pair of attributes that an operator joins is found once, in rounds over the operators, by the pairs that were known before;
a step is by an equation, by such a pair, whose reason is told in turn, or by the layers.
"""

from .orders import bits, closure


def way(rel, a, b):
    """A shortest way from a to b, of one step at least, and of these the least."""
    distance, front, steps = {}, [b], 0
    while front:
        steps += 1
        front = [v for v in range(len(rel)) if v not in distance and any(rel[v] >> w & 1 for w in front)]
        distance.update((v, steps) for v in front)
    found, left = [a], distance[a]
    while left > 1:
        left -= 1
        found.append(min(w for w in bits(rel[found[-1]]) if distance.get(w) == left))
    return found + [b]


class Reasons:
    def __init__(self, order):
        self.order, self.ops, self.pairs, self.number = order, order.spec.ops, [], {}
        again = True
        while again:
            again = False
            for op in self.ops:
                again |= self.settle(op)

    def occurrences(self, op):
        return list(enumerate(op.occurrences()))

    def relation(self, op, known):
        rel, start = list(self.order.dp[op.number]), self.order.vertices[op.number].start
        for at, phylum in self.occurrences(op):
            for (name, a, b), number in self.number.items():
                if name == phylum.name and number < known:
                    rel[start[at] + a] |= 1 << start[at] + b
        return rel

    def settle(self, op):
        known, start = len(self.pairs), self.order.vertices[op.number].start
        closed = closure(self.relation(op, known))
        for at, phylum in self.occurrences(op):
            for a in range(len(phylum.attrs)):
                for b in range(len(phylum.attrs)):
                    pair = phylum.name, a, b
                    if closed[start[at] + a] >> start[at] + b & 1 and pair not in self.number:
                        self.number[pair] = len(self.pairs)
                        self.pairs.append((phylum, a, b, op, at, known))
        return len(self.pairs) > known

    def cause(self, op, m, n, known):
        if self.order.dp[op.number][m] >> n & 1:
            return 'by an equation', None
        start = self.order.vertices[op.number].start
        for at, phylum in self.occurrences(op):
            a, b = m - start[at], n - start[at]
            if 0 <= a < len(phylum.attrs) and 0 <= b < len(phylum.attrs):
                number = self.number.get((phylum.name, a, b), known)
                if number < known:
                    return 'below' if at else 'above', number
                return 'by the layers of ' + phylum.name, None

    def steps(self, op, vertices, known):
        names = self.order.vertices[op.number].names
        return [(names[m], names[n]) + self.cause(op, m, n, known) for m, n in zip(vertices, vertices[1:])]

    def told(self, op, cycle):
        first = self.steps(op, cycle + cycle[:1], len(self.pairs))
        wanted, reasons = {s[3] for s in first}, []
        for number in reversed(range(len(self.pairs))):
            if number in wanted:
                phylum, a, b, by, at, known = self.pairs[number]
                start = self.order.vertices[by.number].start[at]
                steps = self.steps(by, way(self.relation(by, known), start + a, start + b), known)
                wanted |= {s[3] for s in steps}
                reasons.append((number, steps))
        place = {number: str(k + 1) for k, (number, _) in enumerate(reasons)}
        yield '  in %s, line %d:' % (op.name, op.line)
        yield from self.lines(first, place)
        for number, steps in reasons:
            phylum, a, b, by, at, known = self.pairs[number]
            yield '  (%s) %s: %s -> %s, in %s, line %d:' % (
                place[number], phylum.name, phylum.attrs[a].name, phylum.attrs[b].name, by.name, by.line)
            yield from self.lines(steps, place)

    def lines(self, steps, place):
        for m, n, cause, number in steps:
            yield '      %s -> %s   %s' % (m, n, cause if number is None else '%s (%s)' % (cause, place[number]))


def lines_of(fault):
    """What is told of the cycle of a fault."""
    order, op, cycle = fault.cycle
    return list(Reasons(order).told(op, cycle))
