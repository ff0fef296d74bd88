"""LALR(1) tables and the least conflict.

Lookaheads are the least relation of state, item and terminal that holds the
start items and is closed within a state and over a step by one symbol. Sets of
terminals are ints used as bits. States come by breadth in symbol order, so that
they stand in rising order of their least prefixes.
"""

from .grammar import print_symbol
from .kinds import STATES, SpecFault
from .orders import bits


class Tables:
    def __init__(self, grammar):
        self.g = grammar
        self.right = [symbols for _, symbols, _ in grammar.productions]
        self.by_left = {}
        for k, (left, _, _) in enumerate(grammar.productions):
            if left is not None:
                self.by_left.setdefault(left, []).append(k)
        self.first_sets()
        self.states = []            # list of items, the kernel first
        self.prefix = []            # least prefix of each state
        self.goto = []              # symbol -> state
        self.build()
        self.lookaheads()
        self.conflict()

    def first_sets(self):
        n = len(self.g.symbols)
        self.nullable = [False] * n
        self.first = [1 << s if s < self.g.terminals else 0 for s in range(n)]
        again = True
        while again:
            again = False
            for left, symbols, _ in self.g.productions:
                if left is None:
                    continue
                f, empty = self.first_of(symbols)
                if f & ~self.first[left] or (empty and not self.nullable[left]):
                    self.first[left] |= f
                    self.nullable[left] |= empty
                    again = True

    def first_of(self, symbols):
        """(first terminals, can be empty) of a symbol string."""
        f = 0
        for s in symbols:
            f |= self.first[s]
            if not self.nullable[s]:
                return f, False
        return f, True

    def close(self, kernel):
        items = list(kernel)
        seen = set(items)
        for p, dot in items:
            if dot < len(self.right[p]):
                for q in self.by_left.get(self.right[p][dot], []):
                    if (q, 0) not in seen:
                        seen.add((q, 0))
                        items.append((q, 0))
        return items

    def build(self):
        if not self.g.entries:
            return
        start = tuple((k, 0) for k in range(self.g.starts, len(self.right)))
        number = {start: 0}
        self.kernels = [start]
        self.prefix.append(None)
        k = 0
        while k < len(self.kernels):
            items = self.close(self.kernels[k])
            self.states.append(items)
            moves = {}
            for p, dot in items:
                if dot < len(self.right[p]):
                    moves.setdefault(self.right[p][dot], []).append((p, dot + 1))
            goto = {}
            for s in sorted(moves):
                kernel = tuple(sorted(moves[s]))
                if kernel not in number:
                    number[kernel] = len(self.kernels)
                    self.kernels.append(kernel)
                    self.prefix.append((k, s))
                    if len(self.kernels) > STATES:
                        raise SpecFault("States")
                goto[s] = number[kernel]
            self.goto.append(goto)
            k += 1

    def least_prefix(self, state):
        out = []
        while self.prefix[state] is not None:
            state, s = self.prefix[state]
            out.append(s)
        return out[::-1]

    def lookaheads(self):
        self.ahead = [dict.fromkeys(items, 0) for items in self.states]
        if not self.states:
            return
        todo = []
        for k in range(self.g.starts, len(self.right)):
            self.ahead[0][k, 0] = 1     # the end
        todo = [(0, item) for item in self.states[0][:len(self.kernels[0])]]
        waiting = set(todo)

        def gain(state, item, terms):
            if terms & ~self.ahead[state][item]:
                self.ahead[state][item] |= terms
                if (state, item) not in waiting:
                    waiting.add((state, item))
                    todo.append((state, item))

        while todo:
            state, item = todo.pop()
            waiting.discard((state, item))
            p, dot = item
            if dot == len(self.right[p]):
                continue
            terms = self.ahead[state][item]
            s = self.right[p][dot]
            gain(self.goto[state][s], (p, dot + 1), terms)
            if s >= self.g.terminals:
                f, empty = self.first_of(self.right[p][dot + 1:])
                if empty:
                    f |= terms
                for q in self.by_left.get(s, []):
                    gain(state, (q, 0), f)

    def acts(self, state):
        """terminal -> list of (item, action), the items in their order."""
        out = {}
        for item in sorted(self.states[state]):
            p, dot = item
            if dot < len(self.right[p]):
                s = self.right[p][dot]
                if s < self.g.terminals:
                    out.setdefault(s, []).append((item, "shift"))
            else:
                for t in bits(self.ahead[state][item]):
                    out.setdefault(t, []).append((item, p))
        return out

    def conflict(self):
        self.actions = []
        for state in range(len(self.states)):
            acts = self.acts(state)
            for t in sorted(acts):
                first, action = acts[t][0]
                for second, other in acts[t]:
                    if other != action:
                        raise self.fault(state, t, first, second)
            self.actions.append({t: a[0][1] for t, a in acts.items()})

    def fault(self, state, terminal, first, second):
        g = self.g
        prefix = " ".join(print_symbol(g.symbols[s]) for s in self.least_prefix(state))
        made = g.productions[first[0]][2]
        detail = "line %d after %s on %s: %s | %s" % (
            made.line, prefix, print_symbol(g.symbols[terminal]),
            g.print_item(*first), g.print_item(*second))
        return SpecFault("Conflict", detail, made.place)


def tables(grammar):
    """The tables, or the fault States or Conflict."""
    return Tables(grammar)
