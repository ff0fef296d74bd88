"""Shortest sentences of nonterminals, and what is told of a grammar with a fault: a sample of its conflict's prefix with what
is done behind it, or the nonterminals without a sentence."""
import heapq

from . import equations, names as naming, typing
from .grammar import Grammar, print_symbol
from .lalr import Tables
from .load import Builder, read_patterns
from .reader import read
from .text import cut, lex

MOST = 200
LONG = None                         # in place of a string of more than MOST symbols


def lengths(grammar):
    """The length of a shortest sentence of each symbol that has one: the next least one is settled, and counted in the
    right sides that wait for it."""
    found = {}
    waiting, of, total = [], {}, []
    for k, (left, right, _) in enumerate(grammar.productions[:grammar.starts]):
        waiting.append(len(right))
        total.append(0)
        for s in right:
            of.setdefault(s, []).append(k)
    heap = [(1, s) for s in range(grammar.terminals)]
    heap += [(0, left) for left, right, _ in grammar.productions[:grammar.starts] if not right]
    heapq.heapify(heap)
    while heap:
        size, s = heapq.heappop(heap)
        if s in found:
            continue
        found[s] = size
        for k in of.get(s, []):
            waiting[k] -= 1
            total[k] += size
            if not waiting[k]:
                heapq.heappush(heap, (total[k], grammar.productions[k][0]))
    return found


def size_of(string):
    return MOST + 1 if string is LONG else len(string)


def samples(grammar):
    """A shortest sentence of each symbol: of several that which rounds over the productions find first."""
    best = {s: (s,) for s in range(grammar.terminals)}
    again = True
    while again:
        again = False
        for left, right, _ in grammar.productions[:grammar.starts]:
            if any(s not in best for s in right):
                continue
            size = min(sum(size_of(best[s]) for s in right), MOST + 1)
            if left not in best or size < size_of(best[left]):
                best[left] = LONG if size > MOST else sum((best[s] for s in right), ())
                again = True
    assert {s: size_of(it) for s, it in best.items()} == {s: min(n, MOST + 1) for s, n in lengths(grammar).items()}
    return best


def sample(grammar, string):
    """The string with sentences in place of its nonterminals, where it stays at MOST symbols or as short as it is."""
    best = samples(grammar)
    whole = sum(size_of(best[s]) for s in string) <= MOST
    spare = MOST if whole else max(0, MOST - len(string))
    out = []
    for s in string:
        found = best[s]
        if found is not LONG and len(found) - 1 <= spare:
            spare -= max(0, len(found) - 1)
            out += found
        else:
            out.append(s)
    return out


class Clash(Exception):
    """A conflict: its prefix, its terminal and its items."""


class Told(Tables):
    def fault(self, state, terminal, first, second):
        return Clash(self.least_prefix(state), terminal, first, second)


def grammar_of(data):
    """The grammar of a text whose first fault is one of its grammar."""
    names = naming.resolve(read(cut(lex(data))))
    typing.check(names)
    equations.rules(names)
    return Grammar(Builder(names, read_patterns(names)).spec)


def conflict(data):
    """A sample of the prefix of the conflict, and what each item does behind it, as lines."""
    grammar = grammar_of(data)
    try:
        Told(grammar)
    except Clash as clash:
        prefix, terminal, first, second = clash.args
    def words(symbols):
        return "".join(" " + print_symbol(grammar.symbols[s]) for s in symbols)
    lines = "such as%s, then%s\n" % (words(sample(grammar, prefix)), words([terminal]))
    for p, dot in (first, second):
        ends = dot == len(grammar.productions[p][1])
        lines += "  %s%s\n" % (grammar.print_item(p, dot), " ends here" if ends else " goes on with" + words([terminal]))
    return lines


def unproductive(data):
    """All nonterminals without a sentence, as a line."""
    grammar = grammar_of(data)
    best = samples(grammar)
    bad = [s for s in range(grammar.terminals, len(grammar.symbols)) if s not in best]
    named = list(dict.fromkeys(grammar.symbols[s][1] for s in bad))
    assert named == grammar.unproductive()
    return "without a sentence:%s\n" % "".join(" " + name for name in named)
