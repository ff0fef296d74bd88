"""Text entry: scanning, parsing and results."""

from .evaluate import outcome
from .patterns import scan


def tokens_of(loaded, text):
    """(tokens, None), or (None, place) where nothing matches."""
    return scan(loaded.tables.g.literals, loaded.spec.lexemes, text)


def parse(loaded, entry, text, tokens):
    """(value, None), or (None, k) where the parse stopped at token k."""
    t = loaded.tables
    g = t.g
    number = g.number
    states = [t.goto[0][number["marker", loaded.spec.entries[entry].phylum]]]
    results = []
    terminals = [number[which] for which, _, _ in tokens] + [0]
    k = 0
    while True:
        action = t.actions[states[-1]].get(terminals[k])
        if action is None:
            return None, k
        if action == "shift":
            _, a, b = tokens[k]
            states.append(t.goto[states[-1]][terminals[k]])
            results.append(text[a:b])
            k += 1
            continue
        left, symbols, made = g.productions[action]
        if left is None:
            return results[-1], None
        n = len(symbols)
        parts = results[len(results) - n:]
        del results[len(results) - n:]
        del states[len(states) - n:]
        if made.expr is None:
            value = parts[0]
        else:
            bound = {("@", j + 1): v for j, v in enumerate(parts)}
            value = outcome(loaded.spec, made.expr, bound)
        results.append(value)
        states.append(t.goto[states[-1]][left])
