"""Precedence lines: the grammar with a nonterminal for each level."""


class Production:
    """left and symbols are grammar symbols; expr is None for a chain, whose
    result is that of its only symbol. written is the written production it
    comes from, or the precedence line of a chain."""

    def __init__(self, left, symbols, expr, line, place):
        self.left = left
        self.symbols = symbols
        self.expr = expr
        self.line = line
        self.place = place


# A symbol is ("end",), ("marker", phylum), ("literal", bytes),
# ("lexeme", name) or ("nonterminal", name, level); level 0 is no level.

def nonterminal(name, level=0):
    return ("nonterminal", name, level)


def is_infix(p, e, held):
    return (len(p.symbols) == 3 and p.symbols[0] == e and p.symbols[2] == e
            and p.symbols[1][0] == "literal" and p.symbols[1][1] in held)


def is_prefix(p, e):
    return len(p.symbols) == 2 and p.symbols[0][0] == "literal" and p.symbols[1] == e


def spread(written, levels):
    """(spread productions, levels of each spread nonterminal): levels are
    (group, literals, line, place) in source order."""
    line_of = {}
    for k, (_, literals, _, _) in enumerate(levels):
        for lit in literals:
            line_of[lit] = k
    used = {}                       # spread nonterminal -> its lines, in order
    for p in written:
        if is_infix(p, p.left, line_of):
            used.setdefault(p.left[1], set()).add(line_of[p.symbols[1][1]])
    used = {name: sorted(lines) for name, lines in used.items()}

    def at(name, level):
        return nonterminal(name, level)

    def top(symbol):
        """The symbol with E as E/1 where E is spread."""
        if symbol[0] == "nonterminal" and symbol[1] in used:
            return at(symbol[1], 1)
        return symbol

    out = []
    order = []
    for p in written:
        name = p.left[1]
        if name not in used:
            out.append(Production(p.left, [top(s) for s in p.symbols], p.expr,
                                  p.line, p.place))
            continue
        if name not in order:
            order.append(name)
        last = len(used[name]) + 1
        if is_infix(p, p.left, line_of):
            line = line_of[p.symbols[1][1]]
            i = used[name].index(line) + 1
            group = levels[line][0]
            left = at(name, i if group == "left" else i + 1)
            right = at(name, i if group == "right" else i + 1)
            out.append(Production(at(name, i), [left, p.symbols[1], right], p.expr,
                                  p.line, p.place))
        elif is_prefix(p, p.left):
            out.append(Production(at(name, last), [p.symbols[0], at(name, last)], p.expr,
                                  p.line, p.place))
        else:
            out.append(Production(at(name, last), [top(s) for s in p.symbols], p.expr,
                                  p.line, p.place))
    for name in order:
        for i, line in enumerate(used[name], 1):
            _, _, number, place = levels[line]
            out.append(Production(at(name, i), [at(name, i + 1)], None, number, place))
    return out, {name: len(lines) + 1 for name, lines in used.items()}
