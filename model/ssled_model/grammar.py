"""The grammar of a specification, with its symbols numbered."""

from .prec import Production, nonterminal, spread


def print_symbol(s):
    if s[0] == "end":
        return "end"
    if s[0] == "marker":
        return "~" + s[1]
    if s[0] == "literal":
        return "'%s'" % s[1].decode()
    if s[0] == "lexeme":
        return s[1]
    return s[1] if s[2] == 0 else "%s/%d" % (s[1], s[2])


class Grammar:
    """Symbols by number, productions, and start productions after them."""

    def __init__(self, spec):
        written = spec.productions
        self.written = written
        productions, levels = spread(written, spec.levels)
        self.levels = levels
        self.entries = spec.entries
        literals = []
        names = []
        for p in written:
            if p.left[1] not in names:
                names.append(p.left[1])
            for s in p.symbols:
                if s[0] == "literal" and s[1] not in literals:
                    literals.append(s[1])
        self.literals = literals
        self.symbols = [("end",)]
        self.symbols += [("marker", e.phylum) for e in spec.entries]
        self.symbols += [("literal", lit) for lit in literals]
        self.symbols += [("lexeme", p.name) for p in spec.lexemes]
        self.terminals = len(self.symbols)
        for n in names:
            if n in levels:
                self.symbols += [nonterminal(n, i) for i in range(1, levels[n] + 1)]
            else:
                self.symbols.append(nonterminal(n))
        self.number = {s: k for k, s in enumerate(self.symbols)}
        self.productions = []       # (left number or None, list of numbers, Production)
        for p in productions:
            self.productions.append((self.number[p.left],
                                     [self.number[s] for s in p.symbols], p))
        self.starts = len(self.productions)
        for e in spec.entries:
            top = nonterminal(e.nonterminal, 1 if e.nonterminal in levels else 0)
            symbols = [self.number["marker", e.phylum], self.number[top]]
            self.productions.append((None, symbols, Production(None, None, None, e.line,
                                                               e.place)))

    def unproductive(self):
        """The names of the written nonterminals that derive no sentence, in order
        of first production."""
        good = set()
        again = True
        while again:
            again = False
            for p in self.written:
                if p.left not in good and all(s[0] != "nonterminal" or s in good
                                              for s in p.symbols):
                    good.add(p.left)
                    again = True
        out = []
        for p in self.written:
            if p.left not in good and p.left[1] not in out:
                out.append(p.left[1])
        return out

    def print_item(self, production, dot):
        left, symbols, _ = self.productions[production]
        words = [print_symbol(self.symbols[s]) for s in symbols]
        words.insert(dot, ".")
        name = "start" if left is None else print_symbol(self.symbols[left])
        return "%s ::= %s" % (name, " ".join(words))
