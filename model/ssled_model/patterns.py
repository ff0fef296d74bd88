"""Lexeme patterns and longest match: a pattern as a small
nondeterministic automaton whose state sets are remembered."""

SPECIAL = b"|*+?()[].\\^-"
ALL = frozenset([10]) | frozenset(range(32, 127))


class NoForm(Exception):
    pass


class Automaton:
    """States with edges on byte sets and empty edges."""

    def __init__(self):
        self.edges = []             # state -> list of (byte set or None, state)

    def state(self):
        self.edges.append([])
        return len(self.edges) - 1

    def edge(self, a, byte_set, b):
        self.edges[a].append((byte_set, b))


class Pattern:
    """A pattern that is read; `lengths` answers by sets of states."""

    def __init__(self, data):
        self.data = data
        self.at = 0
        self.auto = Automaton()
        self.start, self.end = self.alternatives(0)
        if self.at != len(data):
            raise NoForm()
        self.first = self.spread([self.start])
        self.steps = {}

    # reading

    def peek(self):
        return self.data[self.at] if self.at < len(self.data) else None

    def alternatives(self, nested):
        a, b = self.auto.state(), self.auto.state()
        while True:
            x, y = self.sequence(nested)
            self.auto.edge(a, None, x)
            self.auto.edge(y, None, b)
            if self.peek() != 0x7C:
                return a, b
            self.at += 1

    def sequence(self, nested):
        a = b = self.auto.state()
        while self.peek() is not None and self.peek() not in b"|)":
            x, y = self.repeated(nested)
            self.auto.edge(b, None, x)
            b = y
        return a, b

    def repeated(self, nested):
        x, y = self.base(nested)
        mark = self.peek()
        if mark is None or mark not in b"*+?":
            return x, y
        self.at += 1
        a, b = self.auto.state(), self.auto.state()
        self.auto.edge(a, None, x)
        self.auto.edge(y, None, b)
        if mark in b"*?":
            self.auto.edge(a, None, b)
        if mark in b"*+":
            self.auto.edge(y, None, x)
        return a, b

    def base(self, nested):
        c = self.peek()
        if c == 0x28:
            if nested == 64:
                raise NoForm()
            self.at += 1
            pair = self.alternatives(nested + 1)
            if self.peek() != 0x29:
                raise NoForm()
            self.at += 1
            return pair
        if c == 0x5B:
            chosen = self.brackets()
        elif c == 0x2E:
            self.at += 1
            chosen = ALL - {10}
        else:
            chosen = frozenset([self.byte(b"-^")])
        a, b = self.auto.state(), self.auto.state()
        self.auto.edge(a, chosen, b)
        return a, b

    def byte(self, free):
        """One byte; those of `free` need no backslash."""
        c = self.peek()
        if c is None or c not in ALL:
            raise NoForm()
        self.at += 1
        if c != 0x5C:
            if c in SPECIAL and c not in free:
                raise NoForm()
            return c
        c = self.peek()
        if c is None or c not in SPECIAL:
            raise NoForm()
        self.at += 1
        return c

    def brackets(self):
        self.at += 1
        inverse = self.peek() == 0x5E
        if inverse:
            self.at += 1
        chosen = set()
        while True:
            low = high = self.byte(b"")
            if self.peek() == 0x2D:
                self.at += 1
                high = self.byte(b"")
            if low > high:
                raise NoForm()
            chosen.update(range(low, high + 1))
            if self.peek() == 0x5D:
                self.at += 1
                break
        chosen &= ALL
        return ALL - chosen if inverse else frozenset(chosen)

    # matching

    def spread(self, states):
        """All states that empty edges reach."""
        seen = set(states)
        todo = list(states)
        while todo:
            for byte_set, b in self.auto.edges[todo.pop()]:
                if byte_set is None and b not in seen:
                    seen.add(b)
                    todo.append(b)
        return frozenset(seen)

    def step(self, states, c):
        key = (states, c)
        if key not in self.steps:
            to = [b for a in states for byte_set, b in self.auto.edges[a]
                  if byte_set is not None and c in byte_set]
            self.steps[key] = self.spread(to)
        return self.steps[key]

    def longest(self, text, at):
        """The length of the longest match of a front, or None."""
        states = self.first
        best = 0 if self.end in states else None
        for k in range(at, len(text)):
            states = self.step(states, text[k])
            if not states:
                break
            if self.end in states:
                best = k + 1 - at
        return best

    def matches(self, text):
        return self.longest(text, 0) == len(text)


def read(data):
    """The pattern, or None where the bytes have no form."""
    try:
        return Pattern(data)
    except NoForm:
        return None


def scan(literals, lexemes, text):
    """Tokens (terminal, from, to), where a terminal is a literal or the name of
    a lexeme phylum, both with their kind; or the first place without a match.
    Literals come first at a tie, then lexeme phyla in their order."""
    out = []
    at = 0
    while at < len(text):
        best = 0
        which = None
        for lit in literals:
            if len(lit) > best and text.startswith(lit, at):
                best, which = len(lit), ("literal", lit)
        for p in lexemes:
            n = p.pattern.longest(text, at)
            if n is not None and n > best:
                best, which = n, ("lexeme", p.name)
        if best == 0:
            return None, at
        if which != ("lexeme", "WHITESPACE"):
            out.append((which, at, at + best))
        at += best
    return out, None
