"""What a text declares under a name: what helps where a name is unknown, defined twice or used with a wrong number of parts."""

from .kinds import BASE, MAX_SPEC, SpecFault
from .names import BUILTINS, Names, scoped
from .reader import read
from .text import cut, lex

MOST = 8

# what is no meaning of a name, but may be there only once
ASIDE = ("listing", "schemes", "literal", "entry")


class Thing:
    """A name that is declared: where a second one of it may not be, its words and its token."""

    def __init__(self, kind, space, words, token, name=None):
        self.kind = kind
        self.space = space
        self.words = words
        self.name = token.value if name is None else name
        self.place = token.place
        self.line = token.line

    def told(self):
        return "  %s %s, line %d" % (self.name, self.words, self.line)


def things_of(d):
    """What a declaration declares, in the order of its tokens."""
    if d.kind in ("list", "optional"):
        yield Thing("listing", ("listing",), "is said to be a list or optional", d.name)
    elif d.kind == "ops":
        yield Thing("phylum", ("phylum",), "is a phylum", d.name)
        for alt in d.alts:
            yield Thing("operator", ("callable",), "is an operator of " + d.name.value, alt.name)
    elif d.kind == "lexeme":
        yield Thing("lexeme", ("phylum",), "is a lexeme", d.name)
    elif d.kind == "attributes":
        for _, _, name in d.items:
            yield Thing("attribute", ("attribute", d.name.value), "is an attribute of " + d.name.value, name)
    elif d.kind == "equations":
        for _, name in d.locals:
            yield Thing("local", ("local", d.name.value, d.op.value), "is a local of " + d.op.value, name)
    elif d.kind == "schemes":
        yield Thing("schemes", ("schemes", d.name.value, d.view and d.view.value),
                    "has schemes as an operator of " + d.name.value, d.op)
    elif d.kind == "function":
        yield Thing("function", ("callable",), "is a function", d.name)
        for _, name in d.params:
            yield Thing("parameter", ("parameter", d.name.value), "is a parameter of " + d.name.value, name)
    elif d.kind == "productions":
        yield Thing("nonterminal", ("phylum",), "is a nonterminal", d.name)
    elif d.kind == "prec":
        for t in d.literals:
            yield Thing("literal", ("literal",), "has a level", t, "'%s'" % t.value.decode())
    elif d.kind == "entry":
        yield Thing("entry", ("entry",), "has an entry", d.name)


def things(decls):
    return [thing for d in decls for thing in things_of(d)]


def declared(decls, name):
    """What is declared under a name."""
    return [t for t in things(decls) if t.name == name and t.kind not in ASIDE][:MOST]


def first(decls, place):
    """The first thing that is declared as that at a place is, of the same name."""
    found = things(decls)
    for at in found:
        if at.place == place:
            return next(t for t in found if t.space == at.space and t.name == at.name)
    return None


def signatures(decls, name):
    """The operators and functions of a name, each with the types of its parts and its own."""
    for d in decls:
        if d.kind == "ops":
            for alt in d.alts:
                if alt.name.value == name:
                    yield signature(name, [a.value for a in alt.args], d.name.value), alt.name.line
        elif d.kind == "function" and d.name.value == name:
            yield signature(name, [t.value for t, _ in d.params], d.type.value), d.name.line


def signature(name, args, result):
    return "  %s : %s-> %s" % (name, "".join(a + " " for a in args), result)


def is_near(a, b):
    """Is it one edit from one to the other: a byte more, less or another, or two neighbours in the other order?"""
    n = 0
    while n < len(a) and n < len(b) and a[n] == b[n]:
        n += 1
    a, b = a[n:], b[n:]
    return (a[1:] == b[1:] and a != "" and b != "" or a != "" and a[1:] == b or b != "" and a == b[1:]
            or len(a) > 1 and len(b) > 1 and a[0] == b[1] and a[1] == b[0] and a[2:] == b[2:])


def near(data, name):
    """The names of a text that are one edit away, in its order, the first of them."""
    found = []
    for t in lex(data):
        if t.kind == "name" and is_near(name, t.value) and t.value not in found:
            found.append(t.value)
    # it is read anew for each, in all at most 1,048,576 bytes
    return found[:min(MOST, MAX_SPEC // (len(data) + 1))]


def is_known(text, place):
    """Has a text declarations, and does every name up to a place mean what it must?"""
    try:
        names = Names(read(cut(lex(text))))
    except SpecFault:
        return False
    return all(at > place for at, _, _ in scoped(names).unknown.found)


def mends(data, place, name):
    """The near names with which the one at a place is known."""
    return [other for other in near(data, name)
            if is_known(data[:place] + other.encode() + data[place + len(name):], place)]


def unknown(data, place, name):
    lines = [t.told() for t in declared(read(cut(lex(data))), name)]
    found = mends(data, place, name)
    if found:
        lines.append("mend: write instead " + " or ".join("`%s`" % other for other in found))
    return lines


def duplicate(data, place, name):
    """What stands there first; a base phylum and a builtin stand before each text."""
    found = first(read(cut(lex(data))), place)
    if found and found.kind in ("phylum", "lexeme", "nonterminal") and name in BASE or \
            found and found.kind in ("operator", "function") and name in BUILTINS:
        return ["  %s is there before each text" % name]
    return [found.told()] if found else []


def parts(data, name):
    """The signature of a name that is used with a wrong number of parts."""
    if name in BUILTINS:
        args, result = BUILTINS[name]
        return [signature(name, args, result)]
    return ["%s, line %d" % found for found in signatures(read(cut(lex(data))), name)]
