"""What ssled_explain tells of an accepted specification: a line for each thing of no use."""

from .reader import read
from .text import cut, lex, line_of
from .useless import (ATTRIBUTE, ENTRY, FUNCTION, LITERAL, LOCAL, NONTERMINAL, PHYLUM, SCHEMES,
                      useless)

REMARKS = {
    FUNCTION: "is called by nothing but itself",
    ATTRIBUTE: "is read by no equation and shown by no scheme",
    LOCAL: "is read by no equation and shown by no scheme",
    PHYLUM: "is used by nothing but itself",
    NONTERMINAL: "is reached from no entry",
    SCHEMES: "are shown in no document",
    ENTRY: "may be selected and typed in, but has no entry",
    LITERAL: "groups no production",
}


def declared(decls):
    """(what a note speaks of, place) of each declared thing, in the order of the text."""
    for d in decls:
        if d.kind in ("ops", "lexeme"):
            yield "phylum " + d.name.value, d.name.place
        elif d.kind == "attributes":
            for _, _, name in d.items:
                yield "attribute %s.%s" % (d.name.value, name.value), name.place
        elif d.kind == "equations":
            for _, name in d.locals:
                yield "local %s.%s" % (d.op.value, name.value), name.place
        elif d.kind == "schemes":
            yield "schemes of " + d.op.value, d.op.place
        elif d.kind == "function":
            yield "function " + d.name.value, d.name.place
        elif d.kind == "productions":
            yield "nonterminal " + d.name.value, d.name.place
        elif d.kind == "prec":
            for t in d.literals:
                yield "literal '%s'" % t.value.decode(), t.place


def subject(spec, thing):
    """What a note speaks of."""
    kind = thing[0]
    if kind == FUNCTION:
        return "function " + thing[1]
    if kind == ATTRIBUTE:
        return "attribute %s.%s" % (thing[1], spec.phyla[thing[1]].attrs[thing[2]].name)
    if kind == LOCAL:
        op = spec.ops[thing[1]]
        return "local %s.%s" % (op.name, op.locals[thing[2]][0])
    if kind in (PHYLUM, ENTRY):
        return "phylum " + thing[1]
    if kind == NONTERMINAL:
        return "nonterminal " + thing[1]
    if kind == SCHEMES:
        return "schemes of " + spec.ops[thing[1]].name
    return "literal '%s'" % thing[1].decode()


def notes(name, data, spec):
    """The notes on the record of a text, as lines."""
    places = {}
    for words, place in declared(read(cut(lex(data)))):
        places.setdefault(words, place)
    out = ""
    for thing in useless(spec):
        words = subject(spec, thing)
        where = name
        if words in places:
            at = places[words]
            where = "%s:%d:%d" % (name, line_of(data, at), at - data.rfind(b"\n", 0, at))
        out += "%s: note %s %s\n" % (where, words, REMARKS[thing[0]])
    return out
