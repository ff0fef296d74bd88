#!/usr/bin/env python3
"""shapes.py NAME [SIZE]: prints a specification of one of the shapes on which the cost of `ssled check` is measured.

NAME is a function below, with `-` for `_`. Without a size it takes that of its function.
"""
import sys


def operator(phylum, name, arguments):
    """An operator, and how its nodes are shown: its arguments beside each other."""
    places = " ".join(["@"] * len(arguments)) or f'"{name}"'
    return f"{phylum} : {name}({' '.join(arguments)});\n{phylum} : {name} [ @ : {places} ];\n"


TREE = "root t;\n" + operator("t", "T", [])


def nonterminals(names):
    """Each nonterminal with the one attribute that it must have."""
    return "".join(f"{name} {{ synthesized t v; }};\n" for name in names)


def production(name, *symbols):
    """One production, whose result is the tree T."""
    return f"{name} ::= ({' '.join(symbols)}) {{ T() }};\n"


def grammar(names, productions, entry):
    return f"{TREE}{nonterminals(names)}{''.join(productions)}t ~ {entry}.v;\n"


def alternatives(size=1024):
    """One nonterminal, of which each alternative but the last is a token and the nonterminal again."""
    rows = [production("S", f"'t{i}'", "S") for i in range(size - 1)]
    return grammar(["S"], [*rows, production("S", "'end'")], "S")


def chain(size, rising, row):
    """A chain of nonterminals N0, N1 and so on, declared in this order or the other one."""
    rows = [row(i) for i in range(size)]
    names = [f"N{i}" for i in range(size)]
    order = list(range(size)) if rising else list(reversed(range(size)))
    return grammar([names[i] for i in order], [rows[i] for i in order], "N0")


def unit_row(size):
    return lambda i: production(f"N{i}", f"N{i + 1}" if i + 1 < size else "'end'")


def left_row(size):
    def row(i):
        following = f"N{i + 1}" if i + 1 < size else "'end'"
        return production(f"N{i}", f"N{i}", f"'t{i}'") + production(f"N{i}", following)

    return row


def unit_chain(size=400):
    """Each nonterminal is the next one; the entry is declared first."""
    return chain(size, True, unit_row(size))


def unit_chain_back(size=400):
    """The same, the entry declared last."""
    return chain(size, False, unit_row(size))


def left_chain(size=400):
    """Each nonterminal is itself and a token, or the next one; the entry is declared first."""
    return chain(size, True, left_row(size))


def left_chain_back(size=400):
    """The same, the entry declared last."""
    return chain(size, False, left_row(size))


def statements(size=1000):
    """The shape of C, about so many productions: levels of binary operators over unary and primary expressions, and
    statements, in families of 47."""
    rows, names, families = [], ["unit", "items"], max(1, size // 47)
    rows += [production("unit", "items"), production("items", "items", "stmt0"), production("items", "stmt0")]
    for f in range(families):
        names += [f"stmt{f}", f"args{f}", f"unary{f}", f"primary{f}"]
        stmt, args, unary, primary = f"stmt{f}", f"args{f}", f"unary{f}", f"primary{f}"
        top = f"level{f}x0"
        for level in range(10):
            name, above = f"level{f}x{level}", f"level{f}x{level + 1}" if level < 9 else unary
            names.append(name)
            rows += [production(name, name, f"'o{f}x{level}x{k}'", above) for k in range(2)]
            rows.append(production(name, above))
        rows += [production(unary, f"'{sign}{f}'", unary) for sign in "-!*"] + [production(unary, primary)]
        rows.append(production(primary, f"'x{f}'"))
        rows.append(production(primary, "'('", top, "')'"))
        rows.append(production(primary, primary, "'['", top, "']'"))
        rows.append(production(primary, primary, "'('", args, "')'"))
        rows += [production(args, top), production(args, args, "','", top)]
        rows.append(production(stmt, top, "';'"))
        rows.append(production(stmt, f"'if{f}'", "'('", top, "')'", stmt, f"'else{f}'", stmt))
        rows.append(production(stmt, f"'while{f}'", "'('", top, "')'", stmt))
        rows.append(production(stmt, f"'do{f}'", stmt, f"'while{f}'", "'('", top, "')'", "';'"))
        rows.append(production(stmt, f"'return{f}'", top, "';'"))
        rows.append(production(stmt, f"'{{{f}'", "items", "'}'"))
        if f + 1 < families:
            rows.append(production(stmt, f"'next{f}'", f"stmt{f + 1}"))
    return grammar(names, rows, "unit")


def operators_right(size=1000):
    """One level of binary operators that group to the right: behind each the core has all of them again."""
    rows = [production("E", "P", f"'o{i}'", "E") for i in range(size)]
    rows += [production("E", "P"), production("P", "'x'"), production("P", "'('", "E", "')'")]
    return grammar(["E", "P"], rows, "E")


def states(size=1023):
    """So many productions of 16 tokens each, the most that a production may have: some 16,000 states."""
    return grammar(["S"], [production("S", f"'t{i}'", *["'u'"] * 15) for i in range(size)], "S")


def subsets(family, places):
    """Words over two letters whose letter so many places before the end is the first one: 2^places states, since each
    says where in the last places that letter stood."""
    a, b, names = f"'a{family}'", f"'b{family}'", [f"S{family}", *(f"Q{family}x{i}" for i in range(1, places + 1))]
    rows = [production(names[0], a, names[0]), production(names[0], b, names[0]), production(names[0], a, names[1])]
    for name, following in zip(names[1:], names[2:]):
        rows += [production(name, a, following), production(name, b, following)]
    return names, [*rows, production(names[-1], "'end'")]


def states_most(size=65536):
    """Almost so many states, by families of subsets, each half as large as the one before."""
    names, rows, left, places = ["S"], [], size, size.bit_length() - 2
    while 4 < places and (1 << places) + 4 * places < left:
        its_names, its_rows = subsets(places, places)
        rows += [production("S", f"'f{places}'", its_names[0]), *its_rows]
        names += its_names
        left -= (1 << places) + 4 * places
        places -= 1
    return grammar(names, rows, "S")


def phyla(order, attrs):
    """A chain of phyla, one operator each, from phylum 0 down; the operators stand in this order.

    At the end of the chain each synthesized attribute takes the inherited one of its number, and above its head each
    inherited one the synthesized one before: so each dependency goes up the chain, the next comes down, and so on.
    """
    size, half = len(order), attrs // 2
    text = ["root p;\n", operator("p", "P", ["q0"])]
    equations = ["q0.i0 = 0;", *(f"q0.i{k} = q0.s{k - 1};" for k in range(1, half))]
    for n in order:
        text.append(operator(f"q{n}", f"Q{n}", [f"q{n + 1}"] if n + 1 < size else []))
        inherited = " ".join(f"inherited INT i{k};" for k in range(half))
        synthesized = " ".join(f"synthesized INT s{k};" for k in range(half))
        text.append(f"q{n} {{ {inherited} {synthesized} }};\n")
    text.append(f"p : P {{ {' '.join(equations)} }};\n")
    for n in order:
        if n + 1 < size:
            down = " ".join(f"q{n + 1}.i{k} = $$.i{k};" for k in range(half))
            up = " ".join(f"$$.s{k} = q{n + 1}.s{k};" for k in range(half))
        else:
            down, up = "", " ".join(f"$$.s{k} = $$.i{k};" for k in range(half))
        text.append(f"q{n} : Q{n} {{ {down} {up} }};\n")
    return "".join(text)


def phyla_chain(size=511, attrs=32):
    """The head of the chain is declared first."""
    return phyla(range(size), attrs)


def phyla_chain_back(size=511, attrs=32):
    """The head of the chain is declared last."""
    return phyla(list(reversed(range(size))), attrs)


def phyla_chain_mixed(size=511, attrs=32):
    """The phyla of the chain are declared in an order that goes neither up nor down it."""
    return phyla(sorted(range(size), key=lambda n: n * 197 % 509), attrs)


def operators(size=200, args=14):
    """Operators of one phylum with 32 attributes: each has some 500 vertices, and all attributes of an occurrence
    depend on those of the one before it."""
    half = 16
    inherited = " ".join(f"inherited INT i{k};" for k in range(half))
    synthesized = " ".join(f"synthesized INT s{k};" for k in range(half))
    text = ["root p;\n", operator("p", "P", ["q"]), operator("q", "Q", [])]
    text.append(f"q {{ {inherited} {synthesized} }};\n")
    text.append("p : P { " + " ".join(f"q.i{k} = {'0' if k == 0 else f'q.s{k - 1}'};" for k in range(half)) + " };\n")
    text.append("q : Q { " + " ".join(f"$$.s{k} = $$.i{k};" for k in range(half)) + " };\n")
    for n in range(size):
        text.append(operator("q", f"O{n}", ["q"] * args))
        rows = []
        for k in range(half):
            rows += [f"q${at}.i{k} = {'$$.i' if at == 2 else f'q${at - 1}.s'}{k};" for at in range(2, args + 2)]
            rows.append(f"$$.s{k} = q${args + 1}.s{k};")
        rows.append(" ".join(f"l{k} = {'$$.i0' if k == 0 else f'l{k - 1}'};" for k in range(16)))
        text.append(f"q : O{n} {{ {' '.join(f'local INT l{k};' for k in range(16))} {' '.join(rows)} }};\n")
    return "".join(text)


def lists_dense(size=150, attrs=32):
    """Operators of one phylum with a list of references each, of values from the phylum's own attributes: attribute k
    of a node leads by lists to the later ones below it, so that most pairs of an operator's vertices are related."""
    numbers = range(attrs)
    text = ["root r;\n", operator("r", "R", ["q"]), operator("q", "Q", ["p"]), operator("p", "Z", [])]
    for phylum, name, attribute in (("q", "Q", "t"), ("p", "Z", "s")):
        text.append(f"{phylum} {{ {' '.join(f'synthesized INT {attribute}{k};' for k in numbers)} }};\n")
        text.append(f"{phylum} : {name} {{ {' '.join(f'$$.{attribute}{k} = 0;' for k in numbers)} }};\n")
    for n in range(size):
        at, there = n % (attrs - 1), n // (attrs - 1)
        known = " ".join(f"$$.s{k} = p$2.s{k};" for k in range(at + 1))
        read = " ".join(f"$$.s{k} = {{p.s{at},q.t{there}}};" for k in range(at + 1, attrs))
        text += [operator("p", f"O{n}", ["p"]), f"p : O{n} {{ {known} {read} }};\n"]
    return "".join(text)


def declarations(size=1 << 20):
    """Functions with long bodies, up to this many bytes."""
    text = ["root p;\n", operator("p", "P", []), "p { synthesized INT v; };\np : P { $$.v = f0(1, 2); };\n"]
    count = 1000
    room = (size - sum(map(len, text))) // count
    for n in range(count):
        head, tail = f"INT f{n}(INT a, INT b) {{ a", " };\n"
        body, k = [], 0
        left = room - len(head) - len(tail)
        while left > 30 and k < 100:
            piece = f" + (a * {n * 7 + k} - b)"
            body.append(piece)
            left -= len(piece)
            k += 1
        text.append(head + "".join(body) + tail)
    return "".join(text)


SHAPES = {name.replace("_", "-"): it for name, it in list(globals().items()) if callable(it) and it.__defaults__}


def main():
    if len(sys.argv) not in (2, 3) or sys.argv[1] not in SHAPES:
        sys.exit(f"{__doc__}\nshapes: {' '.join(SHAPES)}")
    sys.stdout.write(SHAPES[sys.argv[1]](*map(int, sys.argv[2:])))


if __name__ == "__main__":
    main()
