"""Tokens of SSL-P, and the cut into declarations."""

from .kinds import SpecFault

RESERVED = frozenset(
    "root list optional synthesized inherited local transform on let in with "
    "default true false".split())

SYMBOLS = ("::= :: : .. . $$ $ && || | == = != ! <= < >= > + - * / % # ? , ; "
           "( ) [ ] { } @ ^ ~").split()

BLANKS = b"\t\n\r "
LETTERS = b"ABCDEFGHIJKLMNOPQRSTUVWXYZabcdefghijklmnopqrstuvwxyz_"
DIGITS = b"0123456789"
NAME_BYTES = LETTERS + DIGITS
MOST_NUMBER = 9223372036854775807
LONGEST_NAME = 64


class Token:
    """kind is "name", "number", "string", "quoted" or "symbol"."""
    __slots__ = ("kind", "value", "place", "end", "line")

    def __init__(self, kind, value, place, end, line):
        self.kind = kind
        self.value = value
        self.place = place
        self.end = end
        self.line = line

    def __repr__(self):
        return "%s:%r@%d" % (self.kind, self.value, self.line)


class Bad(Exception):
    """The first bad place: a fault of tokens."""

    def __init__(self, code, place):
        Exception.__init__(self, code)
        self.code = code
        self.place = place


def run_end(data, at, among):
    n = len(data)
    while at < n and data[at] in among:
        at += 1
    return at


def line_end(data, at):
    e = data.find(b"\n", at)
    return len(data) if e < 0 else e


def string_at(data, at):
    """The string that begins at a double quote: (value, end)."""
    stop = line_end(data, at)
    k = at + 1
    bad = None
    out = bytearray()
    while k < stop and data[k] != 0x22:
        c = data[k]
        if c == 0x5C:
            if k + 1 >= stop:
                raise Bad("Unclosed", at)
            e = data[k + 1]
            if e in b'"\\':
                out.append(e)
            elif e == 0x6E:
                out.append(10)
            elif bad is None:
                bad = k
            k += 2
            continue
        if not 32 <= c <= 126 and bad is None:
            bad = k
        out.append(c)
        k += 1
    if k >= stop:
        raise Bad("Unclosed", at)
    if bad is not None:
        raise Bad("Byte", bad)
    return bytes(out), k + 1


def quoted_at(data, at):
    """The quoted literal that begins at a single quote: (value, end)."""
    stop = line_end(data, at)
    k = data.find(b"'", at + 1, stop)
    if k < 0:
        raise Bad("Unclosed", at)
    body = data[at + 1:k]
    if not body:
        raise Bad("Byte", at)
    for j, c in enumerate(body):
        if not 33 <= c <= 126 or j >= 64:
            raise Bad("Byte", at + 1 + j)
    return body, k + 1


def tokens(data):
    """All tokens, or Bad with the first bad place."""
    ordered = sorted((s.encode() for s in SYMBOLS), key=len, reverse=True)
    out = []
    at = 0
    n = len(data)
    line = 1
    counted = 0                     # newlines before this place are in `line`
    while at < n:
        c = data[at]
        if c in BLANKS:
            at += 1
            continue
        if data[at:at + 2] == b"/*":
            e = data.find(b"*/", at + 2)
            if e < 0:
                raise Bad("Unclosed", at)
            at = e + 2
            continue
        line += data.count(b"\n", counted, at)
        counted = at
        if c in LETTERS:
            e = run_end(data, at, NAME_BYTES)
            if e - at > LONGEST_NAME:
                raise Bad("LongName", at)
            out.append(Token("name", data[at:e].decode(), at, e, line))
        elif c in DIGITS:
            e = run_end(data, at, DIGITS)
            digits = data[at:e].lstrip(b"0") or b"0"
            if len(digits) > 19 or int(digits) > MOST_NUMBER:
                raise Bad("LongNumber", at)
            out.append(Token("number", int(digits), at, e, line))
        elif c == 0x22:
            value, e = string_at(data, at)
            out.append(Token("string", value, at, e, line))
        elif c == 0x27:
            value, e = quoted_at(data, at)
            out.append(Token("quoted", value, at, e, line))
        else:
            for s in ordered:
                if data.startswith(s, at):
                    e = at + len(s)
                    out.append(Token("symbol", s.decode(), at, e, line))
                    break
            else:
                raise Bad("Byte", at)
        at = e
    return out


def line_of(data, place):
    return 1 + data.count(b"\n", 0, place)


def lex(data):
    """The tokens, or the first fault of tokens."""
    try:
        return tokens(data)
    except Bad as b:
        raise SpecFault(b.code, "line %d" % line_of(data, b.place), b.place) from None


def cut(toks):
    """Declarations: lists of tokens. The last one may lack its `;`."""
    out = []
    now = []
    depth = 0
    for t in toks:
        now.append(t)
        if t.kind != "symbol":
            continue
        if t.value in "([{":
            depth += 1
        elif t.value in ")]}":
            depth = max(0, depth - 1)
        elif t.value == ";" and depth == 0:
            out.append(now)
            now = []
    if now:
        out.append(now)
    return out
