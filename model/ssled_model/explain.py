"""What ssled_explain tells of a specification: of a fault its place, its line, a sentence and what helps there; else what is of no use."""

from . import known, lacks, mistyped, names as naming, reasons, remote, samples
from .advice import SENTENCES
from .kinds import MAX_SPEC, SpecFault
from .load import load
from .notes import notes
from .plan import plan
from .reader import NoReading, Reader, read, read_one
from .text import cut, lex, line_of

# the pieces that are tried, each as it is written and as it is told
PIECES = [(s, "`%s`" % s) for s in "; ) } ( { ] [ : = , . | ::= $$ $ + :: ~ @ < > == in on".split()] + [
    ("x", "a name"), ("0", "a number"), ('""', "a string"), ("'x'", "a literal")]

MOST_TRIED = 65536
MOST_SHOWN = 60
MOST_TOLD = 8

# the codes of faults that stand at no place
NOWHERE = ("TooLong", "Limit", "RootCount", "States")


class Watched(Reader):
    """A reader that keeps the last token at which it looked."""

    seen = 0

    def peek(self, ahead=0):
        self.seen = max(self.seen, self.at + ahead)
        return Reader.peek(self, ahead)


def stop(toks):
    """How many tokens of a declaration are read where it has no reading."""
    reader = Watched(toks)
    try:
        reader.declaration()
    except NoReading:
        return min(reader.seen, len(toks))
    return None


def reads(text):
    """Has each declaration of the text a reading?"""
    try:
        return all(read_one(toks) is not None for toks in cut(lex(text)))
    except SpecFault:
        return False


def mended(text, begin, end, written):
    return text[:begin] + b" " + written.encode() + b" " + text[end:]


def fitting(text, begin, end):
    return [told for written, told in PIECES if reads(mended(text, begin, end, written))]


def past(front):
    """The pieces past which reading goes behind the front of a declaration."""
    found = []
    for written, told in PIECES:
        try:
            toks = lex(mended(front, len(front), len(front), written))
        except SpecFault:
            continue
        if stop(toks) in (None, len(toks)):
            found.append(told)
    return found


def mend(text, begin, end):
    """What mends a text whose reading stops at the token between two places, as a line."""
    if len(text) > MOST_TRIED:
        return "no mend is tried in a declaration of over 65,536 bytes\n"
    pieces = fitting(text, begin, begin)
    if pieces:
        return "mend: put in %s\n" % choice(pieces)
    if reads(mended(text, begin, end, "")):
        return "mend: take this out\n"
    pieces = fitting(text, begin, end)
    if pieces:
        return "mend: write instead %s\n" % choice(pieces)
    pieces = past(text[:begin])
    return "no one token mends it%s\n" % ("; here may stand %s" % choice(pieces) if pieces else "")


def choice(pieces):
    return " or ".join(pieces[:MOST_TOLD])


def shown(data, at):
    """The line of a place with a caret below it."""
    begin = data.rfind(b"\n", 0, at) + 1
    end = data.find(b"\n", at)
    end = len(data) if end < 0 else end

    def signs(part):
        return "".join(chr(b) if 32 <= b <= 126 else " " for b in part)

    left = signs(data[max(begin, at - MOST_SHOWN):at])
    left = ".." + left if at - begin > MOST_SHOWN else left
    right = signs(data[at:min(end, at + MOST_SHOWN)])
    right = right + ".." if end - at > MOST_SHOWN else right
    number = "%5d" % line_of(data, at)
    return "%s | %s%s\n%s | %s^\n" % (number, left, right, " " * len(number), " " * len(left))


def stopped(data, at):
    """Where the reading of the declaration that begins at this byte stops, and what mends it."""
    text = data[at:]
    toks = cut(lex(text))[0]
    number = stop(toks)
    end = toks[-1].end
    token = toks[number] if number < len(toks) else None
    span = (token.place, token.end) if token else (end, end)
    return "reading stops here:\n" + shown(data, at + span[0]) + mend(text[:end], *span)


def lined(lines):
    return "".join(line + "\n" for line in lines)


def named(fault):
    """The name that the line of a fault ends with."""
    return fault.detail.split(" ", 2)[2]


def helped(data, fault):
    """What helps for a fault besides its sentence."""
    if fault.code in ("Duplicate", "EntryTwice"):
        return lined(known.duplicate(data, fault.place, named(fault)))
    if fault.code == "UnknownName":
        return lined(known.unknown(data, fault.place, named(fault)))
    if fault.code in ("Arity", "SchemeKids"):
        return lined(known.parts(data, named(fault)))
    if fault.code == "NoEnclosing":
        return lined(remote.lines_of(naming.resolve(read(cut(lex(data)))), fault.place))
    if fault.code == "Syntax":
        return stopped(data, fault.place)
    if fault.code == "Twice":
        return lined(lacks.first_of(data, fault.place))
    if fault.code == "Missing":
        return lined(lacks.lines_of(data))
    if fault.code == "Mismatch":
        return lined(mistyped.lines_of(data))
    if fault.code == "Unproductive":
        return samples.unproductive(data)
    if fault.code == "Conflict":
        return samples.conflict(data)
    if fault.code in ("Direct", "Induced", "Ordered"):
        return lined(reasons.lines_of(fault))
    return ""


def heading(name, data, fault):
    """The place of a fault, its line, and the text's line with a caret."""
    if fault.code in NOWHERE:
        return "%s: %s\n" % (name, fault.printed())
    at = fault.place
    column = at - data.rfind(b"\n", 0, at)
    return "%s:%d:%d: %s\n%s" % (name, line_of(data, at), column, fault.printed(), shown(data, at))


def explained(name, data, fault):
    """What is told of a text with this fault."""
    return heading(name, data, fault) + "help: %s\n" % SENTENCES[fault.code] + helped(data, fault)


def accepted(name, data, loaded, planned):
    """What is told of a text without a fault: notes, and where it is wanted the plan."""
    return "ok\n" + notes(name, data, loaded.spec) + (plan(loaded) if planned else "")


def told(name, data, planned):
    """The status with which the text of that name ends, and what is told of it."""
    try:
        loaded = load(data)
    except SpecFault as fault:
        return 4, explained(name, data, fault)
    return 0, accepted(name, data, loaded, planned)


def run(shelf, sink, words):
    """The status."""
    if len(words) != 1 and words[1:] != ["plan"]:
        return 2 if sink.put(b"usage: ssled_explain SPEC [plan]\n") else 6
    data = shelf.fetch(words[0], MAX_SPEC + 1)
    if data is None:
        return 3 if sink.put(b"read fault specification\n") else 6
    status, text = told(words[0], data, len(words) == 2)
    return status if sink.put(text.encode("latin-1")) else 6
