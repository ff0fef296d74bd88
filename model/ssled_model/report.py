"""The job `report SPEC FILE ATTR`."""

import re

from . import saved
from .attrib import Attribution
from .evaluate import Outcomes
from .input import parse, tokens_of
from .kinds import MAX_FILE, Fault
from .terms import in_limits

ATTR = re.compile(r"([A-Za-z_][A-Za-z0-9_]{0,63})\.([A-Za-z_][A-Za-z0-9_]{0,63})\Z",
                  re.ASCII)


class ReportFault(Exception):
    """A refusal; its text begins with `report`."""


def attribute(spec, word):
    """(phylum, slot) of ATTR, or ReportFault."""
    m = ATTR.match(word)
    p = spec.phyla.get(m.group(1)) if m else None
    if p is not None:
        for k, a in enumerate(p.attrs):
            if a.name == m.group(2):
                return p, k
    raise ReportFault("report no attribute")


def value_of(loaded, data):
    """The value that the file says."""
    spec = loaded.spec
    if len(data) > MAX_FILE:
        raise ReportFault("report long file")
    if data.startswith(saved.HEAD):
        got = saved.read(spec, data)
        if got[0] == "size":
            raise ReportFault("report size")
        if got[0] != "ok":
            raise ReportFault("report %s at %d" % got)
        return got[1]
    entry = next((k for k, e in enumerate(spec.entries) if e.phylum == spec.root.name), None)
    if entry is None:
        raise ReportFault("report no entry")
    for k, c in enumerate(data):
        if c != 10 and not 32 <= c <= 126:
            raise ReportFault("report byte at %d" % k)
    tokens, at = tokens_of(loaded, data)
    if tokens is None:
        raise ReportFault("report lexical at %d" % at)
    v, k = parse(loaded, entry, data, tokens)
    if v is None:
        at = tokens[k][1] if k < len(tokens) else len(data)
        raise ReportFault("report parse at %d" % at)
    if type(v) is Fault:
        raise ReportFault("report result " + v.value)
    return v


def report(loaded, data, phylum, slot):
    """The lines of the report, and how many instances were evaluated."""
    spec = loaded.spec
    t = spec.plain(value_of(loaded, data), spec.root)
    if not in_limits(t):
        raise ReportFault("report size")
    a = Attribution(spec, Outcomes(spec), t)
    out = []
    for k, n in enumerate(a.nodes):
        if n.phylum is phylum:
            path = ".".join(map(str, a.path(k))) or "."
            out.append(path.encode() + b" " + saved.printed(a.value(k, slot)) + b"\n")
    out.append(b"values %d evaluated %d\n" % (len(out), len(a.instances)))
    return b"".join(out), len(a.instances)
