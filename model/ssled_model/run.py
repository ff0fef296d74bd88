"""A whole run, with shelf and sink in memory."""

import re
import sys
import threading

from . import report, script, specs
from .editor import Editor
from .forms import FORMS
from .kinds import MAX_FILE, MAX_SCRIPT, MAX_SPEC, SpecFault
from .load import load
from .unparse import shown

USAGE = "usage: ssled show SPEC | run SPEC SCRIPT [W H] | check SPEC | load N"
if "report" in FORMS:
    USAGE += " | report SPEC FILE ATTR"
NUMBER = re.compile(r"[1-9][0-9]*\Z", re.ASCII)


class MemShelf:
    """Files in memory. Call k fails where k is in `fails`, and where it fetches
    a name that is not there."""

    def __init__(self, files, fails=()):
        self.files = dict(files)
        self.fails = frozenset(fails)
        self.calls = 0
        self.faults = 0
        self.replies = []

    def fetch(self, name, most):
        self.calls += 1
        if self.calls in self.fails or name not in self.files:
            self.faults += 1
            self.replies.append("FetchFailed")
            return None
        self.replies.append("Fetched")
        return self.files[name][:most]

    def keep(self, name, data):
        self.calls += 1
        if self.calls in self.fails:
            self.faults += 1
            self.replies.append("KeepFailed")
            return False
        self.files[name] = data
        self.replies.append("Kept")
        return True


class MemSink:
    """Bytes in memory. Put k fails by the first pair (k, m), after m bytes."""

    def __init__(self, fails=()):
        self.fails = list(fails)
        self.data = bytearray()
        self.puts = 0
        self.faults = 0

    def put(self, piece):
        self.puts += 1
        for k, m in self.fails:
            if k == self.puts:
                self.data += piece[:m]
                self.faults += 1
                return False
        self.data += piece
        return True


class End(Exception):
    """The job ends with this text and status."""

    def __init__(self, text, status):
        Exception.__init__(self, status)
        self.text = text.encode("latin-1") if type(text) is str else text
        self.status = status


class SinkFault(Exception):
    pass


def number(word, most):
    """The number of a word from 1 to most, or None."""
    if not NUMBER.match(word) or len(word) > 10 or int(word) > most:
        return None
    return int(word)


def job(words):
    """The job of the words as (name, arguments), or None."""
    count = len(words)
    if count == 2 and words[0] == "show":
        return "show", (words[1],)
    if count == 2 and words[0] == "check":
        return "check", (words[1],)
    if count in (3, 5) and words[0] == "run":
        size = (80, 24) if count == 3 else (number(words[3], 1024), number(words[4], 1024))
        if None not in size:
            return "run", (words[1], words[2]) + size
    if count == 2 and words[0] == "load":
        n = number(words[1], 400)
        if n is not None:
            return "load", (n,)
    if count == 4 and words[0] == "report" and "report" in FORMS:
        return "report", tuple(words[1:])
    return None


class Job:
    def __init__(self, shelf, sink):
        self.shelf = shelf
        self.sink = sink
        self.total = 0              # how much the journal rose

    def put(self, data):
        if not self.sink.put(data):
            raise SinkFault()

    def run(self, words):
        """The status."""
        found = job(words)
        try:
            if found is None:
                raise End(USAGE + "\n", 2)
            getattr(self, "job_" + found[0])(*found[1])
            return 0
        except End as e:
            try:
                self.put(e.text)
            except SinkFault:
                return 6
            return e.status
        except SinkFault:
            return 6

    def load(self, name):
        data = self.shelf.fetch(name, MAX_SPEC + 1)
        if data is None:
            raise End("read fault specification\n", 3)
        try:
            return load(data)
        except SpecFault as f:
            raise End(f.printed() + "\n", 4) from None

    def job_check(self, name):
        self.load(name)
        raise End("ok\n", 0)

    def job_show(self, name):
        self.session(Editor(self.load(name), 80, 24), [("new", ["main"])])

    def job_run(self, name, script_name, width, height):
        loaded = self.load(name)
        data = self.shelf.fetch(script_name, MAX_SCRIPT + 1)
        if data is None:
            raise End("read fault script\n", 3)
        try:
            commands = script.read(data)
        except script.ScriptFault as f:
            raise End(str(f) + "\n", 5) from None
        self.session(Editor(loaded, width, height), commands)

    def session(self, editor, commands):
        for name, words in commands:
            message, ev = editor.step(name, words, self.shelf)
            self.total += ev
            self.put(editor.screen(message, ev))

    def job_load(self, n):
        editor = Editor(load(specs.LINES), 80, 24)
        total = 0
        for name, words in workload(n):
            total += editor.step(name, words, self.shelf)[1]
        a = editor.current.attribution
        errs = shown(a.value(a.find((0,)), 1), editor.spec.phyla["INT"]).decode()
        self.total += total
        raise End("load %d nodes %d errors %s evaluated %d\n" % (
            n, editor.current.term.nodes, errs, total), 0)

    def job_report(self, name, file, word):
        loaded = self.load(name)
        try:
            phylum, slot = report.attribute(loaded.spec, word)
            data = self.shelf.fetch(file, MAX_FILE + 1)
            if data is None:
                raise End("read fault file\n", 3)
            lines, self.total = report.report(loaded, data, phylum, slot)
        except report.ReportFault as f:
            raise End(str(f) + "\n", 7) from None
        raise End(lines, 0)


def workload(n):
    """The commands of `load N`."""
    yield "new", ["main"]
    yield "next", []
    yield "next", []
    x = n
    for i in range(1, n + 1):
        x = (x * 1103515245 + 12345) % 2147483648
        y = x // 65536
        a, b = y % 8, y % 1000
        s = "let v%d = %d" % (a, b) if (y // 8) % 2 == 0 else "print v%d" % a
        if i > 1:
            yield "insert-after", []
        yield "text", [s.encode()]
    for word in ("undo", "redo"):
        for _ in range(min(n, 100)):
            yield word, []


def deep(call):
    """The answer of a call that may recurse deeply."""
    out = []

    def body():
        try:
            out.append((call(), None))
        except BaseException as e:  # handed on to the caller
            out.append((None, e))

    limit, size = sys.getrecursionlimit(), threading.stack_size()
    sys.setrecursionlimit(1000000)
    threading.stack_size(512 * 1024 * 1024)
    try:
        t = threading.Thread(target=body)
        t.start()
        t.join()
    finally:
        sys.setrecursionlimit(limit)
        threading.stack_size(size)
    answer, fault = out[0]
    if fault is not None:
        raise fault
    return answer


def run(words, files, shelf_fails=(), sink_fails=()):
    """(status, bytes written, replies, count of evaluated equations, files afterwards)."""
    shelf = MemShelf(files, shelf_fails)
    sink = MemSink(sink_fails)
    job = Job(shelf, sink)
    status = deep(lambda: job.run(list(words)))
    return status, bytes(sink.data), shelf.replies, job.total, shelf.files
