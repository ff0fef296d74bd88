"""The session: state, one command, the screen."""

from . import saved, search
from .attrib import Attribution, evaluated
from .evaluate import Outcomes
from .input import parse, tokens_of
from .kinds import (HISTORY, MAX_BUFFERS, MAX_FILE, MAX_LOADS, Fault, Leaf, Node)
from .select import move, rest, settle
from .terms import (elements, in_limits, is_nil, is_pair, list_head, marked, pair, put,
                    spine, sub, trans)
from .unparse import scheme_of, schemes_of, unparse


class Refusal(Exception):
    """A refused command, with its message."""

    def __init__(self, message):
        Exception.__init__(self, message)
        self.message = message


class Step:
    """A step of the history. A replacement keeps both subterms, a mark both
    pairs of scheme number and elided mark."""

    def __init__(self, kind, path, old, new, before, after=None):
        self.kind = kind            # "replace" or "mark"
        self.path = path
        self.old = old
        self.new = new
        self.before = before        # (path, count, top)
        self.after = after


class Buffer:
    def __init__(self, editor, name, term):
        self.editor = editor
        self.name = name
        self.view = None
        self.path = ()
        self.count = 1
        self.top = 1
        self.past = []
        self.future = []
        self.capture = None         # [text, point]
        self.attribution = None
        self.set_term(term)

    # the term and its values

    def set_term(self, term):
        self.term = term
        self.attribution = Attribution(self.editor.spec, self.editor.outcomes, term)
        self.page_ = None

    def keep_values(self, term):
        """The same term but for schemes and marks: values stay from scratch."""
        self.set_term(term)

    def page(self):
        captured = None
        text = b""
        if self.capture is not None:
            captured = self.attribution.find(self.path)
            text = self.capture[0]
        return unparse(self.attribution, self.view, captured, text)

    def selected(self):
        return sub(self.term, self.path)

    # changes

    def place(self):
        return self.path, self.count, self.top

    def put_place(self, path, count):
        """Selects, settled: the count stays where the path did not change and
        the selection is one of the term."""
        good = settle(self.term, path, self.view)
        if good != path or not self.is_run(path, count):
            count = 1
        self.path = good
        self.count = count

    def is_run(self, path, count):
        if count == 1:
            return True
        at = spine(self.editor.spec, self.term, path)
        return at is not None and len(elements(sub(self.term, at))) >= count

    def rule_of_top(self):
        """The first line of the selection stays visible."""
        page = self.page()
        first = page.region(self.attribution.find(self.path))[0][0]
        height = self.editor.height
        if first < self.top:
            self.top = first
        elif first > self.top + height - 1:
            self.top = first - height + 1

    def replace(self, path, s, select, count=1):
        """Puts s at the path as one change; answers how many are evaluated."""
        term = put(self.term, path, s)
        if not in_limits(term):
            raise Refusal("size")
        step = Step("replace", path, sub(self.term, path), s, self.place())
        n = self.exchange(path, term)
        self.capture = None
        self.finish(step, select, count)
        return n

    def exchange(self, path, term):
        old = self.attribution
        self.set_term(term)
        return evaluated(old, self.attribution, path)

    def mark(self, scheme, elided):
        n = self.selected()
        step = Step("mark", self.path, (n.scheme, n.elided), (scheme, elided), self.place())
        self.keep_values(put(self.term, self.path, marked(n, scheme, elided)))
        self.finish(step, self.path, 1)

    def finish(self, step, select, count):
        self.put_place(select, count)
        self.rule_of_top()
        step.after = self.place()
        self.past.append(step)
        del self.past[:-HISTORY]
        self.future = []

    def go(self, step, to, place):
        """Undo or redo of a step: `to` is the subterm or mark to put."""
        if step.kind == "replace":
            n = self.exchange(step.path, put(self.term, step.path, to))
        else:
            there = sub(self.term, step.path)
            self.keep_values(put(self.term, step.path, marked(there, *to)))
            n = 0
        path, count, top = place
        self.put_place(path, count)
        self.top = top
        self.rule_of_top()
        return n


class Editor:
    """Commands answer how many instances were evaluated, or raise Refusal."""

    def __init__(self, loaded, width, height):
        self.loaded = loaded
        self.spec = loaded.spec
        self.outcomes = Outcomes(self.spec)
        self.width = width
        self.height = height
        self.buffers = []
        self.current = None
        self.clip = None            # ("one", term) or ("run", list of terms, phylum)
        self.loads = 0
        self.shelf = None

    # one command --------------------------------------------------------------

    FREE = ("new", "load", "switch")
    TYPING = ("type", "erase", "enter", "abandon")

    def step(self, name, words, shelf):
        """(message, number evaluated)."""
        self.shelf = shelf
        try:
            self.refuse_first(name)
            n = getattr(self, "do_" + name.replace("-", "_"))(*words)
            return "ok", n or 0
        except Refusal as r:
            return r.message, 0

    def refuse_first(self, name):
        if name in self.FREE:
            return
        if self.current is None:
            raise Refusal("no buffer")
        if self.current.capture is not None and name != "show" and name not in self.TYPING:
            raise Refusal("in text")
        if name in ("do", "text", "type", "alternate", "elide", "replace-all") \
                and self.current.count > 1:
            raise Refusal("in run")

    # buffers

    def named(self, name):
        return next((b for b in self.buffers if b.name == name), None)

    def room(self, name):
        if self.named(name) is not None:
            raise Refusal("name in use")
        if len(self.buffers) >= MAX_BUFFERS:
            raise Refusal("too many buffers")

    def add(self, name, term):
        b = Buffer(self, name, term)
        self.buffers.append(b)
        self.current = b
        b.rule_of_top()
        return len(b.attribution.instances)

    def do_new(self, name):
        self.room(name)
        return self.add(name, self.spec.completing(self.spec.root))

    def do_load(self, name, file):
        self.room(name)
        if self.loads >= MAX_LOADS:
            raise Refusal("too many files")
        self.loads += 1
        data = self.shelf.fetch(file, MAX_FILE + 1)
        if data is None:
            raise Refusal("read fault")
        if len(data) > MAX_FILE:
            raise Refusal("long file")
        got = saved.read(self.spec, data)
        if got[0] == "form":
            raise Refusal("form at %d" % got[1])
        if got[0] != "ok":
            raise Refusal(got[0])   # phylum or size
        return self.add(name, self.spec.plain(got[1], self.spec.root))

    def do_switch(self, name):
        b = self.named(name)
        if b is None:
            raise Refusal("no buffer")
        self.current = b

    def do_show(self):
        pass

    def do_view(self, view=None):
        if view is not None and view not in self.spec.views:
            raise Refusal("unknown")
        b = self.current
        b.view = view
        b.put_place(b.path, b.count)
        b.rule_of_top()

    # moves

    def select(self, path):
        if path is None:
            raise Refusal("no place")
        b = self.current
        b.path = settle(b.term, path, b.view)
        b.count = 1
        b.rule_of_top()

    def moved(self, word):
        b = self.current
        self.select(move(b.term, b.path, b.view, word))

    def do_next(self):
        self.moved("next")

    def do_prev(self):
        self.moved("prev")

    def do_up(self):
        self.moved("up")

    def do_first(self):
        self.moved("first")

    def do_sibling(self):
        self.moved("sibling")

    def do_goto(self, line, col):
        b = self.current
        owner = b.page().owner(line, col)
        self.select(None if owner is None else b.attribution.path(owner))

    def do_extend(self):
        b = self.current
        at = spine(self.spec, b.term, b.path)
        if at is None:
            raise Refusal("not in list")
        if b.count == len(elements(sub(b.term, at))):
            raise Refusal("no place")
        b.count += 1
        b.rule_of_top()

    def do_shrink(self):
        b = self.current
        if b.count == 1:
            raise Refusal("no place")
        b.count -= 1
        b.rule_of_top()

    def do_find(self, name):
        if not search.known(self.spec, name):
            raise Refusal("unknown")
        b = self.current
        resting = set(rest(b.term, b.view))
        for path in search.found_paths(self.spec, b.term, name):
            if path > b.path and path in resting:
                return self.select(path)
        raise Refusal("no match")

    # replacements

    def put_here(self, s):
        b = self.current
        return b.replace(b.path, s, b.path)

    def do_do(self, name):
        n = self.current.selected()
        v = trans(self.spec, n, name)
        if type(v) is str:
            raise Refusal(v)
        self.no_fault(v)
        return self.put_here(self.spec.plain(v, n.phylum))

    def no_fault(self, v):
        if type(v) is Fault:
            raise Refusal("result " + v.value)

    def do_delete(self):
        b = self.current
        if b.count == 1:
            return self.put_here(self.spec.completing(b.selected().phylum))
        at = spine(self.spec, b.term, b.path)
        if self.takes_last(at):
            phylum = sub(b.term, at).phylum
            return b.replace(at, self.spec.completing(phylum), at + (0,))
        return self.take_out(at)

    def takes_last(self, at):
        """Would a list that is not optional lose all its elements?"""
        b = self.current
        head = sub(b.term, list_head(b.term, at))
        return head.phylum.listing == "list" and len(elements(head)) == b.count

    def after(self, at, count):
        """What follows the first elements of the list at a spine node."""
        return sub(self.current.term, at + (1,) * count)

    def take_out(self, at):
        """The spine node gives way to what follows the selected elements."""
        b = self.current
        s = self.after(at, b.count)
        if is_pair(s):
            select = at + (0,)
        elif at != list_head(b.term, at):
            select = at[:-1] + (0,)
        else:
            select = at
        return b.replace(at, s, select)

    def do_remove(self):
        at = spine(self.spec, self.current.term, self.current.path)
        if at is None:
            raise Refusal("not in list")
        if self.takes_last(at):
            raise Refusal("last element")
        return self.take_out(at)

    def inserted(self, last):
        """insert-before, or insert-after where `last` is true."""
        b = self.current
        n = b.selected()
        if b.count == 1 and is_nil(n):
            return b.replace(b.path, self.spec.placeholder(n.phylum), b.path + (0,))
        at = spine(self.spec, b.term, b.path)
        if at is None:
            raise Refusal("not in list")
        if last:
            at = at + (1,) * b.count
        rest_ = sub(b.term, at)
        element = self.spec.placeholder(rest_.phylum.ops[1].args[0])
        return b.replace(at, pair(rest_.phylum, element, rest_), at + (0,))

    def do_insert_before(self):
        return self.inserted(False)

    def do_insert_after(self):
        return self.inserted(True)

    def do_copy(self):
        self.clip = self.copied()

    def copied(self):
        b = self.current
        if b.count == 1:
            return "one", b.selected()
        head = sub(b.term, spine(self.spec, b.term, b.path))
        return "run", elements(head)[:b.count], head.phylum

    def do_cut(self):
        clip = self.copied()
        n = self.do_delete()
        self.clip = clip
        return n

    def do_paste(self):
        b = self.current
        clip = self.clip
        if clip is None:
            raise Refusal("clip empty")
        n = b.selected()
        at = spine(self.spec, b.term, b.path)
        if clip[0] == "one" and b.count == 1:
            if clip[1].phylum is not n.phylum:
                raise Refusal("phylum")
            return self.put_here(clip[1])
        if clip[0] == "one" and clip[1].phylum is n.phylum:
            return self.pasted(at, [clip[1]], self.after(at, b.count))
        if clip[0] == "run" and at is not None and sub(b.term, at).phylum is clip[2]:
            return self.pasted(at, clip[1], self.after(at, b.count))
        if clip[0] == "run" and b.count == 1 and n.phylum is clip[2]:
            nil = Node(clip[2].ops[0], 0, False, ())
            return self.pasted(b.path, clip[1], nil)
        raise Refusal("phylum")

    def pasted(self, at, terms, rest_):
        for e in reversed(terms):
            rest_ = pair(sub(self.current.term, at).phylum, e, rest_)
        return self.current.replace(at, rest_, at + (0,), len(terms))

    def do_replace_all(self, name):
        b = self.current
        s = search.all_(self.spec, b.term, b.path, name)
        if type(s) is str:
            raise Refusal(s)
        self.no_fault(s)
        return self.put_here(s)

    # text entry

    def entry(self, n):
        for k, e in enumerate(self.spec.entries):
            if e.phylum == n.phylum.name:
                return k
        return None

    def enterable(self, n):
        b = self.current
        if not (type(n) is Leaf or scheme_of(n, b.view).edit):
            raise Refusal("not editable")
        if self.entry(n) is None:
            raise Refusal("no entry")

    def good_bytes(self, data):
        for k, c in enumerate(data):
            if c != 10 and not 32 <= c <= 126:
                raise Refusal("byte at %d" % k)

    def derived(self, n, data):
        """The term that the entry of n's phylum derives."""
        tokens, at = tokens_of(self.loaded, data)
        if tokens is None:
            raise Stopped("lexical at %d" % at, at)
        v, k = parse(self.loaded, self.entry(n), data, tokens)
        if v is None:
            at = tokens[k][1] if k < len(tokens) else len(data)
            raise Stopped("parse at %d" % at, at)
        self.no_fault(v)
        return self.spec.plain(v, n.phylum)

    def do_text(self, data):
        n = self.current.selected()
        self.enterable(n)
        self.good_bytes(data)
        return self.put_here(self.derived(n, data))

    def do_type(self, data):
        b = self.current
        if b.capture is None:
            self.enterable(b.selected())
        self.good_bytes(data)
        text, point = b.capture or (b"", 0)
        b.capture = [text[:point] + data + text[point:], point + len(data)]
        b.rule_of_top()

    def captured(self):
        if self.current.capture is None:
            raise Refusal("not in text")
        return self.current.capture

    def do_erase(self):
        text, point = self.captured()
        if point == 0:
            raise Refusal("no place")
        self.current.capture = [text[:point - 1] + text[point:], point - 1]
        self.current.rule_of_top()

    def do_enter(self):
        text, _ = self.captured()
        try:
            s = self.derived(self.current.selected(), text)
        except Stopped as stop:
            self.current.capture[1] = stop.at
            raise
        return self.put_here(s)

    def do_abandon(self):
        self.captured()
        self.current.capture = None
        self.current.rule_of_top()

    # marks and history

    def do_alternate(self):
        b = self.current
        n = b.selected()
        count = 1 if type(n) is Leaf else len(schemes_of(n.op, b.view))
        if count == 1:
            raise Refusal("no alternate")
        b.mark((n.scheme + 1) % count, n.elided)

    def do_elide(self):
        n = self.current.selected()
        if type(n) is Leaf:
            raise Refusal("no alternate")
        self.current.mark(n.scheme, not n.elided)

    def do_undo(self):
        b = self.current
        if not b.past:
            raise Refusal("nothing to undo")
        step = b.past.pop()
        b.future.append(step)
        return b.go(step, step.old, step.before)

    def do_redo(self):
        b = self.current
        if not b.future:
            raise Refusal("nothing to redo")
        step = b.future.pop()
        b.past.append(step)
        return b.go(step, step.new, step.after)

    # files

    def do_save(self, file):
        b = self.current
        if not self.shelf.keep(file, saved.write(self.spec, b.term)):
            raise Refusal("write fault")

    def do_save_text(self, file):
        page = self.current.page()
        if page.cut:
            raise Refusal("size")
        if not self.shelf.keep(file, page.text):
            raise Refusal("write fault")

    # the screen ---------------------------------------------------------------------

    def screen(self, message, ev):
        b = self.current
        if b is None:
            return ("= - ev 0 %s\n" % message).encode()
        page = b.page()
        first, last = self.region(b, page)
        phylum = b.selected().phylum.name
        if b.count > 1:
            phylum += "*%d" % b.count
        name = b.name if b.view is None else b.name + "/" + b.view
        out = ["= %s %d:%d-%d:%d %s top %d ev %d %s\n" % (
            name, *first, *last, phylum, b.top, ev, message)]
        for line in page.lines()[b.top - 1:b.top - 1 + self.height]:
            out.append("|" + line[:self.width].decode("latin-1") + "\n")
        return "".join(out).encode("latin-1")

    def region(self, b, page):
        """The region of the selection: from the first selected element to the
        last one that is unparsed."""
        first, last = page.region(b.attribution.find(b.path))
        for k in range(1, b.count):
            path = b.path[:-1] + (1,) * k + (0,)
            r = page.region(b.attribution.find(path))
            if r is not None:
                last = r[1]
        return first, last


class Stopped(Refusal):
    """Text entry stopped at a byte; `enter` moves the point there."""

    def __init__(self, message, at):
        Refusal.__init__(self, message)
        self.at = at
