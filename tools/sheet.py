#!/usr/bin/env python3
"""Sheets as text, so that nobody has to count words; docs/TEXT.md has the form.

    tools/sheet.py TEXT > SHEET             the sheet that a text describes, always an accepted one
    tools/sheet.py --text SHEET > TEXT      the text of an accepted sheet

An error is one line, with the file and in a text the line number; the exit status is then 2, and nothing is written.
"""
import json
import re
import struct
import sys

WORD, LONGEST_NAME, LONGEST_SHEET, DEPTH = 2**32, 255, 8192, 19

LEAVES = {"Null": 1, "Bool": 2, "Int": 3, "Float": 4, "String": 5, "Param": 6, "ExistsSubqueryDeferred": 25}
COUNTED = {"List": 12, "Map": 13, "Call": 14}
PAIRS = {"Index": 10, "InList": 19}
BIN_OPS = ("Add Sub Mul Div Mod Pow Eq Neq Lt Le Gt Ge And Or Xor StartsWith EndsWith Contains RegexMatch Concat").split()
UNARY_OPS = ["Neg", "Not"]
KINDS = ["Node", "Relationship", "Path", "Value"]
OPENINGS = {"Create": 6, "Merge": 7}
# of a Set and a Remove item: its number and how many expressions it has
SET_ITEMS = {"Property": (1, 2), "Labels": (2, 0), "AssignMap": (3, 1)}
REMOVE_ITEMS = {"Property": (1, 1), "Labels": (2, 0)}

EXPRESSIONS = {*LEAVES, *COUNTED, *PAIRS, "Var", "Unresolved", "Prop", "Slice", "BinOp", "UnaryOp", "Case", "IsNull", "PatternPredicate",
               "ListComprehension", "PatternComprehension", "ListPredicate", "MapProjection"}


# ---- text to terms

class Bad(Exception):
    """An error in a text: its line and what is wrong."""


class Term:
    """A head with its arguments, a number, a span or a quoted name; `bare` is a head without parentheses."""

    def __init__(self, line, head=None, args=(), bare=False, number=None, span=None, quoted=None):
        self.line, self.head, self.args, self.bare = line, head, args, bare
        self.number, self.span, self.quoted = number, span, quoted

    def __str__(self):
        if self.span:
            return "%d..%d" % self.span
        return next(str(x) for x in (self.head, self.number, json.dumps(self.quoted)) if x is not None)


TOKEN = re.compile(r'(?P<skip>[ \t\r\n]+|#[^\n]*)|(?P<span>[0-9]+\.\.[0-9]+)|(?P<number>[0-9]+)|(?P<head>[A-Za-z_][A-Za-z0-9_]*)|(?P<quoted>"(?:[^"\\\n]|\\.)*")|(?P<sign>[(),])')


def tokens(text):
    at, line = 0, 1
    while at < len(text):
        m = TOKEN.match(text, at)
        if not m:
            raise Bad(line, "%r begins nothing of a text" % text[at])
        if m.lastgroup != "skip":
            yield m.lastgroup, m.group(), line
        line += m.group().count("\n")
        at = m.end()
    yield "end", "the end", line


class Parser:
    def __init__(self, text):
        self.tokens = list(tokens(text))
        self.at = 0

    def take(self):
        self.at += 1
        return self.tokens[self.at - 1]

    def is_next(self, sign):
        return self.tokens[self.at][1] == sign and self.tokens[self.at][0] == "sign"

    def terms(self):
        found = []
        while self.tokens[self.at][0] != "end":
            found.append(self.term(0))
        return found

    def term(self, nested):
        kind, text, line = self.take()
        if kind in ("number", "span"):
            numbers = text.split("..")
            if max(map(len, numbers)) > 40:
                raise Bad(line, "a number of %d digits" % max(map(len, numbers)))
            numbers = tuple(map(int, numbers))
            return Term(line, span=numbers) if kind == "span" else Term(line, number=numbers[0])
        if kind == "quoted":
            try:
                return Term(line, quoted=json.loads(text))
            except ValueError:
                raise Bad(line, "%s is no quoted name" % text)
        if kind != "head":
            raise Bad(line, "%s stands where something begins" % text)
        if not self.is_next("("):
            return Term(line, head=text, bare=True)
        if nested > 8 * DEPTH:
            raise Bad(line, "%s is nested too deep" % text)
        self.take()
        args = []
        while not self.is_next(")"):
            if args:
                if not self.is_next(","):
                    raise Bad(self.tokens[self.at][2], "%s stands where %s has ',' or ')'" % (self.tokens[self.at][1], text))
                self.take()
            args.append(self.term(nested + 1))
        self.take()
        return Term(line, head=text, args=args)


# ---- terms to words

FITS = {
    "expression": lambda t: t.head in EXPRESSIONS,
    "number": lambda t: t.number is not None,
    "span": lambda t: t.span is not None,
    "name": lambda t: t.quoted is not None or t.bare,
    "part": lambda t: t.head in ("Part", "Path"),
    "element": lambda t: t.head in ("Node", "Rel"),
    "projection": lambda t: t.head == "As" or t.head in EXPRESSIONS,
}


def takes(t, *wants):
    """The arguments of a term, one for each want: a kind or a head, then `?` for one or none, or `*` for any number, as a list."""
    found, rest = [], list(t.args)
    for want in wants:
        kind = want.rstrip("?*")
        fits = FITS.get(kind, lambda x: x.head == kind)
        if want == kind:
            if not rest or not fits(rest[0]):
                break
            found.append(rest.pop(0))
            continue
        some = []
        while rest and fits(rest[0]) and (want[-1] == "*" or not some):
            some.append(rest.pop(0))
        found.append(some)
    if rest or len(found) < len(wants):
        came = "%s is not that" % rest[0] if rest else "there is less"
        raise Bad((rest[0] if rest else t).line, "%s takes (%s); %s" % (t, ", ".join(wants), came))
    return found


class Writer:
    """The words of a text. Names are numbered by first mention."""

    def __init__(self, terms):
        self.names, self.rows, self.ids, self.statement_span = {}, [], set(), None
        groups = [(None, [])]
        for t in terms:
            if t.head == "Arm":
                groups.append((self.span(*takes(t, "span")), []))
            elif t.head == "Span":
                if self.statement_span:
                    raise Bad(t.line, "the statement has a span already")
                self.statement_span = self.span(*takes(t, "span"))
            elif t.head == "Name":
                self.new_name(*takes(t, "name"))
            elif t.head == "Binding":
                self.binding(t)
            else:
                groups[-1][1].append(self.clause(t))
        self.head, self.arms = groups[0][1], groups[1:]

    def sheet(self):
        names = b"".join(struct.pack("<I", len(n)) + n + bytes(-len(n) % 4) for n in self.names)
        rows = self.packed(self.rows)
        head = self.packed(self.head)
        arms = self.packed([span + [len(clauses)] + sum(clauses, []) for span, clauses in self.arms])
        body = [names, rows, head, arms]
        counts = [len(self.names), len(self.rows), len(self.head), len(self.arms)]
        trailer = []
        for i, count in enumerate(counts):
            trailer += [sum(map(len, body[i:])) // 4, count]
        whole = b"".join(body) + self.packed([trailer + (self.statement_span or [0, 0])])
        if len(whole) > LONGEST_SHEET:
            raise Bad(1, "the sheet has %d bytes, more than %d" % (len(whole), LONGEST_SHEET))
        return whole

    @staticmethod
    def packed(lists):
        words = [w for ws in lists for w in ws]
        return struct.pack("<%dI" % len(words), *words)

    def number(self, t):
        if t.number >= WORD:
            raise Bad(t.line, "%d is no word" % t.number)
        return t.number

    def span(self, t):
        start, end = t.span
        if not start <= end < WORD:
            raise Bad(t.line, "%s is no span" % t)
        return [start, end]

    def text(self, t):
        try:
            text = (t.head if t.quoted is None else t.quoted).encode()
        except UnicodeEncodeError:
            raise Bad(t.line, "%s is not Unicode" % t)
        if len(text) > LONGEST_NAME:
            raise Bad(t.line, "a name of %d bytes, more than %d" % (len(text), LONGEST_NAME))
        return text

    def new_name(self, t):
        if self.text(t) in self.names:
            raise Bad(t.line, "name %s is there already" % t)
        self.name(t)

    def name(self, t):
        return self.names.setdefault(self.text(t), len(self.names))

    def one_of(self, t, words):
        if t.head not in words:
            raise Bad(t.line, "%s is none of %s" % (t, ", ".join(words)))
        return words.index(t.head)

    def binding(self, t):
        v, name, kind, span = takes(t, "number", "name", "name", "span")
        if self.number(v) in self.ids:
            raise Bad(t.line, "variable %s has a binding already" % v)
        self.ids.add(v.number)
        self.rows.append([v.number, self.name(name), 1 + self.one_of(kind, KINDS)] + self.span(span))

    def each(self, write, ts, *more):
        return [w for t in ts for w in write(t, *more)]

    def pattern(self, parts, depth):
        return [len(parts)] + self.each(self.part, parts, depth)

    def part(self, t, depth):
        if t.head == "Path":
            v, elements = takes(t, "number", "element*")
            path = [1, self.number(v)]
        else:
            (elements,) = takes(t, "element*")
            path = [0]
        return path + [len(elements)] + self.each(self.element, elements, depth)

    def element(self, t, depth):
        span, v, prop = takes(t, "span", "number?", "expression?")
        ws = [1 if t.head == "Node" else 2] + self.span(span) + [len(v)] + [self.number(x) for x in v]
        return ws + [len(prop)] + self.each(self.expr, prop, depth)

    def marked(self, ts, depth):
        """The expressions under marks such as Filter and When."""
        return [w for t in ts for e in takes(t, *["expression"] * (2 if t.head == "When" else 1)) for w in self.expr(e, depth)]

    def expr(self, t, depth):
        if depth > DEPTH:
            raise Bad(t.line, "%s is deeper than %d" % (t, DEPTH))
        head, d = t.head, depth + 1
        if head in LEAVES:
            takes(t)
            return [LEAVES[head]]
        if head == "Var":
            (v,) = takes(t, "number")
            return [7, self.number(v)]
        if head == "Unresolved":
            (name,) = takes(t, "name")
            return [8, self.name(name)]
        if head == "Prop":
            name, one = takes(t, "name", "expression")
            return [9, self.name(name)] + self.expr(one, d)
        if head in PAIRS:
            return [PAIRS[head]] + self.each(self.expr, takes(t, "expression", "expression"), d)
        if head == "Slice":
            target, start, end = takes(t, "expression", "Start?", "End?")
            return [11, len(start) + 2 * len(end)] + self.expr(target, d) + self.marked(start + end, d)
        if head in COUNTED:
            (es,) = takes(t, "expression*")
            return [COUNTED[head], len(es)] + self.each(self.expr, es, d)
        if head == "BinOp":
            op, one, two = takes(t, "name", "expression", "expression")
            return [15, self.one_of(op, BIN_OPS)] + self.each(self.expr, [one, two], d)
        if head == "UnaryOp":
            op, one = takes(t, "name", "expression")
            return [16, self.one_of(op, UNARY_OPS)] + self.expr(one, d)
        if head == "Case":
            scrutinee, whens, otherwise = takes(t, "Scrutinee?", "When*", "Otherwise?")
            return [17, len(scrutinee) + 2 * len(otherwise), len(whens)] + self.marked(scrutinee + whens + otherwise, d)
        if head == "IsNull":
            return [18] + self.each(self.expr, takes(t, "expression"), d)
        if head == "PatternPredicate":
            (parts,) = takes(t, "part*")
            return [20] + self.pattern(parts, d)
        if head == "ListComprehension":
            iterable, by, made = takes(t, "expression", "Filter?", "expression")
            return [21, len(by)] + self.expr(iterable, d) + self.marked(by, d) + self.expr(made, d)
        if head == "PatternComprehension":
            span, parts, by, made = takes(t, "span", "part*", "Filter?", "expression")
            return [22] + self.span(span) + [len(by)] + self.pattern(parts, d) + self.marked(by, d) + self.expr(made, d)
        if head == "ListPredicate":
            iterable, by = takes(t, "expression", "Filter?")
            return [23, len(by)] + self.expr(iterable, d) + self.marked(by, d)
        base, items = takes(t, "expression", "Item*")
        inner = [takes(item, "expression?")[0] for item in items]
        return [24, len(items)] + self.expr(base, d) + [w for es in inner for w in [len(es)] + self.each(self.expr, es, d)]

    def projection(self, t):
        if t.head == "As":
            name, one = takes(t, "name", "expression")
            return [self.name(name) + 1] + self.expr(one, 1)
        return [0] + self.expr(t, 1)

    def order_by(self, t):
        (keys,) = takes(t, "expression*")
        return [len(keys)] + self.each(self.expr, keys, 1)

    def item(self, t, items):
        if t.head not in items:
            raise Bad(t.line, "%s is none of %s" % (t, ", ".join(items)))
        number, n = items[t.head]
        return [number] + self.each(self.expr, takes(t, *["expression"] * n), 1)

    def yielded(self, t):
        name, alias, v = takes(t, "name", "name?", "number")
        return [self.name(name)] + ([self.name(x) + 1 for x in alias] or [0]) + [self.number(v)]

    def clause(self, t):
        head = t.head
        if head in ("Match", "OptionalMatch"):
            span, parts = takes(t, "span", "part*")
            return [1] + self.span(span) + [int(head != "Match")] + self.pattern(parts, 1)
        if head == "Where":
            span, one = takes(t, "span", "expression")
            return [2] + self.span(span) + self.expr(one, 1)
        if head == "With":
            span, ps, by, keys = takes(t, "span", "projection*", "Filter?", "OrderBy?")
            ws = self.span(span) + [len(ps)] + self.each(self.projection, ps) + [len(by)] + self.marked(by, 1)
            return [12 if keys else 3] + ws + self.each(self.order_by, keys)
        if head == "Return":
            span, ps, keys = takes(t, "span", "projection*", "OrderBy?")
            return [13 if keys else 4] + self.span(span) + [len(ps)] + self.each(self.projection, ps) + self.each(self.order_by, keys)
        if head == "Unwind":
            span, v, one = takes(t, "span", "number", "expression")
            return [5] + self.span(span) + [self.number(v)] + self.expr(one, 1)
        if head in OPENINGS:
            span, parts = takes(t, "span", "part*")
            return [OPENINGS[head]] + self.span(span) + self.pattern(parts, 1)
        if head in ("Set", "Remove"):
            (span,) = takes(Term(t.line, head, t.args[:1]), "span")
            items = SET_ITEMS if head == "Set" else REMOVE_ITEMS
            return [8 if head == "Set" else 9] + self.span(span) + [len(t.args) - 1] + self.each(self.item, t.args[1:], items)
        if head == "Delete":
            span, es = takes(t, "span", "expression*")
            return [10] + self.span(span) + [len(es)] + self.each(self.expr, es, 1)
        if head == "Call":
            span, es, ys = takes(t, "span", "expression*", "Yield*")
            return [11] + self.span(span) + [len(es)] + self.each(self.expr, es, 1) + [len(ys)] + self.each(self.yielded, ys)
        raise Bad(t.line, "%s is no clause" % t)


# ---- words to text

class NoSheet(Exception):
    """The bytes are no accepted sheet."""


def shown(head, *args):
    return "%s(%s)" % (head, ", ".join(args)) if args else head


def head_of(table, number):
    return next(head for head, n in table.items() if n == number or isinstance(n, tuple) and n[0] == number)


class Reader:
    """The text of a section's words; a word that fits nowhere ends it."""

    def __init__(self, words, names):
        self.words, self.names, self.at = words, names, 0

    def word(self, limit=WORD):
        if self.at >= len(self.words) or self.words[self.at] >= limit:
            raise NoSheet
        self.at += 1
        return self.words[self.at - 1]

    def span(self):
        return "%d..%d" % (self.word(), self.word())

    def name(self):
        return self.names[self.word(len(self.names))]

    def alias(self):
        x = self.word(len(self.names) + 1)
        return [self.names[x - 1]] if x else []

    def times(self, n, read, *more):
        return [read(*more) for _ in range(n)]

    def pattern(self):
        return self.times(self.word(), self.part)

    def part(self):
        path = self.times(self.word(2), self.variable)
        return "%s(%s)" % ("Path" if path else "Part", ", ".join(path + self.times(self.word(), self.element)))

    def variable(self):
        return str(self.word())

    def element(self):
        kind = self.word(3)
        if not kind:
            raise NoSheet
        return shown("Node" if kind == 1 else "Rel", self.span(), *self.times(self.word(2), self.variable), *self.times(self.word(2), self.expr))

    def marked(self, n, head, expressions=1):
        return [shown(head, *self.times(expressions, self.expr)) for _ in range(n)]

    def expr(self):
        code = self.word(26)
        if code in LEAVES.values():
            return head_of(LEAVES, code)
        if code == 7:
            return shown("Var", self.variable())
        if code == 8:
            return shown("Unresolved", self.name())
        if code == 9:
            return shown("Prop", self.name(), self.expr())
        if code in PAIRS.values():
            return shown(head_of(PAIRS, code), self.expr(), self.expr())
        if code == 11:
            bits = self.word(4)
            return shown("Slice", self.expr(), *self.marked(bits & 1, "Start"), *self.marked(bits >> 1, "End"))
        if code in COUNTED.values():
            return shown(head_of(COUNTED, code), *self.times(self.word(), self.expr))
        if code == 15:
            return shown("BinOp", BIN_OPS[self.word(20)], self.expr(), self.expr())
        if code == 16:
            return shown("UnaryOp", UNARY_OPS[self.word(2)], self.expr())
        if code == 17:
            bits, pairs = self.word(4), self.word()
            return shown("Case", *self.marked(bits & 1, "Scrutinee"), *self.marked(pairs, "When", 2), *self.marked(bits >> 1, "Otherwise"))
        if code == 18:
            return shown("IsNull", self.expr())
        if code == 20:
            return shown("PatternPredicate", *self.pattern())
        if code == 21:
            by = self.word(2)
            return shown("ListComprehension", self.expr(), *self.marked(by, "Filter"), self.expr())
        if code == 22:
            span, by = self.span(), self.word(2)
            return shown("PatternComprehension", span, *self.pattern(), *self.marked(by, "Filter"), self.expr())
        if code == 23:
            by = self.word(2)
            return shown("ListPredicate", self.expr(), *self.marked(by, "Filter"))
        if code == 24:
            items = self.word()
            return shown("MapProjection", self.expr(), *[shown("Item", *self.times(self.word(2), self.expr)) for _ in range(items)])
        raise NoSheet

    def projection(self):
        alias = self.alias()
        return shown("As", *alias, self.expr()) if alias else self.expr()

    def order_by(self, sorted_by_keys):
        return [shown("OrderBy", *self.times(self.word(), self.expr))] if sorted_by_keys else []

    def item(self, items):
        number = self.word(len(items) + 1)
        if not number:
            raise NoSheet
        head = head_of(items, number)
        return shown(head, *self.times(items[head][1], self.expr))

    def yielded(self):
        return shown("Yield", self.name(), *self.alias(), self.variable())

    def clause(self):
        kind, span = self.word(14), self.span()
        if kind == 1:
            return shown("OptionalMatch" if self.word(2) else "Match", span, *self.pattern())
        if kind == 2:
            return shown("Where", span, self.expr())
        if kind in (3, 12):
            ps = self.times(self.word(), self.projection)
            return shown("With", span, *ps, *self.marked(self.word(2), "Filter"), *self.order_by(kind == 12))
        if kind in (4, 13):
            return shown("Return", span, *self.times(self.word(), self.projection), *self.order_by(kind == 13))
        if kind == 5:
            return shown("Unwind", span, self.variable(), self.expr())
        if kind in OPENINGS.values():
            return shown(head_of(OPENINGS, kind), span, *self.pattern())
        if kind in (8, 9):
            return shown("Set" if kind == 8 else "Remove", span, *self.times(self.word(), self.item, SET_ITEMS if kind == 8 else REMOVE_ITEMS))
        if kind == 10:
            return shown("Delete", span, *self.times(self.word(), self.expr))
        if kind == 11:
            es = self.times(self.word(), self.expr)
            return shown("Call", span, *es, *self.times(self.word(), self.yielded))
        raise NoSheet

    def arm(self):
        span = self.span()
        return "\n".join([shown("Arm", span)] + self.times(self.word(), self.clause))

    def binding(self):
        v, name, kind = self.variable(), self.name(), self.word(5)
        if not kind:
            raise NoSheet
        return shown("Binding", v, name, KINDS[kind - 1], self.span())


def names_of(section, count):
    found, at = [], 0
    for _ in range(count):
        if at + 4 > len(section):
            raise NoSheet
        (n,) = struct.unpack_from("<I", section, at)
        try:
            text = section[at + 4:at + 4 + n].decode()
        except UnicodeDecodeError:
            raise NoSheet
        found.append(text if re.fullmatch("[A-Za-z_][A-Za-z0-9_]*", text) else json.dumps(text, ensure_ascii=False))
        at += 4 + n + -n % 4
    return found


def sheet_of(text):
    return Writer(Parser(text).terms()).sheet()


def text_of(sheet):
    """The text of an accepted sheet: one from which that very sheet comes."""
    if len(sheet) % 4 or not 40 <= len(sheet) <= LONGEST_SHEET:
        raise NoSheet
    words = struct.unpack("<%dI" % (len(sheet) // 4), sheet)
    end = len(words) - 10
    trailer = words[end:]
    places = [end - back for back in trailer[0:8:2]] + [end]
    if places[0] != 0 or places != sorted(places):
        raise NoSheet
    names = names_of(sheet[:places[1] * 4], trailer[1])
    lines = [shown("Span", "%d..%d" % trailer[8:])] + [shown("Name", name) for name in names]
    for i, read in enumerate((Reader.binding, Reader.clause, Reader.arm), 1):
        section = Reader(words[places[i]:places[i + 1]], names)
        lines += section.times(trailer[2 * i + 1], lambda: read(section))
    text = "\n".join(lines) + "\n"
    try:
        if sheet_of(text) == sheet:
            return text
    except Bad:
        pass
    raise NoSheet


def fail(message):
    print("".join(c if c.isprintable() else repr(c)[1:-1] for c in message), file=sys.stderr)
    sys.exit(2)


def main():
    sys.setrecursionlimit(20000)
    args = sys.argv[1:]
    if len(args) not in (1, 2) or len(args) == 2 and args[0] != "--text" or args[-1].startswith("-"):
        fail("usage: tools/sheet.py TEXT > SHEET, or tools/sheet.py --text SHEET > TEXT")
    name = args[-1]
    try:
        with open(name, "rb") as file:
            given = file.read()
    except OSError as e:
        fail("%s: %s" % (name, e.strerror))
    try:
        made = text_of(given).encode() if len(args) == 2 else sheet_of(given.decode())
    except Bad as e:
        fail("%s:%d: %s" % (name, *e.args))
    except (NoSheet, RecursionError):
        fail("%s: no accepted sheet" % name)
    except UnicodeDecodeError as e:
        fail("%s:%d: no UTF-8" % (name, given[:e.start].count(b"\n") + 1))
    sys.stdout.buffer.write(made)


if __name__ == "__main__":
    main()
