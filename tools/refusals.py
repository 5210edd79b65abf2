#!/usr/bin/env python3
"""Makes the input and the expected output of the program `refusals`: small sheets that hold every cause 1 to 6 at every place where it
can arise, and accepted ones beside them.

    tools/refusals.py            writes crates/refusals/stdin and stdout
    tools/refusals.py N SEED     writes N random and damaged sheets and their refusals to standard output's file names
                                 random.stdin and random.stdout in the current folder

The expected refusals come from the decoder below, which is written from documents 01 and 02 and shares nothing with the Rattle code. A
sheet of the first kind also says which refusal it is made for, and the two are compared here.
"""
import random
import struct
import sys

DEPTH = 19


# ---- a decoder written from document 01, and from document 02 (CR 1) for sort keys

class Refused(Exception):
    pass


class Section:
    """The words of a section, read from the front; a missing or wrong word is cause 5."""

    def __init__(self, words, names):
        self.words, self.at, self.names = words, 0, names

    def word(self, lo=0, hi=2**32):
        if self.at >= len(self.words) or not lo <= self.words[self.at] < hi:
            raise Refused(5)
        self.at += 1
        return self.words[self.at - 1]

    def span(self):
        self.word(self.word())

    def name(self):
        return self.word(0, self.names)

    def alias(self):
        return self.word(0, self.names + 1)

    def maybe(self):
        if self.word(0, 2):
            self.word()

    def exprs(self, n, depth):
        for _ in range(n):
            self.expr(depth)

    def pattern(self, depth):
        for _ in range(self.word()):
            self.maybe()
            for _ in range(self.word()):
                self.word(1, 3)
                self.span()
                self.maybe()
                self.exprs(self.word(0, 2), depth)

    def expr(self, depth):
        if depth > DEPTH and self.at < len(self.words):
            raise Refused(6)
        code, d = self.word(1, 26), depth + 1
        if code in (1, 2, 3, 4, 5, 6, 25):
            pass
        elif code == 7:
            self.word()
        elif code == 8:
            self.name()
        elif code == 9:
            self.name()
            self.expr(d)
        elif code in (10, 19):
            self.exprs(2, d)
        elif code == 11:
            bits = self.word(0, 4)
            self.exprs(1 + (bits & 1) + (bits >> 1), d)
        elif code in (12, 13, 14):
            self.exprs(self.word(), d)
        elif code == 15:
            self.word(0, 20)
            self.exprs(2, d)
        elif code == 16:
            self.word(0, 2)
            self.expr(d)
        elif code == 17:
            bits, pairs = self.word(0, 4), self.word()
            self.exprs(2 * pairs + (bits & 1) + (bits >> 1), d)
        elif code == 18:
            self.expr(d)
        elif code == 20:
            self.pattern(d)
        elif code == 21:
            self.exprs(2 + self.word(0, 2), d)
        elif code == 22:
            self.span()
            filtered = self.word(0, 2)
            self.pattern(d)
            self.exprs(1 + filtered, d)
        elif code == 23:
            self.exprs(1 + self.word(0, 2), d)
        elif code == 24:
            items = self.word()
            self.expr(d)
            for _ in range(items):
                self.exprs(self.word(0, 2), d)

    def projections(self):
        for _ in range(self.word()):
            self.alias()
            self.expr(1)

    def clause(self):
        kind = self.word(1, 14)
        self.span()
        if kind == 1:
            self.word(0, 2)
            self.pattern(1)
        elif kind == 2:
            self.expr(1)
        elif kind in (3, 12):
            self.projections()
            self.exprs(self.word(0, 2), 1)
        elif kind in (4, 13):
            self.projections()
        elif kind == 5:
            self.word()
            self.expr(1)
        elif kind in (6, 7):
            self.pattern(1)
        elif kind == 8:
            for _ in range(self.word()):
                self.exprs({1: 2, 2: 0, 3: 1}[self.word(1, 4)], 1)
        elif kind == 9:
            for _ in range(self.word()):
                self.exprs(2 - self.word(1, 3), 1)
        elif kind == 10:
            self.exprs(self.word(), 1)
        elif kind == 11:
            self.exprs(self.word(), 1)
            for _ in range(self.word()):
                self.name()
                self.alias()
                self.word()
        if kind in (12, 13):
            self.exprs(self.word(), 1)

    def arm(self):
        self.span()
        for _ in range(self.word()):
            self.clause()

    def entire(self, one, n):
        for _ in range(n):
            one()
        if self.at < len(self.words):
            raise Refused(5)


def read_names(section, count):
    seen, at = [], 0
    for _ in range(count):
        if at + 4 > len(section):
            raise Refused(3)
        n = int.from_bytes(section[at:at + 4], "little")
        end = at + 4 + (n + 3) // 4 * 4
        if n > 255 or end > len(section) or any(section[at + 4 + n:end]):
            raise Refused(3)
        text = section[at + 4:at + 4 + n]
        try:
            text.decode("utf-8", "strict")
        except UnicodeDecodeError:
            raise Refused(3)
        if text in seen:
            raise Refused(3)
        seen.append(text)
        at = end
    if at < len(section):
        raise Refused(3)


def read_rows(words, count, names):
    if len(words) != 5 * count:
        raise Refused(4)
    ids = []
    for i in range(count):
        v, x, kind, start, end = words[5 * i:5 * i + 5]
        if x >= names or not 1 <= kind <= 4 or start > end or v in ids:
            raise Refused(4)
        ids.append(v)


def refusal(sheet):
    """0, or the refusal 1 to 6 of document 01."""
    if len(sheet) % 4 or not 40 <= len(sheet) <= 8192:
        return 1
    words = struct.unpack("<%dI" % (len(sheet) // 4), sheet)
    t = len(words) - 10
    trailer = words[t:]
    backs, counts = trailer[0:8:2], trailer[1:8:2]
    if backs[0] != t or list(backs) != sorted(backs, reverse=True) or trailer[8] > trailer[9]:
        return 2
    rows, head, arms = (t - b for b in backs[1:])
    try:
        read_names(sheet[:4 * rows], counts[0])
        read_rows(words[rows:head], counts[1], counts[0])
        clauses, union = Section(words[head:arms], counts[0]), Section(words[arms:t], counts[0])
        clauses.entire(clauses.clause, counts[2])
        union.entire(union.arm, counts[3])
        return 0
    except Refused as r:
        return r.args[0]


# ---- sheets from parts

def packed(words):
    return b"".join(struct.pack("<I", w) for w in words)


def name_bytes(text):
    return struct.pack("<I", len(text)) + text + bytes(-len(text) % 4)


def sheet(names=(b"a", b"b"), rows=(), head=(), arms=(), span=(0, 0), counts=None, names_raw=None, rows_raw=None):
    """names: texts; rows: five words each; head: clauses; arms: (start, end, clauses). A clause is a list of words."""
    ns = b"".join(map(name_bytes, names)) if names_raw is None else names_raw
    rs = [w for r in rows for w in r] if rows_raw is None else list(rows_raw)
    hs = [w for c in head for w in c]
    us = [w for a in arms for w in [a[0], a[1], len(a[2])] + [x for c in a[2] for x in c]]
    n, r, h, u = len(ns) // 4, len(rs), len(hs), len(us)
    count = [len(names), len(rows), len(head), len(arms)]
    for k, v in (counts or {}).items():
        count[k] = v
    return ns + packed(rs + hs + us + [n + r + h + u, count[0], r + h + u, count[1], h + u, count[2], u, count[3], *span])


ROW = [(1, 0, 1, 0, 0)]
NULL = [1]


def node(variable=None, prop=None, kind=1, span=(0, 0)):
    return [kind, *span] + ([0] if variable is None else [1, variable]) + ([0] if prop is None else [1] + prop)


def pattern(*parts):
    """parts: (path variable or None, elements)"""
    out = [len(parts)]
    for path, elements in parts:
        out += ([0] if path is None else [1, path]) + [len(elements)] + [w for e in elements for w in e]
    return out


def deep(levels):
    """IsNull of IsNull of .. Null: an expression with so many levels."""
    return [18] * (levels - 1) + NULL


EXPRS = {
    "Null": [1], "Bool": [2], "Int": [3], "Float": [4], "String": [5], "Param": [6], "Var": [7, 9], "Unresolved": [8, 1],
    "Prop": [9, 1] + NULL, "Index": [10] + NULL * 2, "Slice 0": [11, 0] + NULL, "Slice 1": [11, 1] + NULL * 2,
    "Slice 2": [11, 2] + NULL * 2, "Slice 3": [11, 3] + NULL * 3, "List": [12, 3] + NULL * 3, "Map": [13, 2] + NULL * 2,
    "Call": [14, 0], "BinOp": [15, 19] + NULL * 2, "UnaryOp": [16, 1] + NULL, "Case": [17, 3, 2] + NULL * 6,
    "Case 0": [17, 0, 1] + NULL * 2, "IsNull": [18] + NULL, "InList": [19] + NULL * 2,
    "PatternPredicate": [20] + pattern((1, [node(1, NULL), node(1, None, 2), node()])),
    "ListComprehension": [21, 0] + NULL * 2, "ListComprehension 1": [21, 1] + NULL * 3,
    "PatternComprehension": [22, 3, 4, 0] + pattern((None, [node(1)])) + NULL,
    "PatternComprehension 1": [22, 0, 0, 1] + pattern((1, []), (None, [])) + NULL * 2,
    "ListPredicate": [23, 0] + NULL, "ListPredicate 1": [23, 1] + NULL * 2,
    "MapProjection": [24, 3] + NULL + [0, 1] + NULL + [0], "ExistsSubqueryDeferred": [25],
}

CLAUSES = {
    "Match": [1, 0, 9, 1] + pattern((1, [node(1, NULL), node(None, None, 2), node(1)]), (None, [])), "Where": [2, 0, 0] + NULL,
    "With": [3, 0, 0, 2, 0, 7, 1, 2, 8, 0, 0], "With filter": [3, 0, 0, 1, 1] + NULL + [1] + NULL, "Return": [4, 1, 2, 2, 0] + NULL + [1] + NULL,
    "Unwind": [5, 0, 0, 1] + NULL, "Create": [6, 0, 0] + pattern((None, [node(1)])), "Merge": [7, 0, 0] + pattern(),
    "Set": [8, 0, 0, 3, 1] + NULL * 2 + [2, 3] + NULL, "Remove": [9, 0, 0, 2, 1] + NULL + [2], "Delete": [10, 0, 0, 2] + NULL * 2,
    "Call": [11, 0, 0, 1] + NULL + [2, 0, 0, 5, 1, 2, 6],
    "With keys": [12, 0, 0, 2, 0, 7, 1, 2, 8, 0, 0, 2, 8, 1] + NULL, "With no key": [12, 0, 0, 0, 0, 0],
    "With filter, key": [12, 0, 0, 1, 1] + NULL + [1] + NULL + [1, 22, 3, 4, 0] + pattern((1, [node(1, NULL)])) + NULL,
    "Return keys": [13, 1, 2, 2, 0] + NULL + [1] + NULL + [2, 8, 0, 20] + pattern((None, [node(1)])), "Return no key": [13, 0, 0, 0, 0],
}


def where(expr):
    return [2, 0, 0] + expr


def made():
    """Pairs of a refusal and a sheet made for it."""
    z = bytes(40)
    yield 0, z
    for n in (0, 1, 4, 36, 39, 41, 42, 8196, 8200, 20000):
        yield 1, bytes(n)
    yield 0, sheet(names=[bytes([97 + i // 26, 97 + i % 26]) * 100 for i in range(39)])
    # 2: each section out of place, a reversed span
    good = sheet(rows=ROW, head=[CLAUSES["Match"]], arms=[(0, 0, [CLAUSES["Where"]])])
    yield 0, good
    t = len(good) // 4 - 10
    for i in (0, 2, 4, 6):
        for delta in (1, 2**31):
            w = list(struct.unpack("<%dI" % (t + 10), good))
            w[t + i] = (w[t + i] + delta) % 2**32
            if not (i == 6 and delta == 1):
                yield 2 if refusal(packed(w)) == 2 else None, packed(w)
    yield 2, sheet(span=(1, 0))
    yield 0, sheet(span=(2**32 - 1, 2**32 - 1))
    # 3: length, UTF-8, padding, twice, section too short and too long, absurd counts
    for text in (b"", b"a", b"ab", b"abc", b"abcd", b"x" * 255, b"\0", b"\n", "é座🎭".encode()):
        yield 0, sheet(names=[text])
    yield 3, sheet(names=[], names_raw=struct.pack("<I", 256) + b"x" * 256, counts={0: 1})
    yield 3, sheet(names=[], names_raw=struct.pack("<I", 2**32 - 1) + b"x" * 8, counts={0: 1})
    for text in (b"\x80", b"\xc0\x80", b"\xc2", b"\xe0\x80\x80", b"\xed\xa0\x80", b"\xf0\x80\x80\x80", b"\xf4\x90\x80\x80", b"\xff", b"ab\xe2\x82"):
        yield 3, sheet(names=[text])
    for n in (1, 2, 3):
        for k in range(n, 4):
            body = bytearray(b"abc"[:n] + bytes(4 - n))
            body[k] = 1
            yield 3, sheet(names=[], names_raw=struct.pack("<I", n) + bytes(body), counts={0: 1})
    yield 3, sheet(names=[b"a", b"a"])
    yield 3, sheet(names=[b"", b"x", b""])
    yield 3, sheet(names=[b"abcdefgh", b"z", b"abcdefgh"])
    yield 0, sheet(names=[b"abcdefgh", b"abcdefgi", b"abcdefg"])
    for c in (1, 3, 2**31, 2**32 - 1):
        yield 3, sheet(counts={0: c})
    yield 3, sheet(names=[], names_raw=bytes(4), counts={0: 0})
    yield 3, sheet(names=[b"abcd"], names_raw=struct.pack("<I", 5) + b"abcd")
    # 4: kind, name, span, twice an id, section too short and too long, absurd counts
    for kind in (0, 5, 2**32 - 1):
        yield 4, sheet(rows=[(1, 0, kind, 0, 0)])
    for kind in (1, 2, 3, 4):
        yield 0, sheet(rows=[(kind, 1, kind, 5, 5)])
    yield 4, sheet(rows=[(1, 2, 1, 0, 0)])
    yield 4, sheet(rows=[(1, 0, 1, 1, 0)])
    yield 4, sheet(rows=[(7, 0, 1, 0, 0), (8, 0, 1, 0, 0), (7, 1, 2, 0, 0)])
    yield 0, sheet(rows=[(7, 0, 1, 0, 0), (8, 0, 1, 0, 0), (0, 1, 2, 0, 0)])
    for c in (0, 2, 858993460, 2**32 - 1):
        yield 4, sheet(rows=ROW, counts={1: c})
    yield 4, sheet(rows=ROW, rows_raw=[1, 0, 1, 0])
    yield 4, sheet(names=[], rows=[(1, 0, 1, 0, 0)])
    # every expression and every clause: accepted; cut off after each word; each word made too large
    for where_it_stands in ("head", "arm"):
        def placed(clauses, **more):
            if where_it_stands == "head":
                return sheet(rows=ROW, head=clauses, **more)
            return sheet(rows=ROW, arms=[(0, 0, clauses)], **more)
        for body in [where(e) for e in EXPRS.values()] + list(CLAUSES.values()):
            yield 0, placed([body])
            for n in range(1, len(body)):
                yield 5, placed([body[:n]], counts=None)
            yield 5, placed([body, [1]], counts={2: 1} if where_it_stands == "head" else None)
            for n in range(len(body)):
                worse = list(body)
                worse[n] = 2**32 - 1
                yield None, placed([worse])
        for kind in (0, 12, 13, 14, 15, 2**32 - 1):
            yield 5, placed([[kind, 0, 0]])
        for kind in (0, 14, 15, 2**31 + 12):
            yield 5, placed([[kind, 0, 0, 0, 0, 0]])
            yield 5, placed([[kind, 0, 0, 0, 0]])
        for code in (0, 26, 2**32 - 1):
            yield 5, placed([where([code])])
        for worse in ([9, 2] + NULL, [8, 2], [11, 4] + NULL * 3, [15, 20] + NULL * 2, [16, 2] + NULL, [17, 4, 0], [21, 2] + NULL * 4,
                      [23, 2] + NULL * 3, [22, 1, 0, 0, 0] + NULL, [22, 0, 0, 2, 0] + NULL * 3, [24, 1] + NULL + [2] + NULL * 2):
            yield 5, placed([where(worse)])
        for c in CLAUSES.values():
            yield 5, placed([[c[0], 2, 1] + c[3:]])
        for e in ([0, 0, 0, 0, 0], [3, 0, 0, 0, 0], [1, 1, 0, 0, 0], [1, 0, 0, 2, 0], [1, 0, 0, 0, 2]):
            yield 5, placed([[6, 0, 0, 1, 0, 1] + e])
        yield 5, placed([[1, 0, 0, 2, 0]])
        yield 5, placed([[6, 0, 0, 1, 2, 1, 0]])
        yield 5, placed([[8, 0, 0, 1, 0]])
        yield 5, placed([[8, 0, 0, 1, 4] + NULL])
        yield 5, placed([[9, 0, 0, 1, 3] + NULL])
        yield 5, placed([[3, 0, 0, 1, 3] + NULL + [0]])
        yield 5, placed([[3, 0, 0, 0, 2] + NULL * 2])
        yield 5, placed([[4, 0, 0, 1, 3] + NULL])
        yield 5, placed([[12, 0, 0, 1, 3] + NULL + [0, 0]])
        yield 5, placed([[12, 0, 0, 0, 2] + NULL * 2 + [0]])
        yield 5, placed([[13, 0, 0, 1, 3] + NULL + [0]])
        for sorted_clause in ([12, 0, 0, 0, 0], [13, 0, 0, 0]):
            yield 5, placed([sorted_clause])
            yield 5, placed([sorted_clause + [2] + NULL])
            yield 5, placed([sorted_clause + [1, 26]])
            yield 5, placed([sorted_clause + [1, 8, 2]])
            yield 5, placed([sorted_clause + [1, 22, 1, 0, 0, 0] + NULL])
            yield 5, placed([sorted_clause + [0]] + [NULL], counts={2: 1} if where_it_stands == "head" else None)
            yield 5, placed([sorted_clause + [2**32 - 1] + NULL * 3])
            yield 6, placed([sorted_clause + [2**32 - 1] + NULL * 3 + deep(DEPTH + 1)])
            yield 6, placed([sorted_clause + [2] + deep(DEPTH + 1) + [99]])
            yield 5, placed([sorted_clause + [2, 99] + deep(DEPTH + 1)])
        yield 5, placed([[11, 0, 0, 0, 1, 2, 0, 0]])
        yield 5, placed([[11, 0, 0, 0, 1, 0, 3, 0]])
        # 6: by each way down; a missing word one level too deep is 5; an unknown code there is 6; the earlier word decides
        yield 0, placed([where(deep(DEPTH))])
        yield 6, placed([where(deep(DEPTH + 1))])
        yield 6, placed([where([18] * DEPTH + [99])])
        yield 5, placed([where([18] * DEPTH)])
        yield 6, placed([where([10] + deep(DEPTH) + [99])])
        yield 5, placed([where([10] + [99] + deep(DEPTH))])
        yield 6, placed([where([12, 2**32 - 1] + deep(DEPTH))])
        for head in ([9, 0], [11, 0], [12, 1], [13, 1], [14, 1], [16, 0], [18], [23, 0], [24, 0]):
            yield 0, placed([where(head + deep(DEPTH - 1))])
            yield 6, placed([where(head + deep(DEPTH))])
        for head in ([10], [15, 0], [19], [17, 1, 0], [17, 2, 0], [11, 1], [21, 0]):
            tail = NULL if head[0] in (10, 15, 19, 21) or head == [11, 1] else []
            yield 0, placed([where(head + deep(DEPTH - 1) + tail)])
            yield 6, placed([where(head + deep(DEPTH) + tail)])
        inner = pattern((None, [node(None, deep(DEPTH - 1))]))
        outer = pattern((None, [node(None, deep(DEPTH))]))
        yield 0, placed([where([20] + inner)])
        yield 6, placed([where([20] + outer)])
        yield 0, placed([where([22, 0, 0, 0] + inner + NULL)])
        yield 6, placed([where([22, 0, 0, 0] + outer + NULL)])
        yield 6, placed([where([22, 0, 0, 0] + pattern() + deep(DEPTH))])
        yield 6, placed([where([24, 1] + NULL + [1] + deep(DEPTH))])
        yield 0, placed([[6, 0, 0] + outer])
        yield 6, placed([[6, 0, 0] + pattern((None, [node(None, deep(DEPTH + 1))]))])
        for clause in ([5, 0, 0, 1], [10, 0, 0, 1], [4, 0, 0, 1, 0], [3, 0, 0, 0, 1], [9, 0, 0, 1, 1], [8, 0, 0, 1, 3], [12, 0, 0, 0, 0, 1],
                       [12, 0, 0, 0, 1] + NULL + [1], [13, 0, 0, 0, 1], [13, 0, 0, 0, 2] + NULL):
            yield 0, placed([clause + deep(DEPTH)])
            yield 6, placed([clause + deep(DEPTH + 1)])
        # no binding is needed: each binder, also where the walks don't look, yields and Var; 5 and 6 after them
        unbound = pattern((None, [node(2)]))
        for clause in ([6, 0, 0] + unbound, [7, 0, 0] + unbound, [1, 0, 0, 0] + unbound, [1, 0, 0, 1] + pattern((2, [])),
                       [6, 0, 0] + pattern((None, [node(1), node(2, None, 2)])), [5, 0, 0, 2] + NULL, [5, 0, 0, 1, 20] + unbound,
                       [11, 0, 0, 1, 20] + unbound + [0], where([20] + unbound), where([22, 0, 0, 0] + unbound + NULL),
                       where([22, 0, 0, 0] + pattern() + [20] + unbound), where([18, 18, 20] + unbound),
                       where([20] + pattern((None, [node(1, [20] + unbound)]))), [6, 0, 0] + pattern((None, [node(None, [20] + unbound)])),
                       [3, 0, 0, 1, 0, 20] + unbound + [0], [3, 0, 0, 0, 1, 20] + unbound, [4, 0, 0, 1, 1, 20] + unbound,
                       [8, 0, 0, 1, 3, 20] + unbound, [9, 0, 0, 1, 1, 20] + unbound, [10, 0, 0, 1, 20] + unbound,
                       [12, 0, 0, 0, 0, 1, 20] + unbound, [12, 0, 0, 0, 0, 2, 22, 0, 0, 0] + unbound + NULL * 2, [13, 0, 0, 0, 1, 20] + unbound,
                       [13, 0, 0, 1, 1] + NULL + [1, 22, 0, 0, 0] + pattern((2, [])) + NULL):
            yield 0, placed([clause])
            yield 0, placed([clause, where(NULL)])
            yield 5, placed([clause, where([99])])
            yield 6, placed([clause, where(deep(DEPTH + 1))])
        yield 0, placed([where([7, 2**32 - 1])])
        yield 0, placed([[11, 0, 0, 0, 1, 0, 0, 2**32 - 1]])
    # head and arms together: an unread word of the head comes before the arms; no binding is needed in either
    yield 5, sheet(head=[where(NULL), [1]], counts={2: 1}, arms=[(0, 0, [where(deep(DEPTH + 1))])])
    yield 6, sheet(head=[where(NULL)], arms=[(0, 0, [where(deep(DEPTH + 1))])])
    yield 5, sheet(head=[[5, 0, 0, 3] + NULL], arms=[(0, 0, [where([0])])])
    yield 6, sheet(head=[[5, 0, 0, 3] + NULL], arms=[(0, 0, [where(deep(DEPTH + 1))])])
    yield 0, sheet(head=[[5, 0, 0, 3] + NULL], arms=[(0, 0, [where(deep(DEPTH))])])
    yield 0, sheet(arms=[(0, 0, []), (0, 0, [[5, 0, 0, 3] + NULL])])
    yield 5, sheet(arms=[(1, 0, [])])
    yield 5, sheet(arms=[(0, 0, [])], counts={3: 2})
    yield 5, sheet(arms=[(0, 0, [])], counts={3: 0})
    yield 5, sheet(head=[where(NULL)], counts={2: 2})
    yield 5, sheet(head=[where(NULL)], counts={2: 0})
    yield 5, sheet(head=[where(NULL)], counts={2: 2**32 - 1})
    # the earlier cause of the table counts
    yield 1, sheet(span=(1, 0)) + b"x"
    yield 2, sheet(span=(1, 0), names=[b"\xff"])
    yield 3, sheet(names=[b"\xff"], rows=[(1, 9, 9, 1, 0)])
    yield 4, sheet(rows=[(1, 9, 9, 1, 0)], head=[[99]])


# ---- random sheets

def random_expr(rng, depth):
    if depth >= DEPTH - 2 or rng.random() < 0.35:
        return rng.choice([[1], [2], [3], [4], [5], [6], [25], [7, rng.randrange(5)], [8, rng.randrange(3)]])
    sub = lambda n: [w for _ in range(n) for w in random_expr(rng, depth + 1 if rng.random() < 0.9 else depth + DEPTH - 8)]
    code = rng.choice([9, 10, 11, 12, 13, 14, 15, 16, 17, 18, 19, 20, 21, 22, 23, 24])
    if code == 9:
        return [9, rng.randrange(3)] + sub(1)
    if code in (10, 19):
        return [code] + sub(2)
    if code == 11:
        b = rng.randrange(4)
        return [11, b] + sub(1 + b % 2 + b // 2)
    if code in (12, 13, 14):
        n = rng.randrange(4)
        return [code, n] + sub(n)
    if code == 15:
        return [15, rng.randrange(20)] + sub(2)
    if code == 16:
        return [16, rng.randrange(2)] + sub(1)
    if code == 17:
        b, n = rng.randrange(4), rng.randrange(3)
        return [17, b, n] + sub(2 * n + b % 2 + b // 2)
    if code == 18:
        return [18] + sub(1)
    if code == 20:
        return [20] + random_pattern(rng, depth + 1)
    if code == 21:
        g = rng.randrange(2)
        return [21, g] + sub(2 + g)
    if code == 22:
        g = rng.randrange(2)
        return [22, 1, 2, g] + random_pattern(rng, depth + 1) + sub(1 + g)
    if code == 23:
        g = rng.randrange(2)
        return [23, g] + sub(1 + g)
    n = rng.randrange(4)
    out = [24, n] + sub(1)
    for _ in range(n):
        g = rng.randrange(2)
        out += [g] + sub(g)
    return out


def random_maybe(rng):
    return [0] if rng.random() < 0.4 else [1, rng.choice([1, 1, 2, 2, 3, 4])]


def random_pattern(rng, depth):
    out = [rng.randrange(3)]
    for _ in range(out[0]):
        n = rng.randrange(4)
        out += random_maybe(rng) + [n]
        for _ in range(n):
            out += [rng.choice([1, 2]), 3, 4] + random_maybe(rng)
            out += [0] if rng.random() < 0.6 else [1] + random_expr(rng, depth)
    return out


def random_clause(rng):
    e = lambda: random_expr(rng, 1)
    projections = lambda n: [n] + [w for _ in range(n) for w in [rng.randrange(4)] + e()]
    kind = rng.randrange(1, 14)
    keys = lambda n: [n] + [w for _ in range(n) for w in e()]
    body = {
        1: lambda: [rng.randrange(2)] + random_pattern(rng, 1), 2: e, 3: lambda: projections(rng.randrange(3)) + rng.choice([[0], [1] + e()]),
        4: lambda: projections(rng.randrange(3)), 5: lambda: [rng.choice([1, 2, 2, 3])] + e(), 6: lambda: random_pattern(rng, 1),
        7: lambda: random_pattern(rng, 1), 8: lambda: [3, 1] + e() + e() + [2, 3] + e(), 9: lambda: [2, 2, 1] + e(), 10: lambda: [1] + e(),
        11: lambda: [1] + e() + [1, rng.randrange(3), rng.randrange(4), rng.randrange(9)],
        12: lambda: projections(rng.randrange(3)) + rng.choice([[0], [1] + e()]) + keys(rng.randrange(3)),
        13: lambda: projections(rng.randrange(3)) + keys(rng.randrange(3)),
    }[kind]()
    return [kind, 5, 6] + body


def random_sheet(rng):
    head = [random_clause(rng) for _ in range(rng.randrange(4))]
    arms = [(0, 1, [random_clause(rng) for _ in range(rng.randrange(3))]) for _ in range(rng.randrange(3))]
    s = sheet(names=[b"a", b"*", b"id"], rows=[(1, 0, 1, 0, 0), (2, 1, 4, 0, 0), (3, 2, 2, 0, 0)], head=head, arms=arms)
    if rng.random() < 0.5:
        b = bytearray(s)
        for _ in range(rng.randrange(1, 3)):
            at = rng.randrange(len(b) // 4)
            b[4 * at:4 * at + 4] = struct.pack("<I", rng.choice([0, 1, 2, 3, 4, 5, 12, 13, 20, 22, 24, rng.randrange(30), 2**32 - 1]))
        s = bytes(b)
    return s


def write(stdin, stdout, sheets):
    with open(stdin, "wb") as f:
        f.write(b"".join(struct.pack("<I", len(s)) + s for s in sheets))
    with open(stdout, "w") as f:
        f.write("".join("%d\n" % refusal(s) for s in sheets))


def main():
    if len(sys.argv) == 3:
        rng = random.Random(int(sys.argv[2]))
        write("random.stdin", "random.stdout", [random_sheet(rng) for _ in range(int(sys.argv[1]))])
        return
    sheets = []
    for want, s in made():
        if want is not None and refusal(s) != want:
            sys.exit("made for %d, decoded as %d: %s" % (want, refusal(s), s.hex()))
        sheets.append(s)
    write("crates/refusals/stdin", "crates/refusals/stdout", sheets)


if __name__ == "__main__":
    main()
