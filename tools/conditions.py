#!/usr/bin/env python3
"""A model of printed conditions and of their reader, written from document 02 (CR 9), held against programs `conditions` and `tree`.

    tools/conditions.py [--bin DIR] [OPERATORS [TEXTS]]

Printed from sheets and read back are all trees of up to two operators over all 22 signs, whose brackets are found by brute force, and all
trees of up to OPERATORS operators (3) over one sign of each level; they stand in a WHERE and in the filter of a WITH, without sort keys and
with, in head and arm. Read are TEXTS (1,000) texts with spare brackets and as many with a
change somewhere. DIR is where the programs are (target/bin). The exit status is 0 if nothing differs.
"""
import random
import re
import struct
import subprocess
import sys
from functools import lru_cache

LEVELS = [["OR"], ["XOR"], ["AND"], ["NOT"], ["=", "<>", "<", "<=", ">", ">="], ["STARTS WITH", "ENDS WITH", "CONTAINS", "=~"],
          ["+", "-", "||"], ["*", "/", "%"], ["^"], ["unary -"]]
BINARY = ["+", "-", "*", "/", "%", "^", "=", "<>", "<", "<=", ">", ">=", "AND", "OR", "XOR", "STARTS WITH", "ENDS WITH", "CONTAINS", "=~", "||"]
UNARY = ["unary -", "NOT"]
SIGN = {"unary -": "- ", "NOT": "NOT "}
LEVEL = {sign: level for level, signs in enumerate(LEVELS) for sign in signs}
COMPARISON = LEVEL["="]
ATOMS = 2048


# ---- trees: (place,), (unary sign, tree), (sign, left, right)

def left_level(sign):
    """The least level of a bare left operand: its own, but a comparison's must be tighter."""
    return LEVEL[sign] + (LEVEL[sign] == COMPARISON)


@lru_cache(maxsize=1 << 18)
def readings(text, least=0):
    """All trees that a text is written as in a place whose bare operands have at least this level: the rules, over all splits."""
    found = set()
    if re.fullmatch("e(0|[1-9][0-9]{0,3})", text) and int(text[1:]) < ATOMS:
        found.add((int(text[1:]),))
    for sign in UNARY:
        if least <= LEVEL[sign] and text.startswith(SIGN[sign]):
            found |= {(sign, x) for x in readings(text[len(SIGN[sign]):], LEVEL[sign])}
    for sign in BINARY:
        if least <= LEVEL[sign]:
            between = " %s " % sign
            at = text.find(between)
            while at >= 0:
                for x in readings(text[:at], left_level(sign)):
                    found |= {(sign, x, y) for y in readings(text[at + len(between):], LEVEL[sign] + 1)}
                at = text.find(between, at + 1)
    if text[:1] == "(" and text[-1:] == ")":
        found |= readings(text[1:-1], 0)
    return frozenset(found)


def written(tree, least=0, spare=lambda: 0):
    """A text of a tree: brackets where its level is too loose for its place, and so many spare ones about each part."""
    if len(tree) == 1:
        text, level = "e%d" % tree[0], len(LEVELS)
    elif len(tree) == 2:
        text, level = SIGN[tree[0]] + written(tree[1], LEVEL[tree[0]], spare), LEVEL[tree[0]]
    else:
        sign, x, y = tree
        text = "%s %s %s" % (written(x, left_level(sign), spare), sign, written(y, LEVEL[sign] + 1, spare))
        level = LEVEL[sign]
    n = spare() + (level < least)
    return "(" * n + text + ")" * n


def bracketed(tree):
    if len(tree) == 1:
        return "e%d" % tree[0]
    if len(tree) == 2:
        return "(%s%s)" % (SIGN[tree[0]], bracketed(tree[1]))
    return "(%s %s %s)" % (bracketed(tree[1]), tree[0], bracketed(tree[2]))


def fewest(tree):
    """The text with all brackets, from which pair after pair is taken out as long as it reads as this tree and no other."""
    text = bracketed(tree)
    while True:
        for first, last in pairs(text):
            shorter = text[:first] + text[first + 1:last] + text[last + 1:]
            if readings(shorter) == {tree}:
                text = shorter
                break
        else:
            return text


def pairs(text):
    opened = []
    for at, sign in enumerate(text):
        if sign == "(":
            opened.append(at)
        elif sign == ")":
            yield opened.pop(), at


def entries(tree):
    """The entries in prefix order, a line each, as program `tree` prints them."""
    if len(tree) == 1:
        return ["0 %d" % tree[0]]
    if len(tree) == 2:
        return ["16 %d" % UNARY.index(tree[0])] + entries(tree[1])
    return ["15 %d" % BINARY.index(tree[0])] + entries(tree[1]) + entries(tree[2])


def trees(operators, unary, binary):
    if operators == 0:
        yield (0,)
        return
    for x in trees(operators - 1, unary, binary):
        yield from ((sign, x) for sign in unary)
    for k in range(operators):
        for x in trees(k, unary, binary):
            for y in trees(operators - 1 - k, unary, binary):
                yield from ((sign, x, y) for sign in binary)


# ---- sheets of clauses with conditions

def words(tree, at):
    """The words of an expression that begins at a word, and its tree with atoms by their places."""
    if len(tree) == 1:
        return [1], (at,)
    if len(tree) == 2:
        inner, x = words(tree[1], at + 2)
        return [16, UNARY.index(tree[0])] + inner, (tree[0], x)
    first, x = words(tree[1], at + 2)
    second, y = words(tree[2], at + 2 + len(first))
    return [15, BINARY.index(tree[0])] + first + second, (tree[0], x, y)


# What stands before and after a condition in its clause: a WHERE, a WITH, one with no sort key, and one with a key that has a sign.
CLAUSES = [([2, 0, 0], []), ([3, 0, 0, 0, 1], []), ([12, 0, 0, 0, 1], [0]), ([12, 0, 0, 1, 0, 1, 1], [1, 15, 6, 1, 1])]
# No condition: a RETURN whose sort key has a sign.
RETURN = [13, 0, 0, 0, 1, 15, 6, 1, 1]
HALF, MOST = 1000, 2038


def sheets(shapes):
    """Sheets that hold these conditions, as many as fit each, with their trees: in each of the clauses in turn, in the head and, when it is
    half full, in an arm."""
    head, arm, placed = [], [], []

    def clause(n, shape):
        before, after = CLAUSES[n % len(CLAUSES)]
        in_arm = len(head) >= HALF
        at = len(head) + in_arm * (3 + len(sum(arm, []))) + len(before)
        expression, tree = words(shape, at)
        return in_arm, before + expression + after, tree

    def made():
        arms = [0, 0, len(arm)] + sum(arm, []) if arm else []
        whole = len(head) + len(arms)
        trailer = [whole, 0, whole, 0, whole, len(placed) - len(arm) + 1, len(arms), int(bool(arm)), 0, 0]
        return struct.pack("<%dI" % (whole + 10), *head, *arms, *trailer), list(placed)

    head += RETURN
    for n, shape in enumerate(shapes):
        in_arm, body, tree = clause(n, shape)
        if len(head) + in_arm * (3 + len(sum(arm, []))) + len(body) > MOST:
            yield made()
            head[:] = RETURN
            arm.clear()
            placed.clear()
            in_arm, body, tree = clause(n, shape)
        if in_arm:
            arm.append(body)
        else:
            head += body
        placed.append(tree)
    if placed:
        yield made()


# ---- against the programs

class Run:
    def __init__(self, folder):
        self.folder, self.printed, self.read, self.wrong = folder, 0, 0, 0

    def program(self, name, data):
        return subprocess.run(["%s/%s" % (self.folder, name)], input=data, stdout=subprocess.PIPE, check=True).stdout.decode("latin1")

    def differs(self, what, ours, wanted):
        self.wrong += 1
        if self.wrong <= 5:
            print("%s\n  gives %r\n  wanted %r" % (what, ours, wanted))

    def print_all(self, shapes, text):
        for sheet, placed in sheets(shapes):
            wanted = [text(tree) for tree in placed]
            lines = self.program("conditions", sheet).split("\n")[:-1]
            self.printed += len(placed)
            if lines != wanted:
                self.differs("a sheet of %d conditions" % len(placed), lines, wanted)
            for line, tree in zip(lines, placed):
                self.reads(line, tree)

    def reads(self, text, tree):
        wanted = "unread\n" if tree is None else "\n".join(["entries %d" % len(entries(tree))] + entries(tree)) + "\n"
        ours = self.program("tree", text.encode("latin1"))
        self.read += 1
        if ours != wanted:
            self.differs(text, ours, wanted)


def mutated(text, draw):
    """A text with something changed, taken out or put in."""
    at = draw.randrange(len(text) + 1)
    piece = draw.choice(["", " ", "(", ")", "e", "0", "- ", "NOT ", " = ", "=", "e2048", "e7", draw.choice(BINARY)])
    return text[:at] + piece + text[at + draw.randrange(3):]


def main(words):
    folder = "target/bin"
    if words[:1] == ["--bin"]:
        folder, words = words[1], words[2:]
    most, count = ([int(x) for x in words] + [3, 1000][len(words):])[:2]
    run, draw = Run(folder), random.Random(1)
    one_each = [signs[0] for signs in LEVELS if signs[0] not in UNARY]
    for n in range(3):
        run.print_all(trees(n, UNARY, BINARY), fewest)
    for n in range(3, most + 1):
        run.print_all(trees(n, UNARY, one_each), written)
    some = [t for n in range(4) for t in trees(n, UNARY, one_each)]
    for _ in range(count):
        tree = numbered(draw.choice(some), draw)
        spare = written(tree, 0, lambda: draw.choice([0, 0, 0, 1, 2]))
        run.reads(spare, tree)
        text = mutated(draw.choice([spare, written(tree)]), draw)
        found = readings(text)
        if len(found) > 1:
            run.differs(text, "two trees by the rules", "one")
        run.reads(text, next(iter(found), None))
    print("conditions: %d printed, %d texts read, %d differ" % (run.printed, run.read, run.wrong))
    return run.wrong > 0


def numbered(tree, draw):
    """The tree with atoms of any number."""
    if len(tree) == 1:
        return (draw.choice([0, 9, 10, 123, 2047]),)
    return (tree[0],) + tuple(numbered(x, draw) for x in tree[1:])


if __name__ == "__main__":
    try:
        sys.exit(main(sys.argv[1:]))
    except ValueError:
        sys.exit(__doc__)
