#!/usr/bin/env python3
"""Sheets at the edges of the programs.

    tools/edges.py page        a row of two sheets: the listing of the first fills the page of 65,536 bytes, that of the second has one more
    tools/edges.py entries     a row of two sheets: the first needs 2,048 bindings and carried names, the second one more of each
    tools/edges.py overlong    8,196 bytes, of which the first 8,192 are a sheet of their own
"""
import struct
import sys

PAGE, LONGEST_SHEET, ENTRIES = 65536, 8192, 2048


def sheet_of(names, head, clauses):
    words = []
    for name in names:
        words += [len(name), *struct.unpack("<%dI" % (-(-len(name) // 4)), name + bytes(-len(name) % 4))]
    back = len(words) + len(head)
    trailer = [back, len(names), len(head), 0, len(head), clauses, 0, 0, 0, 0]
    return struct.pack("<%dI" % (back + len(trailer)), *words, *head, *trailer)


def sheet(names, uses):
    """Names, and one Return whose projections are uses of them by index."""
    head = [4, 0, 0, len(uses)]
    for use in uses:
        head += [0, 8, use]
    return sheet_of(names, head, 1)


def carrying(more):
    """A WITH of 64 aliases and 31 of a star, in all 2,048 carried names, of which the last WITH has so many aliases more."""
    names = [b"*"] + [b"%d" % number for number in range(63 + more)]
    head = [3, 0, 0, 64]
    for name in range(64):
        head += [name + 1, 3]
    head.append(0)
    for left in range(30, -1, -1):
        aliases = more if left == 0 else 0
        head += [3, 0, 0, 1 + aliases, 0, 8, 0]
        for name in range(aliases):
            head += [64 + name + 1, 3]
        head.append(0)
    return sheet_of(names, head, 32)


def listing_length(names, uses):
    lines = ["E1001 0 0 unresolved variable `%s`\n" % names[use].decode() for use in uses]
    return len("findings %d\n" % len(uses)) + sum(map(len, lines))


def filling(length):
    """A sheet whose listing has that many bytes: uses of a long name, and one of a name that makes up the rest."""
    long = b"x" * 255
    for count in range(1000):
        for rest in range(1, 255):
            names, uses = [long, b"y" * rest], [0] * count + [1]
            if listing_length(names, uses) == length:
                return sheet(names, uses)
    raise SystemExit("no such sheet")


def main():
    out = sys.stdout.buffer
    if sys.argv[1:] == ["page"]:
        for length in (PAGE, PAGE + 1):
            s = filling(length)
            out.write(struct.pack("<I", len(s)) + s)
    elif sys.argv[1:] == ["entries"]:
        assert 64 * 32 == ENTRIES
        for more in (0, 1):
            s = carrying(more)
            out.write(struct.pack("<I", len(s)) + s)
    elif sys.argv[1:] == ["overlong"]:
        room = LONGEST_SHEET // 4 - len(sheet([], [])) // 4
        s = sheet([b"x"], [0] * ((room - 2) // 3))
        s = s if len(s) == LONGEST_SHEET else sheet([b"x" * (1 + LONGEST_SHEET - len(s))], [0] * ((room - 2) // 3))
        assert len(s) == LONGEST_SHEET
        out.write(s + bytes(4))
    else:
        raise SystemExit(__doc__)


main()
