#!/usr/bin/env python3
"""Holds tools/sheet.py against sheets of which is known whether they are accepted: a text comes of exactly these, and gives them back.

    tools/roundtrip.py [N [SEED]]       the stored sheets of program `refusals`, then N random and damaged ones; 1,000 of seed 1 without
                                        numbers
"""
import os
import random
import struct
import sys

sys.dont_write_bytecode = True
import refusals
import sheet

STORED = os.path.join(os.path.dirname(__file__), "..", "crates", "refusals")


def stored():
    """Each stored sheet, and whether it is accepted."""
    with open(os.path.join(STORED, "stdin"), "rb") as row, open(os.path.join(STORED, "stdout")) as numbers:
        for number in numbers:
            (length,) = struct.unpack("<I", row.read(4))
            yield row.read(length), int(number) == 0


def made(count, seed):
    rng = random.Random(seed)
    for _ in range(count):
        given = refusals.random_sheet(rng)
        yield given, refusals.refusal(given) == 0


def back(given):
    """The sheet of a sheet's text, or none where it has no text."""
    try:
        return sheet.sheet_of(sheet.text_of(given))
    except (sheet.NoSheet, RecursionError):
        return None


def main():
    sys.setrecursionlimit(20000)
    count, seed = (list(map(int, sys.argv[1:])) + [1000, 1][len(sys.argv) - 1:])[:2]
    for what, sheets in ("stored", stored()), ("random", made(count, seed)):
        total = accepted = wrong = 0
        for given, is_accepted in sheets:
            total += 1
            accepted += is_accepted
            wrong += back(given) != (given if is_accepted else None)
        print("%d %s sheets, %d accepted, %d wrong" % (total, what, accepted, wrong))
        if wrong:
            sys.exit(1)


if __name__ == "__main__":
    main()
