#!/usr/bin/env python3
"""Respells the repository's own names in contracts, definitions and proofs: words in snake case, where they were in camel case.

usage: tools/respell.py        once, at the top of the repository, right after the toolchain's own script

A name is read in parts that dashes join. A part that begins with a small letter is turned (`useId` is `use_id`, `length-pairsAt` is
`length-pairs_at`); one that begins with a capital is a type, a module or a variant, and stays. Names of Rust functions are in snake case
already. Turned are the .rt and .antt files of all crates, their must-fail edits, and names in backquotes in README.md and docs/.
A lemma that had a definition's new name before gets the ending _lem: LEMMAS lists these with the crates they stand in.
"""

import os
import re
import sys

TOKEN = re.compile(r"[^\s(){};,.λ→\[\]\"`:/]+")
QUOTED = re.compile(r"`[^`\n]*`")
STRING = re.compile(r'"(?:[^"\\\n]|\\.)*"')
LEMMAS = {
    "bind_all": ["theorems"],
    "name_body": ["tables"],
    "no_keys": ["clauses"],
    "record_of": ["finding"],
    "row_words": ["sheet_walk"],
    "seen_as": ["with_walk"],
    "name_in": ["told"],
    "names_in": ["told"],
    "head_in": ["name_chains", "rows"],
    "head_at": ["walk"],
    "goes_on": ["clause_parts", "projection_walk", "arm_walk", "return_walk"],
    "left_over": ["condition_text"],
}

# What the library called otherwise when the edits were written, which the toolchain's script leaves as they are.
LIBRARY = {"getD": "get_or"}


def part(word):
    if not re.match(r"[a-zα-ω]", word):
        return word
    return re.sub(r"(?<=[a-z0-9])([A-Z])", lambda m: "_" + m.group(1).lower(), word)


def name(word, crate, in_proof):
    if in_proof and crate in LEMMAS.get(word, ()):
        return word + "_lem"
    return "-".join(part(p) for p in word.split("-"))


def turned(text, crate, in_proof):
    return TOKEN.sub(lambda m: name(m.group(), crate, in_proof), text)


def outside_strings(text, turn):
    """Turns what is not within the quotes of a string of the source."""
    out, at = [], 0
    for m in STRING.finditer(text):
        out += [turn(text[at : m.start()]), m.group()]
        at = m.end()
    return "".join(out + [turn(text[at:])])


def files(top):
    for folder, dirs, names in os.walk(top):
        dirs[:] = sorted(d for d in dirs if d not in ("out", ".git", "target"))
        for n in sorted(names):
            yield os.path.join(folder, n)


def main():
    if not os.path.isdir("crates"):
        sys.exit("run it at the top of the repository")
    changed = 0
    for path in list(files("crates")) + ["README.md"] + list(files("docs")):
        crate = path.split(os.sep)[1] if path.startswith("crates") else ""
        with open(path, "rb") as f:
            raw = f.read()
        try:
            old = raw.decode()
        except UnicodeDecodeError:
            continue
        if path.endswith(".antt"):
            new = outside_strings(old, lambda t: turned(t, crate, f"{os.sep}proofs{os.sep}" in path))
        elif path.endswith(".rt"):
            new = outside_strings(old, lambda t: turned(t, crate, False))
        elif path.endswith(".edit"):
            new = TOKEN.sub(lambda m: LIBRARY.get(m.group()) or name(m.group(), crate, False), old)
        elif path.endswith(".md"):
            new = QUOTED.sub(lambda m: turned(m.group(), "", False), old)
        else:
            continue
        if new != old:
            changed += 1
            with open(path, "w") as f:
                f.write(new)
    print(f"{changed} files")


if __name__ == "__main__":
    main()
