#!/usr/bin/env python3
"""Counts the places of docs/DESIGN-PASS.md in crates/*/src (and the lines of crates/*/proofs), by patterns: tools/places.py [FOLDER] [-v]."""
import collections
import glob
import os
import re
import sys

verbose = "-v" in sys.argv
top = next((a for a in sys.argv[1:] if a != "-v"), ".")
files = {f: open(f).read() for f in sorted(glob.glob(os.path.join(top, "crates/*/src/*.rt")))}
code = {f: "\n".join(line for line in text.split("\n") if not line.lstrip().startswith("//")) for f, text in files.items()}


def found(pattern, keep=lambda m: True):
    return [(f, m.group(0).strip()) for f, t in code.items() for m in re.finditer(pattern, t, re.M | re.S) if keep(m)]


functions = found(r"^ *(?:pub )?(?:const )?(?:extern \"C\" )?fn \w+(?:<[^{(]*>)?\([^{]*?\)(?: -> [^{]*?)?(?=\n? *(?:requires|ensures|\{|where))")
enums = found(r"^(?:pub )?enum \w+(?:<[^{]*>)? \{.*?^\}")
shaped = [e for e in enums if re.search(r"\b(No|Nothing|None|Refused|Nowhere|Rare|Unread|Bad)\b[,( ]", e[1]) and len(re.findall(r"^    \w+[(,]", e[1], re.M)) <= 3]
clauses = collections.Counter(re.sub(r"\s+", " ", m) for t in code.values() for m in re.findall(r"^ *(?:requires|ensures)\b[^{]*\{(.*)\}$", t, re.M))
parts = collections.Counter()
for text in clauses.elements():
    for part in re.split(r" × ", re.sub(r"[()]", " ", text)):
        parts[re.sub(r"\s+", " ", part).strip()] += 1


def params(text):
    inner = text[text.index("(") + 1:]
    return len(re.findall(r"\w+\s*:", inner.split(") ->")[0]))


counts = [
    ("1", "own enums of the shape of Option or Result", shaped),
    ("1", "numbers for a refusal: `return N;`, `Refused(N)`, `Err(N)`", found(r"\breturn [1-9]\d?;|Refused\([1-9]\d?\)|Err\([1-9]\d?\)")),
    ("1", "parameters that are numbers for kinds or codes", found(r"\b(?:kind|code|mode|sort|set|choice): u32\b")),
    ("2", "functions that differ in a size: names that end in a number", found(r"\bfn \w+_\d+\b")),
    ("3", "`while` and `loop`", found(r"^ *(?:while|loop)\b")),
    ("4", "functions named for comparing, copying or printing", found(r"\bfn (?:same|eq|equal|copy|put|print|begins|ends)(?:_\w+)?\b")),
    ("5", "functions of six parameters or more", [x for x in functions if params(x[1]) >= 6]),
    ("5", "facts that stand in three contracts or more", [("", p) for p, n in parts.items() if n >= 3 and len(p) > 12]),
    ("6", "functions with a slice and a count of it", [x for x in functions if re.search(r"&(?:mut )?\[", x[1]) and re.search(r"\b(?:n|k|count|len|a|b|c): (?:usize|u32)\b", x[1])]),
    ("6", "arrays of zeros", found(r"\[0u\d+; \w+\]")),
    ("6", "strides: `* 3` to `* 6` in an index", found(r"\* [3-6]\b")),
    ("7", "a mode taken apart by `/` and `%`", found(r"\bmode (?:/|%) ")),
]
for point, name, places in counts:
    print(f"{point}  {len(places):5}  {name}")
    if verbose:
        for f, text in places:
            print("         ", os.path.relpath(f, top) if f else "", text.split("\n")[0][:120])
lines = sum(len(open(f).read().split("\n")) - 1 for f in glob.glob(os.path.join(top, "crates/*/proofs/**/*.antt"), recursive=True))
print(f"8  {lines:5}  lines of proofs")
print(f"   {sum(len(t.split(chr(10))) - 1 for t in files.values()):5}  lines of code")
