#!/usr/bin/env python3
"""Holds tools/scopes.py against what the programs print: every tree reads back as the lists that it was made of, and the page has its lines.

    tools/scopes_check.py [DIR]     DIR has programs `lists` and `names`; target/bin without it

The sheets are those of program `answers`, then one with names that could break a line or a page. Last come lists made here of 2,000 scopes,
600 deep, which no sheet gives.
"""
import html.parser
import os
import re
import struct
import subprocess
import sys
import time

sys.dont_write_bytecode = True
import scopes
import sheet

HERE = os.path.dirname(__file__)
STORED = os.path.join(HERE, "..", "crates", "answers", "stdin")
ODD = ["", " ", "a", "<b>", "</style><script>", "&lt;", "\"", "'", "`", "\\", "\\n", "\n", "\r", "\t", "\0", "\x7f", "\x85", "\u2028", "\u202e", "\u200b", "\u0301",
       "e\u0301", "\u05d0", "\u00e9", "\ud55c", "\U0001f3ad", "\ue000", "\U0010ffff", "x" * 255, "\x01" * 255, "\u20ac" * 85, "`, variable 7, Node",
       "a` to variable 1, Node\n  9 Root 0..0", "\nscopes 1\n1 - 0 0\nbindings 0\n", "refused 5\n", "over WITH 2", "b\n9 resolved 1 1 0", "-->", "]]>"]

NAME = r"`((?:[^`\\]|\\.)*)`"
KIND = "(%s)" % "|".join(scopes.KINDS)
SCOPE = re.compile(r"(\d+) (%s) (\d+)\.\.(\d+)" % "|".join(scopes.SCOPES))
BINDS = re.compile(r"binds %s to variable (\d+), %s(?:, replaced variable (\d+))?(?:, over WITH (\d+))?" % (NAME, KIND))
CARRIES = re.compile(r"carries variable (\d+) as %s(?:, until here %s)?" % (NAME, NAME))
WHAT = "(?:%s|Var [0-9]+)" % NAME.replace("((", "(?:(")
USE = re.compile(r"use (%s(?: or %s)*)(?:(?:, variable (\d+))?, %s(, via_projection)?(?:, scopes ([0-9, ]+))?)?" % (WHAT, WHAT, KIND))
ESCAPE = re.compile(r"\\(?:u\{([0-9a-f]+)\}|(.))")
ENDS = ("uses that several scopes bind", "uses that no scope binds", "uses that are not found")


def must(holds, *what):
    if not holds:
        sys.exit("tools/scopes_check.py: " + " ".join(map(repr, what)))


def numbers(words):
    return [None if w is None else int(w) for w in words]


def unescaped(text):
    return ESCAPE.sub(lambda m: chr(int(m[1], 16)) if m[1] else "\n" if m[2] == "n" else m[2], text).encode()


def match(pattern, line):
    found = pattern.fullmatch(line)
    must(found, "a line of no form", line)
    return found.groups()


class Index(dict):
    """The index of each name, and of the text of a generated one -1 - the id."""

    def __init__(self, names):
        super().__init__((name, i) for i, name in enumerate(names))

    def __missing__(self, text):
        found = re.fullmatch(rb"__var(0|[1-9][0-9]*)", text)
        must(found, "no name", text)
        return -1 - int(found[1])


def read_back(text, names):
    """The lists of a tree: scopes, bindings and carried by scope, and each use with the scopes that it is said to have."""
    index = Index(names)
    made, bindings, carried, uses, above, end = {}, {}, {}, [], [], None
    must(text.endswith("\n"), "no line feed at the end")
    for row in text[:-1].split("\n"):
        line = row.lstrip(" ") if not end else row[2:]
        depth = (len(row) - len(line)) // 2
        if row in ENDS:
            end = row
        elif line[:1].isdigit():
            number, kind, start, stop = match(SCOPE, line)
            must(depth <= len(above), "a scope too deep", row)
            del above[depth:]
            made[int(number)] = (scopes.SCOPES.index(kind) + 1, above[-1] if above else None, int(start), int(stop))
            above.append(int(number))
        elif line.startswith("binds "):
            name, variable, kind, replaced, over = match(BINDS, line)
            must(depth == len(above), "a line of another scope", row)
            parent = made[above[-1]][1]
            must(numbers([over])[0] == (parent if parent is not None and made[parent][0] == 7 else None), "another WITH", row)
            bindings.setdefault(above[-1], []).append((index[unescaped(name)], int(variable), scopes.KINDS.index(kind) + 1, numbers([replaced])[0]))
        elif line.startswith("carries "):
            variable, name, before = match(CARRIES, line)
            must(before is None or index[unescaped(before)] is not None, "no name", row)
            carried.setdefault(above[-1], []).append((index[unescaped(name)], int(variable)))
        else:
            what, variable, kind, via, several = match(USE, line)
            found = [index[unescaped(m[1])] for m in re.finditer(NAME, what)]
            is_var = re.search(r"(?:^| or )Var (\d+)$", what)
            uses.append((end, found, is_var and int(is_var[1]), variable and int(variable), kind, bool(via),
                         [int(s) for s in several.split(", ")] if several else [] if end else [above[-1]]))
    return [made[i] for i in range(len(made))], bindings, carried, uses


def by_scope(entries):
    found = {}
    for scope, *rest in entries:
        found.setdefault(scope, []).append(tuple(rest))
    return found


def check_text(text, printed, names):
    tail = printed[printed.rindex(b"\nscopes ") + 1:].decode().split("\n")
    lists = {}
    for line in tail[:-1]:
        if line[0].isalpha():
            entries = lists.setdefault(line.split(" ")[0], [])
        else:
            entries.append([None if w == "-" else int(w) if w.isdigit() else w for w in line.split(" ")])
    made, bindings, carried, uses = read_back(text, names)
    must(made == [tuple(s) for s in lists["scopes"]], "other scopes")
    must(bindings == by_scope([s, scopes.name_of(n, m), *rest] for s, n, *rest, m in lists["bindings"]), "other bindings")
    must(carried == by_scope([s, scopes.name_of(n, m), *rest] for s, n, *rest, m in lists["carried"]), "other carried names")
    told = {}
    for end, found, var, variable, kind, via, where in uses:
        ids = {scopes.use_id(names[i]) for i in found} | ({var} if var is not None else set())
        must(len(ids) == 1, "a use of several ids", found, var)
        variable = var if variable is None and kind else variable
        key = (min(ids), variable, kind and scopes.KINDS.index(kind) + 1, int(via))
        must(key not in told, "a use twice", key)
        told[key] = end
        must((end == ENDS[2]) == (kind is None) and (end == ENDS[0]) == (len(where) > 1) and (end == ENDS[1]) == (bool(kind) and not where), "the wrong list", key)
        binding = [s for s in sorted(bindings) if any(v == variable and (name in found or var == v) for name, v, k, r in bindings[s])]
        over = [s for s in binding if made[s][1] is not None and made[made[s][1]][0] == 7]
        must(where == [s for s in binding if var is not None or (s in over) == via], "other scopes of a use", key, where)
    must(set(told) == {(r[0], None, None, 0) if r[1] == "unresolved" else (r[0], *r[2:]) for r in lists["recorded"]}, "other uses")


class Page(html.parser.HTMLParser):
    """The lines of a page as the text has them."""

    def __init__(self, page):
        super().__init__()
        self.lines, self.open, self.ids, self.links = [], [], set(), set()
        self.feed(page)
        self.close()
        must(not self.open and self.links <= self.ids, "a page with open tags, or links to nothing")

    def handle_starttag(self, tag, attributes):
        if tag == "meta":
            return
        must(tag in "html head title style body h1 h2 p ol ul li div span b i em a code bdi".split(), "a page with", tag)
        for name, value in attributes:
            must(name in ("lang", "class", "id", "style", "href", "aria-level"), "a page with", name)
            if name == "href":
                self.links.add(value[1:])
            if name == "id":
                self.ids.add(value)
        self.open.append(tag)
        if tag == "div" or tag == "li" and dict(attributes).get("class") in ("binds", "carries", "use") or tag == "h2":
            self.lines.append("")
        if tag == "em":
            self.lines[-1] = self.lines[-1].rstrip(" ") + ", "

    def handle_endtag(self, tag):
        must(self.open and self.open.pop() == tag, "a page with a wrong end of", tag)

    def handle_data(self, data):
        if self.lines and self.open and self.open[-1] not in ("body", "html", "ol", "ul") and (data != "\n" or self.open[-1] != "li"):
            self.lines[-1] += data


def check_page(page, text):
    must("://" not in page and "url(" not in page and "@import" not in page, "a page that loads something")
    lines = [re.sub(r" in \d+$", "", line) if line[:1].isdigit() else line for line in Page(page).lines]
    wanted = [line.strip(" ") if line.lstrip(" ")[:1].isdigit() else line.lstrip(" ") for line in text[:-1].split("\n")]
    wanted = [line[0].upper() + line[1:] if line in ENDS else line for line in wanted]
    must(lines == wanted, "a page with other lines", *[pair for pair in zip(lines, wanted) if pair[0] != pair[1]][:1])


def check(given, printed_lists, printed_names):
    """Whether the sheet is accepted; then its tree and its page are right."""
    try:
        tree = scopes.Tree(given, printed_lists, printed_names)
    except scopes.Refused:
        return False
    text = scopes.text_of(tree)
    check_text(text, printed_lists, scopes.names_of(given, printed_names))
    check_page(scopes.page_of(tree, "x"), text)
    return True


def stored():
    with open(STORED, "rb") as row:
        while front := row.read(4):
            yield row.read(*struct.unpack("<I", front))


def odd_sheet():
    """Each odd name is bound, carried under the next one, and used."""
    quoted = [sheet.json.dumps(name) for name in ODD]
    lines = ["Binding(%d, %s, Node, 0..1)" % (i, q) for i, q in enumerate(quoted)]
    lines.append("Match(0..1, Part(%s))" % ", ".join("Node(0..1, %d)" % i for i in range(len(ODD))))
    lines.append("With(2..3, %s)" % ", ".join("As(%s, Unresolved(%s))" % (quoted[i - 1], q) for i, q in enumerate(quoted)))
    lines.append("Return(4..5, %s)" % ", ".join(["Unresolved(%s)" % q for q in quoted] + ['Unresolved("none\\n`<i>")']))
    return sheet.sheet_of("\n".join(lines))


def large():
    """A sheet of one name, and lists with far more scopes than it has: chains 600 deep, a WITH in every fourth place."""
    given = sheet.sheet_of("Binding(1, a, Node, 0..1)")
    kinds = (1, 2, 7, 1)
    lines = ["findings 0", "scopes 2000"]
    for i in range(2000):
        parent = "-" if i == 0 else "0" if i % 600 == 0 else str(i - 1)
        lines.append("%d %s %d %d" % (kinds[i % 4], parent, i, i + 1))
    bound = [i for i in range(2000) if i % 4 in (1, 3)]
    lines += ["bindings 1000"] + ["%d 0 %d 1 - 0" % (i, i // 2) for i in bound]
    lines += ["carried 500"] + ["%d 0 %d 0" % (i, i // 2) for i in range(2, 2000, 4)]
    lines += ["recorded 2", "1 resolved 1 1 0", "%d resolved 1 1 1" % scopes.use_id(b"a"), "records 0", ""]
    return given, "\n".join(lines).encode(), b"a\nrefused 5\n"


def main():
    programs = sys.argv[1] if len(sys.argv) > 1 else os.path.join(HERE, "..", "target", "bin")
    accepted = count = 0
    for given in [*stored(), odd_sheet()]:
        printed = [subprocess.run([os.path.join(programs, p)], input=given, stdout=subprocess.PIPE).stdout for p in ("lists", "names")]
        accepted += check(given, *printed)
        count += 1
    must(check(given, *printed), "the sheet with odd names is refused")
    files = large()
    began = time.perf_counter()
    tree = scopes.Tree(*files)
    text, page = scopes.text_of(tree), scopes.page_of(tree, "x")
    took = time.perf_counter() - began
    check(*files)
    must(max(depth for depth, scope in tree.walk()) == 600 and ", via_projection" in text and took < 1, "the large tree", took)
    print("%d sheets, %d accepted: their trees and pages read back; 2,000 scopes took %.0f ms" % (count, accepted, took * 1000))


if __name__ == "__main__":
    main()
