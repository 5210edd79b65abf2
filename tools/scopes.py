#!/usr/bin/env python3
"""The scopes of a sheet as a tree; docs/SCOPES.md says what it shows.

    tools/scopes.py SHEET LISTS NAMES                   the tree as indented text
    tools/scopes.py --html TITLE SHEET LISTS NAMES      the tree as a page

LISTS and NAMES are what programs `lists` and `names` print of SHEET; `./run --scopes` and `./run --html` make them. A refused sheet gives
`refused` and its number, and the exit status 2. An error is one line, and the exit status is 2 then too.
"""
import html
import os
import struct
import sys
import unicodedata

SCOPES = ("Root", "Match", "Create", "Merge", "Unwind", "Call", "WithBarrier", "Return", "PatternComprehension")
KINDS = ("Node", "Relationship", "Path", "Value")
WITH_BARRIER = SCOPES.index("WithBarrier") + 1
LISTS = ("scopes", "bindings", "carried", "recorded", "records")


class Bad(Exception):
    """What is wrong with the files."""


class Refused(Exception):
    """The line `refused` and a number."""


# ---- what the programs print

def fields(line, count):
    """The numbers of a line, and none for `-`."""
    words = line.split(b" ")
    if len(words) != count or not all(w.isdigit() or w == b"-" for w in words):
        raise Bad("program lists has a line of another form: %r" % line)
    return tuple(None if w == b"-" else int(w) for w in words)


def lists_of(printed):
    """The lines of each list. They are sought from the end: an entry begins with a digit and a heading doesn't, whereas names in the listing
    above may have any text."""
    lines = printed.split(b"\n")
    if len(lines) == 2 and lines[0].startswith(b"refused ") and not lines[1]:
        raise Refused(lines[0].decode())
    found, end = {}, len(lines) - 1
    for name in reversed(LISTS):
        at = end - 1
        while at >= 0 and lines[at][:1].isdigit():
            at -= 1
        if at < 0 or lines[at] != b"%s %d" % (name.encode(), end - at - 1):
            raise Bad("program lists printed no list %s" % name)
        found[name] = lines[at + 1:end]
        end = at
    return found


class Use:
    """A recorded use. A name that is not found has no variable."""

    def __init__(self, line):
        words = line.split(b" ")
        self.found = words[1:2] == [b"resolved"]
        if not self.found and words[1:] != [b"unresolved"]:
            raise Bad("program lists has a line of another form: %r" % line)
        numbers = fields(b" ".join(words[:1] + words[2:]), 4 if self.found else 1)
        self.id, self.variable, self.kind, self.via = numbers if self.found else numbers + (None, None, 0)


def names_of(sheet, printed):
    """The names that program `names` printed. A name may have line feeds, so the sheet's own lengths part them."""
    words = struct.unpack("<%dI" % (len(sheet) // 4), sheet)
    found, at, begin = [], 0, 0
    for _ in range(words[-9]):
        length = words[at]
        at += 1 + (length + 3) // 4
        found.append(printed[begin:begin + length])
        begin += length + 1
        if printed[begin - 1:begin] != b"\n":
            raise Bad("program names printed the names of another sheet")
    if printed[begin:] != b"refused 5\n":
        raise Bad("program names printed the names of another sheet")
    return found


def variables_of(sheet):
    """The variables of the binding table, which alone have recorded uses of their own."""
    words = struct.unpack("<%dI" % (len(sheet) // 4), sheet)
    begin = len(words) - 10 - words[-8]
    return set(words[begin:begin + 5 * words[-7]:5])


def use_id(name):
    h = 2166136261
    for b in name:
        h = h * 16777619 % 2**32 ^ b
    return 0xFFFFFFFF - h % 2**30


# ---- the tree

# A name is its index, or for a generated one, which has the mark 1, -1 - the id of its variable.

def name_of(word, mark):
    return word if mark == 0 else -1 - word



# A line of the tree is a row of pieces: a text, a Name, a Mark or the number of a scope. A line of text has a comma before a mark.

class Name:
    def __init__(self, text):
        self.text = shown(text.decode())


class Mark(str):
    pass


class Scope(int):
    pass


def shown(text):
    """A name in backquotes on one line: within are printable characters alone, a backquote or a backslash only after a backslash. Where the
    text is not in the composed form NFC, another name may look the same; then all but ASCII is given by number."""
    composed = unicodedata.is_normalized("NFC", text)
    made = []
    for i, c in enumerate(text):
        if c in "`\\":
            made.append("\\" + c)
        elif c == "\n":
            made.append("\\n")
        elif not c.isprintable() or not (composed or c.isascii()) or i == 0 and unicodedata.category(c)[0] == "M":
            made.append("\\u{%x}" % ord(c))
        else:
            made.append(c)
    return "`%s`" % "".join(made)


def between(pieces, by):
    """Pieces with a text between each two."""
    return [p for piece in pieces for p in (by, piece)][1:]


class Tree:
    """The scopes with their lines, and the lines at the end."""

    def __init__(self, sheet, printed_lists, printed_names):
        lists = lists_of(printed_lists)
        self.names = names_of(sheet, printed_names)
        self.scopes = [fields(line, 4) for line in lists["scopes"]]
        self.bindings = []
        for line in lists["bindings"]:
            scope, name, variable, kind, replaced, mark = fields(line, 6)
            self.bindings.append((scope, name_of(name, mark), variable, kind, replaced))
        self.carried = []
        for line in lists["carried"]:
            barrier, name, variable, mark = fields(line, 4)
            self.carried.append((barrier, name_of(name, mark), variable))
        self.uses = [Use(line) for line in lists["recorded"]]
        self.bound_in = [[] for _ in self.scopes]
        for scope, name, variable, kind, replaced in self.bindings:
            self.bound_in[scope].append((name, variable))
        self.lines = [[] for _ in self.scopes]
        for binding in self.bindings:
            self.lines[binding[0]].append(self.binds(*binding))
        self.carries()
        self.ends = self.place_uses(variables_of(sheet))

    def name(self, name):
        return Name(self.names[name] if name >= 0 else b"__var%d" % (-1 - name))

    def barrier(self, scope):
        """The WITH over which all names of a scope came, or none."""
        parent = self.scopes[scope][1]
        return parent if parent is not None and self.scopes[parent][0] == WITH_BARRIER else None

    def binds(self, scope, name, variable, kind, replaced):
        line = ["binds ", self.name(name), " to variable %d, %s" % (variable, KINDS[kind - 1])]
        if replaced is not None:
            line.append(Mark("replaced variable %d" % replaced))
        if self.barrier(scope) is not None:
            line.append(Mark("over WITH %d" % self.barrier(scope)))
        return line

    def before(self, barrier):
        """The names of each variable that are visible before a WITH."""
        newest, scope = {}, self.scopes[barrier][1]
        while scope is not None:
            for name, variable in self.bound_in[scope]:
                newest.setdefault(name, variable)
            scope = None if self.barrier(scope) is not None else self.scopes[scope][1]
        names = {}
        for name, variable in newest.items():
            names.setdefault(variable, []).append(name)
        return names

    def carries(self):
        before = {}
        for barrier, name, variable in self.carried:
            if barrier not in before:
                before[barrier] = self.before(barrier)
            line = ["carries variable %d as " % variable, self.name(name)]
            so_far = before[barrier].get(variable, [])
            if len(so_far) == 1 and so_far != [name]:
                line += [", until here ", self.name(so_far[0])]
            self.lines[barrier].append(line)

    def place_uses(self, variables):
        """Puts each use under the scope that binds it, where that is one scope; the lists of all others."""
        names, by_name, by_variable = {}, {}, {}
        ids = [use_id(name) for name in self.names]
        for name, i in enumerate(ids):
            names.setdefault(i, []).append(name)
        for scope, name, variable, kind, replaced in self.bindings:
            if name >= 0:
                by_name.setdefault((ids[name], variable), {})[scope] = True
            by_variable.setdefault(variable, {})[scope] = True
        several, nowhere, missing = [], [], []
        for use in self.uses:
            is_var = use.id in variables and use.id == use.variable and not use.via
            what = [self.name(name) for name in names.get(use.id, [])] + ["Var %d" % use.id] * is_var
            if not what:
                raise Bad("no name of the sheet has the use id %d" % use.id)
            line = ["use "] + between(what, " or ")
            if not use.found:
                missing.append(line)
                continue
            line.append((", " if is_var and len(what) == 1 else ", variable %d, " % use.variable) + KINDS[use.kind - 1])
            if use.via:
                line.append(Mark("via_projection"))
            # A Var's record says nothing of WITHs; a name's says whether the scope that answered is right under a WithBarrier.
            if is_var:
                scopes = {**by_name.get((use.id, use.variable), {}), **by_variable.get(use.variable, {})}
            else:
                scopes = [scope for scope in by_name.get((use.id, use.variable), {}) if (self.barrier(scope) is not None) == bool(use.via)]
            if len(scopes) == 1:
                self.lines[next(iter(scopes))].append(line)
            elif scopes:
                several.append(line + [", scopes "] + between([Scope(s) for s in sorted(scopes)], ", "))
            else:
                nowhere.append(line)
        ends = [("uses that several scopes bind", several), ("uses that no scope binds", nowhere), ("uses that are not found", missing)]
        return [(heading, lines) for heading, lines in ends if lines]

    def walk(self):
        """Depth and number of each scope, one below the other as in the tree."""
        children = [[] for _ in self.scopes]
        for scope, (kind, parent, start, end) in enumerate(self.scopes):
            if parent is not None:
                children[parent].append(scope)
        stack = [(0, scope) for scope in range(len(self.scopes) - 1, -1, -1) if self.scopes[scope][1] is None]
        while stack:
            depth, scope = stack.pop()
            yield depth, scope
            stack += [(depth + 1, child) for child in reversed(children[scope])]


# ---- as text

def text_line(pieces):
    return "".join(p.text if isinstance(p, Name) else ", " + p if isinstance(p, Mark) else str(p) for p in pieces)


def text_of(tree):
    made = []
    for depth, scope in tree.walk():
        kind, parent, start, end = tree.scopes[scope]
        made.append("%s%d %s %d..%d" % ("  " * depth, scope, SCOPES[kind - 1], start, end))
        made += ["  " * (depth + 1) + text_line(line) for line in tree.lines[scope]]
    for heading, lines in tree.ends:
        made += [heading] + ["  " + text_line(line) for line in lines]
    return "".join(line + "\n" for line in made)


# ---- as a page

STYLE = """
:root { --step: 1.4rem; --deepest: 16; --line: #c3cad2; --faint: #5c6670; --blue: #2f5fb3; --brown: #8a4b00; }
* { box-sizing: border-box; }
html { -webkit-text-size-adjust: 100%; }
body { margin: 0 auto; max-width: 72rem; padding: 1.5rem 2rem 3rem; background: #fff; color: #1b1f23; font: 1rem/1.45 system-ui, sans-serif; }
h1 { margin: 0; font-size: 1.5rem; overflow-wrap: anywhere; }
h2 { margin: 1.75rem 0 .4rem; font-size: 1.1rem; }
p { margin: .3rem 0 0; max-width: 48rem; color: var(--faint); }
ol, ul { margin: 0; padding: 0; list-style: none; }
a { color: inherit; }
code { font: .92em/1.4 ui-monospace, "DejaVu Sans Mono", monospace; white-space: pre-wrap; overflow-wrap: anywhere; }
li code { background: #edf0f4; border-radius: .2rem; padding: .05rem .15rem; font-weight: 600; }
.tree { margin-top: 1.25rem; }
.tree > li { --in: calc(min(var(--d), var(--deepest)) * var(--step)); padding: 0 0 .55rem calc(var(--in) + .75rem);
  background: repeating-linear-gradient(to right, transparent 0 1px, var(--line) 1px 2px, transparent 2px var(--step)) 0 0 / calc(var(--in) + 3px) 100% no-repeat;
  -webkit-print-color-adjust: exact; print-color-adjust: exact; break-inside: avoid; }
.tree > li:target { outline: 2px solid var(--blue); }
.head { display: flex; flex-wrap: wrap; gap: 0 .7rem; align-items: baseline; margin-left: -.75rem; padding: .1rem .6rem; border-left: 3px solid var(--blue); }
.head b { font-weight: 650; }
.with .head { border: 1px dashed var(--brown); border-left: 3px solid var(--brown); background: #fff6e8; }
.number, .small { color: var(--faint); font-variant-numeric: tabular-nums; }
.small { font-size: .85rem; }
li li, .ends li { padding-left: 1.2rem; text-indent: -1.2rem; overflow-wrap: anywhere; }
.ends li { padding-top: .15rem; break-inside: avoid; }
.binds i, .carries i, .use i { font-style: normal; color: var(--faint); }
.tree .use { color: #3d4650; }
em { display: inline-block; text-indent: 0; font-style: normal; font-size: .85em; line-height: 1.3; margin-left: .2rem; padding: 0 .45rem; border: 1px solid currentColor; border-radius: .7rem; }
em.over { color: var(--brown); font-weight: 600; }
@media (max-width: 40rem) {
  :root { --step: .75rem; --deepest: 10; }
  body { padding: 1rem .75rem 2rem; font-size: .95rem; }
  h1 { font-size: 1.25rem; }
}
@media print {
  @page { margin: 15mm; }
  :root { --step: 1rem; --deepest: 14; }
  body { max-width: none; padding: 0; font-size: 10pt; }
  a { text-decoration: none; }
  h2 { break-after: avoid; }
}
"""


def html_piece(p):
    if isinstance(p, Name):
        return "<code><bdi>%s</bdi></code>" % html.escape(p.text)
    if isinstance(p, Mark):
        return " <em%s>%s</em>" % (' class="over"' * p.startswith("over "), html.escape(p))
    if isinstance(p, Scope):
        return '<a href="#s%d">%d</a>' % (p, p)
    return html.escape(p)


def html_lines(lines):
    made = []
    for line in lines:
        verb, rest = line[0].split(" ", 1)
        made.append('<li class="%s"><i>%s</i> %s</li>\n' % (verb, verb, "".join(map(html_piece, [rest] + line[1:]))))
    return "".join(made)


def counted(n, one, many):
    return "%d %s" % (n, one if n == 1 else many)


def page_of(tree, title):
    made = []
    for depth, scope in tree.walk():
        kind, parent, start, end = tree.scopes[scope]
        made.append('<li id="s%d" aria-level="%d" style="--d:%d"%s>\n' % (scope, depth + 1, depth, ' class="with"' * (kind == WITH_BARRIER)))
        made.append('<div class="head"><span class="number">%d</span> <b>%s</b> <span class="small">%d..%d</span>' % (scope, SCOPES[kind - 1], start, end))
        if parent is not None:
            made.append(' <span class="small">in %s</span>' % html_piece(Scope(parent)))
        made.append("</div>\n")
        if tree.lines[scope]:
            made.append("<ul>\n%s</ul>\n" % html_lines(tree.lines[scope]))
        made.append("</li>\n")
    ends = "".join('<h2>%s</h2>\n<ul class="ends">\n%s</ul>\n' % (heading[0].upper() + heading[1:], html_lines(lines)) for heading, lines in tree.ends)
    over = sum(tree.barrier(binding[0]) is not None for binding in tree.bindings)
    summary = "%s, which bind %s, %d of them over a WITH. Each scope stands below the one in which it was opened." % (
        counted(len(tree.scopes), "scope", "scopes"), counted(len(tree.bindings), "name", "names"), over)
    return ('<!DOCTYPE html>\n<html lang="en">\n<head>\n<meta charset="utf-8">\n<meta name="viewport" content="width=device-width, initial-scale=1">\n'
            '<title>Scopes of %s</title>\n<style>%s</style>\n</head>\n<body>\n<h1>Scopes of <bdi>%s</bdi></h1>\n<p>%s</p>\n<ol class="tree">\n%s</ol>\n%s</body>\n</html>\n'
            % (title, STYLE, title, summary, "".join(made), ends))


def fail(message):
    print("tools/scopes.py: " + message, file=sys.stderr)
    sys.exit(2)


def main():
    args = sys.argv[1:]
    title = None
    if args[:1] == ["--html"] and len(args) == 5:
        title = html.escape(shown(os.fsencode(args[1]).decode(errors="replace"))[1:-1])
        args = args[2:]
    if len(args) != 3:
        fail("usage: tools/scopes.py [--html TITLE] SHEET LISTS NAMES")
    try:
        files = []
        for path in args:
            with open(path, "rb") as file:
                files.append(file.read())
        tree = Tree(*files)
        made = text_of(tree) if title is None else page_of(tree, title)
    except Refused as e:
        print(e)
        sys.exit(2)
    except OSError as e:
        fail("%s: %s" % (e.filename, e.strerror))
    except Bad as e:
        fail(str(e))
    except (IndexError, struct.error):
        fail("the files are not of one sheet")
    sys.stdout.buffer.write(made.encode())


if __name__ == "__main__":
    main()
