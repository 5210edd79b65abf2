#!/usr/bin/env python3
"""tools/messages.py: what program `messages` writes for a sheet with the two names `seat` and `*`; written from document 01 and the
texts of the Rust alone. The sheet is examples/names.txt."""

KINDS = ["", "Node", "Relationship", "Path", "Value"]
TYPES = ["", "Bool", "Int", "Float", "String", "Null", "Map", "Pattern", "Node", "Relationship", "Path"]
NAMES = ["", "seat", "*"]

INDEXED = "cannot %s non-list expression of type `{type}`; list indexing and slicing require a list target"
PLACED = "variable `{name}` used %s but has kind `{kind}`; expected `%s`"

# code and detail one: the text, whether a name comes with it, and the values of detail two
PUSHES = {
    (1001, 0): ("unresolved variable `{name}`", True, [0]),
    (1002, 0): ("variable `{name}` shadows an earlier binding", True, [0]),
    (2007, 1): (
        "variable `{name}` has kind `{kind}` but is used in an arithmetic expression; only `Value` variables are valid here",
        True,
        [1, 2, 3],
    ),
    (2007, 2): (
        "variable `{name}` has kind `Path` and does not support property access; "
        "use `nodes()` or `relationships()` to extract graph elements first",
        True,
        [3],
    ),
    (2008, 1): (PLACED % ("as path binder", "Path"), True, [1, 2, 4]),
    (2008, 2): (PLACED % ("in node-pattern position", "Node"), True, [2, 3, 4]),
    (2008, 3): (PLACED % ("in relationship-pattern position", "Relationship"), True, [1, 3, 4]),
    (2011, 0): ("list-predicate WHERE clause requires a `Bool` predicate but found `{type}`", False, [2, 3, 4]),
    (5010, 1): (INDEXED % "index", False, range(1, 11)),
    (5010, 2): (INDEXED % "slice", False, range(1, 11)),
    (5010, 3): (INDEXED % "iterate over", False, range(1, 11)),
    (5011, 0): (
        "list-predicate iterable must be a list but found `{type}`; ANY/ALL/NONE/SINGLE require a `LIST<T>` source",
        False,
        range(1, 11),
    ),
}


def name_text(name, mark):
    """The text of a name, "" for none, or None where there is none such: an index + 1 or 0, with the mark 1 an id."""
    if mark == 1:
        return "__var%d" % name
    return NAMES[name] if mark == 0 and name < len(NAMES) else None


def message(code, name, one, two, mark):
    """The text, or None for refusal 9."""
    push, cited = PUSHES.get((code, one)), name_text(name, mark)
    if push is None or cited is None or (code == 1001 and cited == "*") or (mark == 1 and code != 1002):
        return None
    text, named, details = push
    if named != (cited != "") or two not in details:
        return None
    return text.format(name=cited, kind=(KINDS + [""] * 9)[two], type=(TYPES + [""] * 9)[two])


for mark in range(3):
    for code in [1000, 1001, 1002, 2007, 2008, 2011, 5010, 5011, 5012]:
        for name in range(4):
            for one in range(5):
                for two in range(12):
                    text = message(code, name, one, two, mark)
                    print(code, name, one, two, mark, "refused 9" if text is None else text + " 0 10")
