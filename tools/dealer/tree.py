"""A rule as a tree and a table as columns: the numbers, names and limits that the other modules share.

A tree is a tuple: ("col", index, type, nullable), ("literal", type, value), ("case", base, [(when, then)], else), (word, child ..) for
PLAIN, (word, type, child) for CASTS. A value is None (null), a bool, an int, a float's bits, or bytes.
A table is (rows, [(name, type, nullable, values)]).
"""

BOOLEAN, INT32, INT64, FLOAT64, UTF8 = 1, 2, 3, 4, 5
TYPES = {"boolean": BOOLEAN, "int32": INT32, "int64": INT64, "float64": FLOAT64, "utf8": UTF8}
WORDS = {n: w for w, n in TYPES.items()}
TITLES = {BOOLEAN: "Boolean", INT32: "Int32", INT64: "Int64", FLOAT64: "Float64", UTF8: "Utf8"}
WIDTHS = {INT32: 4, INT64: 8, FLOAT64: 8}
COLUMN, LITERAL, CASE = 16, 17, 25
# tag, and how many children
PLAIN = {"not": (18, 1), "neg": (19, 1), "isnotnull": (20, 1), "equal": (23, 2), "less": (24, 2)}
CASTS = {"cast": 21, "trycast": 22}
TAGS = {tag: (word, count) for word, (tag, count) in PLAIN.items()}
TAGS.update({tag: (word, 1) for word, tag in CASTS.items()})
NAMES = {COLUMN: "column", LITERAL: "literal", 18: "NOT", 19: "negative", 20: "IS NOT NULL", 21: "cast", 22: "try-cast", 23: "equal",
         24: "less", CASE: "CASE"}

RULE_MOST, TABLE_MOST = 4096, 65536
ROWS_MOST, COLUMNS_MOST, BRANCHES_MOST = 512, 16, 32
DEPTH_MOST, CASES_MOST = 8, 3
TEXT_MOST = 65535
FIELD_MOST = 65535
# deeper trees are not even shown
NESTED_MOST = 100


class Node(tuple):
    """A tuple of a tree or a table that knows its line in a text, or the place of its field in bytes."""

    line = at = None

    def __new__(cls, parts, line=None, at=None):
        node = super().__new__(cls, parts)
        node.line, node.at = line, at
        return node


def children(e):
    """The nodes right below, in the order of the bytes."""
    parts = [e[1]] + [x for branch in e[2] for x in branch] + [e[3]] if e[0] == "case" else e[1:]
    return [x for x in parts if isinstance(x, tuple)]


def nodes(e):
    """The node and all below it, children first."""
    for x in children(e):
        yield from nodes(x)
    yield e


def columns_of(e):
    """The column nodes of a tree, in the order of the bytes."""
    return [x for x in nodes(e) if x[0] == "col"]


def is_null(e):
    """A null literal."""
    return e[0] == "literal" and e[2] is None


def type_of(e):
    word = e[0]
    if word == "col":
        return e[2]
    if word == "literal" or word in CASTS:
        return e[1]
    if word == "case":
        return type_of(e[2][0][1])
    return type_of(e[1]) if word == "neg" else BOOLEAN


def counted(n, word, words=None):
    """`1 row`, `2 rows`."""
    return f"{n} {word}" if n == 1 else f"{n} {words or word + 's'}"
