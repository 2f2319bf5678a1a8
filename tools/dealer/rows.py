"""One row: the entry of a rule, and the branch that decides it. Written from the meaning of a row, apart from the library."""
from dealer.floats import bits_of, whole_part
from dealer.tree import BOOLEAN, CASTS, FLOAT64, INT32, WORDS, columns_of, is_null, nodes, type_of
from dealer.words import named_value


class Unfit(Exception):
    """A cast that doesn't fit, and the value that it met."""

    def __init__(self, value):
        super().__init__(value)
        self.value, self.tree = value, None

    def words(self):
        return f"{named_value(type_of(self.tree[2]), self.value)} doesn't fit {WORDS[self.tree[1]]}"


def order_key(kind, v):
    """Goes with the order of two values; floats by totalOrder."""
    if kind == FLOAT64:
        return v ^ (1 << 64) - 1 if v >> 63 else v | 1 << 63
    return v


def lowest(kind):
    return -2 ** (31 if kind == INT32 else 63)


def cast(kind, to, v):
    if v is None or kind == to:
        return v
    if to == BOOLEAN:
        return v != 0
    if to == FLOAT64:
        return bits_of(v)
    n = whole_part(v) if kind == FLOAT64 else int(v)
    if n is None or not lowest(to) <= n < -lowest(to):
        raise Unfit(v)
    return n


def try_cast(kind, to, v):
    try:
        return cast(kind, to, v)
    except Unfit:
        return None


def negated(kind, v):
    """The lowest integer stays; a float's sign bit turns."""
    if kind == FLOAT64:
        return v ^ 1 << 63
    return v if v == lowest(kind) else -v


def compared(e, row):
    left, right = at_row(e[1], row), at_row(e[2], row)
    if left is None or right is None:
        return None
    a, b = order_key(type_of(e[1]), left), order_key(type_of(e[1]), right)
    return a == b if e[0] == "equal" else a < b


def cast_at_row(e, row):
    v = at_row(e[2], row)
    if e[0] == "trycast":
        return try_cast(type_of(e[2]), e[1], v)
    try:
        return cast(type_of(e[2]), e[1], v)
    except Unfit as unfit:
        unfit.tree = e
        raise


def at_row(e, row):
    """The entry of an expression at a row, a list of the columns' values; Unfit if a cast on its path doesn't fit."""
    word = e[0]
    if word == "col":
        return row[e[1]]
    if word == "literal":
        return e[2]
    if word == "case":
        return case_at_row(e, row)
    if word in CASTS:
        return cast_at_row(e, row)
    if word in ("equal", "less"):
        return compared(e, row)
    v = at_row(e[1], row)
    if word == "isnotnull":
        return v is not None
    if v is None:
        return None
    return not v if word == "not" else negated(type_of(e[1]), v)


def branch_at_row(e, row):
    """The index of the branch that a CASE takes, or None for its ELSE. A null base takes ELSE and no WHEN is read."""
    _, base, branches, _ = e
    value = True if base is None else at_row(base, row)
    if value is not None:
        for i, (when, _) in enumerate(branches):
            if at_row(when, row) == value:
                return i
    return None


def case_at_row(e, row):
    taken = branch_at_row(e, row)
    if taken is not None:
        return at_row(e[2][taken][1], row)
    other = e[3]
    if other is None or is_null(other):
        return None
    return try_cast(type_of(other), type_of(e), at_row(other, row))


def result_of(e, taken):
    """The THEN or ELSE that a branch's index names, or None."""
    return e[3] if taken is None else e[2][taken][1]


def decided_at_row(e, row):
    """The indexes of the branches that decide: the CASE's own, then those of the CASE that it takes as its result, and so on."""
    taken = branch_at_row(e, row)
    result = result_of(e, taken)
    return (taken,) + (decided_at_row(result, row) if result is not None and result[0] == "case" else ())


def row_of(table, i):
    return [c[3][i] for c in table[1]]


def constant_unfit(e):
    """The Unfit of the first cast without a column under it that doesn't fit, or None."""
    for x in nodes(e):
        if x[0] == "cast" and not columns_of(x):
            try:
                at_row(x, [])
            except Unfit as unfit:
                return unfit
    return None
