"""case_classes.py: which named differences between the Rust and the port a case can show, told from the rule and the table alone.

classes(rule, table) gives the names, in the order below, of a tree and a table as casetext.py has them. Rows.value is the meaning of a
rule by documents 01 and 02, for several rows at once; it is asked only where a class depends on which rows reach a CASE.
"""
import math
import struct

# the lowest Int32 and Int64, and the casts that may fail, from and to
LOWEST = {2: -2 ** 31, 3: -2 ** 63}
MAY_FAIL = ((3, 2), (4, 2), (4, 3))
# the casts of change 2 (02)
FLOAT_CASTS = {(4, 2), (4, 3), (3, 4)}
CONSTANT_CAST = "refused 8: the Rust has no such test"
LONG_TEXT = "refused 16: the Rust has no such limit"
UNCAST_ELSE = "ELSE left uncast by expr_or_expr"
NO_ROWS = "a cast above a CASE, over no rows"
NEGATED = "a constant lowest integer negated"
NOT_UTF8 = "text that isn't UTF-8"
OUTSIDE = "outside of the domain, nothing named"
INSIDE = "inside of the domain"
ELSE_CAN_FAIL = "an ELSE's try-cast can fail to fit"
CASE_IN_WHEN = "a WHEN holds a CASE"
NEGATED_IN_WHEN = "a WHEN negates a lowest integer"
COMPARED = "every other rule"
FAILED = object()


# ---- trees ----

def children(e):
    if e[0] == "case":
        parts = [e[1]] + [x for b in e[2] for x in b] + [e[3]]
        return [x for x in parts if x is not None]
    return [x for x in e[1:] if isinstance(x, tuple)]


def nodes(e):
    yield e
    for x in children(e):
        yield from nodes(x)


def holds(e, word):
    return any(x[0] == word for x in nodes(e))


def kind_of(e):
    word = e[0]
    if word in ("literal", "cast", "trycast"):
        return e[1]
    if word == "col":
        return e[2]
    if word == "case":
        return kind_of(e[2][0][1])
    return kind_of(e[1]) if word == "neg" else 1


def is_null(e):
    return e is not None and e[0] == "literal" and e[2] is None


def else_of(e):
    """The ELSE of a CASE; a null literal is dropped."""
    return None if is_null(e[3]) else e[3]


def strategy(e):
    """The strategy of a CASE (01, Strategies)."""
    _, base, branches, _ = e
    other = else_of(e)
    if base is not None:
        plain = all(x[0] == "literal" for b in branches for x in b)
        ends = other is None or other[0] == "literal" and other[1] == kind_of(e)
        serves = len(branches) > 1 and plain and ends and not all(is_null(w) for w, _ in branches)
        return 6 if serves else 2
    then = branches[0][1]
    if len(branches) > 1:
        return 1
    if then[0] == "col" and other is None:
        return 3
    return 4 if then[0] == "literal" and other is not None and other[0] == "literal" else 5


def other_type(e):
    """Whether a CASE's ELSE has another type than its result."""
    return e[0] == "case" and else_of(e) is not None and kind_of(e[3]) != kind_of(e)


def else_can_fail(e):
    """Whether the try-cast of a CASE's ELSE to the result's type can fail to fit, by the types alone (02, Change 5)."""
    return e[0] == "case" and else_of(e) is not None and (kind_of(e[3]), kind_of(e)) in MAY_FAIL


def cast_pairs(e):
    """The types that a rule's casts go from and to, those of ELSEs included."""
    casts = {(kind_of(x[2]), x[1]) for x in nodes(e) if x[0] in ("cast", "trycast")}
    return casts | {(kind_of(x[3]), kind_of(x)) for x in nodes(e) if other_type(x)}


def casts_floats(e):
    """Whether a rule casts a float to an integer, or an Int64 to a float."""
    return bool(FLOAT_CASTS & cast_pairs(e))


# ---- values ----

def fits(kind, v):
    """Whether an integer is in a type's range."""
    return LOWEST[kind] <= v < -LOWEST[kind]


def wrapped(kind, v):
    half = -LOWEST[kind]
    return (v + half) % (2 * half) - half


def negative(kind, v):
    return v ^ 1 << 63 if kind == 4 else wrapped(kind, -v)


def float_bits(f):
    return int.from_bytes(struct.pack("<d", f), "little")


def whole_part(bits):
    """A float without its fraction; None for a NaN or an infinity."""
    f, = struct.unpack("<d", bits.to_bytes(8, "little"))
    return math.trunc(f) if math.isfinite(f) else None


def converted(source, target, v):
    """The value cast from a type to a type, or FAILED. Python's float() of an integer is the nearest, ties to even."""
    if source == target:
        return v
    if target == 1:
        return v != 0
    if target == 4:
        return float_bits(float(v))
    whole = whole_part(v) if source == 4 else int(v)
    return whole if whole is not None and fits(target, whole) else FAILED


def sort_key(kind, v):
    """Floats by totalOrder."""
    return v if kind != 4 else v ^ (2 ** 64 - 1 if v >> 63 else 2 ** 63)


# ---- constants ----

def constants(e):
    """The numbers that an expression can be without reading a column."""
    word, kind = e[0], kind_of(e)
    if kind not in (2, 3, 4):
        return set()
    if word == "literal":
        return set() if e[2] is None else {e[2]}
    if word == "neg":
        return {negative(kind, v) for v in constants(e[1])}
    if word in ("cast", "trycast"):
        return cast_constants(kind, e[2])
    if word == "case":
        ends = [t for _, t in e[2]] + ([] if else_of(e) is None else [e[3]])
        return set().union(*(cast_constants(kind, x) for x in ends))
    return set()


def cast_constants(kind, e):
    """Those that fit the type that they are cast to."""
    return {converted(kind_of(e), kind, v) for v in constants(e)} - {FAILED}


def negates_lowest(e):
    """Whether a constant lowest integer may be negated."""
    return any(x[0] == "neg" and LOWEST.get(kind_of(x)) in constants(x[1]) for x in nodes(e))


def cast_above_case(e):
    return [x for x in nodes(e) if x[0] == "cast" and holds(x[2], "case")]


def may_fail(x):
    return x[0] == "cast" and (kind_of(x[2]), x[1]) in MAY_FAIL


def constant_cast_fails(e):
    """Whether a cast with no column under it fails (01, number 8)."""
    return any(may_fail(x) and not holds(x, "col") and Rows([]).value(x, [0])[0] is FAILED for x in nodes(e))


def fails_on_constant(x):
    """Whether a cast fails on what its child can be without reading a column."""
    return may_fail(x) and any(converted(kind_of(x[2]), x[1], v) is FAILED for v in constants(x[2]))


# ---- one row (01), for several rows at once ----

class Rows:
    """Values of expressions at rows of a table's columns. `uncast` is set once a strategy-5 CASE with an ELSE of another type is
    reached by rows none of which makes its WHEN true."""

    def __init__(self, columns):
        self.columns, self.uncast = columns, False

    def value(self, e, rows):
        """The value at each row, FAILED where the row's path ends at a cast."""
        word = e[0]
        if word == "col":
            return [self.columns[e[1]][i] for i in rows]
        if word == "literal":
            return [e[2]] * len(rows)
        if word == "case":
            found = self.case(e, rows)
            return [found[i] for i in rows]
        if word in ("equal", "less"):
            return self.comparison(e, rows)
        values = self.value(e[-1], rows)
        if word == "isnotnull":
            return [v if v is FAILED else v is not None for v in values]
        source = kind_of(e[-1])
        step = {"not": lambda v: not v, "neg": lambda v: negative(source, v)}.get(word) or (lambda v: self.cast(word, source, e[1], v))
        return [v if v is None or v is FAILED else step(v) for v in values]

    def cast(self, word, source, target, v):
        found = converted(source, target, v)
        return None if found is FAILED and word == "trycast" else found

    def comparison(self, e, rows):
        kind, out = kind_of(e[1]), []
        for a, b in zip(self.value(e[1], rows), self.value(e[2], rows)):
            if a is FAILED or b is FAILED:
                out.append(FAILED)
            elif a is None or b is None:
                out.append(None)
            else:
                out.append(a == b if e[0] == "equal" else sort_key(kind, a) < sort_key(kind, b))
        return out

    def case(self, e, rows):
        """The answer by row."""
        _, base, branches, _ = e
        found, left = {}, list(rows)
        bases = dict(zip(left, self.value(base, left))) if base is not None else {i: True for i in left}
        found.update((i, FAILED) for i in left if bases[i] is FAILED)
        self.put(found, else_of(e), [i for i in left if bases[i] is None], e)
        left = [i for i in left if i not in found]
        for when, then in branches:
            if not left:
                break
            whens = dict(zip(left, self.value(when, left)))
            found.update((i, FAILED) for i in left if whens[i] is FAILED)
            taken = [i for i in left if whens[i] is not None and whens[i] is not FAILED and whens[i] == bases[i]]
            found.update(zip(taken, self.value(then, taken)))
            if rows and not taken and other_type(e) and strategy(e) == 5:
                self.uncast = True
            left = [i for i in left if i not in found]
        self.put(found, else_of(e), left, e)
        return found

    def put(self, found, other, rows, e):
        """The ELSE of some rows, try-cast to the result's type."""
        if not rows:
            return
        if other is None:
            found.update((i, None) for i in rows)
        else:
            values = self.value(("trycast", kind_of(e), other), rows)
            found.update(zip(rows, values))


# ---- classes ----

def is_utf8(v):
    try:
        return v is None or v.decode("utf-8") is not None
    except UnicodeDecodeError:
        return False


def texts_of(rule, columns):
    """The texts of literals and columns."""
    return [x[2] for x in nodes(rule) if x[0] == "literal" and x[1] == 5] + [v for c in columns if c[1] == 5 for v in c[3]]


def uncast_else(rule, table):
    """Whether a CASE of strategy 5 whose ELSE has another type is reached by rows none of which takes the THEN, or the table has no rows."""
    if not any(other_type(x) and strategy(x) == 5 for x in nodes(rule)):
        return False
    rows, columns = table
    meaning = Rows([c[3] for c in columns])
    meaning.value(rule, list(range(rows)))
    return meaning.uncast or rows == 0


def long_text(rule, table):
    rows, columns = table
    if kind_of(rule) != 5:
        return False
    if max((len(t or b"") for t in texts_of(rule, columns)), default=0) * rows <= 65535:
        return False
    return sum(len(v) for v in Rows([c[3] for c in columns]).value(rule, list(range(rows))) if isinstance(v, bytes)) > 65535


def classes(rule, table):
    """The named differences of the entries that a case can show; or whether it is inside of the domain that is compared without exception."""
    rows, columns = table
    found = []
    if constant_cast_fails(rule):
        found.append(CONSTANT_CAST)
    if long_text(rule, table):
        found.append(LONG_TEXT)
    if uncast_else(rule, table):
        found.append(UNCAST_ELSE)
    above = cast_above_case(rule)
    if rows == 0 and any(map(fails_on_constant, above)):
        found.append(NO_ROWS)
    if negates_lowest(rule):
        found.append(NEGATED)
    if not all(map(is_utf8, texts_of(rule, columns))):
        found.append(NOT_UTF8)
    if found:
        return found
    return [OUTSIDE if above or any(map(other_type, nodes(rule))) else INSIDE]


def nullable_classes(rule):
    """Where the Rust's nullability answer isn't compared (01, Strategies; 02, Change 5)."""
    whens = [w for x in nodes(rule) if x[0] == "case" for w, _ in x[2]]
    found = [ELSE_CAN_FAIL] if any(map(else_can_fail, nodes(rule))) else []
    found += [CASE_IN_WHEN] if any(holds(w, "case") for w in whens) else []
    found += [NEGATED_IN_WHEN] if any(map(negates_lowest, whens)) else []
    return found or [COMPARED]
