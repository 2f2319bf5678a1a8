"""The rules and tables that bench_evaluate.py measures, and the fields that they are made of, which stack_evaluate.py takes too.

`measured()` yields a name, the rule's bytes and the table's bytes.
"""
import random
import struct

from stored_cases import bitmap, field, number, offsets

BOOLEAN, INT32, INT64, FLOAT64, UTF8 = range(1, 6)
ROWS = 512


def value_bytes(kind, v):
    if kind == UTF8:
        return v
    if kind == BOOLEAN:
        return bytes([v])
    if kind == FLOAT64:
        return struct.pack("<d", v)
    width = 4 if kind == INT32 else 8
    return number(v % 256 ** width, width)


def column(index, kind, nullable=0):
    return field(16, bytes([index, kind, nullable]))


def literal(kind, v):
    return field(17, bytes([kind, 0]) + value_bytes(kind, v))


def int32(n):
    return literal(INT32, n)


def text(s):
    return literal(UTF8, s)


def negated(a):
    return field(18, a)


def is_not_null(a):
    return field(20, a)


def cast(kind, a):
    return field(21, bytes([kind]) + a)


def equal(a, b):
    return field(23, a + b)


def less(a, b):
    return field(24, a + b)


def case(base, branches, els):
    flags = (1 if base else 0) + (2 if els else 0)
    return field(25, bytes([flags, len(branches)]) + (base or b"") + b"".join(w + t for w, t in branches) + (els or b""))


def stored(kind, values, nulls=None):
    """A column of a table; nullable where it has nulls."""
    data = [value_bytes(kind, v) for v in values]
    valid = bitmap([not n for n in nulls]) if nulls else b""
    content = bitmap(values) if kind == BOOLEAN else b"".join(data)
    return field(2, bytes([kind, 1 if nulls else 0])) + field(3, valid) + (offsets(data) if kind == UTF8 else b"") + field(4, content)


def table(rows, *columns):
    return field(1, number(rows, 2)) + b"".join(columns)


C0 = column(0, INT32)
WORDS = [b"class%d" % k for k in range(12)]


class Columns:
    """Columns of so many rows, the same at every run."""

    def __init__(self, rows):
        rng = random.Random(7)
        self.rows = rows
        self.values = [rng.randrange(1000) for _ in range(rows)]
        self.nulls = [rng.random() < 0.1 for _ in range(rows)]
        self.keys = [rng.randrange(12) for _ in range(rows)]
        self.four = [[rng.randrange(1000) for _ in range(rows)] for _ in range(4)]
        self.half = [[rng.random() < 0.5 for _ in range(rows)] for _ in range(4)]
        self.floats = [v - 500 + k / 12 for v, k in zip(self.values, self.keys)]

    def one(self, kind, values, nulls=None):
        return table(self.rows, stored(kind, values, nulls))

    def numbers(self):
        return self.one(INT32, self.values)

    def in_turn(self, nulls=(None,) * 4):
        return table(self.rows, *(stored(INT32, v, n) for v, n in zip(self.four, nulls)))


def numbers(values):
    return table(len(values), stored(INT32, values))


def ladder(count, nullable=0, result=int32):
    """So many branches `WHEN c0 < literal THEN literal`."""
    return case(None, [(less(column(0, INT32, nullable), int32(1000 // count * (i + 1))), result(i)) for i in range(count)], result(11))


def word(i):
    return text(WORDS[i])


def by_one_column(c):
    yield "10 branches `WHEN c0 < literal THEN literal`", ladder(10), c.numbers()
    yield "the same, 10% nulls", ladder(10, 1), c.one(INT32, c.values, c.nulls)
    yield "32 branches", ladder(32), c.numbers()
    yield "10 branches, text results", ladder(10, 0, word), c.numbers()
    yield "10 branches, four columns in turn", case(None, [(less(column(i % 4, INT32), int32(25 * (i + 1))), int32(i)) for i in range(10)], int32(99)), c.in_turn()


def by_keys(c):
    keys, words = c.one(INT32, c.keys), c.one(UTF8, [WORDS[k] for k in c.keys])
    base = column(0, UTF8)
    yield "base with 10 Int32 keys", case(C0, [(int32(k), int32(k * 10)) for k in range(10)], int32(-1)), keys
    yield "the same, text results", case(C0, [(int32(k), word(k)) for k in range(10)], word(11)), keys
    yield "base with 10 text keys", case(base, [(word(k), int32(k)) for k in range(10)], int32(-1)), words
    yield "the same, text results", case(base, [(word(k), word(9 - k)) for k in range(10)], word(11)), words
    yield "`c0 = text` ten times", case(None, [(equal(base, word(k)), int32(k)) for k in range(10)], int32(-1)), words
    both = table(c.rows, stored(INT32, c.keys), *(stored(INT32, v) for v in c.four))
    yield "base, 10 literal WHENs, column THENs", case(C0, [(int32(k), column(1 + k % 4, INT32)) for k in range(10)], int32(-1)), both


def by_one_branch(c):
    two = table(c.rows, stored(INT32, c.values), stored(INT32, c.four[0]))
    yield "`WHEN c0 < literal THEN c1`, no ELSE (strategy 3)", case(None, [(less(C0, int32(500)), column(1, INT32))], None), two
    yield "`WHEN c0 < literal THEN literal ELSE literal`", case(None, [(less(C0, int32(500)), int32(1))], int32(2)), c.numbers()
    null = column(0, INT32, 1)
    yield "`WHEN c0 IS NOT NULL THEN c0 ELSE literal`", case(None, [(is_not_null(null), null)], int32(0)), c.one(INT32, c.values, c.half[0])
    four = [column(i, INT32, 1) for i in range(4)]
    yield "the same in turn over four columns", case(None, [(is_not_null(f), f) for f in four], int32(0)), c.in_turn(c.half)


def by_operators(c):
    yield "two WHENs `NOT c0 < literal`", case(None, [(negated(less(C0, int32(a))), int32(a)) for a in (600, 300)], int32(3)), c.numbers()
    pairs = [(less(column(i, INT32), column(i + 1, INT32)), int32(i)) for i in range(2)]
    yield "two WHENs `column < column`", case(None, pairs, int32(3)), c.in_turn()
    narrow = cast(INT32, column(0, INT64))
    yield "two WHENs `CAST(c0 AS Int32) < literal`", case(None, [(less(narrow, int32(a)), int32(a)) for a in (300, 600)], int32(3)), c.one(INT64, c.values)
    marks = table(c.rows, *(stored(BOOLEAN, b, c.nulls) for b in c.half))
    yield "Boolean columns as four WHENs", case(None, [(column(i, BOOLEAN, 1), int32(i)) for i in range(4)], int32(9)), marks


def by_float_casts(c):
    floats, longs = c.one(FLOAT64, c.floats), c.one(INT64, c.values)
    whole = cast(INT32, column(0, FLOAT64))
    yield "two WHENs `CAST(c0 AS Int32) < literal`, c0 Float64", case(None, [(less(whole, int32(a)), int32(a)) for a in (-200, 200)], int32(3)), floats
    then_cast = lambda to, of: case(None, [(literal(BOOLEAN, 1), cast(to, column(0, of)))], None)
    yield "`THEN CAST(c0 AS Int32)` at every row, c0 Float64", then_cast(INT32, FLOAT64), floats
    yield "`THEN CAST(c0 AS Int64)` at every row, c0 Float64", then_cast(INT64, FLOAT64), floats
    yield "`THEN CAST(c0 AS Float64)` at every row, c0 Int64", then_cast(FLOAT64, INT64), longs


def two_steps(a):
    return case(None, [(less(C0, int32(a)), int32(1)), (less(C0, int32(a + 150)), int32(2))], int32(3))


def by_nesting(c):
    inner = case(None, [(less(C0, int32(250)), int32(1))], int32(2))
    outer = case(None, [(less(C0, int32(750)), int32(4))], int32(5))
    yield "a CASE in THEN", case(None, [(less(C0, int32(500)), inner)], int32(3)), c.numbers()
    yield "a CASE in ELSE", case(None, [(less(C0, int32(500)), int32(3))], outer), c.numbers()
    test = case(None, [(less(C0, int32(250)), literal(BOOLEAN, 1))], less(int32(600), C0))
    yield "a CASE in WHEN", case(None, [(test, int32(1))], int32(2)), c.numbers()
    yield "three THENs that are CASEs of two", case(None, [(less(C0, int32(300 * (i + 1))), two_steps(300 * i)) for i in range(3)], int32(9)), c.numbers()


def targets(c):
    """A rule over columns of four types: moving, length, speed and name of a target; its results are text."""
    moving, length, speed, name = column(0, BOOLEAN), column(1, FLOAT64), column(2, INT32, 1), column(3, UTF8)
    metres = lambda x: literal(FLOAT64, x)
    branches = [(equal(name, word(k)), text(b"known")) for k in range(2)]
    branches += [(less(metres(50.0), length), text(b"ship")), (less(speed, int32(100)), text(b"gear"))]
    branches += [(moving, text(b"boat")), (less(length, metres(3.0)), text(b"buoy"))]
    data = table(c.rows, stored(BOOLEAN, c.half[0]), stored(FLOAT64, [v / 10 for v in c.values]), stored(INT32, c.four[1], c.nulls),
                 stored(UTF8, [WORDS[k] for k in c.keys]))
    return case(None, branches, text(b"unknown")), data


def measured():
    c = Columns(ROWS)
    for group in (by_one_column, by_keys, by_one_branch, by_operators, by_float_casts, by_nesting):
        yield from group(c)
    yield ("four columns of four types, text results", *targets(c))
    for rows in (24, 8):
        few = Columns(rows)
        yield (f"four columns of four types, {rows} rows", *targets(few))
        yield f"10 branches `WHEN c0 < literal`, {rows} rows", ladder(10), few.numbers()
