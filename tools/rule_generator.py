"""rule_generator.py: random rules with tables, written from documents 01 and 02, for compare_rust.py.

case(rng, theme, small) gives a Case: a tree and a table as casetext.py has them, and a number that chooses what stands in spare bits and
under nulls (0: zeros). The theme "inside" keeps to what is compared with the Rust without exception: UTF-8 text, ELSE of the result's
type, no cast above a CASE, no negated lowest integer. "outside" keeps to none of it; the other THEMES make one known difference
likelier. With `small` rules and tables are short. limit(rng) gives a case at a limit.
"""
import random
from collections import namedtuple

from case_classes import FAILED, LOWEST, MAY_FAIL, converted, float_bits, negates_lowest
from casetext import WIDTHS, bitmap, field, number, rule_bytes

Case = namedtuple("Case", "rule table junk")

RULE_MOST, TABLE_MOST, TEXT_MOST, ROWS_MOST, COLUMNS_MOST, BRANCHES_MOST, DEPTH_MOST, CASES_MOST = 4096, 65536, 65535, 512, 16, 32, 8, 3
THEMES = ("outside", "else", "no rows", "lowest", "bytes")
KINDS = (1, 2, 3, 4, 5)
# casts by target; the listed pairs (01, Bytes of a rule; 02, Change 2), those that may fail and those that may round more often
FROM = {1: (1, 2, 3), 2: (1, 2, 3, 3, 3, 4, 4, 4), 3: (1, 2, 3, 4, 4), 4: (4, 2, 3, 3), 5: (5,)}
INT32 = [0, 1, -1, 2, 7, -7, 100, 2 ** 31 - 1, -2 ** 31 + 1, -2 ** 31]
INT64 = INT32 + [2 ** 31, -2 ** 31 - 1, 2 ** 32, 2 ** 63 - 1, -2 ** 63 + 1, -2 ** 63]
# halfway between two floats, and beside that
TIES = [2 ** 53 + 1, -2 ** 53 - 3, 2 ** 54 + 2, 2 ** 54 + 3, 2 ** 63 - 512, 2 ** 63 - 513]
# 0.0, 1.0, 1.5, the least and the greatest, infinity, NaNs quiet and not, with the least and the greatest payload; then the negative ones
FLOATS = [0, 0x3ff0 << 48, 0x3ff8 << 48, 1, 0x7fef << 48 | 2 ** 48 - 1, 0x7ff0 << 48, 0x7ff8 << 48, 0x7ff0 << 48 | 1, 0x7fff << 48 | 2 ** 48 - 1]
FLOATS += [1 << 63 | b for b in FLOATS]
# the greatest subnormal, below 1, at the ends of Int32, 2^53 - 1, at the ends of Int64; then the negative ones
ENDS = [2 ** 52 - 1] + list(map(float_bits, (0.5, 0.9, 1 - 2 ** -53, 2147483647.0, 2147483647.9, 2147483648.0, 2147483648.9, 2147483649.0,
                                             2.0 ** 53 - 1, 2.0 ** 63 - 1024, 2.0 ** 63, 2.0 ** 63 + 2048)))
ENDS += [1 << 63 | b for b in ENDS]
FITTING = [b for b in FLOATS + ENDS if converted(4, 2, b) is not FAILED]
TEXTS = [b"", b"a", b"ab", b"abc", b"b", b"ba", b"\0", b"a\0", b"boat", b"boats", "é".encode(), "日本".encode(), b"\x7f", "\U0010ffff".encode()]
NOT_UTF8 = [b"\xff", b"a\xff", b"\xc3", b"\x80a"]


def any_value(rng, kind):
    """A value of a type, never null: mostly from the edges."""
    if kind == 1:
        return rng.random() < 0.5
    if kind == 5:
        return rng.choice(TEXTS)
    if kind == 4:
        return any_float(rng)
    if rng.random() < 0.8:
        return rng.choice(INT32 if kind == 2 else INT64 + TIES)
    return rng.randrange(-300, 300) if kind == 2 or rng.random() < 0.5 else rng.randrange(-2 ** 63, 2 ** 63)


def any_float(rng):
    """The bits of a float; where it isn't an edge, often of a magnitude that some integer has."""
    pick = rng.random()
    if pick < 0.85:
        return rng.choice(FLOATS if pick < 0.4 else ENDS)
    return rng.getrandbits(64) if pick < 0.9 else rng.getrandbits(1) << 63 | rng.randrange(1021, 1089) << 52 | rng.getrandbits(52)


class Maker:
    """Makes one case."""

    def __init__(self, rng, theme, small):
        self.rng, self.theme, self.inside, self.small = rng, theme, theme == "inside", small
        self.palettes = {k: self.palette(k) for k in KINDS}
        # type, whether the table's column is nullable, whether the rule says so
        count = rng.choice((0, 1, 2, 2, 3, 3, 4, 5) if small else (0, 1, 2, 3, 3, 4, 4, 5, 6, 8, COLUMNS_MOST))
        self.schema = [self.marks() for _ in range(count)]
        # the types of a cast that may fail and stands often, if any
        self.narrowing = rng.choice(MAY_FAIL) if rng.random() < 0.3 else None
        if self.narrowing:
            self.schema = self.schema[1:] + [(self.narrowing[0],) + self.marks()[1:]]
        self.budget = rng.choice((3, 5, 7, 9) if small else (4, 8, 12, 20, 40, 80))

    def palette(self, kind):
        """The few values that columns and literals of a type are drawn from, so that they meet."""
        values = [any_value(self.rng, kind) for _ in range(self.rng.randint(2, 5))]
        if kind in (3, 4) and self.theme != "no rows" and self.rng.random() < 0.5:
            values = [v if converted(kind, 2, v) is not FAILED else self.rng.choice(INT32 if kind == 3 else FITTING) for v in values]
        if kind == 5 and self.theme == "bytes":
            values.append(self.rng.choice(NOT_UTF8))
        if kind in (2, 3, 4) and self.theme == "lowest":
            lowest = LOWEST[kind if kind < 4 else self.rng.choice((2, 3))]
            values.append(lowest if kind < 4 else float_bits(float(lowest)))
        return values

    def marks(self):
        nullable = int(self.rng.random() < 0.6)
        return self.rng.choice(KINDS), nullable, max(nullable, int(self.rng.random() < 0.2))

    def value(self, kind):
        return self.rng.choice(self.palettes[kind])

    # ---- expressions ----

    def literal(self, kind, null=0.12):
        return ("literal", kind, None if self.rng.random() < null else self.value(kind))

    def column(self, kind):
        """A column of a type, or a literal where the table has none."""
        found = [i for i, s in enumerate(self.schema) if s[0] == kind]
        if not found:
            if len(self.schema) < COLUMNS_MOST and self.rng.random() < 0.7:
                self.schema.append((kind,) + self.marks()[1:])
                found = [len(self.schema) - 1]
            else:
                return self.literal(kind)
        i = self.rng.choice(found)
        return ("col", i, kind, self.schema[i][2])

    def leaf(self, kind, depth=DEPTH_MOST):
        if self.narrowing and kind != 5 and depth + 2 <= DEPTH_MOST and self.rng.random() < 0.5:
            source, target = self.narrowing
            cast = ("cast", target, self.column(source))
            return cast if kind == target else ("cast", kind, cast)
        return self.column(kind) if self.rng.random() < 0.65 else self.literal(kind)

    def expr(self, kind, depth, cases):
        """An expression of a type: depth is its own, cases the number of CASEs above it."""
        self.budget -= 1
        if depth >= DEPTH_MOST or self.budget <= 0 or self.rng.random() < 0.3:
            return self.wide_case(kind, depth, cases) if self.theme == "no rows" and kind in LOWEST else self.leaf(kind, depth)
        forms = ["cast", "cast", "trycast"] + ["cast"] * (3 if self.theme == "no rows" or kind == 2 else 0)
        if cases < CASES_MOST:
            forms += ["case"] * 3
        if kind == 1:
            forms += ["not", "not", "isnotnull", "isnotnull", "equal", "equal", "equal", "less", "less", "less"]
        elif kind != 5:
            forms += ["neg"] * (9 if self.theme == "lowest" else 3)
        return self.form(self.rng.choice(forms), kind, depth, cases)

    def wide_case(self, kind, depth, cases):
        """A cast to an integer that may fail, above a CASE of literals, if there is room for it."""
        if depth + 2 > DEPTH_MOST or cases >= CASES_MOST:
            return self.leaf(kind)
        of = self.rng.choice([source for source, target in MAY_FAIL if target == kind])
        return ("cast", kind, ("case", None, [(self.column(1), self.literal(of))], self.rng.choice((None, self.literal(of), self.column(of)))))

    def form(self, word, kind, depth, cases):
        if word == "case":
            return self.case(kind, self.strategy(), depth, cases)
        if word in ("cast", "trycast"):
            # no CASE below a cast inside the domain
            below = CASES_MOST if self.inside and word == "cast" else cases
            return (word, kind, self.expr(self.rng.choice(FROM[kind]), depth + 1, below))
        if word in ("equal", "less"):
            of = self.rng.choice(KINDS)
            return (word, self.expr(of, depth + 1, cases), self.expr(of, depth + 1, cases))
        return (word, self.expr(self.rng.choice(KINDS) if word == "isnotnull" else kind, depth + 1, cases))

    # ---- CASE ----

    def strategy(self):
        return 5 if self.theme == "else" and self.rng.random() < 0.5 else self.rng.randint(1, 6)

    def case(self, kind, strategy, depth, cases):
        """A CASE whose result has a type, mostly of the strategy asked for."""
        low, inner = depth + 1, cases + 1
        one = self.branches(1 if strategy in (3, 4, 5) else 2)
        if strategy in (2, 6):
            return self.with_base(kind, strategy, low, inner)
        if strategy == 3:
            then = self.column(kind)
            return ("case", None, [(self.when(then, low, inner), then)], self.rng.choice((None, None, self.null())))
        if strategy == 4:
            then = self.literal(kind)
            other = self.other(kind)
            return ("case", None, [(self.when(then, low, inner), then)], self.literal(other, 0.05))
        if strategy == 1 and not self.small and low < DEPTH_MOST and self.rng.random() < 0.2:
            return ("case", None, self.ladder(kind, one, low, inner), self.else_of(kind, low, inner))
        thens = [self.expr(kind, low, inner) for _ in range(one)]
        return ("case", None, [(self.when(t, low, inner), t) for t in thens], self.else_of(kind, low, inner))

    def branches(self, least):
        if least == 1:
            return 1
        return self.rng.choice((2, 2, 3) if self.small else (2, 2, 3, 3, 4, 5, 7))

    def ladder(self, kind, count, low, inner):
        """Branches whose WHENs compare one column with literals; the THENs are literals, or expressions."""
        of, plain = self.rng.choice(KINDS), self.rng.random() < 0.6
        column, pairs = self.column(of), []
        for _ in range(count):
            sides = (column, self.literal(of)) if self.rng.random() < 0.7 else (self.literal(of), column)
            then = self.literal(kind) if plain else self.expr(kind, low, inner)
            pairs.append(((self.rng.choice(("equal", "less", "less")),) + sides, then))
        return pairs

    def with_base(self, kind, strategy, low, inner):
        of = self.rng.choice(KINDS)
        base = self.expr(of, low, inner) if self.rng.random() < 0.5 else self.column(of)
        if strategy == 6:
            pairs = [(self.literal(of), self.literal(kind)) for _ in range(self.branches(2))]
            other = self.rng.choice((None, self.null(), self.literal(kind), self.literal(kind)))
            if not self.small and self.rng.random() < 0.15:
                other = self.no_table(kind, low, inner)
            return ("case", base, pairs, other)
        pairs = []
        for _ in range(self.branches(self.rng.randint(1, 2))):
            when = self.expr(of, low, inner) if self.rng.random() < 0.6 else self.literal(of)
            pairs.append((when, self.expr(kind, low, inner)))
        return ("case", base, pairs, self.else_of(kind, low, inner))

    def no_table(self, kind, low, inner):
        """An ELSE beside which no table of keys serves: an expression, or outside of the domain a literal of another type."""
        if self.inside or self.rng.random() < 0.5:
            return self.expr(self.other(kind), low, inner)
        return self.literal(self.rng.choice(FROM[kind]), 0)

    def null(self):
        """A null literal of any type: as ELSE it is dropped."""
        return ("literal", self.rng.choice(KINDS), None)

    def other(self, kind):
        """The type of an ELSE."""
        return kind if self.inside or self.rng.random() < (0.1 if self.theme == "else" else 0.7) else self.rng.choice(FROM[kind])

    def else_of(self, kind, low, inner):
        pick = self.rng.random()
        if pick < 0.25:
            return None
        return self.null() if pick < 0.32 else self.expr(self.other(kind), low, inner)

    def when(self, then, low, inner):
        """A WHEN without a base; sometimes about its THEN, sometimes a constant."""
        pick = self.rng.random()
        if pick < (0.3 if self.theme == "else" else 0.12):
            return self.literal(1)
        if pick < 0.35:
            return self.about(then, low)
        if pick < 0.4 and inner < CASES_MOST and low < DEPTH_MOST:
            return self.constant_case(then, low, inner)
        if self.theme == "lowest" and pick < 0.6 and low + 2 <= DEPTH_MOST:
            kind = self.rng.choice((2, 3))
            return (self.rng.choice(("equal", "less")), ("neg", ("literal", kind, LOWEST[kind])), self.literal(kind))
        return self.expr(1, low, inner)

    def constant_case(self, then, low, inner):
        """A CASE for a WHEN, whose own WHEN is a constant: what it doesn't take may read a column, or the THEN."""
        taken, other = self.expr(1, low + 1, inner + 1), self.rng.choice((None, self.leaf(1)))
        if self.rng.random() < 0.5 and low + 2 + height(then) <= DEPTH_MOST and not cases_in(then):
            taken = ("isnotnull", then)
        return ("case", None, [(self.literal(1), taken)], other)

    def about(self, then, depth):
        """A WHEN that tells whether the THEN's inner part is null, or compares it."""
        part, kind = then, self.kind_of(then)
        while part[0] in ("not", "neg", "cast") and self.rng.random() < 0.9:
            part = part[-1]
            kind = self.kind_of(part)
        if kind is None or depth + 2 + height(part) > DEPTH_MOST + 1 or cases_in(part):
            return self.leaf(1)
        test = ("isnotnull", part)
        pick = self.rng.random()
        if pick < 0.3:
            test = (self.rng.choice(("equal", "less")), part, self.literal(kind))
        elif pick < 0.4:
            test = (self.rng.choice(("equal", "less")), self.literal(kind), part)
        elif pick < 0.5 and kind == 1:
            test = part
        return ("not", test) if self.rng.random() < 0.3 else test

    def kind_of(self, e):
        if e[0] in ("cast", "trycast", "literal"):
            return e[1]
        if e[0] == "col":
            return e[2]
        if e[0] in ("not", "isnotnull", "equal", "less"):
            return 1
        return self.kind_of(e[2][0][1]) if e[0] == "case" else self.kind_of(e[1])

    # ---- tables ----

    def rows(self):
        pick = self.rng.random()
        if pick < (0.7 if self.theme == "no rows" else 0.06):
            return 0
        if pick < 0.15:
            return 1
        if self.small:
            return self.rng.randint(2, 5)
        if pick < 0.8:
            return self.rng.randint(2, 9)
        return self.rng.randint(10, 40) if pick < 0.97 else self.rng.choice((63, 64, 65, 128, 511, 512))

    def table(self, rows):
        """Values for the schema; some columns hold one value only, so that all rows go one way."""
        columns = []
        for i, (kind, nullable, _) in enumerate(self.schema):
            share = self.rng.choice((0, 0.1, 0.3, 0.3, 1)) if nullable else 0
            values = [self.value(kind)] if self.rng.random() < 0.15 else self.palettes[kind]
            columns.append((f"c{i}", kind, nullable, [None if self.rng.random() < share else self.rng.choice(values) for _ in range(rows)]))
        return rows, columns


def height(e):
    """Levels of an expression without CASE."""
    below = [height(x) for x in e[1:] if isinstance(x, tuple)]
    return 1 + max(below, default=0)


def cases_in(e):
    return e[0] == "case" or any(cases_in(x) for x in e[1:] if isinstance(x, tuple))


def case(rng, theme, small):
    while True:
        made = Maker(rng, theme, small)
        rule = made.case(rng.choice(KINDS), made.strategy(), 1, 0)
        if len(rule_bytes(rule)) > RULE_MOST or made.inside and negates_lowest(rule):
            continue
        out = Case(rule, made.table(made.rows()), rng.choice((0, 0, rng.getrandbits(30) + 1)))
        if len(table_bytes(out)) <= TABLE_MOST:
            return out


# ---- limits ----

def limit(rng):
    """A case at the upper end of a limit."""
    return rng.choice((full_table, many_branches, deep, long_rule, long_table, long_answer))(rng)


def full_table(rng):
    """512 rows of 16 columns."""
    made = Maker(rng, "inside", True)
    while len(made.schema) < COLUMNS_MOST:
        made.schema.append(made.marks())
    while True:
        rule = made.case(rng.choice(KINDS), rng.randint(1, 6), 1, 0)
        if not negates_lowest(rule) and len(rule_bytes(rule)) <= RULE_MOST:
            return Case(rule, made.table(ROWS_MOST), 0)


def many_branches(rng):
    """32 branches, with a base and literals, with a base and columns, or without a base."""
    made, form, kind = Maker(rng, "inside", True), rng.randrange(3), rng.choice(KINDS)
    of = rng.choice((2, 3, 4, 5))
    made.palettes[of] = [any_value(rng, of) for _ in range(40)]
    base = ("col", 0, of, 1)
    made.schema = [(of, 1, 1), (kind, 1, 1)]
    whens = [made.literal(of) for _ in range(BRANCHES_MOST)]
    thens = [made.literal(kind) if form != 1 else ("col", 1, kind, 1) for _ in whens]
    if form == 2:
        whens = [("equal", base, w) for w in whens]
    rule = ("case", None if form == 2 else base, list(zip(whens, thens)), made.literal(kind))
    return Case(rule, made.table(rng.randint(1, 60)), 0)


def deep(rng):
    """Depth 8, with three CASEs on the path."""
    made = Maker(rng, "inside", True)
    made.schema = [(1, 1, 1), (2, 1, 1)]
    made.palettes[2] = [v for v in made.palettes[2] if v != LOWEST[2]] or [5]
    flag, e = ("col", 0, 1, 1), ("col", 1, 2, 1)
    for _ in range(DEPTH_MOST - 1 - CASES_MOST):
        e = ("neg", e)
    for _ in range(CASES_MOST):
        when = rng.choice((flag, ("literal", 1, True), ("not", flag)))
        e = ("case", None, [(when, e)], rng.choice((None, made.literal(2), ("col", 1, 2, 1))))
    return Case(e, made.table(made.rows()), 0)


def long_rule(rng):
    """A rule of 4,096 bytes."""
    texts = [rng.choice(TEXTS), rng.choice(TEXTS)]

    def rule():
        then, other = (("literal", 5, t) for t in texts)
        return ("case", None, [(("col", 0, 1, 1), then)], other)
    texts[rng.randrange(2)] += b"x" * (RULE_MOST - len(rule_bytes(rule())))
    made = Maker(rng, "inside", True)
    made.schema = [(1, 1, 1)]
    return Case(rule(), made.table(rng.randint(0, 15)), 0)


def long_table(rng):
    """A table of 65,536 bytes, by the text of a column."""
    made = Maker(rng, "inside", True)
    made.schema = [(1, 1, 1), (5, 1, 1)]
    rows = rng.randint(1, 30)
    table = made.table(rows)
    values = table[1][1][3]
    values[rng.randrange(rows)] = b""
    rule = ("case", None, [(("col", 0, 1, 1), ("col", 1, 5, 1))], rng.choice((None, made.literal(5))))
    values[values.index(b"")] = b"y" * (TABLE_MOST - len(table_bytes(Case(rule, table, 0))))
    return Case(rule, table, 0)


def long_answer(rng):
    """An answer whose text has 65,535 bytes, or one more."""
    rows, size = rng.choice(((255, 257), (256, 256)))
    then = ("literal", 5, b"z" * size)
    rule = ("case", None, [(("isnotnull", ("col", 0, 1, 1)), then)], rng.choice((None, then)))
    return Case(rule, (rows, [("c0", 1, 1, [rng.random() < 0.5 for _ in range(rows)])]), 0)


# ---- bytes ----

def table_bytes(c):
    """The table's bytes; with junk, spare bits are set, under nulls stand values, a bitmap may stand where nothing is null, and columns may
    have their null counts."""
    rows, columns = c.table
    rng = random.Random(c.junk) if c.junk else None
    return field(1, number(rows, 2)) + b"".join(column(rng, *col[1:]) for col in columns)


def column(rng, kind, nullable, values):
    junk = rng is not None
    valid = [v is not None for v in values]
    full = [any_value(rng, kind) if v is None and junk else v for v in values]
    bits = bits_of(rng, valid) if not all(valid) or junk and rng.random() < 0.3 else b""
    count = field(6, number(valid.count(False), 2)) if junk and rng.random() < 0.5 else b""
    out = field(2, bytes([kind, nullable])) + count + field(3, bits)
    if kind == 1:
        return out + field(4, bits_of(rng, [bool(v) for v in full]))
    if kind == 5:
        ends = [0]
        for v in full:
            ends.append(ends[-1] + len(v or b""))
        return out + field(5, b"".join(number(n, 4) for n in ends)) + field(4, b"".join(v or b"" for v in full))
    return out + field(4, b"".join(number(v or 0, WIDTHS[kind]) for v in full))


def has_counts(c):
    """Whether some column of the table's bytes has its null count."""
    data, at = table_bytes(c) if c.junk else b"", 0
    while at < len(data):
        if data[at] == 6:
            return True
        at += 3 + int.from_bytes(data[at + 1:at + 3], "little")
    return False


def bits_of(rng, bits):
    if rng is not None:
        bits = bits + [rng.random() < 0.5 for _ in range(-len(bits) % 8)]
    return bitmap(bits)
