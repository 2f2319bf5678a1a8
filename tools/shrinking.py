"""shrinking.py: shrunk(case, test) gives the smallest case that it finds by single steps. test takes a list of cases and says of each
whether it still shows what is looked for."""
from case_classes import children, float_bits, kind_of, nodes
from casetext import rule_bytes
from rule_generator import Case, table_bytes

# among them 2^31 and the float 2^63, which no narrower type of integers takes
SIMPLE = {1: (False, True), 2: (0, 1), 3: (0, 1, 2 ** 31), 4: (0, float_bits(2.0 ** 63)), 5: (b"", b"a")}


def size(c):
    data = rule_bytes(c.rule) + table_bytes(c)
    return len(data), sum(b != 0 for b in data), sum(data)


def with_children(e, new):
    """The expression with other children, in the order of `children`."""
    new = list(new)
    if e[0] != "case":
        return tuple(new.pop(0) if isinstance(x, tuple) else x for x in e)
    base = new.pop(0) if e[1] is not None else None
    branches = [(new.pop(0), new.pop(0)) for _ in e[2]]
    return ("case", base, branches, new.pop(0) if e[3] is not None else None)


def simpler(e):
    """Expressions of the same type that are simpler at the top."""
    kind = kind_of(e)
    if e[0] == "case":
        _, base, branches, other = e
        if len(branches) > 1:
            for i in range(len(branches)):
                yield ("case", base, branches[:i] + branches[i + 1:], other)
        if other is not None:
            yield ("case", base, branches, None)
    parts = children(e)
    for i, x in enumerate(parts):
        if kind_of(x) == kind:
            yield x
        # one level less between; where types don't allow it, the rule is refused
        for y in children(x):
            yield with_children(e, parts[:i] + [y] + parts[i + 1:])
    if e[0] != "literal":
        yield ("literal", kind, None)
    for v in SIMPLE[kind]:
        if e != ("literal", kind, v):
            yield ("literal", kind, v)


def variants(e):
    """Expressions with one part made simpler."""
    yield from simpler(e)
    parts = children(e)
    for i, x in enumerate(parts):
        for y in variants(x):
            yield with_children(e, parts[:i] + [y] + parts[i + 1:])


def columns_of(e):
    return {e[1]} if e[0] == "col" else {i for x in children(e) for i in columns_of(x)}


def renumbered(e, gone):
    """The rule without a column that it doesn't name."""
    if e[0] == "col":
        return ("col", e[1] - (e[1] > gone)) + e[2:]
    return with_children(e, [renumbered(x, gone) for x in children(e)])


def remarked(e, index, mark):
    if e[0] == "col":
        return e[:3] + (mark,) if e[1] == index else e
    return with_children(e, [remarked(x, index, mark) for x in children(e)])


def smaller_tables(c):
    rows, columns = c.table
    cuts = [(0, rows // 2), (rows // 2, rows)] if rows > 1 else []
    cuts += [(i, i + 1) for i in range(min(rows, 16))] + [(0, 0)] + [(0, rows - 1), (1, rows)]
    for a, b in cuts:
        if 0 <= a <= b and b - a < rows:
            yield Case(c.rule, (b - a, [col[:3] + (col[3][a:b],) for col in columns]), c.junk)
    named = columns_of(c.rule)
    for i in range(len(columns)):
        if i not in named:
            left = columns[:i] + columns[i + 1:]
            yield Case(renumbered(c.rule, i), (rows, [(f"c{k}",) + col[1:] for k, col in enumerate(left)]), c.junk)
    for i, (name, kind, nullable, values) in enumerate(columns):
        def put(n, new, rule=c.rule, i=i, name=name, kind=kind):
            return Case(rule, (rows, columns[:i] + [(name, kind, n, new)] + columns[i + 1:]), c.junk)
        if nullable and None not in values:
            yield put(0, values, remarked(c.rule, i, 0))
        for v in SIMPLE[kind]:
            yield put(nullable, [v if x is not None else x for x in values])
            yield put(nullable, [v] * rows)


def smaller(c):
    if c.junk:
        yield Case(c.rule, c.table, 0)
    yield from smaller_tables(c)
    for e in variants(c.rule):
        if e[0] == "case":
            yield Case(e, c.table, c.junk)
    for x in nodes(c.rule):
        if x[0] == "case":
            yield Case(x, c.table, c.junk)
        yield Case(("case", None, [(("literal", 1, True), x)], None), c.table, c.junk)


def shrunk(c, test):
    while True:
        new = sorted((d for d in smaller(c) if size(d) < size(c)), key=size)
        good = [d for d, shows in zip(new, test(new)) if shows] if new else []
        if not good:
            return c
        c = good[0]
