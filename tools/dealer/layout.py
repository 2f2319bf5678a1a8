"""Writes the bytes of a rule and of a table (docs/FORMAT.md)."""
from dealer.tree import BOOLEAN, CASE, CASTS, COLUMN, FIELD_MOST, LITERAL, PLAIN, UTF8, WIDTHS, children


def number(n, width):
    return (n % 256 ** width).to_bytes(width, "little")


def field(tag, content):
    if len(content) > FIELD_MOST:
        raise OverflowError(f"a field of {len(content)} bytes: at most {FIELD_MOST} fit")
    return bytes([tag]) + number(len(content), 2) + content


def bitmap(bits):
    return bytes(sum(b << i for i, b in enumerate(bits[j:j + 8])) for j in range(0, len(bits), 8))


def value_bytes(kind, value):
    """A literal's value."""
    if value is None:
        return b""
    if kind == BOOLEAN:
        return bytes([value])
    return value if kind == UTF8 else number(value, WIDTHS[kind])


def head_bytes(e):
    """What stands between a field's header and its children."""
    word = e[0]
    if word == "col":
        return bytes(e[1:4])
    if word == "literal":
        return bytes([e[1], e[2] is None]) + value_bytes(e[1], e[2])
    if word == "case":
        return bytes([(e[1] is not None) + 2 * (e[3] is not None), len(e[2])])
    return bytes([e[1]]) if word in CASTS else b""


def tag_of(e):
    word = e[0]
    return {"col": COLUMN, "literal": LITERAL, "case": CASE}.get(word) or CASTS.get(word) or PLAIN[word][0]


def rule_bytes(e):
    return field(tag_of(e), head_bytes(e) + b"".join(rule_bytes(x) for x in children(e)))


def places(e, at=0):
    """Pairs of a field's place in the rule's bytes and its node."""
    yield at, e
    at += 3 + len(head_bytes(e))
    for x in children(e):
        yield from places(x, at)
        at += len(rule_bytes(x))


def column_bytes(kind, nullable, values):
    """Tag 6 is always there; tag 3 is empty if no value is null; under a null stand zeros or empty text."""
    valid = [v is not None for v in values]
    out = field(2, bytes([kind, nullable])) + field(6, number(valid.count(False), 2)) + field(3, b"" if all(valid) else bitmap(valid))
    if kind == BOOLEAN:
        return out + field(4, bitmap([bool(v) for v in values]))
    if kind == UTF8:
        ends = [0]
        for v in values:
            ends.append(ends[-1] + len(v or b""))
        return out + field(5, b"".join(number(n, 4) for n in ends)) + field(4, b"".join(v or b"" for v in values))
    return out + field(4, b"".join(number(v or 0, WIDTHS[kind]) for v in values))


def table_bytes(table):
    rows, columns = table
    return field(1, number(rows, 2)) + b"".join(column_bytes(*c[1:]) for c in columns)
