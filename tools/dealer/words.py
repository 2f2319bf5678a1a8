"""Writes a tree and a table: as text that can be read again, in the words of SQL, and byte by byte."""
from dealer.floats import float_of, name_of
from dealer.layout import rule_bytes
from dealer.tree import BOOLEAN, CASTS, FLOAT64, NAMES, TITLES, UTF8, WORDS


# ---- text ----

def value_text(kind, value):
    if value is None:
        return "null"
    if kind == BOOLEAN:
        return "true" if value else "false"
    if kind == FLOAT64:
        return repr(float_of(value)) if name_of(value) is None else f"0x{value:016x}"
    if kind != UTF8:
        return str(value)
    text = printable(value)
    return f'x"{value.hex()}"' if text is None else '"' + text.replace("\\", "\\\\").replace('"', '\\"') + '"'


def named_value(kind, value):
    """As a text has it; a NaN or an infinity, of which a text has the bits, with its name."""
    name = name_of(value) if kind == FLOAT64 else None
    return value_text(kind, value) + (f" ({name})" if name else "")


def printable(value):
    """The text of bytes, or None if some are no printable text."""
    try:
        text = value.decode("utf-8")
    except UnicodeDecodeError:
        return None
    return text if text.isprintable() else None


def form(e, columns):
    """The tree as nested lists of words."""
    word = e[0]
    if word == "col":
        _, index, kind, nullable = e
        known = index < len(columns)
        own = [] if known and columns[index][1:3] == (kind, nullable) else [WORDS[kind]] + ["null"] * nullable
        return ["col", columns[index][0] if known else str(index)] + own
    if word == "literal":
        return ["null", WORDS[e[1]]] if e[2] is None else [WORDS[e[1]], value_text(e[1], e[2])]
    if word == "case":
        _, base, branches, other = e
        out = ["case"] + ([["base", form(base, columns)]] if base is not None else [])
        out += [["when", form(w, columns), ["then", form(t, columns)]] for w, t in branches]
        return out + ([["else", form(other, columns)]] if other is not None else [])
    head = [WORDS[e[1]]] if word in CASTS else []
    return [word] + head + [form(x, columns) for x in e[len(head) + 1:]]


def flat(f):
    return f if isinstance(f, str) else "(" + " ".join(flat(x) for x in f) + ")"


def laid_out(f, indent=0):
    """A case has a line for each part; what is short stands in one line."""
    line = " " * indent + flat(f)
    if "(case" not in line and len(line) <= 100:
        return line
    words = [x for x in f if isinstance(x, str)]
    lines = [" " * indent + "(" + " ".join(words)]
    lines += [laid_out(x, indent + 2) for x in f if not isinstance(x, str)]
    return "\n".join(lines) + ")"


def text_of(e, table):
    rows, columns = table
    lines = [f"rows {rows}"]
    for name, kind, nullable, values in columns:
        lines.append(" ".join(["column", name, WORDS[kind]] + ["null"] * nullable + [value_text(kind, v) for v in values]))
    return "\n".join(lines + ["rule", laid_out(form(e, columns))]) + "\n"


# ---- SQL ----

def literal_words(kind, value):
    text = printable(value) if kind == UTF8 and value is not None else None
    if text is not None:
        return "'" + text.replace("'", "''") + "'"
    return "NULL" if value is None else value_text(kind, value)


def operand(e, names):
    """In brackets, unless it is a column, a literal or a cast."""
    said = sql(e, names)
    return said if e[0] in ("col", "literal", "cast", "trycast") else f"({said})"


def sql(e, names):
    """An expression in the words of SQL."""
    word = e[0]
    if word == "col":
        return names[e[1]] if e[1] < len(names) else f"column {e[1]}"
    if word == "literal":
        return literal_words(e[1], e[2])
    if word == "case":
        return case_sql(e, names)
    if word in CASTS:
        return f"{'CAST' if word == 'cast' else 'TRY_CAST'}({sql(e[2], names)} AS {WORDS[e[1]]})"
    if word == "isnotnull":
        return operand(e[1], names) + " IS NOT NULL"
    if word in ("equal", "less"):
        return f"{operand(e[1], names)} {'=' if word == 'equal' else '<'} {operand(e[2], names)}"
    return ("NOT " if word == "not" else "-") + operand(e[1], names)


def case_sql(e, names):
    _, base, branches, other = e
    parts = ["CASE"] + ([sql(base, names)] if base is not None else [])
    parts += [f"WHEN {sql(when, names)} THEN {sql(then, names)}" for when, then in branches]
    return " ".join(parts + ([f"ELSE {sql(other, names)}"] if other is not None else []) + ["END"])


def branch_words(e, taken, names):
    """A branch of a CASE by its index (None for ELSE): `WHEN 3: size < 3.0`; with a base `WHEN 3: kind = 'boat'`."""
    if taken is None:
        return "ELSE" if e[3] is not None else "no WHEN, no ELSE"
    when = e[2][taken][0]
    said = sql(when, names) if e[1] is None else f"{operand(e[1], names)} = {operand(when, names)}"
    return f"WHEN {taken + 1}: {said}"


# ---- bytes ----

def explained(e, at=0, deep=0, role=""):
    """Lines of (place, bytes, words) for the field of a tree."""
    data, word = rule_bytes(e), e[0]
    said = NAMES[data[0]] + (f" to {TITLES[e[1]]}" if word in CASTS else "")
    yield at, data[:3], "  " * deep + role + f"{said}, {len(data) - 3} bytes"
    inner, place, below = "  " * (deep + 1), at + 3, []
    if word == "col":
        yield place, data[3:], inner + f"column {e[1]}, {TITLES[e[2]]}, {'nullable' if e[3] else 'never null'}"
    elif word == "literal":
        yield place, data[3:5], inner + f"{TITLES[e[1]]}, {'null' if e[2] is None else 'not null'}"
        if data[5:]:
            yield place + 2, data[5:], inner + value_text(e[1], e[2])
    elif word == "case":
        yield place, data[3:5], inner + case_head(data[3], len(e[2]))
        place, below = place + 2, case_roles(e)
    elif word in CASTS:
        yield place, data[3:4], inner + f"to {TITLES[e[1]]}"
        place, below = place + 1, [("", e[2])]
    else:
        below = list(zip(("left: ", "right: ") if len(e) == 3 else ("",), e[1:]))
    for role, child in below:
        yield from explained(child, place, deep + 1, role)
        place += len(rule_bytes(child))


def case_head(flags, count):
    held = {0: "neither base nor ELSE", 1: "a base", 2: "an ELSE", 3: "a base and an ELSE"}[flags]
    return f"{held}; {count} branch{'' if count == 1 else 'es'}"


def case_roles(e):
    """The children of a CASE, each with what it is."""
    _, base, branches, other = e
    out = [("base: ", base)]
    for i, (when, then) in enumerate(branches, 1):
        out += [(f"WHEN {i}: ", when), (f"THEN {i}: ", then)]
    return [(role, x) for role, x in out + [("ELSE: ", other)] if x is not None]


def explanation(e):
    """The bytes eight a line, each field with a word on it."""
    lines = []
    for at, data, words in explained(e):
        for j in range(0, len(data), 8):
            shown = data[j:j + 8].hex(" ").upper()
            lines.append(f"{at + j:4}  {shown:<23}  {words if j == 0 else ''}".rstrip())
    return "\n".join(lines) + "\n"
