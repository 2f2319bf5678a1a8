"""Which types go together in a rule."""
from dealer.tree import BOOLEAN, CASTS, FLOAT64, INT32, INT64, WORDS, is_null, type_of

NUMBERS = (INT32, INT64, FLOAT64)
WHOLE = (BOOLEAN, INT32, INT64)


def cast_listed(kind, to):
    return kind == to or any(kind in group and to in group for group in (WHOLE, NUMBERS))


def case_misfit(e):
    _, base, branches, other = e
    wanted = BOOLEAN if base is None else type_of(base)
    result = type_of(e)
    for i, (when, then) in enumerate(branches, 1):
        if type_of(when) != wanted:
            why = "a WHEN without a base is" if base is None else "the base is"
            return when, f"WHEN {i} is {WORDS[type_of(when)]}, {why} {WORDS[wanted]}"
        if type_of(then) != result:
            return then, f"THEN {i} is {WORDS[type_of(then)]}, THEN 1 is {WORDS[result]}"
    if other is not None and not is_null(other) and not cast_listed(type_of(other), result):
        return other, f"ELSE is {WORDS[type_of(other)]}, THEN 1 is {WORDS[result]}"
    return None


def misfit(e):
    """Where and how the types of a node's children don't go together, or None. The children's own types do."""
    word = e[0]
    if word == "case":
        return case_misfit(e)
    if word in ("col", "literal", "isnotnull"):
        return None
    kind = type_of(e[-1])
    name = WORDS[kind]
    if word == "not":
        return None if kind == BOOLEAN else (e, f"NOT {name}")
    if word == "neg":
        return None if kind in NUMBERS else (e, f"- {name}")
    if word in CASTS:
        said = "CAST" if word == "cast" else "TRY_CAST"
        return None if cast_listed(kind, e[1]) else (e, f"{said}({name} AS {WORDS[e[1]]})")
    left = type_of(e[1])
    return None if left == kind else (e, f"{WORDS[left]} {'=' if word == 'equal' else '<'} {name}")
