"""nullability.py: the nullability answer of a rule, worked out from its tree by documents 01 (Strategies) and 02 (Change 5), apart from the
library. A tree is a tuple as casetext.py has it; two that are equal have the same bytes.
"""
import collections

from case_classes import FAILED, Rows, children, else_can_fail, else_of, kind_of


def stripped(e):
    """A THEN without the NOT, negative and cast above it."""
    while e[0] in ("not", "neg", "cast"):
        e = e[-1]
    return e


def replaced(e, part):
    """An expression with every part that equals a given one replaced by a null of its type."""
    if e is None:
        return None
    if e == part:
        return ("literal", kind_of(e), None)
    if e[0] == "case":
        _, base, branches, other = e
        return ("case", replaced(base, part), [(replaced(w, part), replaced(t, part)) for w, t in branches], replaced(other, part))
    return tuple(replaced(x, part) if isinstance(x, tuple) else x for x in e)


def reachable(when, then):
    """Whether a WHEN, with the parts that equal the stripped THEN as nulls, is true or can't be worked out without reading a column or failing."""
    unread = Rows(collections.defaultdict(lambda: [FAILED]))
    value, = unread.value(replaced(when, stripped(then)), [0])
    return value is True or value is FAILED


def nullable(e, turns_null=else_can_fail):
    """The answer; `turns_null` says of a CASE whether its ELSE counts as nullable for its try-cast."""
    word = e[0]
    if word == "col":
        return bool(e[3])
    if word == "literal":
        return e[2] is None
    if word in ("isnotnull", "trycast"):
        return word == "trycast"
    if word != "case":
        return any(nullable(x, turns_null) for x in children(e))
    _, base, branches, other = e
    thens = any(nullable(t, turns_null) and (base is not None or reachable(w, t)) for w, t in branches)
    return thens or else_of(e) is None or nullable(other, turns_null) or turns_null(e)
