"""Sentences for what is typed by mistake: SQL, and words that this text form doesn't have."""
import re

SQL_STARTS = {"case", "select", "with", "create", "update", "insert", "when", "if", "--"}
SQL = ('this is SQL, but a rule is written in brackets here: (case (when (less (col speed) (int32 5)) (then (utf8 "slow"))) '
       '(else (utf8 "fast"))) is CASE WHEN speed < 5 THEN \'slow\' ELSE \'fast\' END')

HINTS = {
    "when": "a WHEN has brackets of its own, (when E (then E))", "then": "a THEN stands inside its WHEN, (when E (then E))",
    "else": "an ELSE has brackets of its own, (else E)", "end": "there is no END, the last bracket ends a case",
    "case": "a CASE has brackets, (case ..), in small letters",
    "and": "there is no AND; A AND B is (case (when A (then B)) (else (boolean false)))",
    "or": "there is no OR; A OR B is (case (when A (then (boolean true))) (else B)), or write two WHENs",
    "<": "A < B is (less A B)", ">": "A > B is (less B A)", "=": "A = B is (equal A B)", "<=": "A <= B is (not (less B A))",
    ">=": "A >= B is (not (less A B))", "<>": "A <> B is (not (equal A B))", "!=": "A <> B is (not (equal A B))",
    "greater": "A > B is (less B A)", "isnull": "A IS NULL is (not (isnotnull A))", "is": "A IS NULL is (not (isnotnull A))",
    "between": "there is no BETWEEN; compare with less, twice", "in": "there is no IN; write a WHEN for each value",
    "like": "there is no LIKE; text is compared whole", "column": "columns stand before the rule; in a rule a column is (col NAME)",
    "try_cast": "it is (trycast TYPE E)", "base": "a base stands first in its case, once",
    "(": "a bracket is missing before it, or it is one too many", ")": "a part is missing before it, or it is one too many",
}


def hint(token, columns=()):
    """What to write in place of a token, or nothing."""
    low = token.lower()
    if token in columns:
        said = f"a column is (col {token})"
    elif re.match(r"[+-]?[0-9]+\Z", token):
        said = f"a number has its type, (int32 {token}), int64 or float64"
    elif re.match(r"[+-]?[0-9]+\.[0-9]*\Z", token):
        said = f"a number has its type, (float64 {token})"
    elif token.startswith("'"):
        said = 'text stands in double quotes, (utf8 "boat")'
    elif token.endswith('"'):
        said = f"a text has its type, (utf8 {token})"
    elif low in ("true", "false"):
        said = f"it is (boolean {low})"
    else:
        said = HINTS.get(low)
    return f": {said}" if said else ""


def sql_sentence(tokens):
    """A sentence if the tokens begin like SQL, a word and no bracket; else None."""
    return SQL if tokens and tokens[0].lower() in SQL_STARTS else None
