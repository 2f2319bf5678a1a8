"""Evaluates a source through the library and, row by row, apart from it, and holds the two against each other."""
from dealer.reading import Refused
from dealer.rows import at_row, decided_at_row, result_of, row_of, try_cast
from dealer.source import SourceRefused
from dealer.tree import UTF8, counted, type_of
from dealer.words import branch_words, printable, value_text


class Disagreement(Exception):
    """The library and the evaluator of this tool don't agree."""


class Evaluation:
    """The library's entries of a source, and the branches that decide them."""

    def __init__(self, source, kind, entries):
        self.source, self.kind, self.entries = source, kind, entries
        rows, _ = source.table
        self.decided = [decided_at_row(source.rule, row_of(source.table, i)) for i in range(rows)]

    def class_of(self, i):
        return class_text(self.kind, self.entries[i])

    def decided_by(self, i):
        return path_words(self.source.rule, self.decided[i], self.source.names())


def class_text(kind, value):
    """A class as a person reads it: text without quotes."""
    text = printable(value) if kind == UTF8 and value is not None else None
    return value_text(kind, value) if text is None else text


def path_words(e, path, names):
    """The branches of a path in the rule's words."""
    said = []
    for taken in path:
        said.append(branch_words(e, taken, names))
        e = result_of(e, taken)
    return ", then ".join(said)


def all_paths(e):
    """Every path by which a rule can decide, in the order of its branches."""
    for taken in list(range(len(e[2]))) + [None]:
        result = result_of(e, taken)
        if result is not None and result[0] == "case":
            for rest in all_paths(result):
                yield (taken,) + rest
        else:
            yield (taken,)


def literal_at(e, path):
    """What a CASE gives at the end of a path, if a literal stands there; None if none does, or a null."""
    result = result_of(e, path[0])
    if result is None:
        return None
    v = literal_at(result, path[1:]) if path[1:] else result[2] if result[0] == "literal" else None
    return try_cast(type_of(result), type_of(e), v)


def literal_classes(e):
    """The classes that a rule names as literals, each once, in the order of its branches."""
    found = [literal_at(e, path) for path in all_paths(e)]
    return list(dict.fromkeys(class_text(type_of(e), v) for v in found if v is not None))


def said_of(number):
    return "answers" if number is None else f"refuses with {number}"


def compared_entries(source, kind, entries):
    """A line for each row at which the library's entry isn't the one worked out here."""
    rows, _ = source.table
    if kind != type_of(source.rule):
        return [f"the library's answer has type {kind}, the rule's result {type_of(source.rule)}"]
    if len(entries) != rows:
        return [f"the library's answer has {counted(len(entries), 'entry', 'entries')} for {counted(rows, 'row')}"]
    own = [at_row(source.rule, row_of(source.table, i)) for i in range(rows)]
    return [f"row {i}: the library says {value_text(kind, entries[i])}, the rule read row by row says {value_text(kind, own[i])}"
            for i in range(rows) if entries[i] != own[i]]


def evaluated(source, library):
    """The evaluation, or SourceRefused as the library refuses; Disagreement where the two don't agree."""
    try:
        number, answer = library.entries(source.rule_data, source.table_data)
    except Refused as refused:
        raise Disagreement(f"what the library gives is no answer: byte {refused.at}: {refused.words}") from None
    try:
        source.check()
    except SourceRefused as refused:
        if number != refused.number:
            raise Disagreement(f"the library {said_of(number)}, but the check says: {refused}") from None
        raise
    if number is not None:
        raise Disagreement(f"the library {said_of(number)}, but the check finds nothing to refuse")
    wrong = compared_entries(source, *answer)
    if wrong:
        raise Disagreement("\n".join(wrong))
    return Evaluation(source, *answer)
