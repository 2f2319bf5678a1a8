"""Tables for people: what a rule gives each target and why, and what changes between two rules."""
from collections import Counter

from dealer.evaluation import all_paths, path_words
from dealer.tree import UTF8, columns_of, counted
from dealer.words import value_text


def laid_out(head, lines, right):
    """Lines of cells under a head, two blanks apart; the columns in `right` stand to the right."""
    widths = [max(len(line[i]) for line in [head] + lines) for i in range(len(head))]
    out = []
    for line in [head, ["-" * w for w in widths]] + lines:
        cells = [c.rjust(w) if i in right else c.ljust(w) for i, (c, w) in enumerate(zip(line, widths))]
        out.append("  ".join(cells).rstrip())
    return "\n".join(out) + "\n"


def named_columns(*rules):
    """The indexes of the columns that rules name, rising."""
    return sorted({e[1] for rule in rules for e in columns_of(rule)})


def cells(table, shown, i):
    return [str(i)] + [value_text(table[1][c][1], table[1][c][3][i]) for c in shown]


def to_the_right(table, shown):
    """The row and the columns of numbers."""
    return {0} | {n for n, c in enumerate(shown, 1) if table[1][c][1] != UTF8}


def run_report(evaluation):
    """A line for each target, and under it how many each branch decides."""
    source = evaluation.source
    names, table = source.names(), source.table
    shown = named_columns(source.rule)
    head = ["row"] + [names[c] for c in shown] + ["class", "decided by"]
    lines = [cells(table, shown, i) + [evaluation.class_of(i), evaluation.decided_by(i)] for i in range(table[0])]
    counts = Counter(evaluation.decided)
    by_branch = [[str(counts[path]), path_words(source.rule, path, names)] for path in all_paths(source.rule)]
    by_branch.append([str(table[0]), "in all"])
    return laid_out(head, lines, to_the_right(table, shown)) + "\n" + laid_out(["targets", "decided by"], by_branch, {0})


def compare_report(before, after):
    """A line for each target that changes class, and under it how many go from which class to which."""
    table, names = before.source.table, before.source.names()
    shown = named_columns(before.source.rule, after.source.rule)
    changed = [i for i in range(table[0]) if (before.kind, before.entries[i]) != (after.kind, after.entries[i])]
    said = f"before: {before.source.name}\nafter:  {after.source.name}\n\n"
    if not changed:
        return said + f"none of {counted(table[0], 'target')} changes class\n"
    head = ["row"] + [names[c] for c in shown] + ["before", "decided by", "after", "decided by"]
    lines = [cells(table, shown, i) + [x for e in (before, after) for x in (e.class_of(i), e.decided_by(i))] for i in changed]
    moves = Counter((before.class_of(i), after.class_of(i)) for i in changed)
    by_move = [[str(n), f"{a} -> {b}"] for (a, b), n in sorted(moves.items())]
    by_move.append([str(len(changed)), f"of {counted(table[0], 'target')} in all"])
    return said + laid_out(head, lines, to_the_right(table, shown)) + "\n" + laid_out(["targets", "change"], by_move, {0})
