#!/usr/bin/env python3
"""promises.py [ROOT]: the public functions of crates/*/src, by the form of their promise.

A promise is outright where it is an equation for the result (perhaps with a law of it behind a ×), or a record each of whose fields is one (the
result, and each buffer that is lent). The others are listed: a record or an abbreviation that has an implication, or that says what the result means and not which it is. Also
listed: a public function with a `requires`, or without an `ensures`. Last, how many there are of each. It reads text, not meaning: docs/CONTRACTS.md
says of each that is listed why it is so.
"""
import glob
import os
import re
import sys

FUNCTION = re.compile(r'(?m)^[ \t]*pub (?:extern "C" )?fn (\w+)')


def braces(text, i):
    """Where the brace that opens at i is closed."""
    depth = 0
    while True:
        depth += {"{": 1, "}": -1}.get(text[i], 0)
        i += 1
        if depth == 0:
            return i


def clauses(text, i):
    """The contract's clauses behind a function's name, up to its body."""
    found = {"requires": [], "ensures": []}
    while True:
        i = text.index("{", i)
        clause = re.search(r"\b(requires|ensures)(?:\s+\w+)?\s*$", text[:i])
        if not clause:
            return found
        end = braces(text, i)
        found[clause[1]].append(text[i + 1:end - 1].strip())
        i = end


def definitions(root):
    """The text of each record and abbreviation of a crate's specs/, by crate and name."""
    found = {}
    for path in glob.glob(os.path.join(root, "crates/*/specs/*.antt")):
        crate = path.split(os.sep)[-3]
        for part in re.split(r"\n(?=\S)", open(path, encoding="utf-8").read()):
            m = re.match(r"(?:abbrev |unfoldable )?pub (?:record )?([^\s:(]+)", part)
            if m:
                found[crate, m.group(1)] = part
            m = re.match(r"([^\s:(]+) .*=", part)
            if m and (crate, m.group(1)) in found:
                found[crate, m.group(1)] += "\n" + part
    return found


def named(promise):
    """The name that a promise begins with, behind its quantifiers."""
    return re.sub(r"^\(?\([^()]*\) → ", "", promise).lstrip("(").split()[0]


def outright(promise, text, specs):
    """Whether a promise is an equation, or a record of equations and of such records."""
    if text is None:
        return re.match(r"\(?\w+(\.now|\.new)? ≡", promise) is not None
    if not text.startswith("pub record"):
        return False
    fields = [l.strip().split(" : ", 1)[1] for l in text.split("\n")[1:] if l.strip().startswith("pub ")]
    inner = [[t for (_, n), t in specs.items() if n == f.split()[0]] for f in fields]
    return all("→" not in f and ("≡" in f or any(outright(f, t, specs) for t in r)) for f, r in zip(fields, inner))


def main(root):
    specs = definitions(root)
    total = listed = 0
    for path in sorted(glob.glob(os.path.join(root, "crates/*/src/**/*.rt"), recursive=True)):
        if path.endswith("main.rt"):
            continue
        crate = path.split(os.sep + "crates" + os.sep)[1].split(os.sep)[0] if os.sep + "crates" + os.sep in path else path.split(os.sep)[1]
        if os.path.exists(os.path.join(root, "crates", crate, "src", "main.rt")):
            continue
        text = re.sub(r"//[^\n]*", "", open(path, encoding="utf-8").read())
        imported = dict((n, c) for c, names in re.findall(r"ghost use Rattle\.(\w+)\.[^;{]*\{([^}]*)\}", text) for n in re.split(r",\s*", names))
        for m in FUNCTION.finditer(text):
            total += 1
            c = clauses(text, m.end())
            said = []
            if c["requires"]:
                said.append("has a requires")
            if not c["ensures"]:
                said.append("has no ensures")
            for promise in c["ensures"]:
                name = named(promise)
                record = specs.get((imported.get(name, crate), name))
                if not outright(promise, record, specs):
                    said.append("promises by " + name if record else "promises " + promise)
            if said:
                listed += 1
                print(f"{os.path.relpath(path, root)}: {m.group(1)}: {'; '.join(said)}")
    print(f"{total} public functions, {total - listed} by an equation or a record of equations, {listed} listed")


main(sys.argv[1] if len(sys.argv) > 1 else os.path.dirname(os.path.dirname(os.path.abspath(__file__))))
