#!/usr/bin/env python3
"""check_sentences.py [ROOT]: the definitions of crates/*/specs that have no sentence above them.

A definition is an abbreviation, an unfoldable function, a record, a data type, or a function of a `mutual` block. Prints each that has no
comment line directly above it, and how many definitions there are; fails where one is printed.
"""
import glob
import os
import re
import sys

TOP = re.compile(r"(abbrev|unfoldable)( pub)? (?!mutual)\S+ :|(pub )?(data|record) ")
INSIDE = re.compile(r"  (pub )?(data \S+|\S+) :(?!:)")


def main(root):
    total, bare = 0, []
    for path in sorted(glob.glob(os.path.join(root, "crates/*/specs/*.antt"))):
        lines, mutual = open(path, encoding="utf-8").read().split("\n"), False
        for i, line in enumerate(lines):
            if line and not line[0].isspace():
                mutual = line.endswith("mutual")
            if not (TOP.match(line) or mutual and INSIDE.match(line)):
                continue
            total += 1
            if not lines[i - 1].strip().startswith("--"):
                bare.append(f"{os.path.relpath(path, root)}:{i + 1}: {line.strip()[:80]}")
    print("\n".join(bare + [f"{total} definitions, {len(bare)} without a sentence"]))
    return 1 if bare else 0


sys.exit(main(sys.argv[1] if len(sys.argv) > 1 else os.path.dirname(os.path.dirname(os.path.abspath(__file__)))))
