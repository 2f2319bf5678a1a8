#!/usr/bin/env python3
"""respell_names.py [--list]: respells this repository's own definitions and lemmas as today's Rattle spells them, run once, after port.py.

Definitions, lemmas, fields and constructors that crates/*/specs and crates/*/proofs declare: `byteOfRow` and `shift-mask` become `byte_of_row`
and `shift_mask`. Types and modules keep their capitals. Names of the toolchain's library, of src/ and in strings stay. Where a definition's
new name is a lemma's already, or a lemma would have a name that is there, the lemma gets `_lem`. The must-fail edits are respelled too, so that
their text stands. --list prints the names and what to look at, and writes nothing.
"""
import pathlib
import re
import sys

ROOT = pathlib.Path(__file__).resolve().parent.parent
TOKEN = re.compile(r"[^\s(){}.;,@\"«»\[\]\\:λ→×∀`]+")
DECLARED = re.compile(r"^\s*(?:abbrev\s+|unfoldable\s+|instance\s+)*(?:pub\s+)?((?:[^\s(){}.;,:\"=]+\s+)*?[^\s(){}.;,:\"=]+)\s*:(?:\s|$)")
IMPORT = re.compile(r"^\s*(?:ghost )?use ([^\s{}]+?)(?:\.\{([^}]*)\})?(?: as \S+)?;?\s*$", re.M)
STRING = re.compile(r"b?\"(?:[^\"\\]|\\.)*\"")
WORDS = {"use", "pub", "let", "in", "where", "module", "record", "data", "abbrev", "unfoldable", "mod", "unfolding", "elim"}
# Names whose snake case a word of the library has.
OTHERWISE = {"isTrue": "is_true_entry"}
# Variables that would be read as a constructor, in the files named.
VARIABLES = {"no_more": ("none_left", ("crates/case/proofs/BranchLaws.antt", "crates/case/proofs/NestedLaws.antt"))}


def snake(name):
    name = re.sub(r"(?<=[a-z0-9'])([A-Z])", lambda m: "_" + m[1].lower(), name)
    return name.replace("-", "_")


def wanted(name):
    return re.fullmatch(r"[a-z][A-Za-z0-9'_-]*", name) and (re.search(r"[a-z0-9'][A-Z]", name) or re.search(r"[a-z0-9']-[a-z0-9]", name)) and not re.search(r"-[A-Z]|_[A-Z]", name)


def files():
    for folder in ("crates/*/specs", "crates/*/proofs", "crates/*/src"):
        for top in sorted(ROOT.glob(folder)):
            for path in sorted(top.rglob("*")):
                if path.suffix in (".antt", ".rt"):
                    yield path
    yield from sorted(ROOT.glob("crates/*/must-fail/*.edit"))


def names(texts):
    own = {path.name for path in ROOT.glob("crates/*")}
    declared, others = {}, set()
    for path, text in texts.items():
        for m in IMPORT.finditer(text):
            parts = m[1].split(".")
            if not (parts[0] == "Rattle" and parts[1:2] and parts[1] in own):
                others |= {parts[-1]} | {w.split(" as ")[0].strip() for w in (m[2] or "").split(",")}
        if path.suffix != ".antt":
            continue
        for line in text.splitlines():
            if line.lstrip().startswith(("--", "use ")):
                continue
            m = DECLARED.match(line)
            for name in m[1].split() if m else ():
                if name not in WORDS:
                    declared.setdefault(name, []).append(path)
    return declared, others


def is_camel(name):
    return re.search(r"[a-z0-9'][A-Z]", name) and "-" not in name


def beside(text):
    """The tokens that are no part of a path."""
    return {m[0] for m in TOKEN.finditer(text) if text[m.start() - 1:m.start()] != "." and text[m.end():m.end() + 1] != "."}


def mapping(texts):
    declared, others = names(texts)
    tokens = {path: beside(text) for path, text in texts.items() if path.suffix == ".antt"}
    turned, lemmas, notes = {}, {}, []
    # definitions first: they get their snake case, and a lemma that had it gets `_lem`
    for name in sorted(declared):
        if wanted(name) and is_camel(name):
            new = turned[name] = OTHERWISE.get(name, snake(name))
            if new in declared and new not in VARIABLES and any(name in said and new in said for said in tokens.values()):
                lemmas[new] = new + "_lem"
                notes.append(f"lemma: {new} -> {new}_lem, for {name}: {[str(p.relative_to(ROOT)) for p in declared[new]]}")
            if new in others:
                notes.append(f"of the library: {name} -> {new}")
    held = set(turned.values())
    for name in sorted(declared):
        if not wanted(name) or is_camel(name):
            continue
        if name in others:
            notes.append(f"of the library too: {name}")
            continue
        new = snake(name)
        shared = any(name in said and new in said for said in tokens.values())
        if new in declared or new in held or new in others or shared:
            notes.append(f"lemma: {name} -> {new}_lem declared={new in declared} library={new in others} shared={shared}")
            new += "_lem"
        turned[name] = new
        held.add(new)
    for path, text in texts.items():
        for old, new in turned.items():
            if path.suffix == ".antt" and new in tokens[path] and old in tokens[path] and new not in lemmas:
                notes.append(f"look: {old} and {new} in {path.relative_to(ROOT)}")
    return turned, lemmas, notes


def respelled(path, text, turned, lemmas, declared):
    def token(m):
        if m[0] in turned:
            return turned[m[0]]
        if path.suffix == ".edit" and wanted(m[0]) and snake(m[0]) in declared:
            return snake(m[0])
        apart = text[m.start() - 1:m.start()] != "." and text[m.end():m.end() + 1] != "."
        if m[0] in VARIABLES and str(path.relative_to(ROOT)) in VARIABLES[m[0]][1]:
            return VARIABLES[m[0]][0]
        if path.suffix == ".antt" and m[0] in lemmas and apart and "/specs/" not in str(path):
            return lemmas[m[0]]
        return m[0]

    if path.suffix == ".antt":
        return TOKEN.sub(token, text)
    skip = [m.span() for m in STRING.finditer(text)]
    return TOKEN.sub(lambda m: m[0] if any(a <= m.start() < b for a, b in skip) else token(m), text)


def captured(path, text, turned):
    """Parameters that have the name that a clause's definition gets."""
    for m in re.finditer(r"fn (\w+)[^{;]*?\n((?:    (?:requires|ensures)[^\n]*\n)+)", text):
        head, clauses = m[0][:m[0].index("\n")], m[2]
        for w in set(TOKEN.findall(clauses)):
            if w in turned and re.search(r"\b%s:" % re.escape(turned[w]), head):
                yield f"captured: {w} -> {turned[w]} in {m[1]} of {path.relative_to(ROOT)}"


def main():
    texts = {path: path.read_text() for path in files()}
    turned, lemmas, notes = mapping(texts)
    if "--list" in sys.argv:
        print("\n".join(f"{old} {new}" for old, new in [*turned.items(), *lemmas.items()]))
        for path, text in texts.items():
            if path.suffix == ".rt":
                notes += captured(path, text, turned)
        print("\n".join(notes), file=sys.stderr)
        return
    declared = set(names(texts)[0]) | set(turned.values())
    for path, text in texts.items():
        new = respelled(path, text, turned, lemmas, declared)
        if new != text:
            path.write_text(new)
    print(f"{len(turned)} names respelled, {len(lemmas)} lemmas beside them")


if __name__ == "__main__":
    main()
