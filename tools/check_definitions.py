#!/usr/bin/env python3
"""check_definitions.py SCRATCH [--cases FOLDER..] [--listing N] [--runs N] [--most BYTES] [--part K]

Has the checker compute the definitions of specs/ on stored cases, each by `refl`, in a scratch crate outside of the tree.

SCRATCH  a folder to make; it must not lie in this repository
FOLDER   a folder with rules.txt, listing.txt and runs.txt, or some of them; tools/cases and the folders in it unless said
rules.txt is taken whole: strategy, nullability and projection. Of listing.txt and runs.txt N cases each are taken (default
300; `--listing 1756 --runs 1098` takes all), refusals and strategies in turn so that each kind is among them, those of at most BYTES
bytes of rule and table first. Prints how many agreed, by kind, and the first that did not.
"""
import argparse
import collections
import os
import re
import shutil
import subprocess
import sys

from stored_cases import FOLDERS, HERE, listed_runs, rules, runs

CRATES = ["layout", "scalar", "rule", "table", "builder", "writer", "case"]


def chosen(cases, strategies, n, most):
    """n cases, kinds in turn: each refusal and each strategy is a kind. Short ones first."""
    kinds = collections.OrderedDict()
    for c in cases:
        want = c[5]
        kind = f"refused {want[1]}" if want[0] == "refused" else f"strategy {strategies.get(c[1], '?')}"
        kinds.setdefault(kind, []).append(c)
    for k in kinds.values():
        k.sort(key=lambda c: len(c[1]) + len(c[2]) > most)
    out, turn = [], 0
    while len(out) < n and any(turn < len(k) for k in kinds.values()):
        out += [(kind, k[turn]) for kind, k in kinds.items() if turn < len(k)]
        turn += 1
    return out[:n]


def literal(data):
    return f"(number_bytes {len(data)} 0x{data[::-1].hex() or '0'})"


def unfoldables():
    """Every `unfoldable pub` name of the crates' specs, by module; one name of a mutual block opens all."""
    names = []
    for crate in CRATES:
        folder = os.path.join(HERE, "crates", crate, "specs")
        for file in sorted(os.listdir(folder)):
            text = open(os.path.join(folder, file), encoding="utf-8").read()
            found = re.findall(r"(?m)^unfoldable pub (\S+) :", text)
            found += re.findall(r"(?m)^unfoldable mutual\n(?:  --.*\n)*  pub (\S+) :", text)
            assert len(found) == len(re.findall(r"(?m)^unfoldable ", text)), file
            names += [f"Rattle.{crate}.specs.{file[:-5]}.{n}" for n in found]
    names += ["lib.Ieee." + n for n in "span climb size odd units round of_int to_bits".split()]
    return names


HEAD = """-- Stored cases, computed by the checker.
use Rattle.std.proofs.Common.{Bool, true, false, List, [], ◌∷◌, ℕ, ◌≡◌, refl}
use Rattle.layout.specs.Result.{Result, refused, ok, ◌>>=◌}
use Rattle.layout.specs.Bytes.{number_bytes}
use Rattle.rule.specs.Tree.{Expr}
use Rattle.rule.specs.Reading.{read_rule}
use Rattle.rule.specs.Strategy.{strategy, strategy_number}
use Rattle.rule.specs.Nullable.{nullable}
use Rattle.rule.specs.Projection.{projection}
use Rattle.case.specs.Run.{run}
%s
pub record Answers : Type 0 where
  pub number : ℕ
  pub null : Bool
  pub columns : List ℕ

unfoldable answers : List ℕ → Result Answers
answers rule = read_rule rule >>= λ e. ok (record { number = strategy_number (strategy e); null = nullable e; columns = projection e })

"""


def write(folder, parts):
    os.makedirs(os.path.join(folder, "crates"))
    for crate in CRATES:
        shutil.copytree(os.path.join(HERE, "crates", crate), os.path.join(folder, "crates", crate), ignore=shutil.ignore_patterns("out"))
    lines = [l for l in open(os.path.join(HERE, "crates.txt"), encoding="utf-8") if l.split(":")[0].strip() in CRATES]
    names = unfoldables()
    uses = "".join(f"use {n.rsplit('.', 1)[0]}.{{{n.rsplit('.', 1)[1]} as u{i}}}\n" for i, n in enumerate(names))
    unfold = "unfolding answers " + " ".join(f"u{i}" for i in range(len(names)))
    for k, part in enumerate(parts):
        name = f"cases{k}"
        base = os.path.join(folder, "crates", name)
        os.makedirs(os.path.join(base, "src"))
        os.makedirs(os.path.join(base, "proofs"))
        open(os.path.join(base, "src", "lib.rt"), "w", encoding="utf-8").write("// Stored cases.\n#![tactic(auto)]\n")
        open(os.path.join(base, "proofs", "Lib.antt"), "w", encoding="utf-8").write("pub mod Cases\n")
        with open(os.path.join(base, "proofs", "Cases.antt"), "w", encoding="utf-8") as out:
            out.write(HEAD % uses)
            for i, (label, left, right) in enumerate(part):
                out.write(f"-- {label}\ncase_{i} : {left} ≡ {right}\n{unfold}\ncase_{i} = refl\n\n")
        lines.append(f"{name}: {' '.join(CRATES)}\n")
    open(os.path.join(folder, "crates.txt"), "w", encoding="utf-8").write("".join(lines))


def of_rules(folders):
    """The statements about rules.txt, and the strategy of each rule."""
    statements, strategies = [], {}
    for i, (rule, strategy, nullable, columns) in enumerate(rules(folders)):
        strategies[rule] = strategy
        listed = "".join(f"{c} ∷ " for c in columns)
        mark = "true" if nullable else "false"
        statements.append((f"rules {i + 1}", f"answers {literal(rule)}",
                           f"ok (record {{ number = {strategy}; null = {mark}; columns = {listed}[] }})"))
    return statements, strategies


def of_runs(args, strategies, count):
    """The statements about the cases that are run, counted by kind."""
    statements = []
    for name, source, n in (("listing", listed_runs, args.listing), ("runs", runs, args.runs)):
        for kind, (label, rule, table, work, output, want) in chosen(source(args.cases), strategies, n, args.most):
            right = f"refused {want[1]}" if want[0] == "refused" else f"ok {literal(want[1])}"
            statements.append((label, f"run {literal(rule)} {literal(table)} {work} {output}", right))
            count[f"{name} {kind}"] += 1
    return statements


def check(scratch, parts):
    """Whether the checker accepts the statements, its words, and the labels of those that it refuses."""
    status, said, bad = 0, "", []
    for k, part in enumerate(parts):
        folder = os.path.join(scratch, "crates", f"cases{k}")
        done = subprocess.run(["rt", "check"], cwd=folder, capture_output=True, text=True)
        status, said = status or done.returncode, said + done.stdout + done.stderr
        bad += [part[int(i)][0] for i in re.findall(r"/Cases.antt:\d+:\d+: error: `case_(\d+)`", done.stdout + done.stderr)]
    return status, said, list(dict.fromkeys(bad))


def arguments():
    a = argparse.ArgumentParser(usage=__doc__)
    a.add_argument("scratch")
    a.add_argument("--cases", nargs="+", default=FOLDERS)
    a.add_argument("--listing", type=int, default=300)
    a.add_argument("--runs", type=int, default=300)
    a.add_argument("--most", type=int, default=1500)
    a.add_argument("--part", type=int, default=100)
    return a.parse_args()


def main():
    args = arguments()
    if os.path.commonpath([HERE, os.path.abspath(args.scratch)]) == HERE:
        sys.exit("the scratch folder must not lie in this repository")
    statements, strategies = of_rules(args.cases)
    count = collections.Counter(rules=len(statements))
    statements += of_runs(args, strategies, count)
    parts = [statements[i:i + args.part] for i in range(0, len(statements), args.part)]
    write(args.scratch, parts)
    status, said, bad = check(args.scratch, parts)
    for kind, n in sorted(count.items()):
        print(f"{n:5} {kind}")
    print(f"{len(statements)} cases, {len(bad)} disagree")
    for b in bad[:20]:
        print("disagrees:", b)
    if status != 0 and not bad:
        print(said[-3000:])
    sys.exit(status)


if __name__ == "__main__":
    main()
