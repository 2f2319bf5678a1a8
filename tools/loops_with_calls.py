#!/usr/bin/env python3
"""loops_with_calls.py: lists the loops of the compiled library that make calls, with what they call.

Links tools/bench_evaluate.c with crates/tembalku/out/libtembalku.a (made by tools/build_library.sh) and reads objdump's listing of the library's functions.
A call is listed with the smallest loop around it. Loops over rows are to have no calls: none of them is listed.
"""
import os
import re
import subprocess
import tempfile

HERE = os.path.dirname(os.path.dirname(os.path.abspath(__file__)))
OURS = re.compile(r"(layout|utf8|scalar|rule|table|builder|writer|case|tembalku)(::|_)")


def listing():
    program = os.path.join(tempfile.mkdtemp(), "program")
    subprocess.run(["gcc", "-O2", "-I", os.path.join(HERE, "include"), os.path.join(HERE, "tools", "bench_evaluate.c"),
                    os.path.join(HERE, "crates", "tembalku", "out", "libtembalku.a"), "-o", program], check=True)
    return subprocess.run(["objdump", "-d", "--no-show-raw-insn", program], capture_output=True, text=True, check=True).stdout


def functions(text):
    """Each function's instructions: place, word, the rest."""
    found, name = {}, None
    for line in text.splitlines():
        head = re.match(r"^[0-9a-f]+ <(.*)>:", line)
        code = re.match(r"^ +([0-9a-f]+):\t(\S+)\s*(.*)", line)
        if head:
            name = head.group(1)
            found[name] = []
        elif code and name:
            found[name].append((int(code.group(1), 16), code.group(2), code.group(3)))
    return {n: i for n, i in found.items() if OURS.match(n)}


def next_of(code):
    """Where each instruction leads, by number."""
    number = {place: i for i, (place, _, _) in enumerate(code)}
    leads = []
    for i, (_, word, rest) in enumerate(code):
        to = []
        target = re.match(r"([0-9a-f]+)", rest) if word.startswith("j") else None
        if target and int(target.group(1), 16) in number:
            to.append(number[int(target.group(1), 16)])
        if not word.startswith(("jmp", "ret", "ud2")) and i + 1 < len(code):
            to.append(i + 1)
        leads.append(to)
    return leads


def connected(leads, among):
    """The sets among these instructions that lead to each other (Tarjan, without recursion)."""
    index, low, stack, held, parts = {}, {}, [], set(), []
    for root in among:
        work = [] if root in index else [(root, 0)]
        while work:
            v, k = work.pop()
            if v not in index:
                index[v] = low[v] = len(index)
                stack.append(v)
                held.add(v)
            if k < len(leads[v]):
                w = leads[v][k]
                if w in among and w not in index:
                    work += [(v, k), (w, 0)]
                    continue
                if w in held:
                    low[v] = min(low[v], low[w])
                work.append((v, k + 1))
                continue
            if low[v] == index[v]:
                at = stack.index(v)
                part, stack[at:] = set(stack[at:]), []
                held -= part
                if len(part) > 1 or v in leads[v]:
                    parts.append(part)
    return parts


def loops(leads, among):
    """Each loop, and the loops within it: what is left of it without the instructions that it is entered at."""
    for part in connected(leads, among):
        yield part
        entered = {w for v in range(len(leads)) if v not in part for w in leads[v] if w in part} or {min(part)}
        yield from loops(leads, part - entered)


def main():
    for name, code in functions(listing()).items():
        leads = next_of(code)
        found = list(loops(leads, set(range(len(code)))))
        inner = {}
        for i, (_, word, rest) in enumerate(code):
            around = [part for part in found if i in part] if word == "call" else []
            if around:
                part = min(around, key=len)
                inner.setdefault(min(part), (len(part), set()))[1].add(rest.split()[-1])
        for size, calls in inner.values():
            print(f"{name}: a loop of {size} instructions calls {', '.join(sorted(calls))}")


main()
