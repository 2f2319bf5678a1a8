#!/usr/bin/env python3
"""quick_main.py KIT MAIN: for build_quick.sh. Writes to MAIN the library's source with a `main` that calls every exported function, and prints
the words that name the libraries below it, of this repository and of the toolchain's folder KIT, as `rt try` passes them."""
import pathlib
import re
import shlex
import sys

ROOT = pathlib.Path(__file__).resolve().parent.parent
EXPORT = re.compile(r'^pub extern "C" fn (\w+)\(([^)]*)\)', re.M)
LENT = {"&[u8]": 'b""', "&mut [u8]": "&mut [0u8; 1]", "usize": "0"}


def program(source):
    """The source with a `main`."""
    calls = []
    for name, arguments in EXPORT.findall(source):
        kinds = re.findall(r": *(&(?:mut )?\[u8\]|usize)", arguments)
        calls.append(f"    let _ = {name}({', '.join(LENT[kind] for kind in kinds)});\n")
    return source + "\nfn main() {\n" + "".join(calls) + "}\n"


def listed():
    """What each crate of crates.txt stands on."""
    lines = (ROOT / "crates.txt").read_text().splitlines()
    pairs = [line.split("#")[0].split(":") for line in lines if ":" in line.split("#")[0]]
    return {head.split()[0]: below.split() for head, below in pairs}


def of_kit(kit, names):
    """The toolchain's libraries of these names, and those that they stand on, each with its own."""
    found = {}
    while names:
        name, *names = names
        if name not in found:
            found[name] = re.findall(r"^dep (\w+)$", (kit / f"rlibs/{name}.rlib/format").read_text(), re.M)
            names += found[name]
    return found


def main():
    kit, to = map(pathlib.Path, sys.argv[1:])
    to.write_text(program((ROOT / "crates/tembalku/src/lib.rt").read_text()))
    crates = listed()
    for name in crates["tembalku"]:
        uses = ",".join(["core", "std", *crates[name]])
        print("--lib", shlex.quote(f"{name}:{uses}={ROOT}/crates/{name}/src/lib.rt"))
    for name, uses in of_kit(kit, ["std"]).items():
        print("--lib", shlex.quote(f"{name}:{','.join(uses)}={kit}/rattle/{name}/src/lib.rt"))


if __name__ == "__main__":
    main()
