#!/bin/sh
# build_examples.sh [LIBRARY]: builds the examples in C and Rust with the static library, runs them and compares what they print.
# Without LIBRARY it is made by tools/build_library.sh. Without rustc the example in Rust is left out, and a line says so.
set -eu
[ $# -eq 0 ] || library=$(realpath "$1")
cd "$(dirname "$0")/.."
[ $# -gt 0 ] || library=$(tools/build_library.sh)
PATH=$PATH:${HOME:-}/.cargo/bin    # where rustup puts rustc
scratch=$(mktemp -d)
trap 'rm -rf "$scratch"' EXIT

kinds=c
gcc -std=c99 -O2 -Wall -Wextra -Wpedantic -Werror -I include examples/c/example.c "$library" -o "$scratch/c"
if rustc --version > /dev/null 2>&1; then
    rustc --edition 2021 -O -D warnings examples/rust/example.rs -C link-arg="$library" -o "$scratch/rust"
    kinds="c rust"
else
    echo "examples/rust: not built: rustc isn't there"
fi
for kind in $kinds; do
    "$scratch/$kind" > "$scratch/$kind.txt" || { cat "$scratch/$kind.txt"; echo "examples/$kind: failed"; exit 1; }
    diff "examples/$kind/expected.txt" "$scratch/$kind.txt"
    echo "examples/$kind: as expected"
done
