#!/bin/sh
# build_library.sh: proves the library and writes crates/tembalku/out/libtembalku.a, which links into programs on every x86-64 processor.
# Prints the archive's path on standard output, and what `rt lib` says on standard error. Needs rt.
set -eu
command -v rt > /dev/null || { echo "build_library.sh: rt isn't there: it is needed to make the library" >&2; exit 1; }
cd "$(dirname "$0")/../crates/tembalku"
rt lib --cpu=x86-64 >&2
realpath out/libtembalku.a
