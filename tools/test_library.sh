#!/bin/sh
# test_library.sh [LIBRARY]: tests what a program that embeds the library takes: the header as C and C++, the library through the header
# (tools/test_library.c), the bytes of docs/FORMAT.md, the examples, and an installed library, linked statically and as a shared object.
# Without LIBRARY it is made by tools/build_library.sh. Needs gcc, g++, nm and pkg-config.
set -eu
for tool in gcc g++ nm pkg-config; do
    command -v "$tool" > /dev/null || { echo "test_library.sh: $tool isn't there: it is needed for this test" >&2; exit 1; }
done
[ $# -eq 0 ] || library=$(realpath "$1")
cd "$(dirname "$0")/.."
[ $# -gt 0 ] || library=$(tools/build_library.sh)
scratch=$(mktemp -d)
trap 'rm -rf "$scratch"' EXIT

# the header alone, in C and in C++
warnings="-Wall -Wextra -Wpedantic -Werror -Wconversion -Wsign-conversion -Wshadow -Wcast-qual -Wundef"
echo '#include "tembalku.h"' > "$scratch/header.c"
gcc -std=c99 $warnings -Wstrict-prototypes -Wmissing-prototypes -I include -fsyntax-only "$scratch/header.c"
for standard in c++98 c++11 c++20; do
    g++ -std=$standard $warnings -I include -fsyntax-only -x c++ "$scratch/header.c"
done
echo "include/tembalku.h: C99, C++98, C++11 and C++20"

gcc -std=c99 -O2 -Wall -Wextra -Wpedantic -Werror -I include tools/test_library.c "$library" -o "$scratch/test"
"$scratch/test"
python3 tools/check_format.py "$library"
tools/build_examples.sh "$library"

# an installed library
tools/install.sh "$scratch/prefix" "$library" > /dev/null
export PKG_CONFIG_PATH="$scratch/prefix/lib/pkgconfig"
cflags=$(pkg-config --cflags tembalku)
libs=$(pkg-config --libs tembalku)
gcc -std=c99 -O2 examples/c/example.c $cflags -Wl,-Bstatic $libs -Wl,-Bdynamic -o "$scratch/static"
gcc -std=c99 -O2 examples/c/example.c $cflags $libs -o "$scratch/shared"
"$scratch/static" | diff examples/c/expected.txt -
LD_LIBRARY_PATH="$scratch/prefix/lib" "$scratch/shared" | diff examples/c/expected.txt -
if "$scratch/shared" > /dev/null 2>&1; then
    echo "the program that should need the shared object runs without it"
    exit 1
fi
sed -n 's/^\(uint32_t\|size_t\) \(tembalku_[a-z_]*\)(.*/\2/p' include/tembalku.h | sort > "$scratch/declared"
nm -D --defined-only "$scratch/prefix/lib/libtembalku.so" | sed 's/.* //' | sort | diff "$scratch/declared" -
version=$(sed -n 's/^#define TEMBALKU_VERSION "\(.*\)"$/\1/p' include/tembalku.h)
[ "$(pkg-config --modversion tembalku)" = "$version" ]
[ "$(readlink "$scratch/prefix/lib/libtembalku.so.${version%.*}")" = "libtembalku.so.$version" ]
if (PATH=$scratch; /bin/sh tools/install.sh "$scratch/none" "$library") 2> "$scratch/said"; then
    echo "install.sh does without gcc"
    exit 1
fi
grep -q "^install.sh: gcc isn't there" "$scratch/said"
echo "installed: the example runs with the static library and with the shared object, which has the header's functions and no others"
