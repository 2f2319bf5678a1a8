#!/bin/sh
# install.sh PREFIX [LIBRARY]: puts the library in place for programs on x86-64, below the folder PREFIX:
#
#   include/tembalku.h
#   lib/libtembalku.a              the static library
#   lib/libtembalku.so.VERSION     a shared object, linked from it; libtembalku.so and libtembalku.so.MAJOR.MINOR name it
#   lib/pkgconfig/tembalku.pc      for `pkg-config --cflags --libs tembalku`
#   share/doc/tembalku/            NOTICE, FORMAT.md, REFUSALS.md
#
# Without LIBRARY the static library is made by tools/build_library.sh, which proves it. Needs gcc.
set -eu
fail() { echo "install.sh: $*" >&2; exit 1; }
[ $# -eq 1 ] || [ $# -eq 2 ] || { echo "usage: install.sh PREFIX [LIBRARY]" >&2; exit 2; }
command -v gcc > /dev/null || fail "gcc isn't there: it is needed to link the shared object"
case $(gcc -dumpmachine) in
x86_64-*) ;;
*) fail "gcc makes programs for $(gcc -dumpmachine), and the library links into x86-64 programs only" ;;
esac
if [ $# -eq 2 ]; then
    [ -f "$2" ] || fail "$2: there is no such library: tools/build_library.sh writes crates/tembalku/out/libtembalku.a"
    library=$(realpath "$2")
fi
mkdir -p "$1" || fail "$1: can't be made"
prefix=$(cd "$1" && pwd)
cd "$(dirname "$0")/.."
if [ $# -eq 1 ]; then
    command -v rt > /dev/null || fail "rt isn't there: it is needed to make the library; or name one: install.sh PREFIX LIBRARY"
    library=$(tools/build_library.sh) || fail "tools/build_library.sh made no library"
fi
version=$(sed -n 's/^#define TEMBALKU_VERSION "\(.*\)"$/\1/p' include/tembalku.h)
series=${version%.*}    # below 1.0 a minor version may change the answer's bytes

mkdir -p "$prefix/include" "$prefix/lib/pkgconfig" "$prefix/share/doc/tembalku"
shared=libtembalku.so.$version
exports=$(mktemp)
trap 'rm -f "$exports"' EXIT
echo '{ global: tembalku_*; local: *; };' > "$exports"
gcc -shared -o "$prefix/lib/$shared" -Wl,-soname,"libtembalku.so.$series" -Wl,--version-script,"$exports" -Wl,-z,defs -Wl,-z,text \
    -Wl,--whole-archive "$library" -Wl,--no-whole-archive || fail "$library: can't be linked"
ln -sf "$shared" "$prefix/lib/libtembalku.so.$series"
ln -sf "$shared" "$prefix/lib/libtembalku.so"
install -m 644 "$library" "$prefix/lib/libtembalku.a"
install -m 644 include/tembalku.h "$prefix/include/tembalku.h"
install -m 644 NOTICE docs/FORMAT.md docs/REFUSALS.md "$prefix/share/doc/tembalku"
cat > "$prefix/lib/pkgconfig/tembalku.pc" << END
prefix=$prefix
libdir=\${prefix}/lib
includedir=\${prefix}/include

Name: tembalku
Description: Evaluates SQL CASE rules over small tables
Version: $version
Cflags: -I\${includedir}
Libs: -L\${libdir} -ltembalku
END
echo "install.sh: tembalku $version is in $prefix"
