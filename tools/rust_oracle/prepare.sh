#!/bin/sh
# prepare.sh FOLDER: copies thirteen files of datafusion-physical-expr 55.2.0, unchanged, from FOLDER (which holds
# src/expressions/case.rs) into the workspace, and compares each copy byte by byte.
set -eu
src=${1:?usage: prepare.sh FOLDER}/src/expressions
to=$(cd "$(dirname "$0")" && pwd)/crates/datafusion-physical-expr/src/expressions
put() {
    mkdir -p "$(dirname "$to/$2")"
    cmp -s "$src/$1" "$to/$2" || cp "$src/$1" "$to/$2"
    cmp "$src/$1" "$to/$2"
}
for m in cast column is_not_null lambda_variable literal negative not try_cast; do
    put $m.rs $m.rs
done
# case/mod.rs includes it
put case.rs case/original.rs
for m in mod boolean_lookup_table bytes_like_lookup_table primitive_lookup_table; do
    put case/literal_lookup_table/$m.rs case/literal_lookup_table/$m.rs
done
echo "13 files in place, unchanged"
