#!/bin/sh
# Builds the reference, the generator and the comparison with rustc alone.
#   build.sh [FOLDER]      FOLDER is target/reference of the repository if left out
set -eu
here=$(cd "$(dirname "$0")" && pwd)
out=${1:-$here/../target/reference}
mkdir -p "$out"
out=$(cd "$out" && pwd)
cd "$here/src"
rustc --edition 2024 -O --crate-type rlib --crate-name reference -o "$out/libreference.rlib" lib.rs
rustc --edition 2024 -O --crate-name reference_main --extern reference="$out/libreference.rlib" -o "$out/reference" main.rs
for name in generate compare; do
    rustc --edition 2024 -O --crate-name "$name" --extern reference="$out/libreference.rlib" -o "$out/$name" "bin/$name.rs"
done
rustc --edition 2024 -O --test --crate-name reference_tests -o "$out/tests" lib.rs
