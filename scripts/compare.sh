#!/usr/bin/env bash
# Compares the program with the reference on generated scripts.
#   compare.sh FIRST-SEED COUNT
# The program is proved and built first, where that has not been done since it changed.
set -euo pipefail
cd "$(dirname "$0")/.."
if ! rustc --version >/dev/null 2>&1; then
    # where rustup puts it, for whoever runs this
    HOME=$(getent passwd "$(id -u)" | cut -d: -f6)
    export HOME PATH="$HOME/.cargo/bin:$PATH"
fi
scripts/need.sh rustc rustc
scripts/build.sh velvetopal
out=$(mktemp -d)
trap 'rm -rf "$out"' EXIT
reference/build.sh "$out/bin"
"$out/bin/tests" --quiet >"$out/tests.log" 2>&1 || { cat "$out/tests.log" >&2; echo "error: the reference's own cases fail" >&2; exit 1; }
mkdir -p target/differences
"$out/bin/compare" "$PWD/crates/velvetopal/out/velvetopal" "$1" "$2" target/differences
