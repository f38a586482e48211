#!/usr/bin/env bash
# Proves a program and what it stands on, builds it as crates/NAME/out/NAME, and runs it once without words.
#   build.sh NAME
set -euo pipefail
cd "$(dirname "$0")/../crates/$1"
log=$(mktemp)
trap 'rm -f "$log"' EXIT
rt run </dev/null >"$log" 2>&1 || { cat "$log" >&2; echo "error: $1 was not built" >&2; exit 1; }
