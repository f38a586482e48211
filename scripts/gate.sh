#!/usr/bin/env bash
# The gate: every crate is listed; the kit proves everything from nothing, tries the wrong edits, and runs programs and
# tests; then the program is compared with the reference, and the C call is linked and run. It closes with the kit's line.
set -euo pipefail
cd "$(dirname "$0")/.."
scripts/listed.sh
log=$(mktemp)
trap 'rm -f "$log"' EXIT
rt ci 2>&1 | tee "$log"
if ! grep -q '^rt: ok' "$log" || grep '^rt: ok' "$log" | grep -qE ', [0-9]+ bad'; then
  echo "error: a wrong edit under must-fail/ is bad: it cannot be applied or read, and shows nothing" >&2
  exit 1
fi
scripts/compare.sh 0 4000
scripts/test-c-call.sh
tail -n 1 "$log"
