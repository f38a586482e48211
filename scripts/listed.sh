#!/usr/bin/env bash
# Fails where crates.txt and the folders under crates/ do not name the same crates.
set -euo pipefail
export LC_ALL=C
cd "$(dirname "$0")/.."
listed=$(sed -e 's/#.*//' -e 's/:.*//' -e 's/staticlib//' -e 's/[[:space:]]//g' crates.txt | grep -v '^$' | sort)
present=$(find crates -mindepth 1 -maxdepth 1 -printf '%f\n' | sort)
status=0
for crate in $(comm -13 <(echo "$listed") <(echo "$present")); do
  echo "error: crates/$crate is not listed in crates.txt: add a line '$crate: DEPENDENCIES', or remove the folder" >&2
  status=1
done
for crate in $(comm -23 <(echo "$listed") <(echo "$present")); do
  echo "error: crates.txt lists '$crate', but there is no folder crates/$crate" >&2
  status=1
done
for crate in $(echo "$listed" | uniq -d); do
  echo "error: crates.txt lists '$crate' twice" >&2
  status=1
done
exit $status
