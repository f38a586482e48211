#!/usr/bin/env bash
# Proves the studio's call, builds its library, compiles and links the program in C with it, and tries both on good and bad
# input. Needs a C compiler: cc, or what CC names.
set -euo pipefail
export LC_ALL=C
cd "$(dirname "$0")/.."
scripts/need.sh "${CC:-cc}" gcc
work=$(mktemp -d)
trap 'rm -rf "$work"' EXIT

(cd crates/studio && rt lib) >"$work/log" 2>&1 || { cat "$work/log" >&2; echo "error: the library was not built" >&2; exit 1; }
"${CC:-cc}" -std=c99 -Wall -Wextra -Werror -pedantic -O2 -Iinclude -o "$work/plan" examples/plan.c crates/studio/out/libstudio.a

tried=0
# expect STATUS OUTPUT ARGUMENTS...: the program ends so, and writes this, on its output or as its error
expect() {
  local status=$1 output=$2 got=0 written
  shift 2
  written=$(cd "$work" && ./plan "$@" 2>&1) || got=$?
  if [ "$got" != "$status" ] || [ "$written" != "$output" ]; then
    printf 'error: plan %s: expected status %s and "%s", got %s and "%s"\n' "$*" "$status" "$output" "$got" "$written" >&2
    exit 1
  fi
  tried=$((tried + 1))
}
# bytes NAME ESCAPES: a file of these bytes; filled NAME COUNT ESCAPE: of one byte so many times
bytes() { printf "$2" >"$work/$1"; }
filled() { head -c "$2" /dev/zero | tr '\0' "$3" >"$work/$1"; }

off='refused, 1: the runs are not equally long, not whole blocks, or more than 160 blocks'
size='refused, 7: a block size is a power of two from 2 to 131072'

# an empty file is NULL with length 0
bytes empty ''
bytes blank '\377\377\377\377\377\377\377\377'
bytes first '\022\064\377\377\377\377\377\377'
bytes lower '\022\060\377\377\377\377\377\377'
bytes rises '\022\061\377\377\377\377\377\377'
bytes across '\022\061\377\000\000\377\377\377'
bytes zeros '\000\000\000\000\000\000\000\000'
bytes six '\000\000\000\000\000\000'
bytes seven '\000\000\000\000\000\000\000'

# no wipe, a wipe, nothing to do, two blocks
expect 0 'wipes 0, words 1' blank first 4
expect 0 'wipes 0, words 1' first lower 4
expect 0 'wipes 1, words 1' lower rises 4
expect 0 'wipes 0, words 0' rises rises 4
expect 0 'wipes 0, words 2' rises across 4
expect 0 'wipes 2, words 0' zeros blank 4
expect 0 'wipes 1, words 0' zeros blank 8
expect 0 'wipes 4, words 0' zeros blank 2
expect 0 'wipes 0, words 4' blank zeros 2
expect 0 'wipes 0, words 0' empty empty 4

# runs that are unequal, or no whole blocks
expect 2 "$off" blank empty 4
expect 2 "$off" empty blank 4
expect 2 "$off" blank seven 4
expect 2 "$off" six six 4
expect 2 "$off" seven seven 2
expect 2 "$off" blank blank 16

# 160 blocks, and one more
filled present160 320 '\377'
filled wanted160 320 '\0'
filled present161 322 '\377'
filled wanted161 322 '\0'
expect 0 'wipes 0, words 160' present160 wanted160 2
expect 0 'wipes 160, words 0' wanted160 present160 2
expect 2 "$off" present161 wanted161 2
expect 2 "$off" present161 present161 2

# block sizes, which are tested first
filled large 262144 '\377'
filled larger 262144 '\0'
expect 0 'wipes 0, words 131072' large larger 131072
expect 0 'wipes 2, words 0' larger large 131072
expect 0 'wipes 0, words 0' large large 131072
expect 2 "$size" large large 262144
expect 2 "$size" blank blank 0
expect 2 "$size" blank blank 1
expect 2 "$size" blank blank 3
expect 2 "$size" blank blank 6
expect 2 "$size" blank seven 3
expect 2 "$size" empty empty 0
expect 2 "$size" blank blank 131074
expect 2 "$size" blank blank 2147483648
expect 2 "$size" blank blank 4294967295

# the largest card: 160 blocks of 131,072 bytes
filled card 20971520 '\377'
filled design 20971520 '\132'
expect 0 'wipes 0, words 10485760' card design 131072
expect 0 'wipes 160, words 0' design card 131072
expect 0 'wipes 0, words 0' design design 131072

# arguments
expect 1 'usage: plan PRESENT WANTED BLOCK_SIZE' blank first
expect 1 'plan: the block size must be a number from 0 to 4294967295: four' blank first four
expect 1 'plan: the block size must be a number from 0 to 4294967295: -4' blank first -4
expect 1 'plan: the block size must be a number from 0 to 4294967295: ' blank first ''
expect 1 'plan: the block size must be a number from 0 to 4294967295: 4294967300' blank first 4294967300
expect 1 'plan: cannot open missing: No such file or directory' blank missing 4

echo "the call from C: $tried tries, all as expected"
