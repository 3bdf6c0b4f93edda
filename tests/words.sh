#!/usr/bin/env bash
# Every float of `probe` is read as one word (document 02, M-108): the built program swaps the bytes of 64-bit words and puts no
# float together from single bytes, and it writes tests/words.lines for the 1,000 large records of tests/big_records.py.
# usage: tests/words.sh   (PROBE: the program; default target/bin/probe)
set -euo pipefail
cd "$(dirname "$0")/.."
probe=${PROBE:-target/bin/probe}
work=$(mktemp -d)
trap 'rm -rf "$work"' EXIT

# what the compiler made of our functions, of what it compiled into them, and of the library's functions for types and closures that they
# are given (`::<#..>`); what the library has by itself reads no float of ours
objdump -d --no-show-raw-insn "$probe" | awk '/^[0-9a-f]+ <.*>:$/ { own = !/ <(core|std|std_[a-z]+)::/ || /::<#/ } own' > "$work/code"
grep -q '<probe::' "$work/code" || { echo "error: no function of probe is named in $probe" >&2; exit 1; }
swaps=$(grep -cE 'bswap +%r([a-ds][xip]|1?[0-9])$|movbe .*%r([a-ds][xip]|1?[0-9])([,)]|$)' "$work/code" || true)
[ "$swaps" -ge 1 ] || { echo "error: no 64-bit byte swap in $probe" >&2; exit 1; }
# a byte's place in the upper half of a word: only a float put together byte by byte shifts so
if grep -E 'shl +\$0x(28|30|38),%r' "$work/code" > "$work/bytewise"; then
  echo "error: a word is put together from bytes in $probe:" >&2
  head -n 5 "$work/bytewise" >&2
  exit 1
fi
echo "$swaps byte swaps of 64 bits, no word from single bytes"

tests/big_records.py > "$work/records"
sha256sum "$work/records" | grep -q '^546f305f13dfef9ab711b80a263b5377d71062960756c1b65504045943dc28cd ' \
  || { echo "error: tests/big_records.py makes other records than those of tests/words.lines" >&2; exit 1; }
"$probe" < "$work/records" | cmp - tests/words.lines
echo "words: 2 tests passed"
