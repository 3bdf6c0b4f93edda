#!/usr/bin/env bash
# `probe` against the plain model, byte for byte, and against the unchanged Rust, under the looser agreement that takes a zero for a
# zero of either sign, but for the records that a request leaves out (`Record::left_out`), which are counted: the examples, the stored records,
# seeded records of all five kinds and of versions 1, 2 and 3, and malformed streams, each kind of damage; and tools/records.py, which reads
# what it writes.
# usage: tests/probe.sh [RECORDS [SEED]]   (default 100000 1; PROBE names a program that is then taken as it is)
set -euo pipefail
cd "$(dirname "$0")/.."
records=${1:-100000}
seed=${2:-1}
[ -n "${PROBE:-}" ] || tools/build program
probe=${PROBE:-$PWD/target/bin/probe}
( cd oracle && cargo build --offline --release --quiet )
oracle=$PWD/oracle/target/release
work=$(mktemp -d)
trap 'rm -rf "$work"' EXIT

# rust_agrees OURS RECORDS: the Rust's lines agree with ours, a zero with a zero of either sign
rust_agrees() {
  "$oracle/oracle-probe" < "$2" > "$work/theirs"
  "$oracle/compare" "$1" "$work/theirs" > "$work/found" || { cat "$work/found" >&2; exit 1; }
}

for example in plane mesh; do
  "$probe" < "examples/$example.records" | cmp - "examples/$example.lines"
  rust_agrees "examples/$example.lines" "examples/$example.records"
done
tools/records.py write < examples/mesh.txt | cmp - examples/mesh.records
# the stored records and their lines are what tests/VECTORS.md says
{ cat examples/plane.records; for what in 2000 "400 --near" "400 --short"; do "$oracle/oracle-gen" 94 $what; done; } | cmp - crates/probe/stdin
tools/records.py read < crates/probe/stdin | tools/records.py write | cmp - crates/probe/stdin
"$oracle/oracle-probe" --plain < crates/probe/stdin | cmp - crates/probe/stdout
rust_agrees crates/probe/stdout crates/probe/stdin

"$oracle/oracle-gen" "$seed" "$records" > "$work/records"
"$oracle/oracle-gen" "$seed" $((records / 4)) --near >> "$work/records"
"$oracle/oracle-gen" "$seed" $((records / 4)) --short >> "$work/records"
"$probe" < "$work/records" > "$work/ours"
# to the bit with the plain model, under the looser agreement with the Rust
"$oracle/oracle-probe" --plain < "$work/records" | cmp - "$work/ours"
rust_agrees "$work/ours" "$work/records"
cat "$work/found"
# version 3 has the lines of the same records in version 2, NaN among their floats; without NaN they are converted to that and back
"$oracle/oracle-gen" "$seed" 2000 --short > "$work/short"
"$oracle/oracle-gen" "$seed" 2000 --widened > "$work/long"
"$probe" < "$work/short" > "$work/ours"
"$probe" < "$work/long" | cmp - "$work/ours"
tools/records.py read < "$work/short" | grep -vE '0x[7f]f(8[0-9a-f]*[1-9a-f]|[9a-f])' | tools/records.py write > "$work/numbers"
tools/records.py long < "$work/numbers" > "$work/long"
tools/records.py short < "$work/long" | cmp - "$work/numbers"
"$probe" < "$work/numbers" > "$work/ours"
"$probe" < "$work/long" | cmp - "$work/ours"
[ "$(grep -c hit "$work/ours")" -gt 100 ]
# a record of version 1 behind one of version 2 has near 0 all the same
{ tools/records.py write <<< "plane origin 0 0 2 direction 0 0 -1 max 5 near 3 normal 0 0 1 distance 0"; cat examples/plane.records; } > "$work/records"
"$probe" < "$work/records" | diff - <(echo '1 none'; awk '{ $1 += 1; print }' examples/plane.lines)

mkdir "$work/bad"
"$oracle/oracle-gen" --bad "$work/bad"
streams=0
for stream in "$work"/bad/*; do
  "$probe" < "$stream" > "$work/ours"
  "$oracle/oracle-probe" --plain < "$stream" > "$work/plain"
  cmp "$work/ours" "$work/plain" || { echo "error: $(basename "$stream") differs" >&2; exit 1; }
  rust_agrees "$work/ours" "$stream"
  streams=$((streams + 1))
done
echo "$streams malformed streams agree"
[ "$streams" -gt 0 ]
echo "probe: $((records + records / 2 + streams)) tests passed"
