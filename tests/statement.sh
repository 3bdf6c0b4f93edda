#!/usr/bin/env bash
# What tools/statement prints: that it sees each of a list of samples, that the tables of docs/PROOFS.md have its counts, and that it
# finds every name for every exported call.
set -euo pipefail
cd "$(dirname "$0")/.."
said=$(tools/statement --self-test)
echo "$said"
tools/statement --check
work=$(mktemp)
trap 'rm -f "$work"' EXIT
calls=0
for call in $(grep -ohE '^pub extern "C" fn \w+' crates/exports_c/src/*.rt | awk '{ print $5 }'); do
  tools/statement "$call" > "$work"
  # the last line has the counts that the table has
  count=$(tail -n 1 "$work" | sed -nE 's/^([0-9]+) definitions, ([0-9]+) lines$/| \1 | \2 |/p')
  grep -qF "| \`$call\` $count" docs/PROOFS.md || { echo "error: $call: $(tail -n 1 "$work"), and docs/PROOFS.md has another count" >&2; exit 1; }
  calls=$((calls + 1))
done
echo "statement: $(($(grep -oE '^[0-9]+' <<< "$said") + calls)) tests passed"
