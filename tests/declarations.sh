#!/usr/bin/env bash
# The C header and the Rust declarations against the proved source, which nothing else compares; that the comparison sees
# each of a list of faults; docs/CALLS.md against the header; and the static library's symbols against the calls that it stands over.
set -euo pipefail
cd "$(dirname "$0")/.."
tools/declarations.py
said=$(tools/declarations.py --self-test)
echo "$said"
calls=$(tools/calls.py --check)
echo "$calls calls in docs/CALLS.md"
faults=$(tools/exports.py --self-test)
symbols=$(tools/exports.py --check)
echo "$symbols symbols of crates/exports_c, each with the clauses of crates/exports; $faults"
echo "declarations: $(($(grep -oE '^[0-9]+' <<< "$said") + calls + symbols + $(grep -oE '^[0-9]+' <<< "$faults"))) tests passed"
