#!/usr/bin/env bash
# The static library against the unchanged Rust and the model of document 01: build, tree check, query and mesh cast on seeded
# meshes, trees and lent areas, the other casts beside them, document 01's marked inputs, and the largest admitted meshes once.
# usage: tests/trees.sh [CASES [SEED]]   (default 40000 1; PROBE_RAYS_LIB names a folder with another libexports.a, which is then taken as it is)
set -euo pipefail
cd "$(dirname "$0")/.."
cases=${1:-40000}
seed=${2:-1}
[ -n "${PROBE_RAYS_LIB:-}" ] || tools/build library
cd differential
log=$(mktemp)
trap 'rm -f "$log"' EXIT
cargo test --offline --release --quiet > "$log" 2>&1 || { cat "$log" >&2; exit 1; }
known=$(awk '/^test result: ok/ { sum += $4 } END { print sum + 0 }' "$log")
[ "$known" -gt 0 ] || { echo "error: no marked input was run" >&2; exit 1; }
cargo run --offline --release --quiet --bin trees -- "$seed" "$cases"
cargo run --offline --release --quiet --bin largest
echo "trees: $((known + cases)) tests passed"
