#!/usr/bin/env bash
# The cast at a cabinet of many parts, through the static library: against the plain model of oracle/src/cabinet.rs on seeded parts,
# areas and limits, and, without a limit, against the library's own mesh cast at each part alone.
# usage: tests/cabinets.sh [CASES [SEED]]   (default 20000 1; PROBE_RAYS_LIB names a folder with another libexports.a, which is then taken as it is)
set -euo pipefail
cd "$(dirname "$0")/.."
cases=${1:-20000}
seed=${2:-1}
[ -n "${PROBE_RAYS_LIB:-}" ] || tools/build library
cd differential
cargo run --offline --release --quiet --bin cabinets -- "$seed" "$cases"
echo "cabinets: $((cases + 1)) tests passed"
