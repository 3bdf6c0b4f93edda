#!/usr/bin/env bash
# The exact cast, through the static library: on seeded boards, along an axis and aslant, against a judge in fractions and against the
# plain model of oracle/src/mesh_exact.rs, through a tree and without one; and on ways into closed boards and out of them, which all have
# to hit. What the boards met is counted, and each thing (a side, a corner, a face along the line, near, the maximum and so on) has to
# come often.
# usage: tests/exact.sh [BOARDS [SEED]]   (default 20000 1, and 1000000 is the long run; PROBE_RAYS_LIB names a folder with another
#                                         libexports.a, which is then taken as it is)
set -euo pipefail
cd "$(dirname "$0")/.."
boards=${1:-20000}
seed=${2:-1}
[ -n "${PROBE_RAYS_LIB:-}" ] || tools/build library
cd differential
cargo run --offline --release --quiet --bin exact -- "$seed" "$boards"
echo "exact: $boards tests passed"
