#!/usr/bin/env bash
# The drill, through the static library: on seeded boards, along an axis and aslant, against a judge in whole numbers of any size, which
# clips each triangle by the drill's flat ends and looks for its least distance to the axis (oracle/src/drill.rs), through a tree and
# without one; beside the exact cast along lines inside the drill, and with radius 0. What the boards met is counted, and each thing (the
# radius exactly, a flat end exactly, a side, the axis alone, a triangle without area and so on) has to come often.
# usage: tests/drill.sh [BOARDS [SEED]]   (default 20000 1, and 1000000 is the long run; PROBE_RAYS_LIB names a folder with another
#                                         libexports.a, which is then taken as it is)
set -euo pipefail
cd "$(dirname "$0")/.."
boards=${1:-20000}
seed=${2:-1}
[ -n "${PROBE_RAYS_LIB:-}" ] || tools/build library
cd differential
cargo run --offline --release --quiet --bin drill -- "$seed" "$boards"
echo "drill: $boards tests passed"
