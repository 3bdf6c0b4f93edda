#!/usr/bin/env bash
# Normals of very large and very small surfaces against exact fractions (tests/normals.py).
# usage: tests/normals.sh [TRIANGLES [SEED]]   (default 4000 1; PROBE names a program that is then taken as it is)
set -euo pipefail
cd "$(dirname "$0")/.."
[ -n "${PROBE:-}" ] || tools/build program
tests/normals.py "${PROBE:-$PWD/target/bin/probe}" "${1:-4000}" "${2:-1}"
