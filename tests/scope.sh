#!/usr/bin/env bash
# docs/SCOPE.md against the sentences quoted in crates/*/specs, both ways; and that the comparison sees each of a list of faults.
set -euo pipefail
cd "$(dirname "$0")/.."
tools/scope.py --self-test
tools/scope.py
