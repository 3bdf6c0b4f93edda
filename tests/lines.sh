#!/usr/bin/env bash
# The lines of definitions and proofs, and which definitions are for the proofs alone; and that tools/lines.py sees each of a list of faults.
set -euo pipefail
cd "$(dirname "$0")/.."
tools/lines.py --self-test
tools/lines.py
