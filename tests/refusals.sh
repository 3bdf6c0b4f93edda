#!/usr/bin/env bash
# Each must-fail edit is refused because a fact fails, not because its proof no longer fits the code; and the rule that tells
# the two apart does. It reads what `rt ci` said, which tools/test keeps in target/log/ci.out; LOG names another file.
set -euo pipefail
cd "$(dirname "$0")/.."
tools/refusals.py --self-test
tools/refusals.py
