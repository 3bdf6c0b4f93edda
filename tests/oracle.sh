#!/usr/bin/env bash
# The oracle's own tests: the carried Rust files are unchanged, K1 to K13 and the worked example hold for the Rust.
set -euo pipefail
cd "$(dirname "$0")/../oracle"
sha256sum --quiet --check CHECKSUMS
log=$(mktemp)
trap 'rm -f "$log"' EXIT
cargo test --offline --quiet > "$log" 2>&1 || { cat "$log" >&2; exit 1; }
echo "oracle: $(awk '/^test result: ok/ { sum += $4 } END { print sum + 0 }' "$log") tests passed"
