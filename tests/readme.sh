#!/usr/bin/env bash
# The code in README.md and in the pages of docs/ does what is said there: programs, and the commands that a block of text follows
# (tests/pages.py). Their Rust is run with the doc examples, by tests/bindings.sh, which also writes the library: run that first.
# docs/TOOL.md and docs/STEP.md, of the program probe-part, have tests of their own.
set -euo pipefail
cd "$(dirname "$0")/.."
work=$(mktemp -d)
trap 'rm -rf "$work"' EXIT
export CARGO_TARGET_DIR=${CARGO_TARGET_DIR:-$PWD/target/bindings}
export PROBE_RAYS_LIB=${PROBE_RAYS_LIB:-$PWD/target/staticlib}
export PROBE=${PROBE:-$PWD/target/bin/probe}
pages=(README.md docs/C.md docs/PYTHON.md docs/PROGRAM.md docs/RUST.md)
tests/pages.py "$work/home" "${pages[@]}" 2> "$work/errors" | tee "$work/said" || { cat "$work/errors" >&2; exit 1; }
ran=$(tail -n 1 "$work/said")

# every page that README.md names is there, those of probe-part where it is
for page in $(grep -oE '\]\(docs/[A-Z]+\.md\)' README.md | tr -d ']()' | sort -u); do
  [ -f "$page" ] || { [[ $page =~ STEP|TOOL ]] && [ ! -d bindings/probe-part ]; } || { echo "error: README.md names $page, which is not there" >&2; exit 1; }
  ran=$((ran + 1))
done
echo "readme: $ran tests passed"
