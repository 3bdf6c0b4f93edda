#!/usr/bin/env bash
# The conformance file, tests/conformance.json: the generator asks the library and the plain models for every answer again, and writes
# what the file has. The runners of the languages are in tests/bindings.sh (Rust), tests/install.sh (C++) and tests/python.sh.
# Then a few altered bindings of each language, of tests/altered.json: a runner must report each one.
# usage: tests/conformance.sh   (PROBE_RAYS_LIB names a folder with another libexports.a, which is then taken as it is)
set -euo pipefail
cd "$(dirname "$0")/.."
work=$(mktemp -d)
trap 'rm -rf "$work"' EXIT
if [ -z "${PROBE_RAYS_LIB:-}" ]; then
  tools/build library
  export PROBE_RAYS_LIB=$PWD/target/staticlib
fi
(cd differential && cargo run --offline --release --quiet --bin conformance) > "$work/file" 2> "$work/said" || { cat "$work/said" >&2; exit 1; }
cmp "$work/file" tests/conformance.json || {
  echo "error: tests/conformance.json is not what the generator writes: (cd differential && cargo run --release --bin conformance)" >&2
  exit 1
}
cases=$(sed -n 's/^\([1-9][0-9]*\) cases$/\1/p' "$work/said")
echo "$cases cases, each answered alike by the library and the plain model"
said=$(tools/altered --few)
echo "$said"
[[ $said =~ ^([1-9][0-9]*)\ altered ]] || { echo "error: no altered binding was tried" >&2; exit 1; }
echo "conformance: $((cases + BASH_REMATCH[1])) tests passed"
