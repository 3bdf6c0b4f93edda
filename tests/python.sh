#!/usr/bin/env bash
# The Python module of an installed folder: tests/python_module.py, and what an import says that finds no library, or another.
# usage: tests/python.sh   (PROBE_RAYS_LIB and PROBE as in tools/install; without them `rt` is asked for each)
set -euo pipefail
cd "$(dirname "$0")/.."
work=$(mktemp -d)
trap 'rm -rf "$work"' EXIT
tools/install "$work/prefix" > "$work/log" 2>&1 || { cat "$work/log" >&2; exit 1; }
export PYTHONPATH=$work/prefix/lib/python PYTHONDONTWRITEBYTECODE=1
unset PROBE_RAYS_LIBRARY
ran=0

# says WORDS: an import fails, and the last line that it says holds the words
says() {
  if python3 -c 'import probe_rays' 2> "$work/said"; then
    echo "error: the import did not fail" >&2
    exit 1
  fi
  tail -n 1 "$work/said" | grep -qF -- "$1" || { cat "$work/said" >&2; exit 1; }
  ran=$((ran + 1))
}

mkdir "$work/files"
said=$(python3 -W error tests/python_module.py "$work/files")
echo "$said"
[[ $said =~ ^([1-9][0-9]*)\ tests$ ]] || { echo "error: no test was run" >&2; exit 1; }
ran=$((ran + BASH_REMATCH[1]))

# the conformance file: each case by each method, and no public method of the module without a case
said=$(python3 -W error tests/conformance.py tests/conformance.json "$work/files")
echo "the conformance file: $said"
[[ $said =~ ^([1-9][0-9]*)\ cases,\ ([1-9][0-9]*)\ methods$ ]] || { echo "error: the conformance file was not run" >&2; exit 1; }
ran=$((ran + BASH_REMATCH[1] + BASH_REMATCH[2]))

PROBE_RAYS_LIBRARY=$work/nowhere.so says 'run `tools/install PREFIX` in the repository, or unpack a release archive'
# a library of other calls, and one that lacks some
echo 'unsigned probe_version(void) { return 1; }' > "$work/old.c"
gcc -shared -fPIC "$work/old.c" -o "$work/old.so"
PROBE_RAYS_LIBRARY=$work/old.so says "the library's calls have version 1, but those of the header"
version=$(sed -n 's/^#define PROBE_VERSION \([0-9]*\)u$/\1/p' include/probe_rays.h)
echo "unsigned probe_version(void) { return $version; }" > "$work/less.c"
gcc -shared -fPIC "$work/less.c" -o "$work/less.so"
PROBE_RAYS_LIBRARY=$work/less.so says "but the header has: they are from different releases"
echo "python: $ran tests passed"
