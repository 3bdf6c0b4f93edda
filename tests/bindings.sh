#!/usr/bin/env bash
# The library for other languages: proves and writes it, runs the C example built as C and as C++, the Rust crate's
# tests and doc examples, the STL example, and the program probe-part. What the examples print is held to files written
# from the geometry.
# usage: tests/bindings.sh   (PROBE_RAYS_LIB names a folder with another libexports.a, which is then taken as it is)
set -euo pipefail
cd "$(dirname "$0")/.."
work=$(mktemp -d)
trap 'rm -rf "$work"' EXIT
log=$work/log
export CARGO_TARGET_DIR=${CARGO_TARGET_DIR:-$PWD/target/bindings}

if [ -z "${PROBE_RAYS_LIB:-}" ]; then
  export PROBE_RAYS_LIB=$PWD/target/staticlib
  tools/build library > "$log" 2>&1 || { tail -n 20 "$log" >&2; exit 1; }
fi
archive=$PROBE_RAYS_LIB/libexports.a

# the archive defines the header's calls, no others, and asks for nothing but C's memset
grep -oE '^uint32_t probe_\w+' include/probe_rays.h | cut -d' ' -f2 | sort > "$work/declared"
nm "$archive" | awk '$2 == "T" { print $3 }' | sort > "$work/defined"
diff "$work/declared" "$work/defined"
if nm -u "$archive" | awk '$1 == "U" { print $2 }' | grep -vx memset; then
  echo "error: the archive asks for the functions above" >&2
  exit 1
fi

strict="-O2 -Wall -Wextra -Werror -pedantic -I include"
gcc -std=c99 $strict examples/panel.c "$archive" -o "$work/panel-c"
g++ -x c++ -std=c++98 $strict -c examples/panel.c -o "$work/panel.o"
g++ "$work/panel.o" "$archive" -o "$work/panel-c++"
for panel in "$work/panel-c" "$work/panel-c++"; do
  "$panel" | diff - examples/panel.expected
done
gcc -std=c99 $strict examples/cabinet.c "$archive" -o "$work/cabinet-c"
g++ -x c++ -std=c++98 $strict -c examples/cabinet.c -o "$work/cabinet.o"
g++ "$work/cabinet.o" "$archive" -o "$work/cabinet-c++"
for cabinet in "$work/cabinet-c" "$work/cabinet-c++"; do
  "$cabinet" | diff - examples/cabinet.expected
done
echo "the C examples print what the panels' measures say, as C and as C++"

(
  cd bindings/rust
  cargo test --release --offline > "$log" 2>&1 || { cat "$log" >&2; exit 1; }
  RUSTDOCFLAGS="-D warnings" cargo doc --offline --no-deps > "$work/doc" 2>&1 || { cat "$work/doc" >&2; exit 1; }
  cargo build --release --offline --quiet --example stl
)
rust=$(awk '/^test result: ok/ { sum += $4 } END { print sum + 0 }' "$log")
[ "$rust" -gt 0 ] || { echo "error: the Rust crate has no test" >&2; exit 1; }
echo "$rust Rust tests and doc examples passed"
stl=$CARGO_TARGET_DIR/release/examples/stl

# expect STATUS FILE COMMAND..: the command ends with the status and prints the file's lines
files=0
expect() {
  local status=$1 file=$2 got=0
  shift 2
  "$@" > "$work/printed" 2> "$work/error" || got=$?
  if [ "$got" != "$status" ]; then
    echo "error: $* ended with $got in place of $status" >&2
    cat "$work/error" >&2
    exit 1
  fi
  cat "$work/printed" "$work/error" | diff - "$file"
  files=$((files + 1))
}

examples/panel_stl.py | cmp - examples/panel.stl
mapfile -t words < <(sed 's/#.*//' examples/panel.rays | tr -s ' ' '\n' | grep .)
head -n -1 examples/panel.hits > "$work/hits"
# the last ray is refused: status 1 with it, and 0 without
expect 1 examples/panel.hits "$stl" examples/panel.stl "${words[@]}"
expect 0 "$work/hits" "$stl" examples/panel.stl "${words[@]:0:${#words[@]}-7}"

# every depth along a ray
mapfile -t bores < <(sed 's/#.*//' examples/panel.bores | tr -s ' ' '\n' | grep .)
expect 1 examples/panel.depths "$stl" --all examples/panel.stl "${bores[@]}"

# the same panel in other files, and files that are not right
tests/stl_files.py "$work"
shopt -s failglob
for same in "$work"/same-*.stl; do
  expect 1 examples/panel.hits "$stl" "$same" "${words[@]}"
done
for wrong in "$work"/wrong-*.stl; do
  name=$(basename "$wrong" .stl)
  expect 2 "$work/$name.says" "$stl" "$wrong" "${words[@]}"
done
echo "the STL example prints what the panel's measures say, from ASCII and binary files"

# the reader of STEP files, where OpenCASCADE is, on the path of what follows
mkdir -p "$work/bin"
if bindings/probe-step/build "$work/bin/probe-step"; then
  PATH=$work/bin:$PATH
fi

# the program over the crate: its tests, its documents, and its pictures seen by other eyes
(
  cd bindings/probe-part
  cargo test --release --offline > "$log" 2>&1 || { cat "$log" >&2; exit 1; }
  RUSTDOCFLAGS="-D warnings" cargo doc --offline --no-deps > "$work/doc" 2>&1 || { cat "$work/doc" >&2; exit 1; }
)
program=$(awk '/^test result: ok/ { sum += $4 } END { print sum + 0 }' "$log")
[ "$program" -gt 0 ] || { echo "error: probe-part has no test" >&2; exit 1; }
echo "$program tests of probe-part passed"
"$CARGO_TARGET_DIR/release/probe-part" depth examples/panel.stl --face top --png "$work/top.png" --svg "$work/top.svg" > "$work/said"
tests/depth_pictures.py "$work/top.png" "$work/top.svg"
tests/progress.py "$CARGO_TARGET_DIR/release/probe-part" examples/panel.stl
PROBE_PART=$CARGO_TARGET_DIR/release/probe-part bindings/probe-part/tests/page.sh

# the tool's page: what its commands print; the page on STEP files: the board's list
awk -v out="$work" '
  /^```/ { if (file) { close(file); file = "" } else { file = sprintf("%s/page%02d.%s", out, ++n, substr($0, 4)) } next }
  file { print > file }' docs/TOOL.md
pages=0
previous=
for code in "$work"/page*; do
  case $previous:$code in
    *.sh:*.text)
      PATH=$CARGO_TARGET_DIR/release:$PATH bash -euo pipefail "$previous" | diff - "$code"
      pages=$((pages + 1)) ;;
  esac
  previous=$code
done
[ "$pages" = 4 ] || { echo "error: $pages commands of docs/TOOL.md were found, not 4" >&2; exit 1; }
awk '/^```text/ { inside = 1; next } /^```/ { inside = 0 } inside' docs/STEP.md | tail -n +2 | diff - examples/board.bores
echo "the commands of docs/TOOL.md print what it says, and docs/STEP.md has the board's list"

# from STEP to a list of bores, where gmsh is: the list by the drawing's measures, and the setting for a board of 216 bores
step=0
if command -v gmsh > /dev/null; then
  export PROBE_PART=$CARGO_TARGET_DIR/release/probe-part
  examples/board.sh "$work/board" > "$work/said"
  tail -n +2 "$work/board/board.bores" | diff - examples/board.bores
  # without probe-step a STEP file is not taken, and it is said how gmsh makes an STL file of it
  PATH=$work/nowhere "$PROBE_PART" bores "$work/board/board.step" > "$work/printed" 2>&1 && { echo "error: a STEP file was taken" >&2; exit 1; }
  grep -q 'board.step: this is a STEP file' "$work/printed"
  gmsh examples/board.geo -setnumber pegs 216 -0 -o "$work/pegs.step" > "$log" 2>&1
  setting=$(grep -o 'Mesh.StlLinearDeflection.*0.35' "$work/printed")
  gmsh "$work/pegs.step" -0 -setnumber $setting -format stl -bin -o "$work/pegs.stl" > "$log" 2>&1
  "$PROBE_PART" cast "$work/pegs.stl" > "$work/counts"
  triangles=$(cut -d' ' -f1 "$work/counts")
  [ "$triangles" -le 65536 ] || { echo "error: the board of 216 bores has $triangles triangles" >&2; exit 1; }
  "$PROBE_PART" bores "$work/pegs.stl" --csv | awk -F, 'NR > 1 && /,top,bore,circle,5.000,5.000,/ && $13 == "12.000"' > "$work/pegs"
  [ "$(wc -l < "$work/pegs")" = 216 ] || { echo "error: $(wc -l < "$work/pegs") of 216 bores were found" >&2; exit 1; }
  step=4
  echo "from STEP: the board's list is the drawing's, and a board of 216 bores has $triangles triangles"
  # the same of the STEP files themselves
  if command -v probe-step > /dev/null; then
    tail -n +2 "$work/board/drawn.bores" | diff - examples/board.bores
    "$PROBE_PART" cast "$work/pegs.step" > "$work/counts"
    triangles=$(cut -d' ' -f1 "$work/counts")
    [ "$triangles" -le 65536 ] || { echo "error: the board of 216 bores has $triangles triangles" >&2; exit 1; }
    "$PROBE_PART" bores "$work/pegs.step" --csv | awk -F, 'NR > 1 && /,top,bore,circle,5.000,5.000,/ && $13 == "12.000"' > "$work/pegs"
    [ "$(wc -l < "$work/pegs")" = 216 ] || { echo "error: $(wc -l < "$work/pegs") of 216 bores were found" >&2; exit 1; }
    step=$((step + 3))
    echo "read by probe-step: the same list, and $triangles triangles"
  else
    echo "SKIPPED: the same lists by probe-step, since OpenCASCADE is not installed (apt-get install
  libocct-data-exchange-dev libocct-ocaf-dev libocct-modeling-algorithms-dev)"
  fi
else
  echo "SKIPPED: from a STEP file to a list of bores, since gmsh is not installed (apt-get install gmsh)"
fi
echo "bindings: $((4 + rust + files + program + 5 + step)) tests passed"
