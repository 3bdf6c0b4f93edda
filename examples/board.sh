#!/usr/bin/env bash
# From a drawing to a STEP file, from there to an STL file, and to a list of bores and pictures: examples/board.geo.
# usage: examples/board.sh FOLDER   (needs gmsh; writes board.step, board.stl, board.bores, top.png and top.svg there)
# PROBE_PART names the program; else it is the installed folder's, or the one on the path, or it is built, which needs the
# library (`tools/build library`). Where probe-step is beside it or on the path, drawn.bores is the list of board.step itself.
set -euo pipefail
here=$(cd "$(dirname "$0")" && pwd)
folder=${1:?usage: examples/board.sh FOLDER}
mkdir -p "$folder"
installed=$here/../../../bin/probe-part
if [ -z "${PROBE_PART:-}" ] && [ -x "$installed" ]; then
  PROBE_PART=$installed
fi
if [ -z "${PROBE_PART:-}" ]; then
  PROBE_PART=$(command -v probe-part || true)
fi
if [ -z "$PROBE_PART" ]; then
  target=${CARGO_TARGET_DIR:-$here/../target/bindings}
  (cd "$here/../bindings/probe-part" && CARGO_TARGET_DIR=$target cargo build --release --offline --quiet)
  PROBE_PART=$target/release/probe-part
fi

# gmsh WORDS..: quiet unless it fails
run_gmsh() {
  gmsh "$@" > "$folder/gmsh.log" 2>&1 || { cat "$folder/gmsh.log" >&2; exit 1; }
}

# the STEP file, as a CAD program would write it
run_gmsh "$here/board.geo" -0 -o "$folder/board.step"

# its surfaces as triangles: at most 0.05 mm off, and at most 0.35 (20 degrees) from one to the next
deflection=(-setnumber Mesh.StlLinearDeflection 0.05 -setnumber Mesh.StlAngularDeflection 0.35)
run_gmsh "$folder/board.step" -0 "${deflection[@]}" -format stl -bin -o "$folder/board.stl"

"$PROBE_PART" bores "$folder/board.stl" | tee "$folder/board.bores"
"$PROBE_PART" depth "$folder/board.stl" --face top --png "$folder/top.png" --svg "$folder/top.svg"

# the STEP file's own surfaces, where they can be read
if [ -x "$(dirname "$PROBE_PART")/probe-step" ] || command -v probe-step > /dev/null; then
  "$PROBE_PART" bores "$folder/board.step" > "$folder/drawn.bores"
fi
