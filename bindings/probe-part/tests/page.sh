#!/usr/bin/env bash
# The page of `probe-part batch`, of three parts, in a real browser: headless Chromium takes a picture of it, and
# page_picture.py beside it looks at that. Skipped aloud where there is no Chromium.
# usage: bindings/probe-part/tests/page.sh [PICTURE]   (PROBE_PART names the program, else target/bindings/release/probe-part; PICTURE keeps it)
set -euo pipefail
cd "$(dirname "$0")/../../.."
program=${PROBE_PART:-target/bindings/release/probe-part}
work=$(mktemp -d)
trap 'rm -rf "$work"' EXIT

# a good part, one whose cup has a floor that is not flat, a corner of it being 2 mm higher, and one that is cut short
mkdir "$work/parts"
cp examples/panel.stl "$work/parts/panel.stl"
head -c 3000 examples/panel.stl > "$work/parts/broken.stl"
sed 's/^\( *vertex 57.25 67.5\) 5$/\1 7/' examples/panel.stl > "$work/parts/uneven.stl"
cmp -s "$work/parts/uneven.stl" examples/panel.stl && { echo "error: the floor is as it was" >&2; exit 1; }
status=0
"$program" batch "$work/parts" --out "$work/out" > "$work/said" || status=$?
[ "$status" = 2 ] || { cat "$work/said" >&2; echo "error: exit status $status, not 2" >&2; exit 1; }
python3 - "$work/out" << 'PYTHON'
import csv, json, pathlib, sys
out = pathlib.Path(sys.argv[1])
lines = {line["part"]: line for line in csv.DictReader(open(out / "summary.csv"))}
status = {part: line["status"] for part, line in lines.items()}
assert status == {"broken": "cannot be read", "uneven": "may be incomplete", "panel": "complete"}, status
assert [lines["panel"][key] for key in ("size_x", "size_y", "size_z", "rows")] == ["200.000", "100.000", "18.000", "2"]
panel, uneven = (json.load(open(out / f"{name}.json")) for name in ("panel", "uneven"))
assert panel["complete"] and not uneven["complete"] and uneven["parts"][0]["left_over"]
PYTHON
echo "a folder of a good part, one that is not understood and a broken one: the statuses are theirs"

browser=$(command -v chromium || command -v chromium-browser || command -v google-chrome || true)
if [ -z "$browser" ]; then
  echo "SKIPPED: the page in a browser, since Chromium is not installed (apt-get install chromium)"
  exit 0
fi
picture=${1:-$work/page.png}
timeout 120 "$browser" --headless --no-sandbox --disable-gpu --hide-scrollbars --force-device-scale-factor=1 \
  --user-data-dir="$work/browser" --window-size=1400,2000 --screenshot="$picture" "file://$work/out/index.html" > "$work/log" 2>&1 \
  || { cat "$work/log" >&2; exit 1; }
bindings/probe-part/tests/page_picture.py "$picture"
