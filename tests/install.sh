#!/usr/bin/env bash
# What tools/install writes: the files, the shared library's symbols, programs in C and C++ built against it by pkg-config and by
# CMake, shared and static, the C++ header's answers and what it does not let through, the Rust crate, the program, the archive.
# usage: tests/install.sh   (PROBE_RAYS_LIB and PROBE as in tools/install; without them `rt` is asked once for each)
set -euo pipefail
cd "$(dirname "$0")/.."
for tool in pkg-config cmake make gcc g++ readelf nm cargo python3; do
  command -v "$tool" > /dev/null || {
    echo "error: $tool is not there: apt-get install pkg-config cmake make gcc g++ binutils python3, and a Rust toolchain" >&2
    exit 1
  }
done
work=$(mktemp -d)
trap 'rm -rf "$work"' EXIT
log=$work/log
ran=0

fail() {
  echo "error: $*" >&2
  exit 1
}

# same WHAT FOUND EXPECTED
same() {
  [ "$2" = "$3" ] || fail "$1: '$2' in place of '$3'"
  ran=$((ran + 1))
}

# quiet COMMAND..: what it says is shown only if it fails
quiet() {
  "$@" > "$log" 2>&1 || { cat "$log" >&2; fail "$*"; }
}

# refused STATUS LINE COMMAND..: it ends so, and the last line that it says holds the words
refused() {
  local status=$1 words=$2 got=0
  shift 2
  "$@" > "$log" 2>&1 < /dev/null || got=$?
  [ "$got" = "$status" ] || fail "$* ended with $got in place of $status: $(tail -n 3 "$log")"
  tail -n 1 "$log" | grep -qF -- "$words" || fail "$*: the last line is $(tail -n 1 "$log")"
  ran=$((ran + 1))
}

if [ -z "${PROBE_RAYS_LIB:-}" ]; then
  quiet tools/build library
  export PROBE_RAYS_LIB=$PWD/target/staticlib
fi
if [ -z "${PROBE:-}" ]; then
  quiet tools/build program
  export PROBE=$PWD/target/bin/probe
fi
quiet tools/install "$work/first"
# nothing in it names the folder that it was made in
mv "$work/first" "$work/moved"
prefix=$work/moved
if grep -rlF "$work/first" "$prefix"; then fail "the files above name the folder"; fi
ran=$((ran + 1))

# the version stands once, and everything else agrees
release=$(cat VERSION)
calls=$(sed -n 's/^#define PROBE_VERSION \([0-9]*\)u$/\1/p' include/probe_rays.h)
export PKG_CONFIG_PATH=$prefix/lib/pkgconfig
same "pkg-config's version" "$(pkg-config --modversion probe_rays)" "$release"
same "the Rust crate's version" "$(sed -n 's/^version = "\(.*\)"/\1/p' bindings/rust/Cargo.toml)" "$release"
same "the licence's terms" "$(sed -n '/^Permission/,$p' LICENSE)" "$(sed -n '/^Permission/,$p' NOTICE)"
for file in LICENSE NOTICE VERSION; do
  cmp "$file" "$prefix/share/probe_rays/$file"
  ran=$((ran + 1))
done

# the shared library: its name, what it asks for, no place that is fixed when it is loaded, and the header's calls and no others
shared=$prefix/lib/libprobe_rays.so.$calls
same "the link" "$(readlink "$prefix/lib/libprobe_rays.so")" "libprobe_rays.so.$calls"
readelf -d "$shared" > "$work/dynamic"
same "its name" "$(sed -n 's/.*SONAME.*\[\(.*\)\]/\1/p' "$work/dynamic")" "libprobe_rays.so.$calls"
same "what it needs" "$(sed -n 's/.*NEEDED.*\[\(.*\)\]/\1/p' "$work/dynamic")" "libc.so.6"
if grep TEXTREL "$work/dynamic"; then fail "it is not position independent"; fi
readelf -lW "$shared" | grep GNU_STACK | grep -q ' RW ' || fail "its stack is executable"
grep -oE '^uint32_t probe_\w+' "$prefix/include/probe_rays.h" | cut -d' ' -f2 | sort > "$work/declared"
nm -D --defined-only "$shared" | awk '{ print $3 }' | sort | diff "$work/declared" -
nm "$prefix/lib/libprobe_rays.a" | awk '$2 == "T" { print $3 }' | sort | diff "$work/declared" -
ran=$((ran + 4))

# what the examples print: panel.expected and cabinet.expected by hand; a C++ Mesh takes no tree that does not pass
grep -v '^through a wrong tree' examples/panel.expected > "$work/panel-cpp.expected"
echo "the tree does not fit the mesh" >> "$work/panel-cpp.expected"
strict="-Wall -Wextra -Werror -pedantic"

# linked FILE shared|static: whether it asks for the shared library
linked() {
  local needs
  needs=$(readelf -d "$1" | grep -c "NEEDED.*libprobe_rays" || true)
  same "$1, linked $2" "$needs" "$([ "$2" = shared ] && echo 1 || echo 0)"
}

for kind in shared static; do
  package=$([ $kind = shared ] && echo probe_rays || echo probe_rays-static)
  # shellcheck disable=SC2046
  gcc -std=c99 $strict $(pkg-config --cflags "$package") examples/panel.c $(pkg-config --libs "$package") -o "$work/panel-$kind"
  # shellcheck disable=SC2046
  gcc -std=c99 $strict $(pkg-config --cflags "$package") examples/cabinet.c $(pkg-config --libs "$package") -o "$work/cabinet-$kind"
  # shellcheck disable=SC2046
  g++ -std=c++17 $strict $(pkg-config --cflags "$package") examples/panel.cpp $(pkg-config --libs "$package") -o "$work/panel-cpp-$kind"
  for program in panel cabinet panel-cpp; do
    expected=examples/$program.expected
    [ $program != panel-cpp ] || expected=$work/panel-cpp.expected
    LD_LIBRARY_PATH=$prefix/lib "$work/$program-$kind" | diff - "$expected"
    linked "$work/$program-$kind" $kind
    ran=$((ran + 1))
  done
done
echo "pkg-config: C and C++, shared and static"

quiet cmake -S tests/cmake -B "$work/cmake" -DCMAKE_PREFIX_PATH="$prefix" -DEXAMPLES="$PWD/examples" -DASKED="$release"
quiet cmake --build "$work/cmake" --parallel 2
for kind in shared static; do
  "$work/cmake/$kind-c" | diff - examples/panel.expected
  "$work/cmake/$kind-cpp" | diff - "$work/panel-cpp.expected"
  linked "$work/cmake/$kind-c" $kind
  linked "$work/cmake/$kind-cpp" $kind
  ran=$((ran + 2))
done
for asked in $((calls + 1)) $((calls - 1)) "$calls.999"; do
  if cmake -S tests/cmake -B "$work/cmake-$asked" -DCMAKE_PREFIX_PATH="$prefix" -DEXAMPLES="$PWD/examples" -DASKED="$asked" \
    > "$log" 2>&1; then fail "CMake takes release $release for $asked"; fi
  grep -q "probe_rays" "$log" || fail "CMake does not say why"
  ran=$((ran + 1))
done
echo "CMake: C and C++, shared and static"

# the C++ header: every call of the C header is called by it, but those without a near distance, of which the header says that
# they are the others with 0
by_themselves='^probe_ray_(plane|triangle|height_field|level_set|mesh)$'
while read -r call; do
  [[ $call =~ $by_themselves ]] || grep -qE "\b$call[(,]" include/probe_rays.hpp || fail "probe_rays.hpp has no call of $call"
  ran=$((ran + 1))
done < "$work/declared"

# its answers, with sanitizers where the compiler has them
sanitize="-g -fsanitize=address,undefined -fno-sanitize-recover=all"
echo 'int main() { return 0; }' > "$work/nothing.cpp"
if ! g++ $sanitize "$work/nothing.cpp" -o "$work/nothing" 2> "$log" || ! "$work/nothing"; then
  echo "SKIPPED: the sanitizers, which g++ lacks here: apt-get install libasan8 libubsan1" >&2
  sanitize=
fi
for program in answers stl; do
  # shellcheck disable=SC2046
  g++ -std=c++17 $strict -Wshadow $sanitize -pthread $(pkg-config --cflags probe_rays) "tests/cpp/$program.cpp" \
    $(pkg-config --libs probe_rays) -o "$work/$program"
  said=$(LD_LIBRARY_PATH=$prefix/lib "$work/$program" examples/panel.stl) # which `stl` reads
  [[ $said =~ ^([1-9][0-9]*)\ checks$ ]] || fail "$program: $said"
  ran=$((ran + BASH_REMATCH[1]))
  echo "C++, $program: $said"
done

# the conformance file: each case by each method, and no public method of the header without a case
tests/cpp/methods.py include/probe_rays.hpp > "$work/methods"
# shellcheck disable=SC2046
g++ -std=c++17 -O1 $strict -Wshadow $sanitize $(pkg-config --cflags probe_rays) tests/cpp/conformance.cpp \
  $(pkg-config --libs probe_rays) -o "$work/conformance"
mkdir "$work/files"
said=$(LD_LIBRARY_PATH=$prefix/lib "$work/conformance" tests/conformance.json "$work/files" "$work/methods")
[[ $said =~ ^([1-9][0-9]*)\ cases,\ ([1-9][0-9]*)\ methods$ ]] || fail "conformance: $said"
ran=$((ran + BASH_REMATCH[1] + BASH_REMATCH[2]))
echo "C++, the conformance file: $said"

# accepted STATEMENTS, rejected STATEMENTS: whether a function of these compiles
compiles() {
  cat > "$work/piece.cpp" << PIECE
#include "probe_rays.hpp"
using namespace probe_rays;
void piece(Mesh &mesh, const Ray &ray, Cabinet &cabinet, const HeightRanges &ranges);
void piece(Mesh &mesh, const Ray &ray, Cabinet &cabinet, const HeightRanges &ranges)
{
    (void)mesh, (void)ray, (void)cabinet, (void)ranges;
    $1
}
PIECE
  g++ -std=c++17 $strict -fsyntax-only -I "$prefix/include" "${@:2}" "$work/piece.cpp" 2> "$log"
}
accepted() {
  compiles "$@" || { cat "$log" >&2; fail "$1 does not compile"; }
  ran=$((ran + 1))
}
# rejected STATEMENTS WHY: they do not compile, and the compiler says why
rejected() {
  if compiles "$1" "${@:3}"; then fail "$1 compiles"; fi
  grep -m 1 'error' "$log" | grep -qF -- "$2" || { cat "$log" >&2; fail "$1 does not compile, but for another reason than '$2'"; }
  ran=$((ran + 1))
}
accepted 'if (auto hit = mesh.cast(ray).hit_or_none()) (void)hit->distance;'
accepted 'if (auto hit = mesh.cast(ray).hit_or_none()) (void)hit->distance;' -fno-exceptions
accepted 'if (ray_height_ranges(ray, ranges).is_clear()) return;'
accepted '(void)read_stl("part.stl").value();' -fno-exceptions
# an answer is no yes or no, and is not thrown away; all three cases are named
rejected 'if (mesh.cast(ray)) return;' 'deleted function'
rejected 'if (!mesh.cast(ray)) return;' 'deleted function'
rejected 'bool met = mesh.cast(ray); (void)met;' 'cannot convert'
rejected 'mesh.cast(ray);' 'nodiscard'
rejected 'mesh.cast_all(ray);' 'nodiscard'
rejected 'mesh.cast_exact_all(ray);' 'nodiscard'
rejected 'mesh.cast_many({ray});' 'nodiscard'
rejected 'Mesh::build(std::vector<Vec3>(), std::vector<Triangle>());' 'nodiscard'
rejected 'cabinet.cast(ray);' 'nodiscard'
rejected 'read_stl("part.stl");' 'nodiscard'
rejected 'if (cabinet.cast(ray).answer) return;' 'deleted function'
rejected 'if (ray_height_ranges(ray, ranges)) return;' 'deleted function'
rejected 'mesh.cast(ray).match([](const MeshHit &) {}, [] {});' 'no matching function'
rejected 'switch (mesh.cast(ray).kind()) { case Kind::hit: break; case Kind::none: break; }' 'not handled in switch'
rejected 'std::optional<MeshHit> hit = mesh.cast(ray); (void)hit;' 'conversion from'
rejected 'Mesh mine = Mesh::build(std::vector<Vec3>(), std::vector<Triangle>()); (void)mine;' 'conversion from'
# a mesh cannot be made of a tree that was not checked, nor changed
rejected 'Mesh mine(mesh.shape(), mesh.tree()); (void)mine;' 'is private'
rejected 'mesh.tree().nodes = 0;' 'read-only'
rejected '' 'asks for C++17' -std=c++14
echo "C++: an answer cannot be taken for another"

# the Rust crate of the folder, with the folder's library; and without one, the line that helps stands last
mkdir -p "$work/user/src"
cat > "$work/user/Cargo.toml" << CARGO
[package]
name = "user"
version = "0.1.0"
edition = "2021"
[dependencies]
probe-rays = { path = "$prefix/share/probe_rays/rust" }
CARGO
cat > "$work/user/src/main.rs" << 'RUST'
use probe_rays::{ray_plane, Cast, Plane, Ray};
fn main() {
    let ground = Plane { normal: [0.0, 0.0, 1.0], distance: 0.0 };
    let Cast::Hit(hit) = ray_plane(&Ray::new([0.0, 0.0, 2.0], [0.0, 0.0, -1.0], 5.0), &ground) else { panic!() };
    println!("{}", hit.distance);
}
RUST
said=$(cd "$work/user" && env -u PROBE_RAYS_LIB CARGO_TARGET_DIR="$work/cargo" cargo run --offline --quiet)
same "a Rust program against the folder" "$said" 2
refused 101 'help: run `tools/build library` in the repository, or set PROBE_RAYS_LIB to the folder of libprobe_rays.a' \
  env PROBE_RAYS_LIB="$work/nowhere" CARGO_TARGET_DIR="$work/cargo" cargo build --offline --manifest-path "$work/user/Cargo.toml"
echo "Rust: a crate against the folder"

# the program over the crate, where it is
if [ -d bindings/probe-part ]; then
  quiet "$prefix/bin/probe-part" --help
  same "the tool's version" "$("$prefix/bin/probe-part" --version)" "probe-part $release"
  ran=$((ran + 1))
  # its crate: the bores of the panel, by docs/TOOL.md's call
  mkdir -p "$work/lister/src"
  cat > "$work/lister/Cargo.toml" << CARGO
[package]
name = "lister"
version = "0.1.0"
edition = "2021"
[dependencies]
probe-part = { path = "$prefix/share/probe_rays/probe-part" }
CARGO
  cat > "$work/lister/src/main.rs" << 'RUST'
use probe_part::{recognise, shape::Shape, Options};
fn main() {
    let file = std::env::args().nth(1).unwrap();
    let report = recognise(&Shape::load(&file).unwrap(), &Options::default()).unwrap();
    let rows = report.parts[0].rows.iter().map(|row| format!("{:?} {}", row.kind, row.depth));
    println!("{} {}", report.is_certain(), rows.collect::<Vec<_>>().join(", "));
}
RUST
  said=$(cd "$work/lister" && env -u PROBE_RAYS_LIB CARGO_TARGET_DIR="$work/cargo" \
    cargo run --offline --quiet -- "$prefix/share/probe_rays/examples/panel.stl")
  same "the recognition against the folder" "$said" "true Bore 13, Bore 18"
  # docs/STEP.md's example, from the installed folder
  if command -v gmsh > /dev/null; then
    (cd "$work" && env -u PROBE_PART "$prefix/share/probe_rays/examples/board.sh" "$work/board" > "$work/board.said")
    tail -n +2 "$work/board/board.bores" | diff - examples/board.bores
    ran=$((ran + 1))
    if [ -x "$prefix/bin/probe-step" ]; then
      tail -n +2 "$work/board/drawn.bores" | diff - examples/board.bores
      ran=$((ran + 1))
    else
      echo "SKIPPED: the same list by probe-step, since OpenCASCADE is not installed (docs/STEP.md)"
    fi
  else
    echo "SKIPPED: docs/STEP.md's example in an installation, since gmsh is not installed (apt-get install gmsh)"
  fi
fi

# the program: document 01's example, and a word on what it reads to whoever gives it arguments or a terminal
env -u PROBE "$prefix/bin/probe" < examples/plane.records | diff - examples/plane.lines
"$prefix/bin/probe-records" write < examples/mesh.txt | cmp - examples/mesh.records
ran=$((ran + 2))
for program in "$prefix/bin/probe" tools/probe; do
  refused 2 "docs/PROGRAM.md has the rest." "$program" examples/plane.records
  refused 0 "docs/PROGRAM.md has the rest." "$program" --help
  refused 2 "docs/PROGRAM.md has the rest." python3 -c '
import os, pty, sys
status = pty.spawn([sys.argv[1]])
sys.exit(os.waitstatus_to_exitcode(status))' "$program"
done

# mesh FACETS: a mesh of no vertices and so many triangles, in 66 bytes and 12 a triangle
mesh() {
  echo "mesh origin 0 0 1 direction 0 0 -1 max 2 counts 0 $1 vertices indices $(yes 0 | head -n $((3 * $1)) | tr '\n' ' ')"
}
# 8,190 bytes are a record (its build refuses an index past the vertices with 5, as document 01 has it), and 8,202 are not written
same "a long record" "$(mesh 677 | tools/records.py write | tools/probe)" "1 refused 5"
mesh 678 > "$work/long.txt"
refused 1 'line 1: a record of 8202 bytes; `probe` reads 8,192 at most, a mesh of about 340 triangles' \
  bash -c "tools/records.py write < $work/long.txt"

# the archive: the same bytes each time, and the same files
quiet tools/install --archive "$work/one.tar.gz"
quiet tools/install --archive "$work/two.tar.gz"
cmp "$work/one.tar.gz" "$work/two.tar.gz"
tar -C "$work" -xzf "$work/one.tar.gz"
diff -r "$work/probe-rays-$release-x86_64-linux" "$prefix"
ran=$((ran + 2))

# without the toolchain it says what to take instead
mkdir "$work/bin"
for tool in bash env dirname cat sed uname mktemp rm; do ln -s "$(command -v "$tool")" "$work/bin/$tool"; done
refused 1 "tar -xzf probe-rays-$release-x86_64-linux.tar.gz" \
  env -u PROBE_RAYS_LIB -u PROBE PATH="$work/bin" bash tools/install "$work/none"
refused 2 "taken as they are instead." tools/install
refused 2 "taken as they are instead." tools/install --wrong
echo "install: $ran tests passed"
