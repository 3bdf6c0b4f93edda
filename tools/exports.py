#!/usr/bin/env python3
"""Writes crates/exports_c, the static library for C, C++, Rust and Python, from crates/exports, so that the two cannot differ.

  exports.py              writes crates/exports_c/src, and its line of crates.txt
  exports.py --check      compares them with crates/exports; status 1 if they differ, and the number of calls if they do not
  exports.py --self-test  each of a list of faults, made in a copy, is reported

A crate is a library or a static library. `exports` is the library, over which theorems are proved. For each of its public functions
`probe_..` the static library has a symbol of that name, with the same comment, parameters and clauses, which calls the function.
"""
import pathlib
import re
import shutil
import sys
import tempfile

HOME = pathlib.Path(__file__).resolve().parent.parent
FROM, TO = "crates/exports/src", "crates/exports_c/src"
OPENING = """// The symbols for C, C++, Rust and Python. Each calls the function of its name in `exports`, and has that function's clauses.
// tools/exports.py writes these files from crates/exports/src; edit those.
#![tactic(auto)]

"""
CALL = re.compile(
    r"((?:^//[^\n]*\n)*)(?:^#\[[^\n]*\n)*^pub fn (probe_\w+)\(([^)]*)\)([^{\n]*)\n"
    r"(    (?:requires|ensures)[^\n]*\n(?:(?!\{\n)[^\n]*\n)*)\{\n",
    re.M,
)
GHOST = re.compile(r"^ghost use (\S+)\.\{([^}]*)\};\n", re.M)
USE = re.compile(r"^use ([\w:]+)(?:::\{([^}]*)\})?;\n", re.M)


def written_as(name):
    """What an imported name is in a clause: ◌≡◌ as ≡, `says as told` as told."""
    name = name.rpartition(" as ")[2]
    return name.replace("◌", "")


def ghost_lines(text, clauses):
    """The imports of a file that its calls' clauses use, and the crates that they name."""
    words = set(re.findall(r"[^\s(){};,.]+", clauses))
    lines, crates = [], []
    for path, names in GHOST.findall(text):
        kept = [name for name in re.split(r",\s*", names) if written_as(name) in words]
        if kept:
            lines.append(f"ghost use {path}.{{{', '.join(kept)}}};\n")
            crates.append(path.split(".")[1])
    return lines, crates


def use_lines(text, heads, clauses):
    """The imports of the types in the calls' parameters and of those that the clauses name, as Form.Long, and the crates that they name."""
    types = set(re.findall(r"\b[A-Z]\w*", heads)) | set(re.findall(r"\b([A-Z]\w*)\.[A-Z]", clauses))
    lines, crates = [], []
    for path, names in USE.findall(text):
        for name in re.split(r",\s*", names) if names else [path.rpartition("::")[2].rpartition(" as ")[2]]:
            if name in types:
                lines.append(f"use {path}::{name};\n" if names else f"use {path};\n")
                crates.append(path.split("::")[0])
    return lines, crates


def called(module, name, parameters):
    """The body: the call, on one line where its arguments have 60 characters, else one line each, as `rt fmt` lays it out."""
    arguments = re.findall(r"(\w+):", parameters)
    line = f"    exports::{module}::{name}({', '.join(arguments)})\n"
    if len(", ".join(arguments)) <= 60 and len(line) <= 101:
        return line
    return f"    exports::{module}::{name}(\n" + "".join(f"        {one},\n" for one in arguments) + "    )\n"


def module_of(text, module):
    """A module's file with its symbols, the crates that it names, and how many symbols there are; None without any."""
    found = list(CALL.finditer(text))
    if len(found) != len(re.findall(r"^pub fn probe_", text, re.M)):
        sys.exit(f"exports.py: {FROM}/{module}.rt has a public call in a form that is not read here")
    if not found:
        return None
    ghosts, below = ghost_lines(text, "\n".join(it[5] for it in found))
    uses, types = use_lines(text, "\n".join(it[3] for it in found), "\n".join(it[5] for it in found))
    parts = ["".join(ghosts)] + ["".join(uses)] * bool(uses)
    for it in found:
        head = f'{it[1]}#[unsafe(no_mangle)]\npub extern "C" fn {it[2]}({it[3]}){it[4]}\n{it[5]}{{\n'
        parts.append(head + called(module, it[2], it[3]) + "}\n")
    return "\n".join(parts), below + types, len(found)


def wanted(home):
    """Every file of the static library, its line of crates.txt, and the number of its calls."""
    root = (home / FROM / "lib.rt").read_text(encoding="utf-8")
    files, crates, count, items = {}, set(), 0, []
    for comment, module in re.findall(r"^((?://[^\n]*\n)*)pub mod (\w+);", root, re.M):
        made = module_of((home / FROM / f"{module}.rt").read_text(encoding="utf-8"), module)
        if made:
            files[f"{module}.rt"], crates, count = made[0], crates | set(made[1]), count + made[2]
            items.append(f"{comment}pub mod {module};\n")
    files["lib.rt"] = OPENING + "".join(items)
    listed = [name for name, _ in crates_in(home)]
    deps = ["exports", *sorted(crates - {"std", "exports"}, key=listed.index)]
    return files, f"exports_c staticlib: {' '.join(deps)}", count


def crates_in(home):
    rows = [line.split("#")[0].partition(":") for line in (home / "crates.txt").read_text(encoding="utf-8").splitlines()]
    return [(head.split()[0], deps.split()) for head, sign, deps in rows if sign]


def differing(home):
    """Where the static library differs from what it is made from, a line each, and the number of its calls."""
    files, line, count = wanted(home)
    there = {path.name: path.read_text(encoding="utf-8") for path in sorted((home / TO).glob("*"))}
    found = [f"{TO}/{name} is not what exports.py writes" for name in sorted(files.keys() | there) if files.get(name) != there.get(name)]
    if line not in (home / "crates.txt").read_text(encoding="utf-8").splitlines():
        found.append(f"crates.txt has no line '{line}'")
    if not count:
        found.append(f"{FROM} has no call")
    return found, count


def write(home):
    files, line, _ = wanted(home)
    shutil.rmtree(home / TO, ignore_errors=True)
    (home / TO).mkdir(parents=True)
    for name, text in files.items():
        (home / TO / name).write_text(text, encoding="utf-8")
    page = home / "crates.txt"
    text = page.read_text(encoding="utf-8")
    if re.search(r"^exports_c staticlib:", text, re.M):
        text = re.sub(r"^exports_c staticlib:.*$", line, text, flags=re.M)
    else:
        text = re.sub(r"^(exports:.*\n)", rf"\1{line}\n", text, flags=re.M)
    page.write_text(text, encoding="utf-8")


# one fault each: the file, the text (its first place), and what it becomes
FAULTS = [
    (f"{TO}/shapes.rt", "    normal_x: f64,\n    normal_y: f64,", "    normal_y: f64,\n    normal_x: f64,"),
    (f"{TO}/shapes.rt", "        normal_x,\n        normal_y,", "        normal_y,\n        normal_x,"),
    (f"{TO}/shapes.rt", "≡ answered", "≡ read"),
    (f"{TO}/shapes.rt", "#[unsafe(no_mangle)]\n", ""),
    (f"{TO}/shapes.rt", "// The cast at a plane.\n", ""),
    (f"{TO}/lib.rt", "pub mod near;\n", ""),
    (f"{TO}/conversions.rt", "use float_forms::forms::Form;\n", ""),
    (f"{FROM}/boards.rt", "    ensures glued { result ≡ done_code → Glued", "    ensures glued { result ≡ done_code → Joined"),
    (f"{FROM}/slices.rt", "≡ answered (plane_of_slices", "≡ (plane_of_slices"),
    (f"{FROM}/plain.rt", "pub fn probe_ray_mesh_plain(", "fn probe_ray_mesh_plain("),
    ("crates.txt", "exports_c staticlib: exports ", "exports_c staticlib: "),
]


def self_test(home):
    missed = 0
    for file, old, new in [("crates.txt", "", ""), *FAULTS]:
        with tempfile.TemporaryDirectory() as name:
            copy = pathlib.Path(name)
            for path in (FROM, TO):
                shutil.copytree(home / path, copy / path)
            shutil.copy(home / "crates.txt", copy / "crates.txt")
            text = (copy / file).read_text(encoding="utf-8")
            if old not in text:
                sys.exit(f"exports.py: {file} has no {old!r}")
            (copy / file).write_text(text.replace(old, new, 1), encoding="utf-8")
            found, _ = differing(copy)
            if bool(found) != bool(old):
                missed += 1
                print(f"self-test: {file}: {old!r} to {new!r}: {found or 'nothing is reported'}", file=sys.stderr)
    if missed:
        sys.exit(1)
    print(f"{len(FAULTS)} faults, each one reported")


def main():
    if sys.argv[1:] == ["--self-test"]:
        return self_test(HOME)
    if sys.argv[1:] not in ([], ["--check"]):
        sys.exit(__doc__)
    if not sys.argv[1:]:
        return write(HOME)
    found, count = differing(HOME)
    for line in found:
        print(f"error: {line}: run tools/exports.py", file=sys.stderr)
    if found:
        sys.exit(1)
    print(count)


if __name__ == "__main__":
    main()
