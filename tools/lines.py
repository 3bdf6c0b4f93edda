#!/usr/bin/env python3
"""Whether a person can follow the definitions and proofs: their lines, and which definitions are for the proofs alone.

usage: tools/lines.py [--self-test]

- No line of a .antt or .rt file under crates/ is longer than 140 characters, but for an attribute of the prover, which `rt fmt` lays out
  on one line.
- No proof counts its way back by a chain of `.before`: one step back reads as the source does, and a place further off is named by its type.
- A file of specs/ whose first line says 'Inner contracts only' is for the proofs of its crate: no other file of specs/ may use it, nor the
  contract of a call for C, so that what a reader has to believe stands apart.
--self-test: each of a list of faults is reported.
"""
import pathlib
import re
import sys
import tempfile

LONGEST = 140
INNER = "inner contracts only"


def inner(path):
    with open(path, encoding="utf-8") as file:
        return INNER in file.readline().lower()


def used(text):
    """The specs modules that a file names, each as crate and module."""
    return set(re.findall(r"\bRattle\.(\w+)\.specs\.(\w+)", text))


def long_lines(name, lines):
    return [f"{name}:{number}: {len(line)} characters" for number, line in enumerate(lines, 1) if len(line) > LONGEST and not line.lstrip().startswith("#[tactic(")]


def faults_of(root):
    faults, inners, files = [], set(), sorted(root.glob("crates/*/**/*.antt"))
    for path in sorted(root.glob("crates/*/src/*.rt")):
        lines = path.read_text(encoding="utf-8").splitlines()
        name = path.relative_to(root)
        faults += long_lines(name, lines)
    for path in files:
        name = path.relative_to(root)
        lines = path.read_text(encoding="utf-8").splitlines()
        faults += long_lines(name, lines)
        if re.search(r"\.before\s*\.before\b", "\n".join(lines)):
            faults.append(f"{name}: a chain of `.before`")
        if name.parts[2] == "specs" and inner(path):
            inners.add((name.parts[1], path.stem))
    for path in files:
        name = path.relative_to(root)
        if name.parts[2] == "specs" and path.stem != "Lib" and not inner(path):
            for crate, module in sorted(used(path.read_text(encoding="utf-8")) & inners):
                faults.append(f"{name}: uses {crate}/specs/{module}, which is for proofs alone")
    for path in sorted(root.glob("crates/*/src/*.rt")):
        text = path.read_text(encoding="utf-8")
        if re.search(r'extern "C" fn|^pub fn probe_', text, re.M):
            for crate, module in sorted(used(text) & inners):
                faults.append(f"{path.relative_to(root)}: a call for C whose file uses {crate}/specs/{module}, which is for proofs alone")
    if not files:
        faults.append("no .antt file under crates/")
    return faults, len(files)


FAULTS = [
    ("a line of 141 characters", {"a/proofs/P.antt": "-- " + "x" * 138}),
    ("a chain of two", {"a/proofs/P.antt": "f c = c.before.before.args"}),
    ("a chain with spaces", {"a/proofs/P.antt": "f c = c .before .before .args"}),
    ("a chain over a line's end", {"a/proofs/P.antt": "f c = c.before\n    .before.args"}),
    (
        "a definition over an inner one",
        {"a/specs/I.antt": "-- Inner contracts only: a step.", "a/specs/D.antt": "-- D.\nuse Rattle.a.specs.I.{step}"},
    ),
    (
        "a call over an inner one",
        {"a/specs/I.antt": "-- Inner contracts only.", "b/src/c.rt": 'ghost use Rattle.a.specs.I.{step};\npub extern "C" fn c() {}'},
    ),
    (
        "a call's function over an inner one",
        {"a/specs/I.antt": "-- Inner contracts only.", "b/src/c.rt": "ghost use Rattle.a.specs.I.{step};\npub fn probe_c() {}"},
    ),
    ("a line of code of 141 characters", {"a/src/b.rt": "// " + "x" * 138, "a/proofs/P.antt": "-- P."}),
    ("no file", {}),
]
SOUND = {
    "a/specs/I.antt": "-- Inner contracts only: a step.",
    "a/specs/J.antt": "-- Inner contracts only: steps.\nuse Rattle.a.specs.I.{step}",
    "a/specs/D.antt": "-- D.\nuse Rattle.a.specs.E.{whole}",
    "a/proofs/P.antt": "-- " + "x" * 137 + "\nf c = c.before.args",
    "a/src/c.rt": "#[tactic(auto, using(" + "x" * 120 + "))]",
    "a/src/b.rt": "// The first.\nghost use Rattle.a.specs.I.{step};\nfn first(xs: &[u8]) -> u8\n    requires { 1 ≤ length xs.now }\n{",
}


def made(texts):
    with tempfile.TemporaryDirectory() as folder:
        root = pathlib.Path(folder)
        for name, text in texts.items():
            path = root / "crates" / name
            path.parent.mkdir(parents=True, exist_ok=True)
            path.write_text(text + "\n", encoding="utf-8")
        return faults_of(root)[0]


def main():
    if sys.argv[1:] == ["--self-test"]:
        missed = [what for what, texts in FAULTS if len(made(texts)) != 1]
        if missed or made(SOUND):
            sys.exit(f"error: not told: {', '.join(missed)}; told of a sound tree: {made(SOUND)}")
        print(f"{len(FAULTS) + 1} samples told")
        return
    if sys.argv[1:]:
        sys.exit(__doc__)
    faults, count = faults_of(pathlib.Path(__file__).resolve().parent.parent)
    for fault in faults:
        print(f"error: {fault}", file=sys.stderr)
    if faults:
        sys.exit(1)
    print(f"lines: {count} tests passed")


if __name__ == "__main__":
    main()
