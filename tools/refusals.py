#!/usr/bin/env python3
"""Why each must-fail edit was refused: because a fact fails, or only because the proof no longer fits the code.

usage: tools/refusals.py [--self-test | --fit | CRATE..]   (CRATE..: just the edits of these crates)

Reads what `rt ci` said of every crates/CRATE/must-fail/EDIT.edit, a line each, which tools/test keeps in target/log/ci.out; LOG names
another file, such as one with what `rt must-fail` said. A line tells the first error that is not about a name which is gone, as far as 160
characters. A proof that names a call, a test or a goal that the edited code does not have would be refused whatever the edit means, so such
an edit shows nothing. rt says so of some; the rule here finds more. --self-test: the rule tells the lines of SAMPLES apart.
--fit: reads no log; each old text of an edit stands once in its file, as rt asks, so that `rt ci` need not be run to find it gone.
"""
import os
import pathlib
import re
import sys

# Messages about the text of a proof, and the sort of misfit that each shows.
MISFITS = [
    (r"has no field `", "the proof asks a place for what stands no longer there"),
    (r"is not in scope", "a name that is not in scope"),
    (r"has no `[^`]*`", "a name that its module has no longer"),
    (r"^`[^`]+`: record `", "a field that a place or a record has no longer"),
    (r"was not admitted", "it rests on a proof that does not fit"),
    (r"expected a type, but ", "a goal that asks for more than before"),
    (
        r"expected type `[\w.'-]*\b(Need-|Goals\.|goal\.)[\w'-]*`, but this has type `[\w.'-]*\b(Need-|Goals\.|goal\.)",
        "the goals are others, or in another order",
    ),
    (r"expected type `[\w.'-]*\b(Need-|Goals\.|goal\.)[^ ]*( [^`]*(`[\w.'-]*)?)?$", "the goals may be others: the rest is cut off"),
    (r"^`[^`]+`: `[^`]*(` [a-z ]*)?$", "a name may be gone: the rest is cut off"),
    (r"no proof of `[\w.'-]*\b(Start|After-[\w-]*|Then\d*|Else\d*|In-loop[\w-]*|InvT-[\w-]*|MeasureT-[\w-]*)\b", "a place that the code has no longer"),
    (r"(too many|too few|missing) argument", "another number of arguments"),
    (r"expected a function, but ", "more goals are answered than there are"),
    (r"is still open|unexpected |expected an? (expression|declaration|pattern|path)", "the file cannot be read"),
]

# Edits that are kept although the rule above reports them, each with the reason.
KNOWN = {}

# What rt says of an edit that it refuses, and the first error behind it.
REFUSED = re.compile(r"refused, as it must be(?: \((?P<only>only [^:]*?)[,:].*?\))?(?:: (?P<error>.+))?$")


def misfit(said):
    """What does not fit, or None where a fact fails."""
    found = REFUSED.match(said)
    if not found:
        return "it is not refused, or not tried: " + said[:120]
    if found["only"]:
        return f"rt says: {found['only']}"
    error = found["error"]
    if error is None:
        return "no error is told"
    # a fact that is told at its place in the code
    if error.startswith("note: "):
        return None if re.match(r"note: (\./)?src/\S+:\d+:\d+: it is not proved that ", error) else "a note that tells no fact"
    if ": error: " not in error:
        return "no error that is known here"
    place, head = error.split(": error: ", 1)
    if not place.removeprefix("./").startswith("proofs/"):
        return "the error stands in no proof"
    # an error of a fact is told in a declaration's name, `returns-2`: ...
    if not re.match(r"`[^`]+`: ", head):
        return "the error belongs to no declaration"
    for pattern, what in MISFITS:
        if re.search(pattern, head):
            return what
    return None


FACT = "refused, as it must be: "
SAMPLES = [
    (None, FACT + "proofs/least/Proof.antt:10:13: error: `returns`: `simp`: no equation of the list has an instance in the goal `x`"),
    (None, FACT + "./proofs/least/Answers.antt:10:13: error: `returns`: give a proof of that as the last argument, `simp L t`"),
    (None, FACT + "./proofs/Steps.antt:131:18: error: `nearest-is`: as printed, the two types differ only where one has `6`"),
    (None, FACT + "./proofs/a/Proof.antt:46:5: error: `returns-5`: expected type `a.Reads.Post (Prim.tt {0})`"),
    (None, FACT + "./proofs/a/Proof.antt:7:24: error: `a_spec`: `search`: no proof of `goal.returns` was found. Every way was tried"),
    (None, FACT + "./proofs/a/Proof.antt:48:5: error: `returns-5`: `rw`: no occurrence of the path's left endpoint in the goal"),
    (None, FACT + "./proofs/a/Proof.antt:9:5: error: `loop-again`: `omega`: no contradiction found"),
    (None, FACT + "note: src/lib.rt:27:9: it is not proved that what the function ensures holds when it returns (`returns-then-y-x-clause-one`); the f"),
    (None, FACT + "note: src/lib.rt:37:15: it is not proved that the sum fits its type (at a range `..=n`, `n + 1`) (`overflow_add-sum`); the facts k"),
    ("place", FACT + "./proofs/a/Proof.antt:10:34: error: `returns`: record `mini.Lts.Start` has no field `first-less`"),
    ("cut off", FACT + "./proofs/a/Proof.antt:38:55: error: `float-from-bits-result`: record `Rattle.a.proofs.f.Lts.Else-bits-gt9218868437764276223` ("),
    ("cut off", FACT + "./proofs/cabinets/probe_ray_cabinet/Answers.antt:16:34: error: `returns-then-last`: expected type `Rattle.exports.proofs.cabinets.Goals.returns`, but this has"),
    ("cut off", FACT + "./proofs/cabinets/probe_ray_cabinet/Answers.antt:16:34: error: `returns`: expected type `Rattle.exports.proofs.cabinets.probe_ray_cabinet.Goals.ret"),
    ("cut off", FACT + "./proofs/cabinets/probe_ray_cabinet/Answers.antt:16:34: error: `returns-then-last`: `a-name-that-is-as-long-as-some-lemmas-are-and-longer` is not in"),
    ("scope", FACT + "./proofs/a/Proof.antt:16:42: error: `a_spec`: `rules` is not in scope"),
    ("named", FACT + "./proofs/a/Proof.antt:12:13: error: `returns-2`: `goal.returns-2`: module `a.Goals` has no `returns-2` that can be named from here"),
    ("rests", FACT + "./proofs/a/Proof.antt:20:1: error: `a_spec`: `returns` was not admitted"),
    ("needs", FACT + "./proofs/a/Proof.antt:16:34: error: `a_spec`: expected type `tie.Need-f-requires`, but this has type `tie.Need-returns`"),
    ("goals", FACT + "./proofs/a/Answers.antt:16:34: error: `returns`: expected type `Rattle.a.proofs.f.Goals.returns`, but this has type `Rattle.a.proofs.f.Goals.sum`"),
    ("loop", FACT + "./proofs/a/Proof.antt:8:11: error: `returns`: expected a type, but `goal.returns` has type `tie.InvT-loop → Type 0`"),
    ("gone", FACT + "./proofs/a/Proof.antt:8:11: error: `returns`: `search`: no proof of `tie.Else3` was found. Every way was tried"),
    ("module", FACT + "./proofs/a/Proof.antt:4:36: error: module `a.specs.Least` has no `least_of` that can be named from here"),
    ("layout", FACT + "./proofs/a/Proof.antt:12:1: error: this line starts at column 1, but the `(` opened at 10:18 is still open"),
    ("contract", FACT + "src/least.rt:12:26: error: `ensures-1`: expected type `Res`, but this has type `Float → Float`"),
    ("note", FACT + "note: proofs/a/Answers.antt:12:26: this line does nothing"),
    (
        "rt",
        "refused, as it must be (only because a proof file names what the edit took away, so this says little of the contract: change a value and"
        " keep the names): ./proofs/a/Proof.antt:16:42: error: `a_spec`: `first` is not in scope",
    ),
    (
        "limit",
        "refused, as it must be (only by a limit of the prover, which gave no verdict, so this says less of the contract: choose a change that it"
        " refuses sooner): src/lib.rt:3:1: error: `returns`: antt ran out of the steps that the check of one declaration may take",
    ),
    ("untold", "refused, as it must be"),
    ("bad", "BAD EDIT: it did not reach the prover; the first lines of what it said:"),
    ("not tried", "NOT TRIED: its check was killed, most likely for memory, so nothing is known of it: run this again"),
    ("proved", "NOT REFUSED: the crate is still proved with this edit (one that means the same as before cannot be refused: remove it)"),
]


def self_test():
    wrong = [sample for kind, sample in SAMPLES if (misfit(sample) is None) != (kind is None)]
    for sample in wrong:
        print("self-test: told wrongly: " + sample, file=sys.stderr)
    if wrong:
        sys.exit(1)
    print(f"{len(SAMPLES)} messages told apart")


def fit(home):
    faults = []
    for edit in sorted(home.glob("crates/*/must-fail/*.edit")):
        file, old, texts = None, None, {}
        for line in edit.read_text().splitlines():
            if line.startswith("file: "):
                file = edit.parent.parent / line[6:]
            elif line.startswith("old: "):
                old = line[5:]
            elif line.startswith("new:"):
                text = texts.get(file) or (file.read_text() if file and file.is_file() else "")
                if not old or text.count(old) != 1:
                    times = text.count(old) if old else 0
                    faults.append(f"{edit.relative_to(home)}: its old text stands {times} times in {file.name if file else 'no file'}: {old}")
                texts[file] = text.replace(old or "\0", line[4:].removeprefix(" "), 1)
        if not texts:
            faults.append(f"{edit.relative_to(home)}: it changes nothing")
    for fault in faults:
        print(fault, file=sys.stderr)
    sys.exit(1 if faults else 0)


def told(log):
    """What a log says of each edit, by its name CRATE/EDIT: a list of one where it says it once."""
    found = {}
    for crate, edit, said in re.findall(r"^rt: must-fail (\w+)/([\w.-]+)\.edit: (.*)$", log, re.M):
        found.setdefault(f"{crate}/{edit}", []).append(said)
    return found


def main():
    if sys.argv[1:] == ["--self-test"]:
        return self_test()
    home = pathlib.Path(__file__).resolve().parent.parent
    if sys.argv[1:] == ["--fit"]:
        return fit(home)
    crates = sys.argv[1:]
    if not all((home / "crates" / crate).is_dir() for crate in crates):
        sys.exit(__doc__)
    edits = [edit for edit in sorted(home.glob("crates/*/must-fail/*.edit")) if not crates or edit.parent.parent.name in crates]
    log = pathlib.Path(os.environ.get("LOG") or home / "target/log/ci.out")
    if not log.is_file():
        sys.exit(f"error: {log} is not there: tools/test writes it, or LOG names a file with what `rt ci` or `rt must-fail` said")
    lines = told(log.read_text(encoding="utf-8", errors="replace"))
    faults = []
    for edit in edits:
        name = f"{edit.parent.parent.name}/{edit.stem}"
        said = lines.get(name, [])
        if len(said) != 1:
            faults.append(f"{name}: {log} has {len(said)} lines on it, not one")
            continue
        found = misfit(said[0])
        if found and name not in KNOWN:
            faults.append(f"{name}: no fact is shown to fail ({found}):\n  {said[0][:300]}")
        if not found and name in KNOWN:
            faults.append(f"{name}: a fact fails, so it need not be listed as known")
    names = {f"{edit.parent.parent.name}/{edit.stem}" for edit in edits}
    faults += [f"{name}: listed as known, and there is no such edit" for name in KNOWN if not crates and name not in names]
    faults += [f"{name}: {log} speaks of it, and there is no such edit" for name in lines if not crates and name not in names]
    for fault in faults:
        print(fault, file=sys.stderr)
    if faults:
        sys.exit(1)
    print(f"refusals: {len(edits)} tests passed")


if __name__ == "__main__":
    main()
