#!/usr/bin/env python3
"""Turns the repository's own definitions, lemmas and fields to snake case, after `port/port.py` of the toolchain ran.

usage: tools/respell.py [ROOT]

A name is the repository's own where a file of specs/ or a lemma file of proofs/ declares it. `rayAdmitted` and `above-number` become
`ray_admitted` and `above_number`. Where a definition and a lemma would fall together, the lemma ends in `_lem`. Functions of src/, types,
modules, strings and what Rattle makes of the source keep their names. It rewrites .antt files, the clauses of .rt files and the texts of
must-fail edits in place, and is run once.
"""

import collections
import glob
import os
import re
import sys

DECLARES = re.compile(
    r'^(\s*)((?:pub |abbrev |unfoldable |opaque )*)(?:(record|data|module) +)?([^\s(){}.;,@"«»]+)(?: +[({].*)? :(?: |$)'
)
NOT_ONE = ("--", "let ", "in ", "λ", "→", "×", "use ", "mod ", "(", "|")
TOKEN = re.compile(r'--[^\n]*|//[^\n]*|"(?:[^"\\]|\\.)*"|[^\s(){}.;,@"«»\[\]]+')
SPAN = re.compile(r"`[^`\n]*`")
CLAUSE = re.compile(
    r"(?:requires|ensures)\*?\s*(?:\w+\s*)?\{|ghost\s+use\b|ghost\s*(?:\w+\s*(?::\s*)?)?\{"
)
# Lemmas that are called as one of the library's, which some files import beside them.
KEPT = """le_of_mul-le-mul_right lt_of_mul-lt-mul_right lt_of_not-le leb-true or-true drop-cons add-fits div-one sub-fits
mul-add-div_right""".split()
# Lemmas that port.py turned to what a definition is called now.
TAKEN = "results_fit child_fits room_in first_found numbers_of of_parts read_at is_leaf".split()


def read(path):
    with open(path, encoding="utf-8") as it:
        return it.read()


def snake(name):
    turned = re.sub(r"([a-z0-9])([A-Z])", lambda it: f"{it[1]}_{it[2].lower()}", name)
    return re.sub(r"(?<=[^\W_])-(?=[^\W_])", "_", turned)


def files(root, part, end):
    return sorted(glob.glob(f"{glob.escape(root)}/crates/*/{part}/**/*{end}", recursive=True))


def declared(root):
    """Returns the own names, and those among them that are fields or stand in a module."""
    names, inner = set(), set()
    for path in files(root, "specs", ".antt") + files(root, "proofs", ".antt"):
        if os.path.basename(path) == "Proof.antt":
            continue
        for line in read(path).splitlines():
            if line.lstrip().startswith(NOT_ONE):
                continue
            it = DECLARES.match(line)
            if it and it[4][0].islower():
                names.add(it[4])
                if it[1]:
                    inner.add(it[4])
    return names, inner


def table(root):
    names, inner = declared(root)
    new = {it: snake(it) for it in names if snake(it) != it and it not in KEPT}
    camel = {it for it in new if re.search(r"[a-z0-9][A-Z]", it)}
    words = collections.Counter()
    for path in files(root, "specs", ".antt") + files(root, "proofs", ".antt"):
        text = read(path)
        for it in TOKEN.finditer(text):
            if not it[0].startswith(("--", '"')) and text[it.start() - 1 : it.start()] != ".":
                words[it[0]] += 1
    ends = {new[it] for it in camel}
    for it in new:
        if it not in camel and (new[it] in ends or words[new[it]]):
            new[it] += "_lem"
    for it in TAKEN:
        if it in ends and it in names:
            new[it] = it + "_lem"
    by_new = collections.defaultdict(set)
    for old, it in new.items():
        by_new[it].add(old)
    for it, olds in by_new.items():
        if len(olds) > 1:
            print("falls together:", it, sorted(olds))
    return new, inner


def turned(text, new, inner, own=()):
    def word(it):
        name = it[0]
        if name.startswith(("--", "//")):
            return SPAN.sub(lambda it: TOKEN.sub(lambda it: new.get(it[0], it[0]) if not it[0].startswith(('"', "--", "//")) else it[0], it[0]), name)
        if name.startswith('"') or name not in new:
            return name
        behind_dot = text[it.start() - 1 : it.start()] == "."
        if name in own and not behind_dot:
            return name
        if behind_dot:
            if re.search(r"\b(tie|goal|need|given)\.$", text[max(0, it.start() - 8) : it.start()]):
                return name
            if "-" in name and name not in inner and not re.search(r"\b[A-Z]\w*\.$", text[max(0, it.start() - 40) : it.start()]):
                return name
            if name in TAKEN:
                return name
        return new[name]

    return TOKEN.sub(word, text)


def clauses(text, new, inner):
    """The same in the clauses and ghost items of an .rt file, and in the code spans of its comments."""
    out, at = [], 0
    for it in re.finditer(r"//[^\n]*|" + CLAUSE.pattern, text):
        if it.start() < at:
            continue
        out.append(text[at : it.start()])
        end = it.end()
        if not it[0].startswith("//"):
            if it[0].endswith("{"):
                depth = 1
                while depth:
                    depth += (text[end] == "{") - (text[end] == "}")
                    end += 1
            else:
                end = text.index(";", end)
        out.append(turned(text[it.start() : end], new, inner))
        at = end
    return "".join(out) + text[at:]


def main(root):
    new, inner = table(root)
    count = 0
    for path in files(root, "specs", ".antt") + files(root, "proofs", ".antt") + files(root, "src", ".rt") + files(root, "must-fail", ".edit"):
        text = read(path)
        if path.endswith(".rt"):
            to = clauses(text, new, inner)
        else:
            own = set()
            if os.path.basename(path) == "Proof.antt":
                own = {it[4] for it in map(DECLARES.match, text.splitlines()) if it and not it[0].lstrip().startswith(NOT_ONE)}
            to = turned(text, new, inner, own)
        if to != text:
            with open(path, "w", encoding="utf-8") as it:
                it.write(to)
            count += 1
    print(f"respell: {len(new)} names, {count} files")


if __name__ == "__main__":
    main(sys.argv[1] if len(sys.argv) > 1 else ".")
