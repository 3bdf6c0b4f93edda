#!/usr/bin/env python3
"""Compares docs/SCOPE.md with what is quoted in crates/*/specs, both ways.

usage: tools/scope.py [--self-test]

- Every sentence quoted in a comment of a specs/ file is part of one row's sentence. '..' and '[..]' leave words out; case does not count.
- Every definition that a row names exists, and unless it is in parentheses a comment of its paragraph, or of its file's first line,
  quotes the row's sentence; where the row is amended, a sentence of the request will do.
- Every call that a row names is a function of crates/*/src.
- A request that a row is amended by has a table of its own. A row of a table has four cells, and its sentence is in quotes.
- A row of a request that has not landed may have 'waits' in place of a definition. A request with a note in docs/notes/requests.md has landed.
--self-test: each of a list of faults is reported.
"""
import collections
import pathlib
import re
import sys

Row = collections.namedtuple("Row", "part sentence definitions calls amended")


def plain(text):
    return re.sub(r"\s+", " ", text).strip().lower()


def rows_of(text, faults):
    part, found = "", []
    for line in text.splitlines():
        if line.startswith("## "):
            part = line[3:].split(":")[0]
        if not line.startswith("|") or line.startswith(("| sentence |", "|---")):
            continue
        cells = [cell.strip() for cell in line.strip("|").split("|")]
        if len(cells) != 4 or not re.fullmatch(r'".*"', cells[0]):
            faults.append(f"docs/SCOPE.md: no row of four cells that begins with a quoted sentence: {line[:100]}")
            continue
        found.append(Row(part, plain(cells[0][1:-1]), cells[1], cells[2], re.findall(r"M-\d+", cells[3])))
    return found


def quotes_of(line):
    """What a line of comment quotes: each quotation is the list of its pieces between '..'."""
    comment = re.match(r"\s*-- ?(.*)", line)
    if not comment:
        return []
    quoted = comment[1].split('"')[1::2]
    pieces = [[plain(piece).strip(".,:; ") for piece in re.split(r"\[?\.\.\]?", quote)] for quote in quoted]
    return [[piece for piece in quote if piece] for quote in pieces if any(quote)]


def within(quote, sentence):
    return all(piece in sentence for piece in quote)


def paragraphs(lines):
    """Runs of lines with no empty line between."""
    run = []
    for line in [*lines, ""]:
        if line.strip():
            run.append(line)
        elif run:
            yield run
            run = []


def declares(line, name):
    return re.match(rf"\s*(unfoldable |abbrev |opaque )?(pub )?(data |record )?{re.escape(name)}(?![\w-])[^=]*(:|where)", line) is not None


def definitions_of(specs, path, name):
    """The quotations that stand with the definition, or None if the file does not declare it."""
    lines = specs[path]
    for run in paragraphs(lines):
        if any(declares(line, name) for line in run):
            return [quote for line in [lines[0], *run] for quote in quotes_of(line)]
    return None


def compare(specs, functions, scope, landed):
    """Every fault, and the numbers of quotations and of definitions compared."""
    faults, quoted, named = [], 0, 0
    rows = rows_of(scope, faults)
    parts = {row.part for row in rows}
    for path, lines in specs.items():
        for number, line in enumerate(lines, 1):
            for quote in quotes_of(line):
                quoted += 1
                if not any(within(quote, row.sentence) for row in rows):
                    faults.append(f'{path}:{number}: no row of docs/SCOPE.md holds "{" .. ".join(quote)}"')
    for row in rows:
        what = row.sentence[:60]
        if row.part in landed and row.definitions == "waits":
            faults.append(f'docs/SCOPE.md: "{what}": {row.part} has landed, and its row waits')
        bare = re.sub(r"\([^)]*\)", "", row.definitions)
        also = [other.sentence for other in rows if other.part in row.amended]
        faults += [f'docs/SCOPE.md: "{what}": {part} has no table' for part in row.amended if part not in parts]
        for crate, file, name in re.findall(r"`(\w+)/((?:[A-Z]\w*/)*[A-Z]\w*)\.([\w-]+)`", row.definitions):
            named += 1
            path = f"crates/{crate}/specs/{file}.antt"
            quotes = definitions_of(specs, path, name) if path in specs else None
            if quotes is None:
                homes = [other for other in specs if definitions_of(specs, other, name) is not None]
                faults.append(f'docs/SCOPE.md: "{what}": {path} does not define {name}; {", ".join(homes) or "no file"} does')
            elif f"`{crate}/{file}.{name}`" in bare and not any(within(quote, s) for quote in quotes for s in [row.sentence, *also]):
                faults.append(f'docs/SCOPE.md: "{what}": {name} of {path} does not quote it')
        faults += [f'docs/SCOPE.md: "{what}": no function {call}' for call in re.findall(r"`(\w+)`", row.calls) if call not in functions]
    return faults, quoted, named


def read(home):
    files = sorted(home.glob("crates/*/specs/**/*.antt"))
    specs = {str(file.relative_to(home)): file.read_text().splitlines() for file in files}
    code = "".join(file.read_text() for file in home.glob("crates/*/src/**/*.rt"))
    landed = set(re.findall(r"^## (M-\d+)", (home / "docs/notes/requests.md").read_text(), re.M))
    return specs, set(re.findall(r"\bfn (\w+)", code)), (home / "docs/SCOPE.md").read_text(), landed


def self_test(home):
    specs, functions, scope, landed = read(home)
    box = "crates/geometry/specs/Box.antt"
    row = next(line for line in scope.splitlines() if "geometry/Box.centre" in line)
    changed = {
        "a quoted sentence without a row": ({**specs, box: [*specs[box], '-- "A box has six sides"']}, scope),
        "a row taken out": (specs, scope.replace(row + "\n", "")),
        "a definition that is gone": (specs, scope.replace("geometry/Box.centre", "geometry/Box.middle")),
        "a file that is gone": (specs, scope.replace("geometry/Box.centre", "geometry/Boxes.centre")),
        "a definition that quotes something else": (specs, scope.replace("`geometry/Box.centre`", "`geometry/Box.box_of`")),
        "another sentence": (specs, scope.replace("A box centre is min", "A box centre was min")),
        "a quotation taken out": ({**specs, box: [line.replace('"', "") for line in specs[box]]}, scope),
        "a call that is gone": (specs, scope.replace("| `center` |", "| `centre_of` |")),
        "a request without a table": (specs, scope.replace(row, row[:-2] + "M-999 |")),
        "a row that waits though its request has landed": (specs, scope.replace("`record_text/Text.printed_bits` | `printed_bits` | |", "waits | | |")),
        "a row of three cells": (specs, scope.replace(row, "|".join(row.split("|")[:4]) + "|")),
    }
    before = set(compare(specs, functions, scope, landed)[0])
    faults_of = lambda altered, text: set(compare(altered, functions, text, landed)[0]) - before
    missed = [what for what, (altered, text) in changed.items() if not faults_of(altered, text)]
    for what in missed:
        print(f"self-test: {what}: nothing is reported", file=sys.stderr)
    if missed:
        sys.exit(1)
    print(f"{len(changed)} faults, each one reported")


def main():
    home = pathlib.Path(__file__).resolve().parent.parent
    if sys.argv[1:] == ["--self-test"]:
        return self_test(home)
    if sys.argv[1:]:
        sys.exit(__doc__)
    faults, quoted, named = compare(*read(home))
    for fault in faults:
        print(fault, file=sys.stderr)
    if faults or not quoted or not named:
        sys.exit(1)
    print(f"{quoted} quotations stand in docs/SCOPE.md, and {named} definitions as it says")
    print(f"scope: {quoted + named} tests passed")


if __name__ == "__main__":
    main()
