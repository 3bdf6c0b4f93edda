#!/usr/bin/env python3
"""Counts the places in crates/*/src and crates/*/proofs that docs/DESIGN-PASS.md speaks of, a line for each kind.
usage: tools/forms.py [--list KIND]   (at the top of a checkout; --list: each place of a kind)"""
import collections
import glob
import re
import sys

# a file that tools/exports.py writes has the forms of the file it is written from
FILES = [f for f in sorted(glob.glob("crates/*/src/**/*.rt", recursive=True)) if "/exports_c/" not in f]
FUNCTION = re.compile(r"^( *)(?:pub )?(?:extern \"C\" )?fn (\w+)[^(\n]*\(", re.M)
SHORT = 40  # a function with fewer tokens is no twin of another


def text_of(path):
    """Returns a file without its comments, line by line as it was."""
    return re.sub(r"//.*", "", open(path, encoding="utf8").read())


def block(text, at, pair="{}"):
    """Returns the end of the block that opens at the first bracket from `at` on."""
    depth = 0
    for i in range(text.index(pair[0], at), len(text)):
        depth += (text[i] == pair[0]) - (text[i] == pair[1])
        if not depth:
            return i + 1
    raise ValueError(text[at : at + 80])


def functions():
    """Yields path, line, name, parameters, result and body of each function."""
    for path in FILES:
        text = text_of(path)
        for found in FUNCTION.finditer(text):
            end = block(text, found.end() - 1, "()")
            rest = text[end:]
            body_at = re.search(r"^%s\{" % found[1], rest, re.M) or re.search(r"\{", rest)
            head = rest[: body_at.start()]
            result = re.match(r"\s*->\s*([^\n{]*)", head)
            body = rest[body_at.start() : block(rest, body_at.start())]
            inside = text[found.end() : end - 1]
            parameters = [it.strip() for it in re.split(r",(?![^<(\[]*[>)\]])", inside) if it.strip()]
            line = text.count("\n", 0, found.start()) + 1
            yield path, line, found[2], parameters, (result[1].strip() if result else ""), body


def enums():
    """Yields path, line, name and variants of each enum."""
    for path in FILES:
        text = text_of(path)
        for found in re.finditer(r"^(?:pub )?enum (\w+)[^{]*\{", text, re.M):
            inside = text[found.end() : block(text, found.start()) - 1]
            inside = re.sub(r"\{[^{}]*\}", "{}", inside)
            variants = [it.strip() for it in re.split(r",(?![^(]*\))", inside) if it.strip()]
            yield path, text.count("\n", 0, found.start()) + 1, found[1], variants


def shape(body):
    tokens = re.findall(r"[A-Za-z_]\w*|\d[\w.]*|[^\s\w]", body)
    kept = {"if", "else", "match", "while", "for", "in", "return", "let", "mut", "as", "loop"}
    return tuple(it if it in kept or not re.match(r"\w", it) else "_" for it in tokens)


def places():
    """Returns the places of each kind."""
    found = collections.defaultdict(list)
    for path, line, name, variants in enums():
        bare = [it for it in variants if re.fullmatch(r"\w+", it)]
        if len(variants) == 2 and len(bare) == 1:
            found["1 an enum of the shape of Option"].append((path, line, name))
        elif any(re.match(r"(Refused|Ended)\(", it) for it in variants):
            found["1 an enum of the shape of Result"].append((path, line, name))
    shapes, together = collections.defaultdict(list), collections.defaultdict(list)
    for path, line, name, parameters, result, body in functions():
        at = (path, line, name)
        names = [re.sub(r"^mut ", "", it.split(":")[0].strip()) for it in parameters]
        types = [it.split(":", 1)[1].strip() if ":" in it else it for it in parameters]
        if result == "u32" and re.search(r"number|code|[Rr]efus|=> \d", body + name):
            found["1 a function that answers a number for a refusal"].append(at)
        if any(a == "bool" and b.startswith("&") for a, b in zip(types, types[1:])):
            found["1 a flag with a value beside it"].append(at)
        if len(shape(body)) >= SHORT:
            shapes[shape(body)].append(at)
        for loop in re.finditer(r"\b(while|loop)\b([^{]*)\{", body):
            inside = body[loop.start() : block(body, loop.start())]
            counted = [it for it in re.findall(r"\b(\w+) [+-]= 1;", inside) if re.search(r"\b%s\b" % it, loop[2])]
            kind = "3 a loop that counts an index by hand" if counted else "3 another while or loop"
            found[kind].append((path, line + body.count("\n", 0, loop.start()), name))
        if re.fullmatch(r"\{\s*match \w+ \{(\s*[\w:]+(\([^)]*\))? => \{?[^{}]*\}?,?)+\s*\}\s*\}", body) and not re.search(r"\w\(", re.sub(r"[A-Z]\w*\(", "", body)):
            found["4 a conversion by hand"].append(at)
        for field in re.findall(r"\b([a-z]\w*): \1[,\s]", body):
            found["4 a field written twice, as `x: x`"].append(at)
        if len(parameters) >= 7:
            found["5 a function of seven parameters or more"].append(at)
        if any(re.match(r"(count|length|filled|found|used|held|taken): usize", it) for it in parameters) and any("[" in it for it in types):
            found["6 a length beside a slice"].append(at)
        if any(it == "bool" for it in types):
            found["7 a parameter that switches"].append(at)
    for same in shapes.values():
        for at in same[1:]:
            found["2 a function of the shape of another"].append(at)
    for path in FILES:
        for number, line in enumerate(open(path, encoding="utf8"), 1):
            code = line.split("//")[0]
            for _ in re.findall(r"Refused\((?:u32|\w+::[A-Z_]+|number|[a-z_]+)\)", code):
                found["1 a refusal by its number"].append((path, number, code.strip()))
    for path in sorted(glob.glob("crates/*/proofs/**/*.antt", recursive=True)):
        if path.endswith("/Proof.antt"):
            found["8 a proof that walks the code"].append((path, 1, ""))
        for number, line in enumerate(open(path, encoding="utf8"), 1):
            for _ in re.findall(r"\(?(?:λ [^.]*\. )?search rules\)?(?=\s*(?:--.*)?$)", line.rstrip()):
                found["8 an answer that the check finds alone"].append((path, number, ""))
    return found


if __name__ == "__main__":
    found = places()
    if sys.argv[1:2] == ["--list"]:
        for path, line, name in found[next(it for it in found if it.startswith(" ".join(sys.argv[2:])))]:
            print(f"{path}:{line}: {name}")
    else:
        for kind in sorted(found):
            print(f"{len(found[kind]):6}  {kind}")
