#!/usr/bin/env python3
"""Prints the public functions and member functions of the C++ header, a line each, with the types of their parameters: what the
runner of the conformance file must have called. Constructors of answers and exceptions are left out, and what serves the casts.

usage: methods.py include/probe_rays.hpp
"""
import pathlib
import re
import sys

# whose constructors only the header calls, and what serves the casts of Mesh and Cabinet alone
MADE_INSIDE = {"Cast", "Clearance", "Refused", "Result", "TreeDoesNotFit"}
INNER = {"Scratch::fit", "Scratch::fit_hits", "Scratch::fit_many", "Scratch::read_many", "Scratch::fit_drills",
         "Scratch::read_drills", "Tree::with_room"}

WORDS = r"\b(?:const|std::|static|inline|explicit|noexcept)\b|std::|&|\[\[\w+\]\]"
FUNCTION = re.compile(r"^(?:template <[^>]*>)?\s*(?P<head>[\w:<>,\s&*\[\]~]*?)(?P<name>operator bool|~?\w+)\s*\((?P<given>.*)$", re.S)


def without_comments(text):
    text = re.sub(r"/\*.*?\*/", " ", text, flags=re.S)
    text = re.sub(r"//[^\n]*", " ", text)
    # with a macro's lines and texts' contents left out
    text = re.sub(r"^#.*$", " ", text, flags=re.M)
    return re.sub(r'"(?:[^"\\]|\\.)*"', '""', text)


def pieces(text):
    """The declarations of a scope: (what stands before its body or semicolon, its body or None)."""
    start = place = 0
    while place < len(text):
        if text[place] == ";":
            yield text[start:place].strip(), None
            start = place + 1
        elif text[place] == "{":
            depth, end = 1, place + 1
            while depth:
                depth += {"{": 1, "}": -1}.get(text[end], 0)
                end += 1
            head = text[start:place].strip()
            yield head, text[place + 1 : end - 1]
            start = place = end
            continue
        place += 1


def closing(text):
    """Where the parenthesis that is open at the start of a text is closed."""
    depth = 1
    for place, letter in enumerate(text):
        depth += {"(": 1, ")": -1}.get(letter, 0)
        if depth == 0:
            return place
    raise SystemExit(f"error: no end of {text[:60]}")


def types(parameters):
    """The types alone: no names, defaults, const or references."""
    found, depth, word = [], 0, ""
    for letter in parameters + ",":
        depth += {"<": 1, "(": 1, "{": 1, ">": -1, ")": -1, "}": -1}.get(letter, 0)
        if letter == "," and depth == 0:
            kind = re.sub(WORDS, " ", word.split("=")[0])
            kind = re.sub(r"\s*\b\w+\s*$", "", kind) if len(kind.split()) > 1 or ">" in kind else kind
            found.append(re.sub(r"\s+", " ", kind).replace(" *", "*").replace("< ", "<").strip())
            word = ""
        else:
            word += letter
    return ", ".join(filter(None, found))


def functions(text, owner=""):
    is_public = not owner.startswith("class ")
    prefix = owner.split()[-1] + "::" if owner else ""
    for head, body in pieces(text):
        labels = re.findall(r"\b(public|private|protected)\s*:(?!:)", head)
        head = re.sub(r"\b(?:public|private|protected)\s*:(?!:)", " ", head).strip()
        if labels:
            is_public = labels[-1] == "public"
        if re.match(r"namespace detail\b", head):
            continue
        if re.match(r"namespace ", head):
            yield from functions(body)
            continue
        scope = re.match(r"(?:template <[^>]*>\s*)?(class|struct)\s+(?:\[\[\w+\]\]\s*)?(\w+)", head)
        if scope and body is not None:
            if is_public:
                yield from functions(body, f"{scope[1]} {scope[2]}")
            continue
        found = FUNCTION.match(head)
        if not is_public or not found or "= delete" in head or "=" in found["head"] or head.startswith(("using", "enum", "return")):
            continue
        given, name = found["given"], prefix + found["name"]
        is_constructor = prefix and found["name"] in MADE_INSIDE
        if is_constructor or name in INNER or found["name"].endswith("_"):
            continue
        yield f"{name}({types(given[: closing(given)])})"


def main():
    if len(sys.argv) != 2:
        sys.exit(__doc__)
    for name in sorted(set(functions(without_comments(pathlib.Path(sys.argv[1]).read_text())))):
        print(name)


if __name__ == "__main__":
    main()
