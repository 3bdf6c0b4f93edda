#!/usr/bin/env python3
"""Writes docs/CALLS.md, every C call on one page, from include/probe_rays.h, so that the two cannot differ.

  calls.py            writes the page
  calls.py --check    compares the page with the header; status 1 if they differ, and the number of calls if they do not
"""
import pathlib
import re
import sys

HOME = pathlib.Path(__file__).resolve().parent.parent
HEADER = HOME / "include/probe_rays.h"
PAGE = HOME / "docs/CALLS.md"

OPENING = """# The C calls

Every call of [include/probe_rays.h](../include/probe_rays.h), in its order: what it does, its arguments, what it returns and what
it refuses with. `tools/calls.py` writes this page from the header; edit the header. How to call, the refusals by number, what
is written after a refusal and the lengths of the buffers stand at the head of the header.

A slice is two C parameters, a pointer and its length; here it is one argument with `[]`. A slice in **bold** is written by the call.
"""

NAMED = r"uint32_t (probe_\w+)\(([^;]*?)\);"


def sections(text):
    """Pairs of a comment's paragraphs and the calls that follow it."""
    pieces = re.findall(r"/\*(.*?)\*/|" + NAMED, text, re.S)
    found = []
    for comment, name, parameters in pieces:
        if name:
            found[-1][1].append((name, parameters))
        else:
            found.append((paragraphs(comment), []))
    return [(said, calls) for said, calls in found if calls]


def paragraphs(comment):
    lines = [re.sub(r"^\s*\*? ?", "", line).rstrip() for line in comment.strip().splitlines()]
    return [" ".join(lines_of.split()) for lines_of in "\n".join(lines).split("\n\n")]


def arguments(parameters):
    """The arguments as a reader counts them: runs of numbers of one type, and a slice for a pointer and its length."""
    parts = [part.strip() for part in parameters.split(",") if part.strip() not in ("", "void")]
    said = []
    for place, part in enumerate(parts):
        kind, name = re.fullmatch(r"(.*?)(\w+)", part).groups()
        kind = kind.strip()
        if name.endswith("_length") and place and parts[place - 1].endswith(name[: -len("_length")]):
            continue
        if kind.endswith("*"):
            element = kind.rstrip("* ").removeprefix("const ")
            text = f"`{element} {name}[]`"
            said.append((None, text if kind.startswith("const") else f"**{text}**"))
        elif said and said[-1][0] == kind:
            said[-1] = (kind, said[-1][1][:-1] + f", {name}`")
        else:
            said.append((kind, f"`{kind} {name}`"))
    return ", ".join(text for _, text in said) or "none"


def page():
    parts = [OPENING]
    for said, calls in sections(HEADER.read_text()):
        parts.append("## " + ", ".join(f"`{name}`" for name, _ in calls) + "\n")
        parts.extend(paragraph.replace("*", "\\*") + "\n" for paragraph in said)
        parts.extend(f"`{name}`: {arguments(parameters)}\n" for name, parameters in calls)
    return "\n".join(parts)


def main():
    names = re.findall(NAMED, HEADER.read_text(), re.S)
    listed = [call for _, calls in sections(HEADER.read_text()) for call in calls]
    if len(names) != len(listed):
        sys.exit(f"calls.py: the header has {len(names)} calls, and {len(listed)} follow a comment")
    if sys.argv[1:] == ["--check"]:
        if not PAGE.exists() or PAGE.read_text() != page():
            sys.exit("calls.py: docs/CALLS.md differs from include/probe_rays.h; run tools/calls.py")
        print(len(listed))
    elif sys.argv[1:]:
        sys.exit(__doc__)
    else:
        PAGE.write_text(page())


main()
