#!/usr/bin/env python3
"""Runs what README.md and the pages of docs/ show.

  pages.py FOLDER PAGE..    FOLDER is for the files that are made; its last line says how many pieces were run

A block of code under a line that says only a file's name (`first.c`:) is that file, in the reader's folder. A block of sh is run,
and what it prints is the block of text behind it. It is run in the repository where a command of it is one of tools/ or it
goes to bindings/, and else in the reader's folder; HOME is FOLDER. README.md's tools/test is what runs this, so it is left out.
Blocks of Rust are doc examples of the crate, which tests/bindings.sh runs; the page must be named in its src/lib.rs."""
import os
import pathlib
import re
import subprocess
import sys

REPOSITORY = pathlib.Path(__file__).resolve().parent.parent
FENCE = re.compile(r"^```(\w*)\n(.*?)^```$", re.M | re.S)
NAME = re.compile(r"^`([\w.]+)`:\n\n\Z", re.M)


def fail(why):
    sys.exit(f"error: {why}")


def blocks(text):
    """Each block's language, its content, and the file's name that stands above it, or None."""
    for block in FENCE.finditer(text):
        name = NAME.search(text[: block.start()])
        yield block[1], block[2], name and name[1]


def run(page, home):
    """Runs a page's blocks in their order; how many pieces were run, or are run elsewhere."""
    text = (REPOSITORY / page).read_text()
    folder = home / pathlib.Path(page).stem
    folder.mkdir(parents=True)
    environment = {**os.environ, "HOME": str(home)}
    # what the toolchains keep under HOME
    for name in ("CARGO_HOME", "RUSTUP_HOME"):
        environment.setdefault(name, os.path.expanduser(f"~/.{name.split('_')[0].lower()}"))
    ran, shown = 0, list(blocks(text))
    for place, (language, content, name) in enumerate(shown):
        if name:
            (folder / name).write_text(content)
        elif language == "sh":
            commands = "".join(line for line in content.splitlines(True) if not line.startswith("tools/test"))
            in_repository = re.search(r"(^|\| )tools/|^cd bindings/", content, re.M)
            found = subprocess.run(
                ["bash", "-euo", "pipefail", "-c", commands],
                cwd=REPOSITORY if in_repository else folder, env=environment, stdout=subprocess.PIPE, text=True,
            )
            if found.returncode:
                fail(f"{page}: status {found.returncode} of\n{content}")
            if shown[place + 1 : place + 2] and shown[place + 1][0] == "text" and found.stdout != shown[place + 1][1]:
                fail(f"{page}: it is said to print\n{shown[place + 1][1]}and prints\n{found.stdout}")
            ran += 1
        elif language == "rust":
            if f'include_str!("../../../{page}")' not in (REPOSITORY / "bindings/rust/src/lib.rs").read_text():
                fail(f"{page}: its Rust is no doc example of the crate")
            ran += 1
        elif language == "text":
            if not place or shown[place - 1][0] != "sh" and page != "README.md":
                fail(f"{page}: nothing prints\n{content}")
        elif language not in ("toml",):
            fail(f"{page}: a block of {language or 'no language'} without a file's name above it:\n{content}")
    if not ran:
        fail(f"{page}: no code was found")
    print(f"{page}: {ran} pieces of code do what it says")
    return ran


def main():
    if len(sys.argv) < 3:
        sys.exit(__doc__)
    home = pathlib.Path(sys.argv[1]).resolve()
    print(sum(run(page, home) for page in sys.argv[2:]))


if __name__ == "__main__":
    main()
