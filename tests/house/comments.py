#!/usr/bin/env python3
"""Finds definitions that say nothing, and comments that need the one above.

    tests/house/comments.py

Each definition of `specs/` has a comment right above it, and no comment of definitions or code
begins by pointing at another one (`the same`, `so does`). Builds nothing. Prints each place
that is otherwise, and ends with status 1 where there is one.
"""
import pathlib
import re
import sys

CRATES = pathlib.Path(__file__).resolve().parents[2] / "crates"
DEFINED = re.compile(r"(?:(?:abbrev|unfoldable|opaque|pub|record|data) )+(?!use |mod )([^\s:(]+)")
POINTS = re.compile(r"(?:--|//[/!]?) (?:the same|so does|so is|so are|so do|likewise|ditto)\b", re.I)


def without(path):
    """The definitions of a file above which no comment stands."""
    lines = path.read_text().splitlines()
    for at, line in enumerate(lines):
        found = DEFINED.match(line)
        if found and not (at and lines[at - 1].startswith("--")):
            yield f"{path.relative_to(CRATES)}:{at + 1}: {found[1]} has no comment"


def pointing(path):
    """The comments of a file that begin by pointing at another one."""
    above = ""
    for at, line in enumerate(path.read_text().splitlines()):
        here = line.strip()
        if POINTS.match(here) and not above.startswith(("--", "//")):
            yield f"{path.relative_to(CRATES)}:{at + 1}: {here}"
        above = here


def main():
    definitions = sorted(CRATES.glob("*/specs/**/*.antt"))
    code = sorted(CRATES.glob("*/src/**/*.rt"))
    found = [it for path in definitions for it in without(path)]
    found += [it for path in definitions + code for it in pointing(path)]
    print("\n".join(found) if found else "ok")
    sys.exit(bool(found))


if __name__ == "__main__":
    main()
