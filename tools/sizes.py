#!/usr/bin/env python3
"""Counts the lines of each crate, blank ones too, and its edits.

    tools/sizes.py [--write]      with --write the table of docs/MEASUREMENTS.md is replaced

Builds nothing.
"""
import pathlib
import sys

sys.path.insert(0, str(pathlib.Path(__file__).resolve().parents[1] / "tests" / "lib"))
import measured
import sources

TOP = pathlib.Path(__file__).resolve().parent.parent
KINDS = ["code", "tests", "specs", "proofs", "gate edits", "other edits"]


def lines(folder, kind):
    return sum(path.read_text().count("\n") for path in folder.rglob(f"*{kind}"))


def row(name):
    crate = TOP / "crates" / name
    code = lines(crate / "src", ".rt")
    edits = [len([*(crate / part).glob("*.edit")]) for part in ("must-fail", "wrong-bodies")]
    split = [0, code] if name in sources.TESTS else [code, 0]
    return [*split, lines(crate / "specs", ".antt"), lines(crate / "proofs", ".antt"), *edits]


def shown(name, counts):
    return [name, *(f"{it:,}" if it else "" for it in counts)]


def main():
    if sys.argv[1:] not in ([], ["--write"]):
        sys.exit("usage: tools/sizes.py [--write]")
    found = {name: row(name) for name in sources.crates()[0]}
    together = [sum(column) for column in zip(*found.values())]
    rows = [shown(name, counts) for name, counts in found.items()]
    text = measured.block(["crate", *KINDS], [*rows, shown("together", together)])
    if not sys.argv[1:]:
        print(text, end="")
        return
    measured.written("lines", f"{measured.state()}:\n\n{text}")


if __name__ == "__main__":
    main()
