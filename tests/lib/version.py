#!/usr/bin/env python3
"""The version of the program, whose one place is crates/signal_office/src/version.rt.

    tests/lib/version.py     prints it

The newest version of CHANGELOG.md has this number and a day.
"""
import pathlib
import re

TOP = pathlib.Path(__file__).resolve().parents[2]
SOURCE = TOP / "crates" / "signal_office" / "src" / "version.rt"
CHANGES = TOP / "CHANGELOG.md"
HEADING = re.compile(r"^## (\d+\.\d+\.\d+), (\d{4}-\d{2}-\d{2})$", re.MULTILINE)
NUMBER = re.compile(r"signal_office (\d+\.\d+\.\d+) ")


def number():
    """The version, as 1.2.3."""
    return NUMBER.search(SOURCE.read_text())[1]


def changes():
    """The versions of CHANGELOG.md, newest first: each with its day, and what it says of it."""
    parts = HEADING.split(CHANGES.read_text())[1:]
    return [*zip(parts[::3], parts[1::3], parts[2::3])]


def newest():
    """The newest version of CHANGELOG.md, and its day."""
    return changes()[0][:2]


if __name__ == "__main__":
    print(number())
