#!/usr/bin/env python3
"""Lists each text that the program prints with the test that compares it: pieces of text of the
sources, commands with their options, faults, hints, notes, and functions that give a text.

    tools/texts.py [PROGRAM]
"""
import pathlib
import sys

sys.path.insert(0, str(pathlib.Path(__file__).resolve().parents[1] / "tests" / "lib"))
from program import found
from second.printed import listed


def main():
    for text, test in listed(found(sys.argv[1:])):
        print(f"{test}: {text}")


if __name__ == "__main__":
    main()
