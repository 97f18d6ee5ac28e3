#!/usr/bin/env python3
"""Where the scripts of tests/, tools/ and bench/ find the program: at the path that is their first
argument, or where `./office` built it. Run by itself it prints that path, for scripts of a shell.

    tests/lib/program.py [PROGRAM]
"""
import os
import pathlib
import sys

TOP = pathlib.Path(__file__).resolve().parents[2]
BUILT = TOP / "crates" / "signal_office" / "out" / "signal_office"


def found(words):
    """The program's whole path. Where there is none it tells how to get one, and ends."""
    path = os.path.abspath(words[0]) if words else str(BUILT)
    if not (os.path.isfile(path) and os.access(path, os.X_OK)):
        told = f"there is no program {path}: name one, or build it by ./office batch < /dev/null"
        print(f"{os.path.basename(sys.argv[0])}: {told}", file=sys.stderr)
        sys.exit(2)
    return path


if __name__ == "__main__":
    print(found(sys.argv[1:2]))
