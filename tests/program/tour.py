#!/usr/bin/env python3
"""Runs each command that the documents show, and compares what it prints with what stands below it.

    tests/program/tour.py [PROGRAM]

The commands of a document run in order in one new folder, in which `./office` is the program and
everything else is as in the repository (tests/lib/shown.py). Needs bash, git, and curl for requests
over HTTP. It prints a line for each command, and ends with status 1 if one printed something else.
"""
import pathlib
import sys
import tempfile

sys.path.insert(0, str(pathlib.Path(__file__).resolve().parents[1] / "lib"))
import shown
from program import TOP, found

DOCUMENTS = ("README.md", "docs/TUTORIAL.md", "docs/FROM-EXCEL.md", "docs/COMMANDS.md",
             "docs/HTTP.md", "docs/OPERATING.md", "docs/ARCHITECTURE.md")


def wrong_in(document, program):
    """How many commands of a document printed something else, and how many there are."""
    wrong = count = 0
    with tempfile.TemporaryDirectory() as room:
        shown.furnish(pathlib.Path(room), program)
        tour = shown.Tour(pathlib.Path(room))
        try:
            for block in shown.blocks((TOP / document).read_text()):
                for command, wanted in shown.commands(block):
                    found_text, count = tour.run(command, wanted), count + 1
                    is_right = found_text == wanted
                    print(f"{'ok   ' if is_right else 'WRONG'} {document}: {command}", flush=True)
                    if not is_right:
                        wrong += 1
                        print(f"--- printed\n{found_text}\n--- shown\n{wanted}\n---", flush=True)
        finally:
            tour.end()
    return wrong, count


def main():
    program, wrong = found(sys.argv[1:2]), 0
    for document in DOCUMENTS:
        several, count = wrong_in(document, program)
        wrong += several
        print(f"{document}: {count} commands, of which {several} printed something else")
    sys.exit(1 if wrong else 0)


if __name__ == "__main__":
    main()
