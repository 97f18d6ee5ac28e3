#!/usr/bin/env python3
"""Holds the program against the second office (tests/lib/model), byte for byte.

    tests/program/second_office.py requests [PROGRAM [SEED COUNT]]
    tests/program/second_office.py plans    [PROGRAM [SEED COUNT]]
    tests/program/second_office.py texts    [PROGRAM [SEED COUNT]]

- `requests`: COUNT drawn requests (20,000) go to `batch`. First the second office must answer the
  worked rows as they say.
- `plans`: COUNT drawn plans (20,000) are verified, with reasons and warnings and without, and
  patterns of some drawn.
- `texts`: each command is run over COUNT drawn offices (400) and drawn CSV files, in some two
  minutes of four processors; 5,000 take half an hour. Each text of the program must come there, or
  stand with its test in the tables of tests/lib/second/printed.py.

The modules of tests/lib/second say more. Prints what was drawn, and ends with status 1 at the first
answer, plan or text that differs, or if something did not come that has to.
"""
import pathlib
import sys

sys.path.insert(0, str(pathlib.Path(__file__).resolve().parents[1] / "lib"))
from program import found
from second import plans, requests, texts

# What is compared, and how much by default.
KINDS = {"requests": (requests, "20000"), "plans": (plans, "20000"), "texts": (texts, "400")}


def main():
    kind, words = sys.argv[1:2], sys.argv[2:]
    if not kind or kind[0] not in KINDS:
        sys.exit(__doc__)
    compared, count = KINDS[kind[0]]
    program, numbers = found(words[:1]), words[1:] or ["1", count]
    if len(numbers) != 2 or not all(it.isdigit() for it in numbers):
        sys.exit(__doc__)
    compared.compare(program, *map(int, numbers))


if __name__ == "__main__":
    main()
