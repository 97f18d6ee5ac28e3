#!/usr/bin/env python3
"""Draws docs/layers.svg from crates.txt: the layers of crates, and which uses which.

    tools/drawing.py             checks that the picture is up to date
    tools/drawing.py --write     writes it

Builds nothing, and draws the same picture each time.
"""
import pathlib
import sys

sys.path.insert(0, str(pathlib.Path(__file__).resolve().parents[1] / "tests" / "lib"))
from making import picture


def main():
    if sys.argv[1:] not in ([], ["--write"]):
        sys.exit("drawing.py: it takes no words, or --write")
    if sys.argv[1:]:
        picture.PICTURE.write_text(picture.drawn())
    elif not picture.is_drawn():
        sys.exit("docs/layers.svg is out of date: tools/drawing.py --write")
    print("ok")


if __name__ == "__main__":
    main()
