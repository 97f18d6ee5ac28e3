#!/usr/bin/env python3
"""Says where a rule stands: the files of definitions, by the first comment of each, and the files
of code that cite it.

    tools/definitions.py            all of them, lowest crate first
    tools/definitions.py WORD..     those whose crate, name, first comment or definitions hold all
                                    of these words, in any case

    $ tools/definitions.py overdue latest
    cabinet_core/specs/Overdue: The latest inspection of an intersection, and which are overdue on
    a day.
        cabinet_core/src/overdue_inspections.rt

Ends with status 1 where nothing fits, or a file of definitions begins without a comment. Builds
nothing.
"""
import pathlib
import re
import signal
import sys
import textwrap

sys.path.insert(0, str(pathlib.Path(__file__).resolve().parents[1] / "tests" / "lib"))
from sources import CRATES, cited, files, first_comment, without_comment

COLUMNS = 100
DEFINED = re.compile(r"\bpub (?!use|mod)(\w+)")


def citing():
    """For each file of definitions, by crate and name, the files of code that cite it."""
    found = {}
    for path in sorted(CRATES.glob("*/src/**/*.rt")):
        for place in {it[:2] for it in cited(path.read_text())}:
            found.setdefault(place, []).append(str(path.relative_to(CRATES)))
    return found


def own(paths, crate):
    """Of the files of code that cite a definition, those of its own crate, if there are some."""
    return [it for it in paths if it.startswith(f"{crate}/")] or paths


def main():
    signal.signal(signal.SIGPIPE, signal.SIG_DFL)  # `| head` ends it
    words = [it.lower() for it in sys.argv[1:]]
    if wrong := without_comment():
        sys.exit("definitions.py: no comment begins " + ", ".join(wrong))
    code, count = citing(), 0
    for crate, path in files():
        text = path.read_text()
        comment, name = first_comment(text), f"{crate}/specs/{path.stem}"
        known = " ".join([name, comment, *DEFINED.findall(text)]).lower()
        if all(re.search(re.escape(word) + r"(?!\d)", known) for word in words):
            count += 1
            print(textwrap.fill(f"{name}: {comment}", COLUMNS, break_on_hyphens=False))
            print("".join(f"    {it}\n" for it in own(code.get((crate, path.stem), []), crate)),
                  end="")
    if not count:
        sys.exit("definitions.py: nothing fits")


if __name__ == "__main__":
    main()
