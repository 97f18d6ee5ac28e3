#!/usr/bin/env python3
"""Has `rt plant` try wrong bodies of crates, and tells how many were refused, and which were not.

    python3 bench/plants.py CRATE.. [--minutes N] [--write]

A crate takes its proof and then N minutes, 20 if left out. With --write the rows of these crates
are put into docs/MEASUREMENTS.md; those of other crates stay. Needs the kit of Rattle.
"""
import argparse
import pathlib
import re
import subprocess
import sys

TOP = pathlib.Path(__file__).resolve().parent.parent
sys.path.insert(0, str(TOP / "tests" / "lib"))
import measured

HEAD = ["Crate", "State", "Refused", "Let through, or without a clause"]
COUNT = re.compile(r"([\w-]+)=(\d+)")
PASSED = re.compile(r"^(proves|no-ensures) +(.*)$", re.MULTILINE)


def planted(name, minutes):
    """The cells of a crate."""
    words = ["rt", "plant", name, "--minutes", str(minutes), "--max", "4000", "--jobs", "4"]
    ran = subprocess.run(words, cwd=TOP / "crates" / name, stdout=subprocess.PIPE, text=True)
    last = (ran.stdout.strip().splitlines() or [""])[-1]
    if ran.returncode or not last.startswith("plants "):
        sys.exit(f"rt plant {name} gave no counts: {ran.stdout[-400:]}")
    counts = {kind: int(many) for kind, many in COUNT.findall(last)}
    print(ran.stdout, end="", flush=True)
    passed = (" ".join(shown.split()) for _, shown in PASSED.findall(ran.stdout))
    told = "; ".join(f"`{it[:90]}`" for it in passed).replace("|", "\\|") or "none"
    left = counts.get("not-run", 0)
    told += f"; {left} were not tried" if left else ""
    return [f"`{name}`", measured.state(), str(counts.get("refused", 0)), told]


def main():
    parser = argparse.ArgumentParser(usage=__doc__.split("\n\n")[1].strip())
    parser.add_argument("crates", nargs="+")
    parser.add_argument("--minutes", type=int, default=20)
    parser.add_argument("--write", action="store_true")
    asked = parser.parse_args()
    found = {f"`{name}`": planted(name, asked.minutes) for name in asked.crates}
    print(measured.table(HEAD, found.values()), end="")
    if asked.write:
        rows = {cells[0]: cells for cells in measured.rows_of("wrong bodies")} | found
        measured.written("wrong bodies", measured.table(HEAD, rows.values()))


if __name__ == "__main__":
    main()
