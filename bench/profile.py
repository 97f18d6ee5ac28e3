"""Says where the program's instructions go, for some of the works of bench/all.py: a table of
functions, each with its share of 100 of a run, with what it calls.

    python3 bench/profile.py [PROGRAM] [--write]

It does a twentieth of each stream, and the whole of a file. It lists functions of this repository,
of the database, of the readers of JSON and CSV, and of memory, with at least twelve of 100 in some
work. With --write the table goes into docs/MEASUREMENTS.md. Needs valgrind.
"""
import pathlib
import re
import subprocess
import sys
import tempfile

import all as bench
import sources
from program import found

WORKS = ("add and ask", "all of 60", "4 of 60", "opening")
HEADS = ("add and ask", "all rows", "4 rows", "opening")  # of these works
LEAST = 12  # of 100
OTHERS = {"sqlite", "serde_json", "json", "csv"}
MEMORY = {
    "rattle_alloc": "memory taken", "rattle_realloc": "memory grown",
    "rattle_dealloc": "memory given back",
}
LINE = re.compile(r"^ *[\d,]+ \( *([\d.]+)%\)  \S+?:((?:\w+::)\S+|rattle_\w+)")


def is_shown(name):
    return name.split("::")[0] in {*sources.crates()[0], *OTHERS} or name in MEMORY


def shares(program, it, folder):
    """The share of each function in a run."""
    out = pathlib.Path(folder) / "callgrind"
    words = [*bench.VALGRIND[:2], f"--callgrind-out-file={out}", program, *it.arguments(it.words)]
    bench.once(words, it, it.requests, folder)
    words = ["callgrind_annotate", "--inclusive=yes", "--threshold=100", str(out)]
    told = subprocess.run(words, stdout=subprocess.PIPE, stderr=subprocess.DEVNULL, text=True)
    seen = {}
    for line in told.stdout.splitlines():
        row = LINE.match(line)
        name = row and re.sub(r"::<#\w+>|\+\w+", "", row[2])
        if row and is_shown(name):
            seen[name] = max(seen.get(name, 0), float(row[1]))
    return seen


def main():
    words = [it for it in sys.argv[1:] if it != "--write"]
    program, columns = found(words), []
    with tempfile.TemporaryDirectory() as folder:
        works = [*bench.streams(0.05), *bench.on_files(program, folder)]
        for name in WORKS:
            it = next(it for it in works if name in it.name)
            columns.append((it.name.partition(", ")[0], shares(program, it, folder)))
    names = {name for _, column in columns for name, share in column.items() if share >= LEAST}
    share = lambda column, name: f"{column[name]:.0f}" if column.get(name, 0) >= 0.5 else ""
    order = sorted(names, key=lambda name: [-column.get(name, 0) for _, column in columns])
    shown = lambda name: [MEMORY.get(name, name), *(share(it, name) for _, it in columns)]
    rows = [shown(name) for name in order]
    text = bench.measured.block(["Function, of 100", *HEADS], rows)
    print(text, end="")
    if "--write" in sys.argv:
        heading = bench.measured.paragraph(f"{bench.measured.state()}:")
        bench.measured.written("profile", f"{heading}\n{text}")


if __name__ == "__main__":
    main()
