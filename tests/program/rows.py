#!/usr/bin/env python3
"""Plays the worked rows, tests/rows/*.row: requests with their answers, and runs of the program
with what they print, byte for byte. docs/ARCHITECTURE.md has the language of their lines.

    tests/program/rows.py [PROGRAM] [ROW..]

By default it takes the program that ./office built, and all rows. A ROW
is a name, as an_empty_stock, or the path of a row file. Streams of requests are played in
memory and over a file, each whole and in single bytes: by `batch`, and in memory those of a row
with several by `serve`, each over a connection of its own. Rows that run the program are played
with its streams whole and in single bytes. A library between the program and the system (it needs
a C compiler, `cc`) gives and takes single bytes, and has an input or output fail.

Plays rows on all processors, in less than a minute. Prints each row that fails, with its line, what
was wanted and what came, and how many passed; ends with status 1 if one failed.
"""
import concurrent.futures
import functools
import os
import pathlib
import sys
import tempfile
import time

sys.path.insert(0, str(pathlib.Path(__file__).resolve().parents[1] / "lib"))
from playing.reading import read_row
from playing.running import ENDS
from playing.ways import play
from playing.wording import Unread
from preloaded import built
from program import found

ROWS = pathlib.Path(__file__).resolve().parents[1] / "rows"
PAUSE = 5  # seconds between two lines that tell how far it is


def path_of(word):
    """The row file that a word names, if it names one."""
    paths = pathlib.Path(word), ROWS / word, ROWS / f"{word}.row"
    return next((it for it in paths if it.suffix == ".row" and it.is_file()), None)


def chosen(words):
    """The row files that words name, all where there is none; those that take longest first."""
    paths = [path_of(it) for it in words] or list(ROWS.glob("*.row"))
    for word, path in zip(words, paths):
        if path is None:
            sys.exit(f"rows.py: there is no row {word}")
    if not paths:
        sys.exit(f"rows.py: there is no row in {ROWS}")
    return sorted(paths, key=lambda it: -it.stat().st_size)


def played(path, program, library):
    """What is wrong with a row."""
    try:
        row = read_row(path.stem, path.read_bytes())
    except Unread as it:
        return [f"can't be read: {it}"]
    return play(row, program, library)


def results(paths, program, library):
    """What is wrong with each row, once it is played."""
    work = functools.partial(played, program=program, library=library)
    with concurrent.futures.ProcessPoolExecutor(len(os.sched_getaffinity(0))) as pool:
        tasks = {pool.submit(work, it): it for it in paths}
        for task in concurrent.futures.as_completed(tasks):
            yield tasks[task].stem, task.result()


def main():
    words = sys.argv[1:]
    names = words if words and path_of(words[0]) else words[1:]
    program, paths = found(words[:len(words) - len(names)]), chosen(names)
    failed, told = 0, time.monotonic()
    with tempfile.TemporaryDirectory() as folder:
        library = str(built(pathlib.Path(folder), "ends", ENDS))
        for count, (name, wrong) in enumerate(results(paths, program, library), 1):
            failed += bool(wrong)
            for it in wrong:
                print(f"{name} {it}", flush=True)
            if count < len(paths) and time.monotonic() - told > PAUSE:
                told = time.monotonic()
                print(f"{count} of {len(paths)} rows are played", file=sys.stderr, flush=True)
    print(f"{len(paths) - failed} passed, {failed} failed")
    sys.exit(1 if failed else 0)


if __name__ == "__main__":
    main()
