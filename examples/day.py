#!/usr/bin/env python3
"""Plays the day of docs/TUTORIAL.md, and can make the picture of a page from it.

    examples/day.py [--picture FILE] [--program PROGRAM] [FOLDER]

It runs each command of the tutorial in FOLDER, which must be new or empty, and keeps what the day
leaves there: the folder `riverside` with the database, pages, files under git and a copy, and links
to the program and the files of the repository, so that the commands go on working there.
Without FOLDER all of that is gone at the end. It says for each command whether it printed what the
document shows, and ends with status 1 if one did not.

With --picture, FILE is then the top of the page of one intersection, as Debian's `chromium` shows
it. The program is the one that `./office` built, where none is named. It takes some seconds, and a
port that the day's server listens on. It needs bash, curl and git.
"""
import argparse
import pathlib
import shutil
import subprocess
import sys
import tempfile

TOP = pathlib.Path(__file__).resolve().parent.parent
sys.path.insert(0, str(TOP / "tests" / "lib"))
from program import found
import shown

DAY = TOP / "docs" / "TUTORIAL.md"
OFFICE, SHOWN = "riverside/city.db", "103"
SIZE = "1280,880"  # pixels of the picture


def play(folder, program):
    """Runs the day's commands in a folder, and returns how many printed something else."""
    shown.furnish(folder, program)
    day, wrong = shown.Tour(folder), 0
    try:
        for block in shown.blocks(DAY.read_text()):
            for command, wanted in shown.commands(block):
                printed = day.run(command, wanted)
                wrong += printed != wanted
                print(f"{'ok   ' if printed == wanted else 'WRONG'} {command}", flush=True)
                if printed != wanted:
                    print(f"--- printed\n{printed}\n---", flush=True)
    finally:
        day.end()
    return wrong


def draw(folder, program, picture):
    """Makes the picture of a page of the day's office."""
    words = [program, "page", "--db", folder / OFFICE, SHOWN]
    page = folder / f"page-{SHOWN}.html"
    page.write_bytes(subprocess.run(words, stdout=subprocess.PIPE, check=True).stdout)
    with tempfile.TemporaryDirectory() as profile:
        words = ["chromium", "--headless", "--no-sandbox", "--disable-gpu", "--hide-scrollbars"]
        words += [f"--user-data-dir={profile}", f"--window-size={SIZE}", f"--screenshot={picture}"]
        subprocess.run([*words, page.as_uri()], capture_output=True, timeout=120, check=True)


def words_given():
    parser = argparse.ArgumentParser(description="Plays the day of docs/TUTORIAL.md.")
    parser.add_argument("--picture", type=pathlib.Path, metavar="FILE")
    parser.add_argument("--program", metavar="PROGRAM")
    parser.add_argument("folder", nargs="?", type=pathlib.Path, metavar="FOLDER")
    return parser.parse_args()


def main():
    given = words_given()
    program = found([given.program] if given.program else [])
    if given.picture and not shutil.which("chromium"):
        sys.exit("day.py: there is no chromium: `apt-get install chromium` brings it")
    if given.folder and given.folder.exists() and any(given.folder.iterdir()):
        sys.exit(f"day.py: {given.folder} is not empty")
    with tempfile.TemporaryDirectory() as room:
        folder = given.folder or pathlib.Path(room)
        folder.mkdir(parents=True, exist_ok=True)
        wrong = play(folder.resolve(), program)
        if given.picture:
            draw(folder.resolve(), program, given.picture.resolve())
    sys.exit(1 if wrong else 0)


if __name__ == "__main__":
    main()
