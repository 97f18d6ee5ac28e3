#!/usr/bin/env python3
"""Makes the mistakes of tests/program/mistakes.md, and mends each as it stands there.

    tests/program/mistakes.py [PROGRAM]

What each command prints is held against what stands below it, and the last one of each mistake,
which mends it, has to end with status 0. All run in order in one new folder, as those of a document
do (tests/program/tour.py). Needs bash. Prints a line for each mistake, and ends with status 1 if something
else was printed, or was not mended.
"""
import pathlib
import re
import sys
import tempfile

sys.path.insert(0, str(pathlib.Path(__file__).resolve().parents[1] / "lib"))
import shown
from program import found

MISTAKES = pathlib.Path(__file__).with_suffix(".md")
LEAST = 38  # mistakes
UNMENDED = "(it ended with another status than 0)"


def mistakes():
    """Each mistake: its title, and its commands with what they print."""
    for title, text in re.findall(r"^### (.*)\n((?:(?!##).*\n?)*)", MISTAKES.read_text(), re.M):
        yield title, [it for block in shown.blocks(text) for it in shown.commands(block)]


def wrong_in(played, commands):
    """What is wrong with the commands of a mistake."""
    for number, (command, wanted) in enumerate(commands, 1):
        is_last = number == len(commands)
        came = played.run(f"{command}\n[ $? = 0 ] || echo '{UNMENDED}'" if is_last else command,
                          wanted)
        if came != wanted:
            yield f"  $ {command}\n--- printed\n{came}\n--- shown\n{wanted}"


def main():
    program, all_of, wrong = found(sys.argv[1:2]), [*mistakes()], 0
    with tempfile.TemporaryDirectory() as room:
        shown.furnish(pathlib.Path(room), program)
        played = shown.Tour(pathlib.Path(room))
        for title, commands in all_of:
            told = [*wrong_in(played, commands)]
            wrong += bool(told)
            print("\n".join([f"{'WRONG' if told else 'ok   '} {title}", *told]), flush=True)
    numbers = [int(title.partition(".")[0]) for title, _ in all_of]
    if numbers != [*range(1, len(numbers) + 1)] or len(numbers) < LEAST:
        sys.exit("mistakes.py: the mistakes are not numbered from 1, or too few")
    print(f"{len(all_of)} mistakes, of which {wrong} are told or mended otherwise")
    sys.exit(bool(wrong))


if __name__ == "__main__":
    main()
