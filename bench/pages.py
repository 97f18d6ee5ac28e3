#!/usr/bin/env python3
"""Measures what a folder of pages costs: processor seconds and memory of `pages` over 1,000 and
2,000 intersections with a plan of 60 rows each.

    python3 bench/pages.py [PROGRAM]

Ends with status 1 if the larger office takes more than 2.2 times what the smaller one does, more
than 4 seconds or more than 100 MB.
"""
import os
import pathlib
import subprocess
import sys
import tempfile

TOP = pathlib.Path(__file__).resolve().parent.parent
sys.path.insert(0, str(TOP / "tests" / "lib"))
from program import found
import work

COUNTS = (1_000, 2_000)
MOST_TIMES, MOST_SECONDS, MOST_MEGABYTES = 2.2, 4, 100


def requests(count):
    """An office of so many intersections, each with a committed plan."""
    rows = list(work.plan(0, 0))
    for number in range(1, count + 1):
        yield work.opened(number, f"Main St and {number} Ave")
        for request in work.transaction(rows):
            yield request.replace(b"/intersections/12/", b"/intersections/%d/" % number)


def cost(program, folder, count):
    """The least seconds of a processor of three runs, and the most megabytes of one."""
    db = str(folder / f"{count}.db")
    subprocess.run([program, "batch", "--db", db], input=b"".join(requests(count)), check=True,
                   stdout=subprocess.DEVNULL)
    seconds, most = [], 0
    for turn in range(3):
        words = [program, "pages", "--db", db, str(folder / f"{count}-{turn}")]
        _, status, usage = os.wait4(subprocess.Popen(words).pid, 0)
        if status:
            sys.exit(f"pages.py: {words} ended with {status}")
        seconds.append(usage.ru_utime + usage.ru_stime)
        most = max(most, usage.ru_maxrss / 1000)
    return min(seconds), most


def main():
    program = found(sys.argv[1:2])
    with tempfile.TemporaryDirectory() as room:
        (few, _), (many, memory) = (cost(program, pathlib.Path(room), it) for it in COUNTS)
    print(f"`pages` takes {few:.1f} s of a processor for {COUNTS[0]:,} intersections and {many:.1f} "
          f"for {COUNTS[1]:,}, {many / few:.2f} times as many, and {memory:.0f} MB")
    if many > MOST_TIMES * few or many > MOST_SECONDS or memory > MOST_MEGABYTES:
        sys.exit(1)


if __name__ == "__main__":
    main()
