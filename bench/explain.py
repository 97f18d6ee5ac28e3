#!/usr/bin/env python3
"""Counts what reasons and warnings cost: the instructions of `verify-file` with `--explain`, with
`--advise` and without, of a plan of 1,000 rows that breaks 200 rules, minus those of an empty plan.

    python3 bench/explain.py [PROGRAM] [--write]

By default the program is the one that `./office` built. Needs valgrind. With --write the figures go
into docs/MEASUREMENTS.md. Ends with status 1 if reasons take more than twice what the rules take,
or warnings add more than a third of that.
"""
import argparse
import pathlib
import re
import subprocess
import sys
import tempfile

HERE = pathlib.Path(__file__).resolve().parent
sys.path.insert(0, str(HERE.parent / "tests" / "lib"))
import measured
from program import found

RINGS, PHASES, TWENTY, PATTERNS = range(1, 9), range(1, 33), range(1, 21), range(1, 49)
TIMES, CYCLE = (14, 15, 16, 17), 62  # seconds of the phases of each ring, and their sum
RECORDS, BROKEN = 1_000, 200
VALGRIND = ("valgrind", "--tool=callgrind", "--callgrind-out-file=/dev/null")


def ring_of(phase):
    return (phase - 1) // len(TIMES) + 1


def split(number, phase):
    """A row of a split; some call a walk for which they have no room."""
    is_short = number <= 13 and phase % 4 == 1
    return ["split", number, phase, TIMES[(phase - 1) % 4], 5 if is_short else 2, int(phase == 2)]


def plan():
    """The rows of the plan, some of them put again: a row more changes nothing. Phase 1 lists no
    other, so that neither those that list it nor any pattern keep the rules."""
    rows = []
    for it in PHASES:
        mates = [other for other in PHASES if ring_of(other) != ring_of(it)] if it != 1 else []
        row = ["phase", it, ring_of(it), 5, 20, 40, 40, 15, " ".join(map(str, mates))]
        rows.append([*row, 7, 12, 490, 60, 0, 0])
    for number in TWENTY:
        for ring in RINGS:
            listed = " ".join(str(it) for it in PHASES if ring_of(it) == ring)
            rows.append(["seq", number, ring, listed])
    rows += [split(number, it) for number in TWENTY for it in PHASES]
    for number in PATTERNS:
        offset = CYCLE if number <= 20 else number
        rows.append(["pattern", number, CYCLE, offset, (number - 1) % 20 + 1, 1])
    return [*rows, *rows[-(RECORDS - len(rows)):]]


def instructions(program, path, *flags):
    """The instructions of a run, and what it printed."""
    words = [*VALGRIND, program, "verify-file", *flags, path]
    ran = subprocess.run(words, stdout=subprocess.PIPE, stderr=subprocess.PIPE, text=True)
    return int(re.search(r"Collected : (\d+)", ran.stderr)[1]), ran.stdout.splitlines()


def main():
    parser = argparse.ArgumentParser(usage=__doc__.split("\n\n")[1].strip())
    parser.add_argument("program", nargs="?")
    parser.add_argument("--write", action="store_true")
    asked = parser.parse_args()
    program = found([asked.program] if asked.program else [])
    with tempfile.TemporaryDirectory() as folder:
        empty, full = (str(pathlib.Path(folder, it)) for it in ("empty.csv", "plan.csv"))
        pathlib.Path(empty).touch()
        rows = plan()
        pathlib.Path(full).write_text("".join(",".join(map(str, it)) + "\n" for it in rows))
        begun = instructions(program, empty)[0]
        plain, told = instructions(program, full)
        reasons, why = instructions(program, full, "--explain")
        advice, warned = instructions(program, full, "--advise")
    plain, reasons, advice = (it - begun for it in (plain, reasons, advice))
    counted, wanted = (len(rows), len(told), len(why)), (RECORDS, BROKEN, BROKEN)
    if counted != wanted or warned[:BROKEN] != told or len(warned) == BROKEN:
        sys.exit(f"explain.py: {counted[0]} rows, {counted[1]} and {counted[2]} violations, "
                 f"{len(warned)} lines with warnings")
    text = (f"`verify-file` of a plan of {RECORDS:,} rows in which {BROKEN} rules are broken takes "
            f"{plain / 1e6:.1f} million instructions, and {reasons / 1e6:.1f} with `--explain`: "
            f"{reasons / plain:.2f} times as many. With `--advise`, which prints "
            f"{len(warned) - BROKEN} warnings, it takes {advice / 1e6:.1f}: "
            f"{advice / plain:.2f} times as many ({measured.state()}).")
    print(text)
    if asked.write:
        measured.written("explain", measured.paragraph(text))
    if reasons > 2 * plain:
        sys.exit("explain.py: reasons take more than twice what the rules take")
    if 3 * (advice - plain) > plain:
        sys.exit("explain.py: warnings add more than a third of what the rules take")


if __name__ == "__main__":
    main()
