#!/usr/bin/env python3
"""Checks that no step judges more than what an edit touches, by the time of the processor.

    tests/program/judged.py [PROGRAM]

A plan whose patterns cost much to judge is committed in memory. Then a row of its draft is changed
and a step is done with it, many times: the draft is checked and taken back, it is committed, or the
state of a checked draft is read. The row is once a split row that no pattern uses, and once a
phase, which each pattern uses. Everything else is the same, so the first takes less than an eighth
of the second, unless a step judges the whole plan each time, whether or not its answer is used:
then it takes a third of the second or more, also where a commit does that and no check before it.
Ends with status 1 if a step takes more, or if an answer is not as it should be.
"""
import csv
import io
import json
import os
import pathlib
import re
import subprocess
import sys
import tempfile

sys.path.insert(0, str(pathlib.Path(__file__).resolve().parents[1] / "lib"))
from program import found

RINGS, PHASES, PATTERNS = range(1, 9), range(1, 33), range(1, 49)
TIMES, CYCLE = (14, 15, 16, 17), 62  # seconds of the phases of each ring, and their sum
TURNS = int(os.environ.get("TURNS", "500"))  # how often the row is changed, or the state read
RUNS = 3  # of each stream, of which the fastest counts
LEAST = 8  # times as long as the first the second takes
CHECKED = re.compile(rb'"state":"done","verify":"doneWithNoError"')
COMMITTED = re.compile(rb'"state":"normal"')


def ring_of(phase):
    return (phase - 1) // len(TIMES) + 1


def phase_row(phase, yellow):
    mates = " ".join(str(it) for it in PHASES if ring_of(it) != ring_of(phase))
    return ["phase", phase, ring_of(phase), 5, 20, yellow, 40, 15, mates, 7, 12, 490, 60, 0, 0]


def split_row(number, phase, seconds):
    return ["split", number, phase, seconds, 2, int(phase == 2)]


def plan():
    """A plan that breaks no rule: its patterns have one sequence and one split."""
    rows = [phase_row(it, 40) for it in PHASES]
    rows += [["seq", 1, it, " ".join(str(p) for p in PHASES if ring_of(p) == it)] for it in RINGS]
    rows += [split_row(1, it, TIMES[(it - 1) % 4]) for it in PHASES]
    return [*rows, *(["pattern", it, CYCLE, it, 1, 1] for it in PATTERNS)]


def request(path, **members):
    body = json.dumps(members).encode()
    head = f"POST /intersections{path} HTTP/1.1\r\nContent-Length: {len(body)}\r\n\r\n"
    return head.encode() + body


def edit(rows):
    text = io.StringIO()
    csv.writer(text, lineterminator="\n").writerows(rows)
    return request("/1/edit-csv", clerk="Ana", csv=text.getvalue())


def steps(*names):
    return b"".join(request(f"/1/{it}", clerk="Ana") for it in names)


def checks(rows):
    return [edit([it]) + steps("verify", "check", "reopen") for it in rows]


def commits(rows):
    return [edit([it]) + steps("verify", "check", "commit", "begin") for it in rows]


def reads(rows):
    """The first row is checked, and the state read for each of the others."""
    read = b"GET /intersections/1 HTTP/1.1\r\n\r\n"
    return [edit(rows[:1]) + steps("verify", "check"), *(read for _ in rows[1:])]


# The turns of each step, and what an answer has where it was done.
STEPS = {"check": (checks, CHECKED), "commit": (commits, COMMITTED), "read": (reads, CHECKED)}


def seconds(program, turns, done):
    """The processor's seconds of a run that commits the plan and takes the turns."""
    asked = [request("", id=1, interval=365, name="Main St"), steps("begin"), edit(plan())]
    asked += [steps("verify", "check", "commit", "begin"), *turns]
    with tempfile.TemporaryFile() as given, tempfile.TemporaryFile() as answers:
        given.write(b"".join(asked))
        given.seek(0)
        child = subprocess.Popen([program, "batch"], stdin=given, stdout=answers)
        _, status, used = os.wait4(child.pid, 0)
        answers.seek(0)
        came = len(done.findall(answers.read()))
    if status or came != len(turns) + 1:
        sys.exit(f"judged.py: status {status}, {came} steps of {len(turns) + 1}")
    return used.ru_utime


def main():
    program = found(sys.argv[1:])
    light = [split_row(2, 5, 14 + turn % 2) for turn in range(TURNS)]
    heavy = [phase_row(5, 41 + turn % 2) for turn in range(TURNS)]
    is_slow = False
    for name, (turns, done) in STEPS.items():
        streams = [], turns(light), turns(heavy)
        first, *took = (min(seconds(program, it, done) for _ in range(RUNS)) for it in streams)
        touched, whole = (it - first for it in took)
        print(f"{TURNS} turns of {name}: {touched:.2f} s where the row touches itself alone,"
              f" {whole:.2f} s where it touches all")
        is_slow |= LEAST * touched > whole
    return int(is_slow)


if __name__ == "__main__":
    sys.exit(main())
