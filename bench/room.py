#!/usr/bin/env python3
"""Measures how much room the office of a city takes on the disk, and how much more each year; and
how long a command over a file takes, which reads the whole file as it opens it.

    python3 bench/room.py [PROGRAM [YEARS]]

The city has 200 intersections, each with the plan of examples/plans/101.csv: eight phases and three
patterns. In a year each has two inspections and six work orders with two used parts and a closing,
and its plan is changed twice; the store takes 600 deliveries. It prints the size of the file at
first and after each year (five, where no number is given), the most that the log took, and what a
backup takes. Then it prints the seconds of each kind of command over the plans of 100, 1,000 and
5,000 intersections, the least of three runs. It takes a minute, or ten with a program that was
built to find mistakes.
"""
import itertools
import json
import os
import pathlib
import subprocess
import sys
import tempfile
import time

TOP = pathlib.Path(__file__).resolve().parent.parent
sys.path.insert(0, str(TOP / "tests" / "lib"))
from program import found

INTERSECTIONS, INSPECTIONS, ORDERS, PARTS, DELIVERIES, CHANGES = 200, 2, 6, 2, 600, 2
FIRST_YEAR, YEARS, CODES = 2026, 5, 40
SIZES, TRIES = (100, 1_000, 5_000), 3
CLERK = "Ana Soto"
PLAN = (TOP / "examples" / "plans" / "101.csv").read_text()
INSPECTED = "Cabinet clean, filter changed, fan and door seal in order, battery at 12.9 V"
ORDERED = "Red lamp out, northbound head 4, seen by the night crew"


def post(path, **keys):
    """A request with a body in JSON."""
    body = json.dumps(keys).encode()
    return b"POST %s HTTP/1.1\r\nContent-Length: %d\r\n\r\n%s" % (path.encode(), len(body), body)


def committing(number, csv):
    """A change of a plan, from begin to commit."""
    path = f"/intersections/{number}"
    yield post(f"{path}/begin", clerk=CLERK)
    yield post(f"{path}/edit-csv", clerk=CLERK, csv=csv)
    yield from (post(f"{path}/{step}", clerk=CLERK) for step in ("verify", "check", "commit"))


def founding(intersections=INTERSECTIONS):
    """The city as it begins."""
    for number in range(1, intersections + 1):
        name = f"Main St & {number}th Ave"
        yield post("/intersections", id=number, interval=180, name=name)
        yield from committing(number, PLAN)


def delivered(year, month):
    """The records of a month's deliveries: as many of each part."""
    many = DELIVERIES // 12
    for at in range(many):
        number = (year * 12 + month) * many + at + 1
        yield f"delivery,PART-{at % CODES},{number},{FIRST_YEAR + year}-{month + 1:02}-01,200"


def worked(number, year, month):
    """The records of an intersection's month."""
    day = f"{FIRST_YEAR + year}-{month + 1:02}-{number % 28 + 1:02}"
    if month % (12 // INSPECTIONS) == number % (12 // INSPECTIONS):
        at = year * INSPECTIONS + month // (12 // INSPECTIONS) + 1
        yield f'inspection,{number},{at},{day},{CLERK},"{INSPECTED}"'
    if month % (12 // ORDERS) == number % (12 // ORDERS):
        at = year * ORDERS + month // (12 // ORDERS) + 1
        yield f'order,{number},{at},{day},{CLERK},"{ORDERED}"'
        for line in range(1, PARTS + 1):
            yield f"use,{number},{at},{line},PART-{(number + line) % CODES},1"
        yield f"close,{number},{at},{day},{CLERK}"


def passing(year):
    """A year's requests: the records of each month come as one import."""
    city = range(1, INTERSECTIONS + 1)
    for month in range(12):
        records = [*delivered(year, month)]
        records += [record for number in city for record in worked(number, year, month)]
        yield post("/import", csv="\n".join(records))
        for number in city:
            if month % (12 // CHANGES) == number % (12 // CHANGES):
                offset = (12 * year + month) % 60
                yield from committing(number, f"pattern,1,100,{offset + 1},1,1\n")


def serve(program, office, requests):
    """Has the program answer the requests, and returns the most that the log took."""
    words, most = [program, "batch", "--db", str(office)], 0
    with subprocess.Popen(words, stdin=subprocess.PIPE, stdout=subprocess.PIPE) as run:
        os.set_blocking(run.stdout.fileno(), False)
        for request in requests:
            run.stdin.write(request)
            run.stdin.flush()
            refused(run.stdout.read())
            log = pathlib.Path(f"{office}-wal")
            most = max(most, log.stat().st_size if log.exists() else 0)
        run.stdin.close()
        os.set_blocking(run.stdout.fileno(), True)
        refused(run.stdout.read())
    return most


def refused(answers):
    """Ends the script where a request was refused."""
    at = answers.find(b'{"error"') if answers else -1
    if at >= 0:
        sys.exit(f"room.py: {answers[at:at + 200].decode()}")


def kinds(room):
    """A command of each kind: its words before and behind the file. The last two change the office,
    each time by something else."""
    turns = itertools.count(1)
    change, record, folder = room / "change.csv", room / "record.csv", room / "folder"

    def edit():
        change.write_text(f"pattern,1,100,{next(turns)},1,1\n")
        return ["edit"], ["--clerk", CLERK, "--commit", "1", change]

    def take():
        record.write_text(f"delivery,PART-1,{next(turns)},2026-05-01,1\n")
        return ["import"], [record]

    yield "stock", lambda: (["stock"], [])
    yield "sheet ID", lambda: (["sheet"], ["1"])
    yield "list", lambda: (["list"], ["--csv"])
    yield "overdue DAY", lambda: (["overdue"], ["2027-01-01"])
    yield "pages DIR", lambda: (["pages"], [folder])
    yield "backup TO", lambda: (["backup"], ["--force", room / "to.db"])
    yield "edit --commit", edit
    yield "import", take


def timed(program, office, words_of):
    """The seconds of the fastest of some runs of a command."""
    least = float("inf")
    for _ in range(TRIES):
        (name, words), begun = words_of(), time.monotonic()
        ran = subprocess.run([program, *name, "--db", office, *words], stdout=subprocess.PIPE)
        least = min(least, time.monotonic() - begun)
        if ran.returncode:
            sys.exit(f"room.py: {name[0]} ended with status {ran.returncode}")
    return least


def time_openings(program):
    """Prints how long commands take over offices of several sizes."""
    print(f"{'seconds':>16}" + "".join(f"{it:>10,}" for it in SIZES))
    told = {}
    for size in SIZES:
        with tempfile.TemporaryDirectory() as name:
            room = pathlib.Path(name)
            serve(program, room / "city.db", founding(size))
            for kind, words_of in kinds(room):
                told.setdefault(kind, []).append(timed(program, room / "city.db", words_of))
    for kind, seconds in told.items():
        print(f"{kind:>16}" + "".join(f"{it:10.2f}" for it in seconds))


def main():
    program = found(sys.argv[1:2])
    with tempfile.TemporaryDirectory() as room:
        office, copy = pathlib.Path(room) / "city.db", pathlib.Path(room) / "copy.db"
        log = serve(program, office, founding())
        print(f"at first: {office.stat().st_size:,} bytes", flush=True)
        for year in range(int(sys.argv[2]) if len(sys.argv) > 2 else YEARS):
            log = max(log, serve(program, office, passing(year)))
            print(f"after year {year + 1}: {office.stat().st_size:,} bytes", flush=True)
        subprocess.run([program, "backup", "--db", office, copy], check=True)
        print(f"the log took at most {log:,} bytes, a backup takes {copy.stat().st_size:,}")
    time_openings(program)


if __name__ == "__main__":
    main()
