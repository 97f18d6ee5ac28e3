#!/usr/bin/env python3
"""Measures how long commands and clients wait for each other over one file, by the clock.

    python3 bench/turns.py [PROGRAM [COUNT..]]     of 100, 1,000 and 5,000 intersections

Over an office of COUNT intersections, each with a plan of 60 rows, `list` is run: alone; then one
after the other beside a server and three clients that ask all the time over connections that they
keep; and by four processes beside these. Prints the table of docs/OPERATING.md: what a command took
in the middle and at most, and what a client's call took at most. Takes three minutes.
"""
import concurrent.futures
import multiprocessing
import pathlib
import statistics
import subprocess
import sys
import tempfile
import time

TOP = pathlib.Path(__file__).resolve().parent.parent
sys.path.insert(0, str(TOP / "tests" / "lib"))
from callers import Caller
from pages import requests
from program import found
from serving import served

COUNTS = 100, 1_000, 5_000
SECONDS = 10  # of each trial
CLIENTS, MOST = 3, 60  # and how many seconds a call may wait
HEAD = """| Intersections | alone | beside a server | with three more commands | a client's call |
|---:|---:|---:|---:|---:|"""


def command(program, db):
    """The seconds that `list` takes."""
    begun = time.monotonic()
    words = [program, "list", "--db", db, "--wait", str(MOST)]
    subprocess.run(words, check=True, stdout=subprocess.DEVNULL, stderr=subprocess.DEVNULL)
    return time.monotonic() - begun


def run_commands(program, db):
    """A process: the seconds of each command that it ran."""
    ends, took = time.monotonic() + SECONDS, []
    while time.monotonic() < ends:
        took.append(command(program, db))
    return took


def call(port, count):
    """A client: the longest of its calls."""
    caller, ends, number = Caller(port, MOST), time.monotonic() + SECONDS, 0
    while time.monotonic() < ends:
        number = number % count + 1
        caller.call("GET", f"/intersections/{number}")
    return caller.longest.seconds


def beside(program, db, count, processes):
    """The seconds of commands that so many processes run beside a server and its clients, and the
    longest of the clients' calls."""
    context = multiprocessing.get_context("fork")
    with served(program, "--db", db) as port, \
            concurrent.futures.ProcessPoolExecutor(CLIENTS + processes, mp_context=context) as pool:
        calls = [pool.submit(call, port, count) for _ in range(CLIENTS)]
        runs = [pool.submit(run_commands, program, db) for _ in range(processes)]
        took = [it for run in runs for it in run.result()]
        return took, max(it.result() for it in calls)


def spelled(took):
    return f"{statistics.median(took):.2f} s, at most {max(took):.2f}"


def measured(program, folder, count):
    """The line of an office of so many intersections."""
    db = str(folder / f"{count}.db")
    subprocess.run([program, "batch", "--db", db], input=b"".join(requests(count)), check=True,
                   stdout=subprocess.DEVNULL)
    alone = [command(program, db) for _ in range(5)]
    one, _ = beside(program, db, count, 1)
    four, longest = beside(program, db, count, 4)
    return (f"| {count:,} | {statistics.median(alone):.2f} s | {spelled(one)} | {spelled(four)} "
            f"| at most {longest:.2f} s |")


def main():
    program, counts = found(sys.argv[1:2]), [*map(int, sys.argv[2:])] or COUNTS
    print(HEAD, flush=True)
    with tempfile.TemporaryDirectory() as folder:
        for count in counts:
            print(measured(program, pathlib.Path(folder), count), flush=True)


if __name__ == "__main__":
    main()
