"""The work that bench/all.py measures: streams of requests, and files with many rows."""
import csv
import datetime
import io
import json
import sqlite3
import subprocess

from baseline import EPOCH, key_and_body

INTERSECTIONS = 50  # of an import
IMPORTED = 4_000  # records of one import, near the most that a body holds
RECORD = {"clerk": "Ana", "day": "2026-05-01", "text": "Fan cleaned, lamps checked"}
CROSSING = ("7", "12", "490", "60", "0", "0")
PHASES = (("2", "1", "6", CROSSING), ("4", "1", "8", ()), ("6", "2", "2", ()), ("8", "2", "4", ()))
FIRST = (datetime.date(2026, 1, 1) - EPOCH).days


def post(path, tree):
    body = json.dumps(tree, separators=(",", ":")).encode()
    return b"POST %s HTTP/1.1\r\nContent-Length: %d\r\n\r\n%s" % (path.encode(), len(body), body)


def opened(number, name="Main St"):
    return post("/intersections", {"id": number, "interval": 365, "name": name})


def adding_and_asking(count):
    """So many requests, half of which add an intersection and half ask for it."""
    for turn in range(count // 2):
        number = turn % 9999 + 1
        yield opened(number, f"Main St and {number} Ave")
        yield b"GET /intersections/%d HTTP/1.1\r\n\r\n" % number


def plan(every, four):
    """60 rows that break no rule, and differ from those of (0, 0) in all rows, or in four."""
    for phase, ring, mate, crossing in PHASES:
        yield ("phase", phase, ring, "8", "20", str(40 + every), "40", "15", mate, *crossing)
    yield ("seq", "1", "1", "4 2" if every else "2 4")
    yield ("seq", "1", "2", "8 6" if every else "6 8")
    times = {split: (30 + split + every, 25 + split % 3 + every) for split in range(1, 11)}
    times[10] = (times[10][0] + four, times[10][1] - four)
    for split, (main, side) in times.items():
        for phase, _, _, _ in PHASES:
            seconds, coord = (side, "0") if phase in ("4", "8") else (main, "1")
            yield ("split", str(split), phase, str(seconds), "2", coord)
    for pattern in range(1, 15):
        split = (pattern - 1) % 10 + 1
        yield ("pattern", str(pattern), str(sum(times[split])), str(3 * pattern), str(split), "1")


def transaction(rows):
    yield post("/intersections/12/begin", {"clerk": "Ana"})
    yield post("/intersections/12/edit", {"clerk": "Ana", "rows": [list(row) for row in rows]})
    for name in ("verify", "check", "commit"):
        yield post(f"/intersections/12/{name}", {"clerk": "Ana"})


def committed():
    """An intersection with a committed plan."""
    return [opened(12), *transaction(plan(0, 0))]


def transactions(count, every, four):
    """So many transactions, each with a whole plan that differs from the one before."""
    for turn in range(count):
        is_odd = 1 - turn % 2
        yield from transaction(plan(every * is_odd, four * is_odd))


def many_intersections():
    return [opened(number + 1, f"{number} St") for number in range(INTERSECTIONS)]


def records(turn):
    """The records of one import, all of which are new in their turn: a delivery of each part, then
    inspections, orders and parts that they used, over all intersections."""
    parts = IMPORTED // 20
    rows = [["delivery", f"P{part}", str(turn + 1), "2026-05-01", "1000"] for part in range(parts)]
    count, numbers = 0, IMPORTED // INTERSECTIONS
    while len(rows) < IMPORTED:
        number, place = turn * numbers + count // INTERSECTIONS + 1, str(count % INTERSECTIONS + 1)
        rows.append(["inspection", place, str(number), RECORD["day"], "Ana", RECORD["text"]])
        rows.append(["order", place, str(number), RECORD["day"], "Ana", f"Relay {number}"])
        rows.append(["use", place, str(number), "1", f"P{count % parts}", "2"])
        count += 1
    return rows[:IMPORTED]


def imports(count):
    for turn in range(count):
        out = io.StringIO()
        csv.writer(out, lineterminator="\n").writerows(records(turn))
        yield post("/import", {"csv": out.getvalue()})


def inspections(count):
    """The requests that record so many inspections in one cabinet."""
    for number in range(1, count + 1):
        yield post("/intersections/12/inspections", {**RECORD, "number": number})


def filled(program, path, intersections, fill):
    """A file of which the program makes the tables, and SQL the rows."""
    words = [program, "batch", "--db", path]
    subprocess.run(words, stdin=subprocess.DEVNULL, stdout=subprocess.DEVNULL, check=True)
    db = sqlite3.connect(path, isolation_level=None)
    db.execute("BEGIN")
    for number in range(1, intersections + 1):
        name = f"Main St and {number} Ave"
        db.execute("INSERT INTO intersection VALUES (?, ?, 365, 1, 0, NULL)", (number, name))
    fill(db, range(1, intersections + 1))
    db.execute("COMMIT")
    db.close()


def with_inspections(db, numbers):
    """20 inspections each; every other intersection is overdue."""
    for number in numbers:
        first = FIRST if number % 2 else FIRST + 300
        rows = [(number, turn + 1, first + turn, "Ana", "Fan cleaned") for turn in range(20)]
        db.executemany("INSERT INTO inspection VALUES (?, ?, ?, ?, ?)", rows)


def with_orders(db, numbers):
    """20 orders each, the last two of which are open."""
    for number in numbers:
        rows = [(number, turn, FIRST + turn, "Ana", f"Relay {turn}", *closing(turn))
                for turn in range(1, 21)]
        db.executemany("INSERT INTO work_order VALUES (?, ?, ?, ?, ?, ?, ?)", rows)


def closing(turn):
    return (FIRST + turn + 1, "Ben") if turn <= 18 else (None, None)


def with_plans(db, numbers):
    """A committed plan of 60 rows each."""
    rows = [key_and_body(row) for row in plan(0, 0)]
    for number in numbers:
        several = [(number, *row) for row in rows]
        db.executemany("INSERT INTO timing VALUES (?, ?, ?, ?, ?)", several)


def with_old_plans(db, numbers):
    """The same in version 1: without a lead, the last field of a phase that has a crossing."""
    with_plans(db, numbers)
    db.execute("UPDATE timing SET body = substr(body, 1, length(body) - 2) WHERE body LIKE ?",
               ("phase,%,7,12,490,60,0,0",))
    db.execute("UPDATE office_version SET version = 1")
