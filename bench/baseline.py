"""The work of bench/all.py in Python over `sqlite3`, to compare with. It reads, writes and answers
what the office does, and checks next to nothing; with --checking it also tests rows, plans and
records, by the rules of tests/lib/model.

    python3 bench/baseline.py serve [FILE] [--checking]   answers requests, over tables in memory
                                                          or in a file
    python3 bench/baseline.py overdue FILE DAY     prints the report
    python3 bench/baseline.py orders FILE          prints the open orders as CSV
    python3 bench/baseline.py open FILE            has SQLite check the file
    python3 bench/baseline.py migrate FILE         brings a file of version 1 to version 2
"""
import csv
import datetime
import io
import json
import pathlib
import sqlite3
import sys

sys.path.insert(0, str(pathlib.Path(__file__).resolve().parents[1] / "tests" / "lib"))
from model import plan, register, rules

IS_CHECKING = "--checking" in sys.argv
EPOCH = datetime.date(1970, 1, 1)
KINDS = {"phase": 1, "seq": 2, "split": 3, "pattern": 4}
STATES = ("normal", "transaction", "verify", "done")
STEPS = {"verify": 2, "check": 3}
PRAGMAS = "PRAGMA journal_mode = WAL; PRAGMA synchronous = FULL;"
SCHEMA = """
CREATE TABLE intersection (id INTEGER PRIMARY KEY, name TEXT NOT NULL, days INTEGER NOT NULL,
  revision INTEGER NOT NULL, state INTEGER NOT NULL, owner TEXT) STRICT;
CREATE TABLE timing (inter INTEGER NOT NULL, kind INTEGER NOT NULL, a INTEGER NOT NULL,
  b INTEGER NOT NULL, body TEXT NOT NULL, PRIMARY KEY (inter, kind, a, b)) STRICT;
CREATE TABLE draft (inter INTEGER NOT NULL, kind INTEGER NOT NULL, a INTEGER NOT NULL,
  b INTEGER NOT NULL, body TEXT, PRIMARY KEY (inter, kind, a, b)) STRICT;
CREATE TABLE inspection (inter INT, number INT, day TEXT, clerk TEXT, body TEXT,
  PRIMARY KEY (inter, number));
CREATE TABLE work_order (inter INT, number INT, opened TEXT, clerk TEXT, body TEXT, closed TEXT,
  closer TEXT, PRIMARY KEY (inter, number));
CREATE TABLE used_part (inter INT, ord INT, line INT, part TEXT, amount INT,
  PRIMARY KEY (inter, ord, line));
CREATE TABLE delivery (part TEXT, number INT, day TEXT, amount INT, PRIMARY KEY (part, number));
CREATE TABLE part (code TEXT PRIMARY KEY, hand INT);
"""


def add(db, asked):
    row = db.execute("SELECT name FROM intersection WHERE id = ?", (asked["id"],)).fetchone()
    if row is None:
        values = asked["id"], asked["name"], asked["interval"]
        db.execute("BEGIN")
        db.execute("INSERT INTO intersection VALUES (?, ?, ?, 0, 0, NULL)", values)
        db.execute("COMMIT")
    return {"result": "added" if row is None else "same"}


def found(db, number):
    text = "SELECT name, days, revision, state, owner FROM intersection WHERE id = ?"
    return db.execute(text, (number,)).fetchone()


def state(db, number):
    name, days, revision, stage, owner = found(db, number)
    return {
        "id": number, "interval": days, "name": name, "owner": owner, "revision": revision,
        "rows": 0, "state": STATES[stage], "verify": "notDone",
    }


def key_and_body(row):
    """The columns kind, a, b and body of a row of timing."""
    second = row[2] if row[0] in ("seq", "split") else "0"
    return KINDS[row[0]], int(row[1]), int(second), ",".join(row)


def check_plan(committed, draft):
    """Ends where the draft, which is these rows over the committed ones, breaks a rule."""
    whole = {row[:3]: row[3] for row in committed} | {row[1:4]: row[4] for row in draft}
    changes = [plan.read_change(body.split(",")) for body in whole.values()]
    found = rules.violations(plan.apply({}, changes))
    if found:
        sys.exit(f"the draft breaks rules: {found}")


def step(db, number, name, asked):
    """The reads and writes of one step of the transaction."""
    revision, stage, clerk = found(db, number)[2], 1, asked["clerk"]
    if name != "begin":
        text = "SELECT kind, a, b, body FROM timing WHERE inter = ?"
        committed = db.execute(text, (number,)).fetchall()
        text = "SELECT kind, a, b, body FROM draft WHERE inter = ?"
        draft = [(number, *row) for row in db.execute(text, (number,)).fetchall()]
        if IS_CHECKING and name in ("check", "commit"):
            check_plan(committed, draft)
    if name == "edit":
        if IS_CHECKING:
            list(map(plan.read_change, asked["rows"]))
        rows = [(number, *key_and_body(row)) for row in asked["rows"]]
        db.executemany("INSERT OR REPLACE INTO draft VALUES (?, ?, ?, ?, ?)", rows)
    elif name == "commit":
        db.executemany("INSERT OR REPLACE INTO timing VALUES (?, ?, ?, ?, ?)", draft)
        text = "DELETE FROM draft WHERE inter = ? AND kind = ? AND a = ? AND b = ?"
        db.executemany(text, [row[:4] for row in draft])
        revision, stage, clerk = revision + 1, 0, None
    if name != "edit":
        stage = STEPS.get(name, stage)
        text = "UPDATE intersection SET state = ?, owner = ?, revision = ? WHERE id = ?"
        db.execute(text, (stage, clerk, revision, number))
    verify = "doneWithNoError" if stage == 3 else "notDone"
    return {"revision": revision, "state": STATES[stage], "verify": verify}


TAKEN = {
    "inspection": ("inspection WHERE inter = ? AND number = ?", 2, "(?, ?, ?, ?, ?)"),
    "order": ("work_order WHERE inter = ? AND number = ?", 2, "(?, ?, ?, ?, ?, NULL, NULL)"),
    "use": ("used_part WHERE inter = ? AND ord = ? AND line = ?", 3, "(?, ?, ?, ?, ?)"),
    "delivery": ("delivery WHERE part = ? AND number = ?", 2, "(?, ?, ?, ?)"),
}


def test_taking(db, kind, fields, there):
    """Ends where the office would refuse the record."""
    register.read_record([kind, *map(str, fields)])
    one = lambda text, *values: db.execute(text, values).fetchone()
    is_right = kind == "delivery" or one("SELECT 1 FROM intersection WHERE id = ?", fields[0])
    if there:
        is_right = is_right and list(map(str, there[: len(fields)])) == list(map(str, fields))
    elif kind == "use":
        order = one("SELECT closed FROM work_order WHERE inter = ? AND number = ?", *fields[:2])
        hand = one("SELECT hand FROM part WHERE code = ?", fields[3])
        is_right = is_right and order == (None,) and hand and hand[0] >= int(fields[4])
    elif kind == "delivery":
        hand = one("SELECT hand FROM part WHERE code = ?", fields[0])
        is_right = (hand[0] if hand else 0) + int(fields[3]) <= 999_999_999
    if not is_right:
        sys.exit(f"refused: {kind} {fields}")


def take(db, kind, fields):
    """Looks a record up by its key, and writes it where it is not there: whether it was new."""
    place, keys, values = TAKEN[kind]
    columns = "*" if IS_CHECKING else "1"
    there = db.execute(f"SELECT {columns} FROM {place}", fields[:keys]).fetchone()
    if IS_CHECKING:
        test_taking(db, kind, fields, there)
    if there:
        return False
    db.execute(f"INSERT INTO {place.split()[0]} VALUES {values}", fields)
    if kind == "use":
        text = "SELECT closed FROM work_order WHERE inter = ? AND number = ?"
        db.execute(text, fields[:2]).fetchone()
        db.execute("UPDATE part SET hand = hand - ? WHERE code = ?", (fields[4], fields[3]))
    elif kind == "delivery":
        db.execute("INSERT OR IGNORE INTO part VALUES (?, 0)", fields[:1])
        db.execute("UPDATE part SET hand = hand + ? WHERE code = ?", (fields[3], fields[0]))
    return True


def answer_to(db, method, path, body):
    parts = path.decode().split("/")[1:]
    if method == b"GET":
        return state(db, int(parts[1]))
    asked = json.loads(body)
    if parts == ["intersections"]:
        return add(db, asked)
    db.execute("BEGIN")
    if parts == ["import"]:
        new = [take(db, row[0], row[1:]) for row in csv.reader(io.StringIO(asked["csv"]))]
        told = {"added": sum(new), "same": len(new) - sum(new)}
    elif parts[2] == "inspections":
        fields = parts[1], asked["number"], asked["day"], asked["clerk"], asked["text"]
        told = {"result": "added" if take(db, "inspection", fields) else "same"}
    else:
        told = step(db, int(parts[1]), parts[2], asked)
    db.execute("COMMIT")
    return told


def serve(source, sink, path=":memory:"):
    db = sqlite3.connect(path, isolation_level=None)
    db.executescript(PRAGMAS + SCHEMA)
    while line := source.readline():
        method, target, _version = line.split(b" ", 2)
        length = 0
        while (field := source.readline()) not in (b"\r\n", b""):
            name, value = field.split(b":", 1)
            if name.lower() == b"content-length":
                length = int(value)
        told = answer_to(db, method, target.split(b"?", 1)[0], source.read(length))
        body = json.dumps(told, separators=(",", ":"), sort_keys=True).encode()
        head = b"HTTP/1.1 200 OK\r\nContent-Type: application/json\r\nContent-Length: %d\r\n\r\n"
        sink.write(head % len(body) + body)


def overdue(path, day):
    """The report by one query."""
    rows = sqlite3.connect(path).execute(
        "SELECT id, name, max(day) + days FROM intersection LEFT JOIN inspection ON inter = id"
        " GROUP BY id HAVING max(day) IS NULL OR max(day) + days < ? ORDER BY id",
        ((datetime.date.fromisoformat(day) - EPOCH).days,),
    ).fetchall()
    lines = [f"Overdue on {day}"]
    for number, name, due in rows:
        shown = "never" if due is None else str(EPOCH + datetime.timedelta(days=due))
        lines.append(f"{number:4}  {shown:10}  {name}")
    print("\n".join([*lines, f"Count {len(rows)}"]))


def orders(path):
    """The open orders by one query."""
    rows = sqlite3.connect(path).execute(
        "SELECT id, name, number, opened, clerk, body FROM work_order JOIN intersection ON"
        " inter = id WHERE closed IS NULL ORDER BY id, number"
    )
    out = csv.writer(sys.stdout, lineterminator="\n")
    for number, name, order, opened, clerk, text in rows:
        out.writerow([number, name, order, EPOCH + datetime.timedelta(days=opened), clerk, text])


def check(path):
    told = sqlite3.connect(path).execute("PRAGMA integrity_check").fetchone()[0]
    if told != "ok":
        sys.exit(told)


def migrate(path):
    """Gives each phase row of 14 fields a lead of 0."""
    db, count = sqlite3.connect(path, isolation_level=None), 0
    db.execute("BEGIN")
    text = "SELECT inter, a, body FROM timing WHERE kind = 1"
    for inter, phase, body in db.execute(text).fetchall():
        if body.count(",") == 13:
            text = "UPDATE timing SET body = ? WHERE inter = ? AND kind = 1 AND a = ? AND b = 0"
            db.execute(text, (body + ",0", inter, phase))
            count += 1
    db.execute("UPDATE office_version SET version = 2")
    db.execute("COMMIT")
    print(f"migrated {count} rows")


if __name__ == "__main__":
    work, words = sys.argv[1], sys.argv[2:]
    if work == "serve":
        serve(sys.stdin.buffer, sys.stdout.buffer, *(it for it in words if it != "--checking"))
    else:
        {"overdue": overdue, "orders": orders, "open": check, "migrate": migrate}[work](*words)
