"""An office as the rows of its tables, of today's version or of version 1 (docs/FILE-FORMAT.md)."""
import datetime

from .plan import Phase, spelled
from .rules import violations

STATES = ("normal", "transaction", "verify", "done")
TABLES = ("intersection", "timing", "draft", "inspection", "work_order", "part", "delivery",
          "used_part")
TODAY = 2


def day(text):
    """The number of a day, counted from the first one; none where there is no day."""
    return text and (datetime.date.fromisoformat(text) - datetime.date(1970, 1, 1)).days


def is_widened(row):
    """Whether version 1 spelled a row otherwise: it had no lead."""
    return isinstance(row, Phase) and row.lead is not None


def is_old(row):
    """Whether version 1 had such a row, but for its lead: it had 16 phases and 4 rings."""
    phases = (*getattr(row, "phases", ()), *getattr(row, "mates", ()), getattr(row, "phase", 0))
    number = row.number if isinstance(row, Phase) else 0
    return max(number, *phases) <= 16 and getattr(row, "ring", 1) <= 4


def aged(plan):
    """The rows of a plan that version 1 had, each without its lead."""
    return {key: row._replace(lead=0) if is_widened(row) else row
            for key, row in plan.items() if is_old(row)}


def age(office):
    """Makes the plans of an office such as version 1 had."""
    for it in office.intersections.values():
        plan = aged(it.committed)
        it.committed = {} if violations(plan) else plan
        it.draft = None if it.draft is None else aged(it.draft)


def timing_row(id, key, row, version):
    """A row of a plan, or its removal."""
    kind, a, b = (key[0] + 1, *key[1:], 0)[:3]
    if row is None:
        return id, kind, a, b, None
    texts = spelled(key, row)
    return id, kind, a, b, ",".join(texts[:-1] if version == 1 and is_widened(row) else texts)


def changed(it):
    """The rows of a draft that differ from the committed ones, with nothing for a removal."""
    draft = it.committed if it.draft is None else it.draft
    keys = sorted({*draft, *it.committed})
    return [(key, draft.get(key)) for key in keys if draft.get(key) != it.committed.get(key)]


def rows(office, version=TODAY):
    """The rows of each table in the order of their keys."""
    offices, register = sorted(office.intersections.items()), office.register
    committed = [(id, *row) for id, it in offices for row in sorted(it.committed.items())]
    drafted = [(id, *row) for id, it in offices for row in changed(it)]
    return dict(zip(TABLES, (
        [(id, it.name, it.interval, it.revision, STATES.index(it.state), it.owner)
         for id, it in offices],
        [timing_row(*it, version) for it in committed],
        [timing_row(*it, version) for it in drafted],
        [(*key, day(it.day), *it[1:]) for key, it in sorted(register.inspections.items())],
        [(*key, day(it.opened), it.clerk, it.text, day(it.closed), it.closer)
         for key, it in sorted(register.orders.items())],
        [(it["part"], it["count"]) for it in register.stock()],
        [(*key, day(it.day), it.count) for key, it in sorted(register.deliveries.items())],
        [(*key, *it) for key, it in sorted(register.lines.items())],
    )))


def widened(office):
    """How many rows version 1 spelled otherwise."""
    plans = [row for it in office.intersections.values()
             for row in (*it.committed.values(), *dict(changed(it)).values())]
    return sum(map(is_widened, plans))


def put(db, office, version):
    """Fills the tables of an empty office, in a database of Python's."""
    db.execute("UPDATE office_version SET version = ?", (version,))
    for table, of in rows(office, version).items():
        for row in of:
            db.execute(f"INSERT INTO {table} VALUES ({', '.join('?' * len(row))})", row)


def found(db):
    """The version and the rows of a database of Python's, as `rows` gives them."""
    version, = db.execute("SELECT version FROM office_version").fetchone()
    return version, {it: sorted(db.execute(f"SELECT * FROM {it}")) for it in TABLES}
