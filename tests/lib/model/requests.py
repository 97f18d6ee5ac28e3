"""Requests that are drawn, in themes. Each looks at the office as it stands, so that what is asked
leads somewhere; so the office answers one request before the next is drawn.

A request is its method, its target, and its body: an object, a text that may be none, or nothing.
"""
import csv
import datetime
import io
import itertools

from .planning import BASE, CHANGES, draw_changes, draw_plan, texts
from .refusal import text_of

CLERKS = ("Ana", "Ana", "Ana", "Bo")
LEADING = {
    "normal": ("begin",), "transaction": ("edit", "edit-csv", "verify"), "verify": ("check",),
    "done": ("commit", "commit", "reopen"),
}
STEPS = ("begin", "edit", "edit-csv", "verify", "check", "commit", "reopen", "abandon")
SHOWN = ("", "/timing", "/timing-csv", "/draft", "/draft")
REGISTER = ("/cabinet", "/cabinet-csv", "/open-orders")
NOTES = ("Checked", "Fan, filter", 'Lamp "B"', "\u00c4 / \\ \U0001f6a6")
LONG_AGO, LAST = datetime.date(1970, 1, 1), datetime.date(2199, 12, 31)


def get(target):
    """A request that shows something."""
    return "GET", target, None


def post(target, **keys):
    """A request with these keys."""
    return "POST", target, keys


def add(id, name="Main St", interval=365):
    """An intersection is added."""
    return post("/intersections", id=id, interval=interval, name=name)


def spell_csv(dice, rows):
    """A CSV text of rows, as plain as can be or with more quotes, line ends and empty lines."""
    text, is_plain = io.StringIO(newline=""), dice.random() < 0.8
    quoting = csv.QUOTE_MINIMAL if is_plain else csv.QUOTE_ALL
    csv.writer(text, lineterminator="\n" if is_plain else "\r\n", quoting=quoting).writerows(rows)
    return text.getvalue() if is_plain else "\n" + text.getvalue().removesuffix("\r\n")


def step(dice, id, name, clerk, rows):
    """A step of the transaction; an edit changes these rows."""
    keys = {"clerk": clerk}
    if name == "edit":
        keys["rows"] = rows
    elif name == "edit-csv":
        keys["csv"] = spell_csv(dice, rows)
    return post(f"/intersections/{id}/{name}", **keys)


def draw_edit(dice):
    """All of a plan, or some changes of it."""
    if dice.random() < 0.4:
        return BASE
    return [dice.choice(CHANGES) for _ in range(dice.choice((1, 1, 2)))]


def transactions(dice, office):
    """Two clerks hold drafts of three intersections, and mostly take the step that leads on."""
    yield add(1)
    while True:
        id, luck = dice.choice((1, 1, 1, 2, 2, 3)), dice.random()
        there = office.intersections.get(id)
        if luck < 0.03:
            yield add(id, dice.choice(("Main St", "Main St", "Oak St")))
        elif luck < 0.2:
            yield get(f"/intersections/{id}{dice.choice(SHOWN)}")
        elif there and luck < 0.7:
            clerk, names = there.owner or dice.choice(CLERKS), LEADING[there.state]
            yield step(dice, id, dice.choice(names), clerk, draw_edit(dice))
        else:
            yield step(dice, id, dice.choice(STEPS), dice.choice(CLERKS), draw_edit(dice))


def transaction(dice, office, id, changes, rows):
    """A clerk changes the draft, which is shown and committed; where it breaks a rule it is
    dropped, or mended by these rows and then committed."""
    clerk, edit = dice.choice(CLERKS), dice.choice(("edit", "edit-csv"))
    yield step(dice, id, "begin", clerk, ())
    yield step(dice, id, edit, clerk, changes)
    yield get(f"/intersections/{id}/draft")
    for name in ("verify", "check", "commit"):
        yield step(dice, id, name, clerk, ())
    if office.intersections[id].state == "done":
        yield get(f"/intersections/{id}")
        yield step(dice, id, dice.choice(("reopen", "abandon")), clerk, ())
    if office.intersections[id].state == "transaction":
        yield step(dice, id, edit, clerk, rows)
        for name in ("verify", "check", "commit"):
            yield step(dice, id, name, clerk, ())


def plans(dice, office):
    """Plans that mostly break no rule, often just, and changes of them, of which many break one."""
    for id in itertools.cycle(range(101, 200)):
        rows = draw_plan(dice)
        yield add(id)
        if id in office.intersections and office.intersections[id].state == "normal":
            yield from transaction(dice, office, id, rows, rows)
            yield from transaction(dice, office, id, draw_changes(dice, rows), rows)
            yield get(f"/intersections/{id}/{dice.choice(('timing', 'timing-csv'))}")


def draw_record(dice, orders, most):
    """A record as its fields, of few intersections, numbers, days and parts. A part is used, and
    closed is an order, mostly of these."""
    id, number = dice.choice((1, 1, 1, 2, 2, 3)), dice.randint(1, most)
    day, clerk = f"2026-05-0{dice.randint(1, 4)}", dice.choice(CLERKS)
    part, count = dice.choice(("LAMP", "RELAY")), dice.choice((1, 2, 3, 3, 10, 10, 999_999_999))
    kind = dice.choice(("inspection", "order", "order", "use", "use", "close", "delivery"))
    if kind in ("use", "close") and orders and dice.random() < 0.8:
        id, number = dice.choice(orders)
    return texts(kind, *{
        "inspection": (id, number, day, clerk, dice.choice(NOTES)),
        "order": (id, number, day, clerk, dice.choice(NOTES)),
        "use": (id, number, dice.randint(1, 3), part, count),
        "close": (id, number, day, clerk),
        "delivery": (part, number, day, count),
    }[kind])


def record_request(row):
    """The request that asks for a record by itself."""
    kind, *rest = row
    values = [int(it) if it.isdigit() else it for it in rest]
    if kind == "delivery":
        part, number, day, count = values
        return post("/deliveries", count=count, day=day, number=number, part=part)
    id, number, *values = values
    at = f"/intersections/{id}"
    if kind == "use":
        return post(f"{at}/orders/{number}/parts", **dict(zip(("line", "part", "count"), values)))
    if kind == "close":
        return post(f"{at}/orders/{number}/close", **dict(zip(("day", "clerk"), values)))
    target = at + ("/inspections" if kind == "inspection" else "/orders")
    return post(target, number=number, **dict(zip(("day", "clerk", "text"), values)))


def registers(dice, office):
    """Records by themselves and in imports, some sent again, and what the register shows."""
    sent = [add(1)]
    yield sent[0]
    while True:
        most, luck = min(3 + len(sent) // 20, 40), dice.random()
        orders = sorted(office.register.orders)
        if luck < 0.03:
            yield add(dice.randint(1, 3))
        elif luck < 0.1:
            yield get(f"/intersections/{dice.choice((1, 1, 2, 3))}{dice.choice(REGISTER)}")
        elif luck < 0.15:
            yield get(dice.choice(("/stock", "/overdue/2027-05-03")))
        elif luck < 0.25:
            yield dice.choice(sent[-30:])
        elif luck < 0.4:
            records = [draw_record(dice, orders, most) for _ in range(dice.choice((1, 2, 2, 4)))]
            sent.append(post("/import", csv=spell_csv(dice, records)))
            yield sent[-1]
        else:
            sent.append(record_request(draw_record(dice, orders, most)))
            yield sent[-1]


def draw_day(dice):
    """A day that a record may have, often the last one of a month, or of all."""
    first = datetime.date(dice.randint(1970, 2199), dice.randint(1, 12), 1)
    after = first + datetime.timedelta(40)
    end = after - datetime.timedelta(after.day)
    return dice.choice((first, end, end, LONG_AGO, LAST, first + datetime.timedelta(11)))


def days(dice, office):
    """Inspections on days of all years, and what is overdue on the days about the due one. At the
    end one on the last day of all, after which nothing is overdue any more."""
    for id in itertools.cycle(range(201, 9_999)):
        interval, latest = dice.choice((1, 28, 365, 366, 3_650)), LONG_AGO
        yield add(id, f"No {id}", interval)
        yield get(f"/overdue/{draw_day(dice)}")
        for number in range(1, dice.choice((2, 2, 4))):
            day = draw_day(dice)
            latest = max(day, latest)
            yield record_request(texts("inspection", id, number, day, "Ana", "Checked"))
            for after in sorted({0, dice.choice((0, 1))}):
                asked = latest + datetime.timedelta(interval + after)
                yield get(f"/overdue/{min(asked, LAST)}")
        yield record_request(texts("inspection", id, 9, LAST, "Bo", "Closed"))


BAD_NUMBERS = ("0", "1", "8", "33", "256", "10000", "1000000", "9" * 21, "01", "-1", "+1", "x", "")
BAD_TEXTS = ("", "2  4", "2 2", "2 33", "2026-02-29", "2200-01-01", "relay", "A\tB", "A" * 41, "1")
BAD_VALUES = (None, True, -1, 0, 1.5, 1e9, 10 ** 20, "", "1", "x", "A\tB", "A" * 501, [], {}, [[1]])
BAD_PARTS = ("0", "01", "10000", "1000000", "x", "+1", "9" * 20, "2026-02-29", "1970-1-1", "%31")


def spoil_row(dice, row):
    """A row with one field more, or less, or of which one is another text, mostly a late one."""
    at, luck = max(dice.randrange(len(row)), dice.randrange(len(row))), dice.random()
    if luck < 0.15:
        return [*row[:at], *row[at + 1:]]
    if luck < 0.3:
        return [*row, dice.choice(("", "1"))]
    bad = BAD_NUMBERS if row[at].isdigit() else BAD_TEXTS
    return [*row[:at], dice.choice(bad), *row[at + 1:]]


def spoil_rows(dice):
    """An edit or an import in which a row spells nothing, perhaps."""
    name = dice.choice(("edit", "edit-csv", "import"))
    if name == "import":
        rows = [draw_record(dice, (), 3) for _ in range(dice.choice((1, 1, 3)))]
        rows.append(spoil_row(dice, rows.pop()))
        return post("/import", csv=spell_csv(dice, rows))
    rows = [dice.choice(CHANGES), spoil_row(dice, dice.choice(BASE + CHANGES))]
    return step(dice, 1, name, "Ana", rows[dice.randint(0, 1):])


def spoil_target(dice, target):
    """Another path."""
    parts = target.split("/")
    at, luck = dice.randrange(1, len(parts)), dice.random()
    if luck < 0.6:
        parts[at] = dice.choice(BAD_PARTS)
    elif luck < 0.8:
        parts.insert(at, dice.choice((parts[at], "")))
    else:
        parts[at] = parts[at].upper()
    return "/".join(parts)


def spoil_text(dice, text):
    """A text that is hardly one object any more; one of 127 within one another still is."""
    at, deep = dice.randrange(1, len(text)), dice.choice((126, 127))
    return dice.choice((
        text[:at], f"[{text}]", text + text, text[:at] + text[at + 1:], f"{text},", f" {text}",
        text.replace(":", ":0", 1), text.replace(":", ":-", 1), text.replace('"', "'"),
        f'{{"more":{"[" * deep}{"]" * deep},{text[1:]}', f'{{"more":1e{deep * 3},{text[1:]}',
    ))


def spoil_keys(dice, keys):
    """One key less, or of another value."""
    name = dice.choice(sorted(keys))
    if dice.random() < 0.2:
        return {it: value for it, value in keys.items() if it != name}
    return {**keys, name: dice.choice(BAD_VALUES)}


def faults(dice, office):
    """Requests of which one thing is not as it must be: route, method, path, JSON, a key, a row."""
    right = [plans(dice, office), registers(dice, office), registers(dice, office)]
    yield add(1)
    for method, target, keys in map(next, itertools.cycle(right)):
        luck = dice.random()
        if luck < 0.3:
            yield spoil_rows(dice)
        elif luck < 0.45:
            yield method, spoil_target(dice, target), keys
        elif luck < 0.5:
            yield dice.choice(("GET", "POST", "PUT", "DELETE")), target, keys
        elif keys and luck < 0.65:
            yield method, target, spoil_text(dice, body_of(keys))
        elif keys:
            yield method, target, spoil_keys(dice, keys)


def long(dice, office):
    """Imports of 1,001 and 4,000 records, of which the first are the same then, and an edit of
    3,000 rows, which come back to the same keys."""
    yield add(1)
    for count in (1_001, 4_000):
        records = [texts("delivery", "LAMP", it, "2026-05-01", 1) for it in range(1, count + 1)]
        yield post("/import", csv=spell_csv(dice, records))
    yield get("/stock")
    yield step(dice, 1, "begin", "Ana", ())
    rows = [texts("split", it % 20 + 1, it % 32 + 1, it % 256, 2, 0) for it in range(3_000)]
    yield step(dice, 1, "edit", "Ana", rows)
    yield get("/intersections/1/draft")


def body_of(keys):
    """The text of a body: compact JSON with its keys in order, or a text as it is."""
    if keys is None or isinstance(keys, str):
        return keys
    return text_of(keys)


def mixed(dice, office):
    """All themes, one request of each after one of any other."""
    themes = [theme(dice, office) for theme in (transactions, plans, registers, days, faults)]
    while True:
        yield next(dice.choice(themes))
