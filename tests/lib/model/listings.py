"""What an office holds, as texts in columns and as CSV."""
import datetime

from . import fields
from .letters import left
from .pages import next_number, tenths
from .plan import Pattern, Phase, Sequence, Split
from .register import records_of


def forms(text, names, records):
    """A list as lines, as CSV, and as CSV below the names of its fields."""
    return text, fields.write_csv(records), fields.write_csv([names, *records])


def counted(heading, lines):
    """Lines below their heading, and how many they are."""
    return "".join([heading, *lines, f"Count {len(lines)}\n"])


def intersections(office):
    """The list of the intersections, and its records."""
    held = sorted(office.intersections.items())
    lines = [f"{id:>6}{it.revision:>8}  {left(it.state, 11)}  {left(it.owner or '-', 12)}"
             f"{len(it.committed):>6}{it.interval:>6}  {it.name}\n" for id, it in held]
    records = [[id, it.revision, it.state, it.owner or "", len(it.committed), it.name, it.interval]
               for id, it in held]
    heading = "    No     Rev  State        Owner         Rows  Days  Name\n"
    names = ["id", "revision", "state", "owner", "rows", "name", "days"]
    return forms(counted(heading, lines), names, records)


def stock(office):
    """What is on hand, and its records."""
    held = office.register.stock()
    lines = [f"{it['count']:>10}  {it['part']}\n" for it in held]
    return forms(counted("     Count  Part\n", lines), ["part", "count"],
                 [[it["part"], it["count"]] for it in held])


def part(office, code):
    """What is on hand of a part, its deliveries and its uses."""
    came = sorted((number, it) for (of, number), it in office.register.deliveries.items()
                  if of == code)
    went = sorted((*key, it.count) for key, it in office.register.lines.items() if it.part == code)
    held = f"{office.register.on_hand(code)} on hand" if came else "never delivered"
    pieces = sum(it.count for _, it in came), sum(it[3] for it in went)
    return "".join([
        f"Part {code}: {held}\nnext free delivery number: {next_number(came)}\n",
        "Deliveries\n  Number  Day             Count\n",
        *(f"{number:>8}  {it.day}{it.count:>11}\n" for number, it in came),
        "Uses\n      No   Order  Line      Count\n",
        *(f"{id:>8}{order:>8}{line:>6}{count:>11}\n" for id, order, line, count in went),
        f"Count {len(came)} deliveries of {pieces[0]}, {len(went)} uses of {pieces[1]}\n"])


def open_orders(office, id):
    """The open orders of an intersection by number."""
    return [(number, it) for number, it in records_of(office.register.orders, id) if not it.closed]


def order_columns(id, number, it):
    """The first columns of an open order."""
    return f"{id:>6}{number:>8}  {it.opened}  {left(it.clerk, 12)}"


ORDER_NAMES = ["intersection", "name", "order", "opened", "clerk", "text"]


def named_orders(office, ids):
    """The open orders of intersections, each with its intersection's number and name."""
    named = [(id, office.find(id).name) for id in ids]
    return [(id, name, number, it) for id, name in named
            for number, it in open_orders(office, id)]


def order_record(id, name, number, it):
    """The record of an open order."""
    return [id, name, number, it.opened, it.clerk, it.text]


def named_line(id, name, number, it):
    """The line of an open order with the name of its intersection."""
    return f"{order_columns(id, number, it)}  {left(name, 24)}  {it.text}\n"


def orders(office):
    """The open orders of all with the names of their intersections, and their records."""
    held = named_orders(office, sorted(office.intersections))
    heading = "    No   Order  Opened      Clerk         Name                      Text\n"
    return forms(counted(heading, [named_line(*it) for it in held]), ORDER_NAMES,
                 [order_record(*it) for it in held])


def days_to(day, opened):
    """The days from one to another."""
    return (datetime.date.fromisoformat(day) - datetime.date.fromisoformat(opened)).days


def orders_by_age(office, day, id=None):
    """The open orders of one intersection or of all that were opened on a day or before, the oldest
    first, with their age on that day."""
    ids = sorted(office.intersections) if id is None else [id]
    held = sorted((it for it in named_orders(office, ids) if it[3].opened <= day),
                  key=lambda it: it[3].opened)
    aged = [(days_to(day, it[3].opened), it) for it in held]
    heading = "   Age    No   Order  Opened      Clerk         Name                      Text\n"
    return forms(counted(heading, [f"{age:>6}{named_line(*it)}" for age, it in aged]),
                 ["age", *ORDER_NAMES], [[age, *order_record(*it)] for age, it in aged])


def orders_of(office, id):
    """The open orders of an intersection."""
    lines = [f"{order_columns(id, number, it)}  {it.text}\n"
             for number, it in open_orders(office, id)]
    return counted("    No   Order  Opened      Clerk         Text\n", lines)


def all_orders_of(office, id):
    """The open orders of an intersection, and their records, which have its name too."""
    return forms(orders_of(office, id), ORDER_NAMES,
                 [order_record(*it) for it in named_orders(office, [id])])


def day_of_use(order):
    """The day of what was used for an order: that of its closing, or of its opening while it is
    open."""
    return order.closed or order.opened


def used(office, code=None, between=None):
    """What was used, of a part if one is named, and between two days if they are given; how much of
    each part; and the records."""
    held = [(id, number, order, line, it) for id in sorted(office.intersections)
            for number, order in records_of(office.register.orders, id)
            for line, it in office.register.used_for(id, number) if code in (None, it.part)
            if between is None or between[0] <= day_of_use(order) <= between[1]]
    totals = {it.part: 0 for *_, it in held}
    for *_, it in held:
        totals[it.part] += it.count
    lines = [f"{left(it.part, 20)}{id:>6}{number:>8}  {order.opened}{line:>7}{it.count:>8}"
             f"  {order.clerk}\n" for id, number, order, line, it in held]
    records = [[it.part, id, number, order.opened, line, it.count, order.clerk]
               for id, number, order, line, it in held]
    heading = "Part                    No   Order  Opened       Line   Count  Clerk\n"
    names = ["part", "intersection", "order", "opened", "line", "count", "clerk"]
    sums = [f"{total:>10}  {name}\n" for name, total in sorted(totals.items())]
    text = "".join([heading, *lines, "     Total  Part\n", *sums, f"Count {len(lines)}\n"])
    return forms(text, names, records)


def deeds(office, id):
    """What was done in a cabinet: inspections, then of each order its opening, its used parts and
    its closing. Each has its day, what it is, its number, a line, a part and pieces, who did it,
    and a text."""
    for number, it in records_of(office.register.inspections, id):
        yield it.day, "inspected", number, "", "", "", it.clerk, it.text
    for number, it in records_of(office.register.orders, id):
        yield it.opened, "opened", number, "", "", "", it.clerk, it.text
        for line, one in office.register.used_for(id, number):
            yield (day_of_use(it), "used", number, line, one.part, one.count,
                   it.closer or it.clerk, "")
        if it.closed:
            yield it.closed, "closed", number, "", "", "", it.closer, it.text


def work(office, first, last):
    """What was done on the days from one to another, by day."""
    held = sorted(((day, id, *of) for id in sorted(office.intersections)
                   for day, *of in deeds(office, id) if first <= day <= last),
                  key=lambda it: it[0])
    lines = [f"{day}{id:>6}  {left(what, 9)}{number:>8}  {left(clerk, 12)}  {left(code or '-', 20)}"
             f"{count:>8}  {text or '-'}\n"
             for day, id, what, number, line, code, count, clerk, text in held]
    heading = ("Day           No  What       Number  Clerk         Part                   Count"
               "  Text\n")
    names = ["day", "intersection", "what", "number", "line", "part", "count", "clerk", "text"]
    return forms(counted(heading, lines), names, [[*it] for it in held])


def record(number, day, clerk, text):
    """The line of an inspection, or of what opened an order."""
    return f"{number:>6}  {day}  {left(clerk, 12)}  {text}\n"


def order_lines(office, id, number, it):
    """An order, its used parts and its closing."""
    yield record(number, it.opened, it.clerk, it.text)
    for line, used_part in office.register.used_for(id, number):
        yield (f"           used{line:>7}  {left(used_part.part, 20)}{used_part.count:>8}\n")
    if it.closed:
        yield f"         closed  {it.closed}  {it.closer}\n"


def cabinet(office, id):
    """The register of a cabinet."""
    it, register = office.find(id), office.register
    seen, orders_there = records_of(register.inspections, id), records_of(register.orders, id)
    due = register.due(id, it.interval)
    heading = "    No  Day         Clerk         Text\n"
    return "".join([
        f"Cabinet {id}: {it.name}\nInterval {it.interval} days\n",
        f"Next inspection due {due}\n" if due else "Never inspected\n",
        f"next free numbers: inspection {next_number(seen)}, order {next_number(orders_there)}\n",
        f"Inspections\n{heading}", *(record(number, *of) for number, of in seen),
        f"Orders\n{heading}",
        *(line for number, of in orders_there for line in order_lines(office, id, number, of)),
        f"Count {len(seen)} inspections, {len(orders_there)} orders, "
        f"{len(open_orders(office, id))} open\n"])


def overdue(office, day, most=9_999):
    """The overdue on a day, at most so many, and their records."""
    held = office.overdue(day)["overdue"][:most]
    lines = [f"{it['id']:>4}  {it['due'] or 'never':10}  {it['name']}\n" for it in held]
    return forms(counted(f"Overdue on {day}\n", lines), ["id", "name", "due"],
                 [[it["id"], it["name"], it["due"] or ""] for it in held])


def right(*values):
    """Each at the right of six places."""
    return "".join(f"{it:>6}" for it in values)


def numbers(phases):
    """Numbers, each behind a space, or a dash."""
    return "".join(f" {it}" for it in phases) or " -"


def sheet_line(row):
    """The line of a row of a plan."""
    if isinstance(row, Sequence):
        return right(row.number, row.ring) + numbers(row.phases)
    if not isinstance(row, Phase):
        return right(*row)
    crossing = ["-"] * 6
    if row.walk is not None:
        crossing = [row.walk, row.clear, tenths(row.width), tenths(row.setback), row.short,
                    row.lead]
    return right(row.number, row.ring, row.min_green, tenths(row.passage), row.max1,
                 tenths(row.yellow), tenths(row.red), *crossing) + numbers(row.mates)


SECTIONS = {
    "Phases": (Phase, "    No  Ring   Min  Pass   Max   Yel   Red  Walk Clear Width Setbk Short"
                      "  Lead Mates"),
    "Sequences": (Sequence, "    No  Ring Phases"),
    "Splits": (Split, "    No Phase  Time  Mode Coord"),
    "Patterns": (Pattern, "    No Cycle  Offs Split   Seq"),
}


def sheet(office, id):
    """The timing sheet of the committed plan."""
    it = office.find(id)
    lines = [f"Intersection {id}: {it.name}", f"Revision {it.revision}"]
    for name, (kind, heading) in SECTIONS.items():
        rows = [row for _, row in sorted(it.committed.items()) if isinstance(row, kind)]
        lines += [name, heading, *map(sheet_line, rows)]
    return "".join(f"{it}\n" for it in lines)
