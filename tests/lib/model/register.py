"""The cabinet register: four maps, from the records' own keys to what was written down. Records are
added and never changed, but that an order is closed once; an equal one is the same again."""
import dataclasses
import datetime
import typing

from . import fields
from .fields import CLERK, COUNT, DAY, ID, LINE, NOTE, PART, RECORD
from .refusal import Refused, RowFault

MOST_ON_HAND = 999_999_999
NOTED = ("id", ID), ("number", RECORD), ("day", DAY), ("clerk", CLERK), ("text", NOTE)
# The rows of records, each with its command's name.
FORMS = {
    "inspection": ("inspect", NOTED),
    "order": ("open_order", NOTED),
    "use": ("use_part", (
        ("id", ID), ("order", RECORD), ("line", LINE), ("part", PART), ("count", COUNT))),
    "close": ("close_order", (("id", ID), ("order", RECORD), ("day", DAY), ("clerk", CLERK))),
    "delivery": ("receive", (("part", PART), ("number", RECORD), ("day", DAY), ("count", COUNT))),
}


class Inspection(typing.NamedTuple):
    """What a clerk found on a day."""

    day: str
    clerk: str
    text: str


class Order(typing.NamedTuple):
    """Work that a clerk wants done; its closing has both parts, or none."""

    opened: str
    clerk: str
    text: str
    closed: str | None = None
    closer: str | None = None


class Line(typing.NamedTuple):
    """Pieces of a part that were used for an order."""

    part: str
    count: int


class Delivery(typing.NamedTuple):
    """Pieces of a part that came on a day."""

    day: str
    count: int


def read_record(row):
    """The command that a row of a record file asks for, with its values by name."""
    kind, *rest = row
    if kind not in FORMS:
        raise RowFault("Kind")
    name, form = FORMS[kind]
    if len(rest) != len(form):
        raise RowFault("Count")
    values = fields.read_fields(rest, [it for _, it in form], 2)
    return name, dict(zip([it for it, _ in form], values))


def is_there(records, key, asked, number):
    """Whether an equal record is there; for another one this is the refusal."""
    if records.get(key, asked) != asked:
        raise Refused(number)
    return key in records


def records_of(records, id):
    """The inspections, or the orders, of an intersection by number."""
    return sorted((number, it) for (at, number), it in records.items() if at == id)


@dataclasses.dataclass
class Register:
    """Inspections and orders by (id, number), used lines by (id, order, line), deliveries by (part,
    number). Each command tells whether it added something."""

    inspections: dict = dataclasses.field(default_factory=dict)
    orders: dict = dataclasses.field(default_factory=dict)
    lines: dict = dataclasses.field(default_factory=dict)
    deliveries: dict = dataclasses.field(default_factory=dict)

    def copy(self):
        """Another one with the same records."""
        return Register(*map(dict, vars(self).values()))

    def on_hand(self, part):
        """The deliveries of a part less what was used of it, for all orders."""
        came = sum(it.count for (name, _), it in self.deliveries.items() if name == part)
        return came - sum(it.count for it in self.lines.values() if it.part == part)

    def inspect(self, id, number, day, clerk, text):
        """Another inspection under the number: 20."""
        asked = Inspection(day, clerk, text)
        if is_there(self.inspections, (id, number), asked, 20):
            return False
        self.inspections[id, number] = asked
        return True

    def open_order(self, id, number, day, clerk, text):
        """An equal order, open or closed, is the same; another one: 21."""
        asked, there = Order(day, clerk, text), self.orders.get((id, number))
        if there is None:
            self.orders[id, number] = asked
        elif there[:3] != asked[:3]:
            raise Refused(21)
        return there is None

    def use_part(self, id, order, line, part, count):
        """Another line: 28. No such order: 22, a closed one: 23. Fewer pieces on hand: 25."""
        asked = Line(part, count)
        if is_there(self.lines, (id, order, line), asked, 28):
            return False
        if (id, order) not in self.orders:
            raise Refused(22)
        if self.orders[id, order].closed:
            raise Refused(23)
        if self.on_hand(part) < count:
            raise Refused(25)
        self.lines[id, order, line] = asked
        return True

    def close_order(self, id, order, day, clerk):
        """No such order: 22. Closed otherwise: 29. A day before the opening: 24."""
        there = self.orders.get((id, order))
        if there is None:
            raise Refused(22)
        if there.closed:
            if (there.closed, there.closer) != (day, clerk):
                raise Refused(29)
            return False
        if day < there.opened:
            raise Refused(24)
        self.orders[id, order] = there._replace(closed=day, closer=clerk)
        return True

    def receive(self, part, number, day, count):
        """Another delivery: 27. More on hand than can be: 26."""
        asked = Delivery(day, count)
        if is_there(self.deliveries, (part, number), asked, 27):
            return False
        if self.on_hand(part) + count > MOST_ON_HAND:
            raise Refused(26)
        self.deliveries[part, number] = asked
        return True

    def used_for(self, id, order):
        """The lines of an order by number."""
        return sorted((line, it) for (of, number, line), it in self.lines.items()
                      if (of, number) == (id, order))

    def stock(self):
        """What is on hand of each part that ever came, by the bytes of its code."""
        return [{"count": self.on_hand(part), "part": part}
                for part in sorted({part for part, _ in self.deliveries})]

    def due(self, id, interval):
        """The interval after the latest inspection day; none where there was no inspection."""
        days = [it.day for _, it in records_of(self.inspections, id)]
        return due_after(max(days), interval) if days else None


def due_after(day, interval):
    """So many days later, which may lie past the last day of a record."""
    later = datetime.date.fromisoformat(day) + datetime.timedelta(interval)
    return later.isoformat()
