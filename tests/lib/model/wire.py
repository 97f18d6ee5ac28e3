"""A request read as a command by the table of routes, and its answer to the letter."""
import itertools
import json
import math
import re

from . import fields
from .fields import Text
from .office import Office, result
from .plan import read_change
from .refusal import Refused, RowFault, text_of
from .register import read_record

DEEPEST = 127  # objects and arrays of a body within one another


class Rows:
    """An array of arrays of texts."""

    @staticmethod
    def is_one(value):
        """Whether a value of JSON is one."""
        return isinstance(value, list) and all(
            isinstance(row, list) and all(isinstance(it, str) for it in row) for row in value)


KINDS = {
    "id": fields.ID, "interval": fields.INTERVAL, "name": fields.NAME, "clerk": fields.CLERK,
    "text": fields.NOTE, "number": fields.RECORD, "order": fields.RECORD, "line": fields.LINE,
    "count": fields.COUNT, "day": fields.DAY, "part": fields.PART, "rows": Rows,
    "csv": Text(lambda text: True),
}


def read_each(read, rows):
    """What rows spell; the first that spells nothing is told by its number from 1."""
    found = []
    for at, row in enumerate(rows, 1):
        try:
            found.append(read(row))
        except RowFault as it:
            raise Refused(31, fault=it.name, field=it.field, record=at) from None
    return found


def edit(office, id, clerk, rows):
    """Rows as arrays of texts."""
    return office.edit(id, clerk, read_each(read_change, rows))


def edit_csv(office, id, clerk, csv):
    """Rows as a CSV text."""
    return edit(office, id, clerk, fields.read_csv(csv))


def take_import(office, csv):
    """Records as a CSV text."""
    return office.take(read_each(read_record, fields.read_csv(csv)))


def step(name):
    """A step that changes nothing but the state."""
    return lambda office, **values: office.step(name, **values)


def record(name):
    """One record."""
    return lambda office, **values: result(office.record(name, values))


AT = "/intersections/{id}"
# Method, path, keys of the body, and what is done.
ROUTES = (
    ("POST", "/intersections", "id interval name", Office.add),
    ("GET", AT, "", Office.state),
    ("GET", AT + "/timing", "", Office.timing),
    ("GET", AT + "/timing-csv", "", Office.timing_csv),
    ("GET", AT + "/draft", "", Office.draft),
    ("GET", AT + "/cabinet", "", Office.cabinet),
    ("GET", AT + "/cabinet-csv", "", Office.cabinet_csv),
    ("GET", AT + "/open-orders", "", Office.open_orders),
    ("POST", AT + "/begin", "clerk", Office.begin),
    ("POST", AT + "/edit", "clerk rows", edit),
    ("POST", AT + "/edit-csv", "clerk csv", edit_csv),
    ("POST", AT + "/verify", "clerk", step("verify")),
    ("POST", AT + "/check", "clerk", step("check")),
    ("POST", AT + "/commit", "clerk", Office.commit),
    ("POST", AT + "/reopen", "clerk", step("reopen")),
    ("POST", AT + "/abandon", "clerk", Office.abandon),
    ("POST", AT + "/inspections", "clerk day number text", record("inspect")),
    ("POST", AT + "/orders", "clerk day number text", record("open_order")),
    ("POST", AT + "/orders/{order}/parts", "count line part", record("use_part")),
    ("POST", AT + "/orders/{order}/close", "clerk day", record("close_order")),
    ("POST", "/deliveries", "count day number part", record("receive")),
    ("POST", "/import", "csv", take_import),
    ("GET", "/stock", "", Office.stock),
    ("GET", "/overdue/{day}", "", Office.overdue),
)


def matches(route, path):
    """The parts of a path that stand in the places of names; none where it is another path."""
    names, parts = route.split("/"), path.split("/")
    pairs = list(zip(names, parts))
    if len(names) != len(parts) or not all(
            part if name[:1] == "{" else part == name for name, part in pairs):
        return None
    return {name.strip("{}"): part for name, part in pairs if name[:1] == "{"}


def find(method, path):
    """The route of a path: 6 where none has it, 7 where it has another method."""
    found = [(route, parts) for route in ROUTES
             if (parts := matches(route[1], path)) is not None]
    if not found:
        raise Refused(6)
    route, parts = found[0]
    if route[0] != method:
        raise Refused(7)
    return route, parts


def read_part(name, text):
    """The value of a part of the path, or 9."""
    try:
        return KINDS[name].read(text, 0)
    except RowFault:
        raise Refused(9, field=name) from None


def depth(text):
    """How many objects and arrays stand within one another."""
    brackets = re.sub(r'"(?:[^"\\]|\\.)*"|[^\[\]{}]', "", text, flags=re.DOTALL)
    steps = (1 if it in "[{" else -1 for it in brackets)
    return max(itertools.accumulate(steps), default=0)


def whole(text):
    """A number of JSON: of digits alone a whole one; one too large for a float is none."""
    if not math.isfinite(float(text)):
        raise ValueError(text)
    return int(text) if text.isdigit() else float(text)


def no_half(pairs):
    """An object, of two equal keys the last one; a half of a pair of code units is no JSON."""
    json.dumps(pairs, ensure_ascii=False).encode()
    return dict(pairs)


def read_body(body):
    """The one JSON object of a body, or 8."""
    try:
        text = body.decode()
        if depth(text) > DEEPEST:
            raise ValueError(text)
        tree = json.loads(text, parse_int=whole, parse_float=whole, parse_constant=whole,
                          object_pairs_hook=no_half)
    except ValueError:
        raise Refused(8) from None
    if not isinstance(tree, dict):
        raise Refused(8)
    return tree


def read_key(name, tree):
    """The value of a key, or 9."""
    if name not in tree or not KINDS[name].is_one(tree[name]):
        raise Refused(9, field=name)
    return tree[name]


def done(office, method, target, body):
    """The tree that a request is answered: the first fault in the order route, method, fields of
    the path from the left, JSON, keys by ascending name, rows; then the command."""
    (_, _, keys, do), parts = find(method, target.partition("?")[0])
    values = {name: read_part(name, text) for name, text in parts.items()}
    if method == "POST":
        tree = read_body(body)
        values |= {name: read_key(name, tree) for name in sorted(keys.split())}
    return do(office, **values)


def answer(office, method, target, body=b""):
    """What a request is answered: its status, and its body as text."""
    try:
        return "200 OK", text_of(done(office, method, target, body))
    except Refused as refused:
        return refused.status(), refused.text()


def answer_bytes(status, text):
    """An answer with its head."""
    head = f"HTTP/1.1 {status}\r\nContent-Type: application/json\r\n"
    return f"{head}Content-Length: {len(text.encode())}\r\n\r\n{text}".encode()


UNAVAILABLE = answer_bytes("503 Service Unavailable", '{"error":"Unavailable","number":90}')
