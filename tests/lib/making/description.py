"""The description of the HTTP interface, in OpenAPI 3.1, of the second office's tables."""
import itertools
import re
import sys

import version
from model import fields
from model.refusal import NAMES, STATUSES
from model.wire import DEEPEST, KINDS, ROUTES, Rows

MORE_NAMES = {90: "Unavailable", 91: "Damaged"}
MORE_STATUSES = {"503 Service Unavailable": {90}, "500 Internal Server Error": {91}}
ALL_NAMES = {**NAMES, **MORE_NAMES}
ALL_STATUSES = {**STATUSES, **MORE_STATUSES}
FRAMING = (1, 2, 3, 4, 5)
ALONE = {  # the refusals that often are the only one of their status
    4: "The body is longer than 262144 bytes", 5: "There is a Transfer-Encoding",
    6: "No route has this path", 7: "The route has another method",
    10: "There is no such intersection", 90: "Memory or the database refused",
    91: "A stored row that was read is damaged"}
ROW_FAULTS = ("Count", "Day", "Kind", "List", "Mode", "Number", "Range", "Text")
CONTROL = "^[^\\u0000-\\u001f\\u007f]*$"
FORMS = {fields.CLERK: "", fields.NAME: "", fields.NOTE: "", fields.PART: "^[A-Z0-9-]*$"}


def whole(least=0, most=None):
    """A whole number of a range."""
    limit = {} if most is None else {"maximum": most}
    return {"type": "integer", "minimum": least, **limit}


def one_of(*values):
    """One of these texts."""
    return {"type": "string", "enum": [*values]}


def array(items):
    return {"type": "array", "items": items}


def maybe(schema):
    """A value, or null."""
    return {"anyOf": [schema, {"type": "null"}]}


def named(name):
    """The schema of a name."""
    return {"$ref": f"#/components/schemas/{name}"}


def record(**keys):
    """An object of exactly these keys."""
    return {"type": "object", "properties": keys, "required": [*keys],
            "additionalProperties": False}


def kind_schema(kind):
    """What the second office takes for a kind of field. Its texts are counted in bytes."""
    if isinstance(kind, fields.Number):
        return {**whole(kind.least, kind.most), "description": "Digits alone: 1, not 1.0"}
    if kind is Rows:
        return {**array(array({"type": "string"})), "description": "The fields of each row"}
    if kind is fields.DAY:
        return {"type": "string", "format": "date",
                "pattern": "^(19[7-9]|20[0-9]|21[0-9])[0-9]-[0-9]{2}-[0-9]{2}$"}
    if kind not in FORMS:
        return {"type": "string"}
    most = next(it for it in itertools.count(1) if not kind.has("X" * (it + 1)))
    return {"type": "string", "minLength": 1, "maxLength": most, "pattern": FORMS[kind] or CONTROL,
            "description": f"1 to {most} bytes of UTF-8"}


def field(name):
    """The schema of a key or of a part of a path."""
    return kind_schema(KINDS[name])


ROW = array({"type": "string"})
STATE = one_of("normal", "transaction", "verify", "done")
VERDICT = one_of("notDone", "doneWithError", "doneWithNoError")
REVISION = whole(0, 999_999)
ON_HAND = whole(0, 999_999_999)
DUE = {"type": "string", "pattern": "^[0-9]{4}-[0-9]{2}-[0-9]{2}$"}
USED = record(count=field("count"), line=field("line"), part=field("part"))
INSPECTION = record(clerk=field("clerk"), day=field("day"), number=field("number"),
                    text=field("text"))
ORDER = record(
    clerk=field("clerk"), closed=maybe(field("day")), closer=maybe(field("clerk")),
    number=field("number"), opened=field("day"), text=field("text"), used=array(USED))
ANSWERS = {
    "Added": record(result=one_of("added", "same")),
    "Intersection": record(
        id=field("id"), interval=field("interval"), name=field("name"),
        owner=maybe(field("clerk")), revision=REVISION, rows=whole(), state=STATE, verify=VERDICT),
    "Step": record(revision=REVISION, state=STATE, verify=VERDICT),
    "Plan": record(revision=REVISION, rows=array(ROW)),
    "Draft": record(owner=field("clerk"), rows=array(ROW), violations=array(record(
        rule={"type": "string", "pattern": "^V([1-9]|1[0-4])$"}, subject={"type": "string"}))),
    "Csv": record(csv={"type": "string"}),
    "Cabinet": record(inspections=array(INSPECTION), orders=array(ORDER)),
    "OpenOrders": record(open=array(field("number"))),
    "Stock": record(hand=array(record(count=ON_HAND, part=field("part")))),
    "Imported": record(added=whole(), same=whole()),
    "Overdue": record(overdue=array(record(
        due=maybe(DUE), id=field("id"), name=field("name")))),
}
# What a refusal tells beside its name and number.
TOLD = {
    9: {"field": one_of(*sorted(KINDS))},
    17: {"count": whole(1)},
    30: {"cause": {"type": "integer", "enum": [10, *range(20, 30)]}, "record": whole(1)},
    31: {"fault": one_of(*ROW_FAULTS), "field": whole(), "record": whole(1)},
}
# The answer of each route, by the last words of its path, and by which refusals of the office.
BY_ROUTE = {
    "POST /intersections": ("Added", 11),
    "GET /intersections/{id}": ("Intersection", 10),
    "GET ../timing": ("Plan", 10),
    "GET ../timing-csv": ("Csv", 10),
    "GET ../draft": ("Draft", 10, 13),
    "GET ../cabinet": ("Cabinet", 10),
    "GET ../cabinet-csv": ("Csv", 10),
    "GET ../open-orders": ("OpenOrders", 10),
    "POST ../begin": ("Step", 10, 12),
    "POST ../edit": ("Step", 10, 13, 14, 31),
    "POST ../edit-csv": ("Step", 10, 13, 14, 31),
    "POST ../verify": ("Step", 10, 13, 14),
    "POST ../check": ("Step", 10, 14, 15),
    "POST ../commit": ("Step", 10, 14, 16, 17, 18),
    "POST ../reopen": ("Step", 10, 14, 16),
    "POST ../abandon": ("Step", 10, 13),
    "POST ../inspections": ("Added", 10, 20),
    "POST ../orders": ("Added", 10, 21),
    "POST ../orders/{order}/parts": ("Added", 10, 22, 23, 25, 28),
    "POST ../orders/{order}/close": ("Added", 10, 22, 24, 29),
    "POST /deliveries": ("Added", 26, 27),
    "POST /import": ("Imported", 30, 31),
    "GET /stock": ("Stock",),
    "GET /overdue/{day}": ("Overdue",),
}


# ---- the description

def refusal_schema(number):
    """The schema of a refusal."""
    name = {"type": "string", "const": ALL_NAMES[number]}
    return record(error=name, number={"type": "integer", "const": number},
                  **TOLD.get(number, {}))


def status_of(number):
    """The status of a refusal, without its words."""
    return next(it.split()[0] for it, numbers in ALL_STATUSES.items() if number in numbers)


def answered(about, names):
    """A response that has one of these schemas."""
    schemas = [named(it) for it in names]
    schema = schemas[0] if len(schemas) == 1 else {"oneOf": schemas}
    return {"description": about, "content": {"application/json": {"schema": schema}}}


def refusal(names):
    """The response that is one of these refusals."""
    if len(names) == 1 and names[0] in {ALL_NAMES[it] for it in ALONE}:
        return {"$ref": f"#/components/responses/{names[0]}"}
    return answered(", ".join(names), names)


def responses(name, numbers):
    """The responses of an operation: its answer, and its refusals by their status."""
    by_status = {}
    for number in sorted(numbers):
        by_status.setdefault(status_of(number), []).append(ALL_NAMES[number])
    refused = {it: refusal(names) for it, names in sorted(by_status.items())}
    return {"200": answered(f"{name}, done or shown", [name]), **refused}


def refusals(method, path, keys, own):
    """Which refusals an operation has: those of every request, of its fields, and its own."""
    found = {*FRAMING, *own, *MORE_NAMES}
    return found | ({8} if method == "POST" else set()) | ({9} if keys or "{" in path else set())


def summary(about):
    """What a request does, as a command: `shows a plan` as `Show a plan`."""
    verb, _, rest = about.partition(" ")
    return f"{verb.capitalize().removesuffix('s')} {rest}"


def operation(method, path, keys, about):
    """The operation of a route."""
    name, *own = BY_ROUTE[f"{method} {path}".replace("/intersections/{id}/", "../")]
    words = re.findall(r"\w+", re.sub(r"\{\w+\}", "", path))
    made = {"operationId": method.lower() + "".join(it.capitalize() for it in words),
            "summary": summary(about),
            "parameters": [{"name": it, "in": "path", "required": True, "schema": field(it)}
                           for it in re.findall(r"\{(\w+)\}", path)]}
    if method == "POST":
        schema = {"type": "object", "properties": {it: field(it) for it in keys}, "required": keys}
        made["requestBody"] = {"required": True, "content": {"application/json": {
            "schema": schema}}}
    return {**made, "responses": responses(name, refusals(method, path, keys, own))}


def paths(told):
    """The operations of all routes, by path and method; a text tells of each its keys and what it
    does."""
    made = {}
    for method, path, words, _ in ROUTES:
        keys, about = told.get(f"{method} {path}", ((), ""))
        if keys != words.split() or not about:
            sys.exit(f"HTTP.md has other keys of {method} {path}: {', '.join(keys)}")
        made.setdefault(path, {})[method.lower()] = operation(method, path, keys, about)
    return made


def description(told):
    """The whole description."""
    about = (
        "The office of a city's traffic signals over HTTP/1.1, as docs/HTTP.md describes it. Keys "
        "of a request that are not described are ignored, and so is its Content-Type. A body has "
        f"at most 262144 bytes and is nested at most {DEEPEST} deep. Another path is answered 404 "
        "NoRoute, and another method of a path 405 Method.")
    schemas = {**ANSWERS, **{ALL_NAMES[it]: refusal_schema(it) for it in sorted(ALL_NAMES)}}
    return {
        "openapi": "3.1.0",
        "info": {"title": "Cayunchis", "version": version.number(), "description": about},
        "servers": [{"url": "http://127.0.0.1:8080", "description": "signal_office serve"}],
        "paths": paths(told),
        "components": {"schemas": schemas, "responses": {
            ALL_NAMES[it]: answered(about, [ALL_NAMES[it]]) for it, about in ALONE.items()}},
    }
