#!/usr/bin/env python3
"""Makes docs/openapi.json, the description of the HTTP interface that tools read (OpenAPI 3.1), of
the second office's tables (tests/lib/model) and of what docs/HTTP.md says of each route.

    tests/house/openapi.py
        checks that docs/openapi.json is what is made today, and that it describes each request and
        answer of the worked rows, and of drawn requests that the second office answers
    tests/house/openapi.py --write
        writes it

Builds nothing; needs no program. The check needs Python's jsonschema (Debian: python3-jsonschema);
without it, it is skipped with status 77. Takes some fifteen seconds.
"""
import functools
import itertools
import json
import pathlib
import random
import re
import sys

sys.path.insert(0, str(pathlib.Path(__file__).resolve().parents[1] / "lib"))
from making.description import BY_ROUTE, FRAMING, description
from model import requests
from model.office import Office
from model.wire import ROUTES, answer, matches
from playing.reading import read_row

TOP = pathlib.Path(__file__).resolve().parents[2]
TEXT, FILE = TOP / "docs" / "HTTP.md", TOP / "docs" / "openapi.json"
DRAWN = 6_000  # requests that are drawn
HTTP = re.compile(
    rb"(?:([A-Z]+) (\S+) HTTP/1\.1|HTTP/1\.1 (\d+) [^\r]*)\r\n((?:[^\r\n]+\r\n)*)\r\n")
LENGTH = re.compile(rb"(?i)^content-length:\s*(\d+)\s*$", re.MULTILINE)
SKIPPED = 77
JSON = ("content", "application/json", "schema")  # where the schema of a body stands
NO_ROUTE, NO_METHOD = (("components", "responses", it) for it in ("NoRoute", "Method"))


def told_in_text():
    """What docs/HTTP.md says of each route: its keys, and what it does."""
    lines = re.findall(r"^- `(\w+ /\S*)` (?:\(([^)]*)\) )?((?:.|\n  )*)$", TEXT.read_text(),
                       re.MULTILINE)
    return {route: (keys.split(", ") if keys else [], " ".join(text.split()))
            for route, keys, text in lines}


def text():
    """The text of the file."""
    return json.dumps(description(told_in_text()), indent=1, ensure_ascii=False) + "\n"


def is_made():
    """Whether the file is what is made today."""
    return FILE.is_file() and FILE.read_text() == text()


def messages(data):
    """The messages of a stream as they begin it, each its first line's parts and its body; what is
    no message, and what is behind it, is left out."""
    at = 0
    while at <= len(data) and (head := HTTP.match(data, at)):
        length = LENGTH.search(head[4])
        end = head.end() + int(length[1] if length else 0)
        first = (it and it.decode(errors="replace") for it in head.groups()[:3])
        yield (*first, data[head.end():end])
        at = end


def exchanges():
    """The requests of the worked rows with their answers."""
    for path in sorted((TOP / "tests" / "rows").glob("*.row")):
        for talk in read_row(path.stem, path.read_bytes()).talks():
            if talk.words is None or talk.words[:1] == ["batch"]:
                for asked, told in zip(messages(talk.sent), messages(talk.out.whole())):
                    if asked[0] and told[2]:
                        yield path.stem, *asked[:2], asked[3], told[2], told[3].decode()


def drawn():
    """Requests that are drawn, with the answers of the second office."""
    dice, office = random.Random("openapi"), Office()
    for method, target, keys in itertools.islice(requests.mixed(dice, office), DRAWN):
        body = (requests.body_of(keys) or "").encode()
        status, told = answer(office, method, target, body)
        yield "drawn", method, target, body, status.split()[0], told


class Check:
    """Holds requests and answers against the description, and notes what came."""

    def __init__(self, made, schema):
        self.made, self.schema, self.wrong, self.count, self.came = made, schema, [], 0, set()

    def there(self, at):
        """What stands there in the description, where it may be named and stand elsewhere."""
        found = self.made
        for key in at:
            found = found.get(key, {})
            if "$ref" in found:
                found = self.there(found["$ref"].split("/")[1:])
        return found

    @functools.lru_cache(maxsize=None)
    def validator(self, *at):
        """The validator of the schema that stands there."""
        part = self.there(at)
        whole = {**part, "components": self.made["components"]}
        self.schema.Draft202012Validator.check_schema(whole)
        return self.schema.Draft202012Validator(
            whole, format_checker=self.schema.FormatChecker())

    def has(self, value, *at):
        """Whether a value is what the description says there."""
        return bool(self.there(at)) and self.validator(*at, *JSON).is_valid(value)

    def operation(self, method, target):
        """Where the operation of a request stands, or how it is answered that there is none."""
        path = target.partition("?")[0]
        for route, operations in self.made["paths"].items():
            if matches(route, path) is not None:
                there = method.lower() in operations
                return ("paths", route, method.lower()) if there else NO_METHOD
        return NO_ROUTE

    def takes(self, at, body):
        """Whether the description takes a body, which is JSON."""
        return self.has(json.loads(body), *at, "requestBody")

    def add(self, name, method, target, body, status, told):
        """Checks a request and its answer."""
        at, tree = self.operation(method, target), json.loads(told)
        number = tree["number"] if "error" in tree else 0
        at = ("paths", "/stock", "get") if number in FRAMING else at
        is_route = at[0] == "paths"
        wrong, self.count = [], self.count + 1
        if not self.has(tree, *at, *(("responses", status) if is_route else ())):
            wrong.append("the answer is not described")
        if is_route and method == "POST" and number not in (*FRAMING, 8):
            is_taken, field = self.takes(at, body), tree.get("field")
            if number != 9 and not is_taken:
                wrong.append("the body is not described")
            if number == 9 and is_taken and field in self.keys(at) and self.can_tell(body, field):
                wrong.append("the body is described")
        self.came.add((*at[1:], number or 200))
        self.wrong += [f"{name}: {method} {target} {body[:200]!r}: {status} {told[:200]}: {it}"
                       for it in wrong]

    def keys(self, at):
        """The keys of an operation's body."""
        return self.there((*at, "requestBody", *JSON)).get("properties", ())

    @staticmethod
    def can_tell(body, key):
        """Whether a schema can tell that a value is none: not of 1.0, nor of bytes."""
        value = json.loads(body).get(key)
        return not isinstance(value, float) and not (isinstance(value, str) and not value.isascii())

    def missing(self):
        """The answers and refusals of the office that neither a row nor a drawn request has."""
        for method, path, _, _ in ROUTES:
            _, *own = BY_ROUTE[f"{method} {path}".replace("/intersections/{id}/", "../")]
            for number in [200, *own]:
                if (path, method.lower(), number) not in self.came:
                    yield f"no request has {number} of {method} {path}"


def main():
    if sys.argv[1:] == ["--write"]:
        FILE.write_text(text())
        return
    if sys.argv[1:]:
        sys.exit(__doc__)
    if not is_made():
        sys.exit("docs/openapi.json is out of date: tests/house/openapi.py --write")
    try:
        import jsonschema
    except ImportError:
        print("there is no jsonschema of Python")
        sys.exit(SKIPPED)
    check = Check(json.loads(FILE.read_text()), jsonschema)
    for one in itertools.chain(exchanges(), drawn()):
        check.add(*one)
    wrong = [*check.wrong, *check.missing()]
    if wrong:
        sys.exit("\n".join(wrong[:40]))
    print(f"ok: {check.count} requests and answers are described")


if __name__ == "__main__":
    main()
