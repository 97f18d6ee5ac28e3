#!/usr/bin/env python3
"""Makes a request as docs/openapi.json describes it, and prints the answer.

    examples/call.py                                    lists the operations with their keys
    examples/call.py OFFICE OPERATION KEY=VALUE..       OFFICE as http://127.0.0.1:8080

VALUE is a number, a text, JSON for a list, or @FILE for the text in FILE. The status is 0 if the
answer's is 200, and else 1.
"""
import json
import pathlib
import sys
import urllib.error
import urllib.request

DESCRIBED = pathlib.Path(__file__).resolve().parent.parent / "docs" / "openapi.json"
JSON = "application/json"


def operations():
    """Each operation by its name: method, path, and the schemas of its keys."""
    for path, methods in json.loads(DESCRIBED.read_text())["paths"].items():
        for method, it in methods.items():
            keys = {one["name"]: one["schema"] for one in it["parameters"]}
            if "requestBody" in it:
                keys.update(it["requestBody"]["content"][JSON]["schema"]["properties"])
            yield it["operationId"], method.upper(), path, keys


def value(word, schema):
    """What a word stands for."""
    text = pathlib.Path(word[1:]).read_text() if word.startswith("@") else word
    return text if schema["type"] == "string" else json.loads(text)


def call(office, method, path, keys, words):
    """The status and the body of the answer."""
    values = {name: value(words[name], schema) for name, schema in keys.items()}
    in_path = {name for name in values if f"{{{name}}}" in path}
    body = {name: it for name, it in values.items() if name not in in_path}
    request = urllib.request.Request(
        office + path.format(**values), json.dumps(body).encode() if method == "POST" else None)
    try:
        with urllib.request.urlopen(request, timeout=35) as answer:
            return answer.status, answer.read().decode()
    except urllib.error.HTTPError as refusal:
        return refusal.code, refusal.read().decode()


def main():
    there = {name: rest for name, *rest in operations()}
    if not sys.argv[1:]:
        for name, (_, _, keys) in there.items():
            print(name, *keys)
        return
    office, name, *words = sys.argv[1:]
    status, body = call(office, *there[name], dict(it.split("=", 1) for it in words))
    print(status, body)
    sys.exit(status != 200)


if __name__ == "__main__":
    main()
