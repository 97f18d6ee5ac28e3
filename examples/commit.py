#!/usr/bin/env python3
"""Puts the rows of a CSV file into the committed plan over HTTP and commits the result, or says why
not: begin, edit-csv, verify, check, commit.

    examples/commit.py OFFICE ID CLERK CSV      OFFICE as http://127.0.0.1:8080

If the answer to a step is missing, the intersection shows whether it was done, and only a step that
was not done is sent again; `edit-csv` may be sent twice. A draft that is refused is dropped; if a
draft is open already, nothing is done.
"""
import json
import pathlib
import sys
import time
import urllib.error
import urllib.request

NO_ANSWER = (502, 503, 504)  # the office is unavailable, or a proxy has no answer of it
AFTER = {"begin": "transaction", "edit-csv": "transaction", "verify": "verify", "check": "done",
         "commit": "normal", "abandon": "normal"}  # the state after each step
TRIES = 5


class Refused(Exception):
    """The office refused, or another clerk has the draft."""


def said_by(refusal):
    """The name of a refusal and what else it says; an answer of a proxy has a status alone."""
    try:
        keys = json.load(refusal)
        more = [f"{name} {keys[name]}" for name in sorted(keys.keys() - {"error", "number"})]
        return ", ".join([keys["error"], *more])
    except (ValueError, KeyError, TypeError, AttributeError):
        return f"status {refusal.code}"


def ask(url, keys=None):
    """What the office answers; a refusal is an error, and so is an answer that is missing."""
    try:
        body = None if keys is None else json.dumps(keys).encode()
        with urllib.request.urlopen(url, body, timeout=35) as answer:
            return json.load(answer)
    except urllib.error.HTTPError as refusal:
        if refusal.code in NO_ANSWER:
            raise ConnectionError("unavailable") from None
        raise Refused(said_by(refusal)) from None
    except urllib.error.URLError as it:
        raise ConnectionError(it.reason) from None


def look(url):
    """What the office shows, asked for again while no answer comes."""
    for _ in range(TRIES):
        try:
            return ask(url)
        except (ConnectionError, TimeoutError):
            time.sleep(0.5)
    raise ConnectionError("no answer")


def is_answered(url, keys):
    """Sends a step, and tells whether its answer came."""
    try:
        ask(url, keys)
        return True
    except (ConnectionError, TimeoutError):
        return False


def step(at, name, clerk, before, **keys):
    """Takes a step, and returns the intersection after it; `before` is the intersection before."""
    after = AFTER[name], before["revision"] + (name == "commit")
    for _ in range(TRIES):
        came, now = is_answered(f"{at}/{name}", {"clerk": clerk, **keys}), look(at)
        if now["owner"] not in (None, clerk):
            raise Refused(f"{now['owner']} has the draft")
        if (now["state"], now["revision"]) == after and (came or name != "edit-csv"):
            return now
        if came:
            raise Refused("another program took a step")
    raise ConnectionError("no answer")


def edit(at, clerk, csv):
    """Begins a draft and puts the rows into it. Where they are refused, the draft is dropped."""
    now = look(at)
    if now["owner"] is not None:
        raise Refused(f"{now['owner']} has a draft in state {now['state']}")
    now = step(at, "begin", clerk, now)
    try:
        return step(at, "edit-csv", clerk, now, csv=csv)
    except Refused:
        now = look(at)
        if now["owner"] == clerk:
            step(at, "abandon", clerk, now)
        raise


def commit(at, clerk, csv):
    """The revision of the committed plan. A draft that breaks rules is dropped and refused."""
    now = edit(at, clerk, csv)
    for name in ("verify", "check"):
        now = step(at, name, clerk, now)
    if now["verify"] == "doneWithError":
        broken = look(f"{at}/draft")["violations"]
        step(at, "abandon", clerk, now)
        raise Refused(", ".join(f"{it['subject']} {it['rule']}" for it in broken))
    return step(at, "commit", clerk, now)["revision"]


def main():
    office, id, clerk, name = sys.argv[1:]
    try:
        csv = pathlib.Path(name).read_text()
        print("committed revision", commit(f"{office}/intersections/{id}", clerk, csv))
    except (Refused, ConnectionError) as it:
        sys.exit(f"not committed: {it}")


if __name__ == "__main__":
    main()
