#!/usr/bin/env python3
"""Puts the rows of a CSV file into the committed plan over HTTP, and commits the result, or prints
which rules it breaks. Rows that the file does not name stay.

    examples/plan.py OFFICE ID CLERK CSV      OFFICE as http://127.0.0.1:8080

Each step is sent once; commit.py copes with answers that are missing. The status is 3 if the plan
breaks a rule; any other refusal ends with status 1 and what came. The draft is dropped if the plan
breaks a rule or its rows are refused; after anything else it may stay open.
"""
import json
import pathlib
import sys
import urllib.error
import urllib.request


class Refused(SystemExit):
    """A bad request: the draft is as it was."""


def ask(url, keys=None):
    """What the office answers. Only an answer with status 200 is read as what was asked for."""
    body = None if keys is None else json.dumps(keys).encode()
    try:
        with urllib.request.urlopen(url, body, timeout=35) as answer:
            return json.load(answer)
    except urllib.error.HTTPError as refusal:
        said = f"{url}: {refusal.code} {refusal.read().decode(errors='replace')}"
        raise Refused(said) if refusal.code in (400, 413) else SystemExit(said)
    except OSError as it:
        sys.exit(f"{url}: {it}. Ask for the intersection: a changed state or revision shows that the "
                 "step was done. edit-csv changes neither: compare the draft.")


def main():
    office, id, clerk, name = sys.argv[1:]
    at, csv = f"{office}/intersections/{id}", pathlib.Path(name).read_text()

    def step(name, **keys):
        return ask(f"{at}/{name}", {"clerk": clerk, **keys})

    step("begin")
    try:
        step("edit-csv", csv=csv)
    except Refused:
        step("abandon")
        raise
    step("verify")
    if step("check")["verify"] == "doneWithError":
        for it in ask(f"{at}/draft")["violations"]:
            print(it["subject"], it["rule"])
        step("abandon")
        sys.exit(3)
    print("committed revision", step("commit")["revision"])


if __name__ == "__main__":
    main()
