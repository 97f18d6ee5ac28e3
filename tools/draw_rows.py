#!/usr/bin/env python3
"""Draws requests, has the second office (tests/lib/model) answer them, and writes both as row
files, which tests/program/rows.py plays.

    tools/draw_rows.py                          checks that the stored rows are what is drawn today
    tools/draw_rows.py SEED COUNT               prints how often each answer, refusal, fault and
                                                broken rule would come, and the bytes of each file
    tools/draw_rows.py SEED COUNT --write       writes tests/rows/drawn_*.row

Each route must be answered, and each refusal but 18, each fault of a row and each broken rule must
come up; if one does not, it says so and ends with status 1. Builds nothing; needs no program.
Takes some twenty seconds.
"""
import itertools
import pathlib
import random
import re
import sys

sys.path.insert(0, str(pathlib.Path(__file__).resolve().parents[1] / "tests" / "lib"))
from model import requests
from model.office import Office
from model.rows import DATA, written
from model.tally import Tally
from model.wire import answer

# Of a hundred requests so many are of a theme.
SHARES = {"transactions": 22, "plans": 30, "registers": 22, "days": 8, "faults": 18}
STREAM, OPENED = 50, 3  # requests of a stream, and streams after which the tables are opened again

# The requests of a stream that breaks off.
CUT = [("POST", "/intersections", '{"id":12,"interval":365,"name":"Main St"}'),
       ("GET", "/intersections/12", None),
       ("POST", "/intersections/12/begin", '{"clerk":"Ana"}')]


def drawn(name, seed, count):
    """The requests of a theme with their answers."""
    dice, office = random.Random(f"{name} {seed}"), Office()
    theme = getattr(requests, name)(dice, office)
    for method, target, keys in itertools.islice(theme, count):
        body = requests.body_of(keys)
        yield (method, target, body), answer(office, method, target, (body or "").encode())


def sent(method, target, body):
    """The bytes of a request, as the rows have it, in ASCII."""
    length = f"Content-Length: {len(body)}\r\n" if body else ""
    return f"{method} {target} HTTP/1.1\r\n{length}\r\n{body or ''}"


def row(name, seed, count, tally):
    """The text of a row file."""
    about = getattr(requests, name).__doc__.replace("\n   ", "")
    yield f"# Drawn by tools/draw_rows.py {seed} {count}, and not written by hand. {about}"
    share = count * SHARES[name] // 100
    for at, (request, told) in enumerate(drawn(name, seed, share), 1):
        tally.note(*request[:2], told[1])
        yield f"> {written(*request)}"
        yield f"< {' '.join(told)}"
        if at % STREAM == 0 or at == share:
            yield f"served {(at - 1) % STREAM + 1}"
        if at % (STREAM * OPENED) == 0:
            yield "opens"


def cuts(seed, count):
    """The text of a row file: a stream, sent again and again, breaks off one byte later each time.
    So much of it is answered as is whole."""
    yield (f"# Drawn by tools/draw_rows.py {seed} {count}, and not written by hand. Requests of "
           f"{', '.join(str(len(sent(*it))) for it in CUT)} bytes in a stream that breaks off.")
    office, stream = Office(), "".join(sent(*it) for it in CUT)
    ends = list(itertools.accumulate(len(sent(*it)) for it in CUT))
    for at in range(len(stream) + 1):
        whole = sum(end <= at for end in ends)
        for method, target, body in CUT[:whole]:
            yield f"> {written(method, target, body)}"
            yield f"< {' '.join(answer(office, method, target, (body or '').encode()))}"
        rest = stream[[0, *ends][whole]:at]
        if rest:
            yield ">> " + rest.replace("\r", "\\r").replace("\n", "\\n")
        yield f"served {whole}"


def rows(seed, count):
    """The name and the text of each row file, and the tally of all."""
    tally = Tally()
    texts = {DATA / f"drawn_{name}.row": "\n".join([*row(name, seed, count, tally), ""])
             for name in SHARES}
    texts[DATA / "drawn_cuts.row"] = "\n".join([*cuts(seed, count), ""])
    return texts, tally


def stored():
    """The seed and the count by which the stored rows were drawn."""
    told = [re.match(r"# Drawn by tools/draw_rows.py (\d+) (\d+),", path.read_text())
            for path in sorted(DATA.glob("drawn_*.row"))]
    if len(told) != len(SHARES) + 1 or not all(told) or len({it.groups() for it in told}) != 1:
        sys.exit("draw_rows.py: the stored rows are not those of one seed and count")
    return map(int, told[0].groups())


def check():
    """Sees that the stored rows are what is drawn today."""
    texts, _ = rows(*stored())
    other = [path.name for path, text in texts.items() if path.read_text() != text]
    if other:
        sys.exit(f"draw_rows.py: {', '.join(other)}: not what is drawn today")
    print("ok")


def main():
    """Checks, or tells or writes what is drawn."""
    words = [it for it in sys.argv[1:] if it != "--write"]
    if not sys.argv[1:]:
        return check()
    if len(words) != 2 or not all(it.isdigit() for it in words):
        sys.exit(__doc__)
    texts, tally = rows(*map(int, words))
    print("\n".join(tally.lines()))
    if tally.missing():
        sys.exit(f"draw_rows.py: {', '.join(tally.missing())} did not come; nothing was written")
    for path, text in texts.items():
        print(f"{len(text.encode()):7} bytes: {path.name}")
        if "--write" in sys.argv:
            path.write_text(text)


if __name__ == "__main__":
    main()
