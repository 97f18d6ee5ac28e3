"""Drawn requests go to the program's `batch`, over tables in memory, and each answer must be the
model's. First the model must answer the requests and plans of the worked rows as they say.

Requests are sent in streams of 1,000, each to a new office. Each stream ends in a fault of its
framing, a last request, or a part of one.
"""
import itertools
import json
import random
import subprocess
import sys

from model import heads, requests, rows
from model.office import Office
from model.tally import Tally
from model.wire import answer, answer_bytes

STREAM = 1_000


def spelled(dice, keys):
    """The text of a body: as a row would have it, or with spaces, escapes, another order and more
    keys, which means the same."""
    if not isinstance(keys, dict) or dice.random() < 0.5:
        return requests.body_of(keys)
    names = dice.sample(sorted(keys), len(keys))
    more = {"more": [1e-3, {"\u00e9": None}]} if dice.random() < 0.3 else {}
    return json.dumps({**more, **{name: keys[name] for name in names}},
                      ensure_ascii=dice.random() < 0.5, indent=dice.choice((None, 1)))


def drawn(theme, seed, count, tally):
    """The bytes of drawn requests, and of an end, each with the bytes of its answer."""
    dice, office = random.Random(f"drawn {seed}"), Office()
    for method, target, keys in itertools.islice(theme(dice, office), count):
        target += dice.choice(("", "", "", "?a=b"))
        body = None if keys is None else spelled(dice, keys).encode()
        told = answer(office, method, target, body or b"")
        tally.note(method, target, told[1])
        yield heads.spelled(dice, method, target, body), answer_bytes(*told)
    yield heads.ending(dice, office)


def differing(asked, told, came):
    """The first request whose answer differs, what was told, and what came."""
    at = 0
    for number, (one, answer_to) in enumerate(zip(asked, told), 1):
        if not came.startswith(answer_to, at):
            return f"request {number}: {one!r}\n  told {answer_to!r}\n  came {came[at:at + 2000]!r}"
        at += len(answer_to)
    return f"more came: {came[at:at + 2000]!r}"


def send(program, theme, seed, count, tally):
    """Sends a stream of drawn requests, and ends where an answer differs."""
    asked, told = zip(*drawn(theme, seed, count, tally))
    ran = subprocess.run([program, "batch"], input=b"".join(asked), stdout=subprocess.PIPE)
    if ran.stdout != b"".join(told):
        sys.exit(f"requests: seed {seed}, {differing(asked, told, ran.stdout)}")
    if ran.returncode:
        sys.exit(f"requests: seed {seed}: status {ran.returncode}")


def told_and_came(text):
    """What a row has that is no more than requests, plans that are verified, or pictures and pages:
    each with what is told of it, and what the model says."""
    office = Office()
    for asked, told in rows.plain(text) or ():
        yield asked, told, rows.played(office, asked)
    for plan, flags, told in rows.checked(text):
        yield plan, told, rows.verified(plan, flags)
    for asked, told, came in rows.drawn(text):
        yield asked, told, came


def play_rows():
    """Has the model answer what it can of the worked rows."""
    all_told = [(path.name, *it) for path in sorted(rows.DATA.glob("*.row"))
                for it in told_and_came(path.read_text())]
    wrong = [it for it in all_told if it[2] != it[3]]
    if wrong:
        sys.exit("\n".join(["requests: the model answers rows otherwise", *map(str, wrong)]))
    print(f"{len(all_told)} requests, plans, pictures and pages of worked rows: the model answers "
          "as they tell")


def compare(program, seed, count):
    """Has the model answer the rows, and sends the streams."""
    play_rows()
    tally = Tally()
    send(program, requests.long, seed, STREAM, tally)
    for begun in range(0, count, STREAM):
        send(program, requests.mixed, f"{seed} {begun}", min(STREAM, count - begun), tally)
    print("\n".join(tally.lines()))
    if tally.missing():
        sys.exit(f"requests: {', '.join(tally.missing())} did not come")
    print(f"{count} drawn requests: the program answers as the model does")
