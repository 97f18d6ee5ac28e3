#!/usr/bin/env python3
"""Runs the program again and again over files, where many runs are killed, or have a disk that is
full or fails, and compares each answer with the second office (tests/lib/model).

    tests/program/lives.py [PROGRAM [SEED COUNT [FILE]]]

COUNT runs (1,000 by default) are drawn, over some files in turn: requests to `batch` and `serve`,
and other commands. Some files begin as version 1. After a run that ended in order, the next one
must find exactly its office. After any other run it must find the office after the last request
that changed it and was not answered Unavailable, or after a later one that was, or that was not
answered when the run was killed. Python's sqlite3 also reads what a file holds at the end.

Prints how many runs were wrong, and ends with status 1 if one was: with the seed, the file, the
run, and a copy of the file as it was before that run. FILE is the number of one file to try alone,
to see it again; a kill may come at another moment then. Needs a C compiler, `cc`. Takes half a
minute, and little more for each further 1,000 runs.
"""
import collections
import concurrent.futures
import contextlib
import functools
import itertools
import os
import pathlib
import random
import shutil
import sqlite3
import sys
import tempfile

sys.path.insert(0, str(pathlib.Path(__file__).resolve().parents[1] / "lib"))
from disk import DISK, FAILED, FULL, UNSYNCED, Off, Program, Trouble, draw_trouble
from model import commands, fields, heads, requests, tables
from model.office import Intersection, Office
from model.plan import apply, read_change
from model.planning import BASE, CHANGES, draw_changes, draw_plan
from model.refusal import Refused
from model.register import read_record
from model.rules import violations
from model.wire import answer, answer_bytes
from preloaded import built
from program import found
from runs import NOTHING, OLD, Ask, Command, Held, Stream, without_repeats
from second.requests import spelled

THEMES = (requests.mixed, requests.transactions, requests.plans, requests.registers)
COUNTS = (1, 3, *[10] * 3, *[20] * 4, *[40] * 6, 1_500)  # in the longest the log is copied
SHOWN = ("", "/timing", "/draft", "/cabinet")
COMMANDS = ("add", "import", "import", "edit", "edit", "edit", "abandon", "list", "stock", "export",
            "overdue", "migrate")


def told_by(method, target, body):
    """What answers a request."""
    return lambda office: answer_bytes(*answer(office, method, target, body or b""))


def ask(dice, method, target, keys=None):
    """A request that is spelled in one way or another."""
    body = None if keys is None else spelled(dice, keys).encode()
    sent = heads.spelled(dice, method, target, body)
    return Ask(sent, told_by(method, target, body), method != "GET")


def draw_asks(dice, office, theme, count):
    """Drawn requests, which an office has answered then."""
    for method, target, keys in itertools.islice(theme(dice, office), count):
        drawn = ask(dice, method, target, keys)
        drawn.told(office)
        yield drawn


def draw_ending(dice):
    """The end of a stream: a fault, a last request or a part of one."""
    seed = dice.random()
    ending = lambda office: heads.ending(random.Random(seed), office)
    return Ask(ending(Office())[0], lambda office: ending(office)[1], False)


def draw_stream(dice, office):
    """Requests to `batch` or to `serve`."""
    theme, count = dice.choice(THEMES), dice.choice(COUNTS)
    asks = list(draw_asks(dice, office, theme, count))
    if dice.random() < 0.2:
        cuts = sorted(dice.randint(0, count) for _ in range(dice.randint(0, 2)))
        parts = [asks[a:b] for a, b in itertools.pairwise([0, *cuts, count])]
        return Stream(parts, is_served=True)
    return Stream([asks + [draw_ending(dice)] * (dice.random() < 0.3)])


def draw_look(dice, offices):
    """Requests that show all that some offices hold."""
    ids = sorted({id for it in offices for id in it.intersections})
    targets = [f"/intersections/{id}{it}" for id in ids for it in SHOWN]
    return Stream([[ask(dice, "GET", it) for it in (*targets, "/stock", "/overdue/2199-12-31")]])


def draw_edit(dice, office, id, path):
    """A clerk edits a plan by a file, and mostly wants it committed."""
    rows = dice.choice((BASE, draw_plan(dice), draw_changes(dice, BASE), [dice.choice(CHANGES)]))
    if dice.random() < 0.1:
        rows = [*rows, requests.spoil_row(dice, dice.choice(rows))]
    there = office.intersections.get(id)
    clerk = there and there.owner or dice.choice(requests.CLERKS)
    csv = requests.spell_csv(dice, rows)
    commits, replaces, advises = (dice.random() < it for it in (0.7, 0.3, 0.3))
    path.write_bytes(csv.encode())
    flags = [*["--commit"] * commits, *["--replace"] * replaces, *["--advise"] * advises]
    words = ["--clerk", clerk, *flags, str(id), str(path)]
    return Command("edit", words, functools.partial(
        commands.edit, id=id, clerk=clerk, records=fields.read_csv(csv), commits=commits,
        replaces=replaces, advises=advises))


def takes(office, row):
    """Whether an office takes a record, and has it then."""
    try:
        office.take([read_record(row)])
    except Refused:
        return False
    return True


def draw_import(dice, office, path):
    """Records are imported from a file, mostly ones that are taken."""
    orders, count, more = sorted(office.register.orders), dice.choice((5, 20)), office.copy()
    drawn = [requests.draw_record(dice, orders, 9) for _ in range(count)]
    rows = [row for row in drawn if takes(more, row) or dice.random() < 0.02]
    if dice.random() < 0.1:
        rows.append(requests.spoil_row(dice, drawn[0]))
    csv = requests.spell_csv(dice, rows)
    path.write_bytes(csv.encode())
    return Command("import", [str(path)], functools.partial(commands.take, csv=csv))


def draw_command(dice, office, path):
    """A command, of which some read a file that is written to this path."""
    name, id = dice.choice(COMMANDS), dice.choice((*office.intersections, 1, 2, 3, 101))
    clerk, csv = dice.choice(requests.CLERKS), dice.choice(((), ("--csv",)))
    interval, called = dice.choice((365, 365, 30)), dice.choice(("Main St", "Main St", "Oak St"))
    view, day = dice.choice(((), ("--draft",), ("--cabinet",))), str(requests.draw_day(dice))
    if name == "edit":
        return draw_edit(dice, office, id, path)
    if name == "import":
        return draw_import(dice, office, path)
    words, does = {
        "add": ([id, interval, called], (commands.add, id, interval, called)),
        "abandon": (["--clerk", clerk, id], (commands.abandon, id, clerk)),
        "list": (csv, (commands.listed, bool(csv))),
        "stock": (csv, (commands.stock, bool(csv))),
        "export": ([*view, id], (commands.export, id, "".join(view))),
        "overdue": ([day], (commands.overdue, day)),
        "migrate": ([], (commands.migrate, 0)),
    }[name]
    does, *values = does
    return Command(name, list(map(str, words)), lambda office: does(office, *values))


def old_plan(base, rows):
    """A plan with changes of which version 1 had each, without leads."""
    changes = [(key, row._replace(lead=0) if tables.is_widened(row) else row)
               for key, row in map(read_change, rows) if row is None or tables.is_old(row)]
    return apply(base, changes)


def draw_old(dice):
    """An office of version 1: a register, plans that break no rule, and drafts."""
    office = Office()
    collections.deque(draw_asks(dice, office, requests.registers, 40), maxlen=0)
    for id in (*sorted(office.intersections), *range(101, dice.choice((103, 103, 140)))):
        it = office.intersections.setdefault(id, Intersection("Old St", 365))
        rows = draw_plan(dice, 16)
        plan = old_plan({}, rows)
        it.revision, it.committed = dice.randint(0, 9), {} if violations(plan) else plan
        if dice.random() < 0.5:
            draft = old_plan(it.committed, draw_changes(dice, rows))
            it.enter(dice.choice(tables.STATES[1:]), dice.choice(requests.CLERKS), draft)
    return office


class Life:
    """A file, with what it may hold after the runs over it."""

    def __init__(self, program, folder, dice):
        self.program, self.folder = program, folder
        self.path, self.log = folder / "office.db", folder / "office.db-wal"
        self.kept, self.is_whole = folder / "before", False
        self.held = [Held(NOTHING, Office())]
        if dice.random() < 0.25:
            self.held = [Held(OLD, draw_old(dice))]
            self.put(1)

    def put(self, version):
        """Makes the file of one that the program made, by Python's sqlite3."""
        self.program.run(["batch", "--db", str(self.path)], Trouble())
        with contextlib.closing(sqlite3.connect(self.path)) as db, db:
            tables.put(db, self.held[0].office, version)

    def is_missing(self):
        """Whether there is no file, or an empty one without a log beside it."""
        if not self.path.exists():
            return True
        return self.path.stat().st_size == 0 and not self.log.exists()

    def draw(self, dice):
        """A run, with what befalls it."""
        offices = [it.office for it in self.held]
        if dice.random() < (0.6 if len(offices) > 1 else 0.05):
            return draw_look(dice, offices), Trouble()
        office, trouble = dice.choice(offices).copy(), draw_trouble(dice)
        if any(it.stage == OLD for it in self.held) and dice.random() < 0.6:
            return Command("migrate", [], lambda office: commands.migrate(office, 0)), trouble
        if dice.random() < 0.55:
            return draw_stream(dice, office), trouble
        return draw_command(dice, office, self.folder / "rows.csv"), trouble

    def keep(self, dice):
        """Keeps what there is before a run. A file over which the last one ended in order is whole
        without its log."""
        if self.is_whole and dice.random() < 0.1:
            self.log.unlink(missing_ok=True)
        shutil.rmtree(self.kept, ignore_errors=True)
        self.kept.mkdir()
        for it in [*self.folder.glob("office.db*"), *self.folder.glob("rows.csv")]:
            shutil.copy(it, self.kept)

    def live(self, run, trouble):
        """Makes a run, and tells what came of it."""
        is_missing = self.is_missing()
        came = run.come(self.program, str(self.path), trouble)
        left, wrong = [], []
        for held in self.held:
            try:
                left += run.after(held, came, is_missing)
            except Off as it:
                wrong.append(f"found {held.stage}: {it}")
        if not left:
            raise Off("\n  ".join(without_repeats(wrong)[:3]))
        self.held = without_repeats(left)
        self.is_whole = came.status == 0 and not came.refused
        return came

    def end(self):
        """Holds the file against what it may hold, by Python's sqlite3."""
        if self.held[0].stage == NOTHING:
            return
        with contextlib.closing(sqlite3.connect(self.path)) as db:
            stored, check = tables.found(db), db.execute("PRAGMA integrity_check").fetchall()
        wanted = [(version, tables.rows(it.office, version))
                  for it in self.held for version in [1 if it.stage == OLD else 2]]
        if stored not in wanted or check != [("ok",)]:
            raise Off(f"sqlite3 finds {stored}, of which it says {check}\n  wanted {wanted}")


def lived(path, library, seed, number, length):
    """Makes some runs over a file. Gives how many came of which kind, and what was off."""
    came, begun = collections.Counter(), random.Random(f"{seed} {number}")
    with tempfile.TemporaryDirectory() as folder:
        life = Life(Program(path, library), pathlib.Path(folder), begun)
        try:
            for at in range(1, length + 1):
                dice = random.Random(f"{seed} {number} {at}")
                run, trouble = life.draw(dice)
                if at == length:
                    run, trouble = draw_look(dice, [it.office for it in life.held]), Trouble()
                life.keep(dice)
                one = life.live(run, trouble)
                came.update({"runs": 1, "killed": one.is_killed, one.refused: 1})
            life.end()
        except Off as it:
            kept = tempfile.mkdtemp(prefix="lives")
            shutil.copytree(life.kept, kept, dirs_exist_ok=True)
            came["off"] += 1
            return came, (f"seed {seed}, file {number}, run {came['runs'] + 1}: {run}, {trouble}\n"
                          f"  before it: {kept}\n  {it}")
    return came, None


def lengths(seed, count):
    """How many runs each file has."""
    dice = random.Random(f"lengths {seed}")
    while count > 0:
        length = min(count, dice.randint(5, 30))
        yield length
        count -= length


def main():
    """Makes the runs."""
    program, words = found(sys.argv[1:2]), sys.argv[2:] or ["1", "1000"]
    if len(words) not in (2, 3) or not all(it.isdigit() for it in words):
        sys.exit(__doc__)
    seed, count, *only = map(int, words)
    lives = [(number, length) for number, length in enumerate(lengths(seed, count), 1)
             if not only or number in only]
    total = collections.Counter()
    with tempfile.TemporaryDirectory() as folder:
        library = built(pathlib.Path(folder), "disk", DISK)
        with concurrent.futures.ProcessPoolExecutor(os.cpu_count()) as pool:
            for made in concurrent.futures.as_completed(
                    [pool.submit(lived, program, library, seed, *it) for it in lives]):
                came, off = made.result()
                total.update(came)
                if off:
                    print(off, flush=True)
    print(f"{total['runs']} runs over {len(lives)} files: {total['off']} off ({total['killed']} "
          f"killed, {total[FULL]} full, {total[FAILED] + total[UNSYNCED]} failed)")
    sys.exit(total["off"] > 0)


if __name__ == "__main__":
    main()
