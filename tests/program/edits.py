#!/usr/bin/env python3
"""Edits plans by files, and holds what the program prints and what the tables hold then against the
second office (tests/lib/model).

    tests/program/edits.py [PROGRAM [SEED COUNT]]

COUNT edits (2,000 by default) are drawn: of plans without a draft, and with one in each state, the
clerk's own or another one's. Then some edits, most with `--commit`, are stopped at each of their
calls of files, and run where each of these fails and where each length of file has no room. After
that the file must hold the office before the edit or the one after it, and nothing between.

Ends with status 1 at the first edit that is wrong. Needs a C compiler, `cc`. Takes a minute of four
processors.
"""
import concurrent.futures
import contextlib
import functools
import itertools
import os
import pathlib
import random
import shutil
import sqlite3
import subprocess
import sys
import tempfile

sys.path.insert(0, str(pathlib.Path(__file__).resolve().parents[1] / "lib"))
from disk import DISK, KINDS, Off, Program, Trouble
from model import asking, commands, fields, requests, tables
from model.office import LAST_REVISION, Office
from model.plan import apply, read_change
from model.planning import BASE, draw_changes, draw_plan
from model.rules import violations
from preloaded import built
from program import found
from runs import TODAY, Command, Held
from second.texts import ROOM, Trial

EDITS = 10  # over one file
ROOM_STEP = 2_048  # bytes
PARTS = (0, 500, 1_000)  # of a call at which a run is stopped, in thousandths


def plan_of(rows, base=None):
    """The plan that rows make of another one."""
    return apply(base or {}, map(read_change, rows))


def draw_office(dice):
    """Some intersections, each perhaps with a plan, and with a draft in some state."""
    office = Office()
    for id in (1, 2, 3):
        office.add(id, 365, "Main St")
        it, plan = office.find(id), plan_of(draw_plan(dice))
        it.committed = dice.choice(({}, plan_of(BASE), {} if violations(plan) else plan))
        it.revision = dice.choice((0, 1, LAST_REVISION - 1, LAST_REVISION))
        if dice.random() < 0.6:
            draft = dice.choice((it.committed, plan, plan_of(draw_changes(dice, BASE), plan)))
            it.enter(dice.choice(tables.STATES[1:]), dice.choice(requests.CLERKS), draft)
    return office


def tried(path, empty, seed, number):
    """Makes edits over one file. Tells how many, and what is wrong."""
    dice = random.Random(f"edits {seed} {number}")
    with tempfile.TemporaryDirectory(dir=ROOM) as folder:
        trial = Trial(path, draw_office(dice), pathlib.Path(folder), False, False)
        trial.put(empty)
        for _ in range(EDITS):
            words, csvs = asking.draw_edit(dice, trial.second.office)
            if wrong := trial.differs(words, csvs) or trial.differs_in_tables():
                return 0, f"seed {seed}, file {number}: {' '.join(words)}: {wrong}"
    return EDITS, None


# ---- edits that are stopped, or whose disk refuses something

FIVE = [["pattern", "1", "60", "5", "1", "1"]]
BROKEN = [["split", "1", "2", "34", "2", "1"]]
BACK = [BASE[-1]]
CROWDED = [*BASE, ["pattern", "2", "60", "30", "1", "1"]]
# Of each its name; the committed rows; the state of the draft, whose it is and its changes, or
# none; the clerk's options, and the rows of the file, or none.
CASES = (
    ("a first plan", [], None, ["--commit"], BASE),
    ("a first plan with warnings", [], None, ["--commit", "--advise"], BASE),
    ("a changed row", BASE, None, ["--commit"], FIVE),
    ("a whole plan", CROWDED, None, ["--commit", "--replace"], BASE),
    ("a plan as it stands", BASE, None, ["--commit"], BASE),
    ("a broken rule", BASE, None, ["--commit"], BROKEN),
    ("a draft that is begun", BASE, None, [], FIVE),
    ("a draft that was handed over", BASE, ("verify", "Ana", BROKEN), ["--commit"], BASE),
    ("a draft that was checked", BASE, ("done", "Ana", FIVE), ["--commit"], None),
    ("a draft that is edited", BASE, ("transaction", "Ana", FIVE), [], BROKEN),
    ("a draft as it is committed", BASE, ("transaction", "Ana", FIVE), ["--commit"], BACK),
    ("another clerk's draft", BASE, ("transaction", "Bo", FIVE), ["--commit"], BASE),
)


def office_of(committed, draft):
    """An office with one plan, and perhaps a draft of it."""
    office = Office()
    office.add(12, 365, "Main St")
    it = office.find(12)
    it.committed = plan_of(committed)
    if draft:
        state, owner, rows = draft
        it.enter(state, owner, plan_of(rows, it.committed))
    return office


def command_of(options, rows, path):
    """An edit by a file, which is written to this path, or without one."""
    if rows is not None:
        path.write_text(fields.write_csv(rows))
    words = ["--clerk", "Ana", *options, "12", *[str(path)] * (rows is not None)]
    return Command("edit", words, functools.partial(
        commands.edit, id=12, clerk="Ana", records=rows or [], commits="--commit" in options,
        replaces="--replace" in options, advises="--advise" in options))


class Stopped:
    """An edit that is made again and again over the same file."""

    def __init__(self, program, folder, case):
        self.program, self.folder = program, folder
        self.name, committed, draft, options, rows = case
        self.held = Held(TODAY, office_of(committed, draft))
        self.command = command_of(options, rows, folder / "rows.csv")
        self.before, self.path = folder / "before.db", folder / "office.db"
        self.count, self.seen = 0, set()
        program.run(["batch", "--db", str(self.before)], Trouble())
        with contextlib.closing(sqlite3.connect(self.before)) as db, db:
            tables.put(db, self.held.office, tables.TODAY)

    def left(self):
        """What a later run finds in the file, and SQLite after it."""
        came = self.program.run(["list", "--db", str(self.path)], Trouble())
        if (came.status, came.told) != (0, ""):
            raise Off(f"a later run ends with {came}")
        with contextlib.closing(sqlite3.connect(self.path)) as db:
            return tables.found(db)

    def run(self, trouble):
        """Makes the edit, which this befalls, and tells whether it did."""
        for it in self.folder.glob("office.db*"):
            it.unlink()
        shutil.copyfile(self.before, self.path)
        came = self.command.come(self.program, str(self.path), trouble)
        may_be = self.command.after(self.held, came, False)
        wanted, left = [tables.rows(it.office) for it in may_be], self.left()[1]
        if left not in wanted:
            raise Off(f"{left}\n  is none of {wanted}")
        self.count += 1
        self.seen.add(left != tables.rows(self.held.office))
        return came.is_killed or came.refused

    def try_each(self, troubles):
        """Makes the edit with each trouble in turn, up to one that does not befall it."""
        for trouble in troubles:
            try:
                if not self.run(trouble):
                    return
            except Off as it:
                raise Off(f"{self.name}: {self.command}, {trouble}: {it}") from None


def stops(program, library, number):
    """Makes one of the edits in all ways. Tells how many runs, and what is wrong."""
    with tempfile.TemporaryDirectory(dir=ROOM) as folder:
        it = Stopped(Program(program, library), pathlib.Path(folder), CASES[number])
        try:
            it.run(Trouble())
            for part in PARTS:
                it.try_each(Trouble(last=at, part=part) for at in itertools.count(1))
            for failures, kind in itertools.product((1, -1), KINDS.values()):
                it.try_each(Trouble(failed=at, failures=failures, kinds=kind)
                            for at in itertools.count(1))
            it.try_each(Trouble(room=at) for at in itertools.count(0, ROOM_STEP))
        except Off as off:
            return it.count, str(off)
        _, offices = it.command.steps(it.held.office)
        if len(it.seen) < len(offices):
            return it.count, f"{it.name}: stops only leave one office"
    return it.count, None


def main():
    """Makes all edits."""
    path, words = found(sys.argv[1:2]), sys.argv[2:] or ["1", "2000"]
    if len(words) != 2 or not all(it.isdigit() for it in words):
        sys.exit(__doc__)
    seed, count = map(int, words)
    with tempfile.TemporaryDirectory(dir=ROOM) as folder, \
            concurrent.futures.ProcessPoolExecutor(len(os.sched_getaffinity(0))) as pool:
        library = built(pathlib.Path(folder), "disk", DISK)
        empty = str(pathlib.Path(folder) / "a.db")
        subprocess.run([path, "batch", "--db", empty], input=b"", stdout=subprocess.DEVNULL)
        stopped = [pool.submit(stops, path, library, it) for it in range(len(CASES))]
        drawn = [pool.submit(tried, path, empty, seed, it) for it in range(-(-count // EDITS))]
        totals = []
        for some in (drawn, stopped):
            made = [it.result() for it in some]
            if wrong := [it for _, it in made if it]:
                pool.shutdown(cancel_futures=True)
                sys.exit(f"edits.py: {wrong[0]}")
            totals.append(sum(it for it, _ in made))
    print(f"{totals[0]} drawn edits and {totals[1]} runs of {len(CASES)} edits that are stopped: "
          "as the model has it")


if __name__ == "__main__":
    main()
