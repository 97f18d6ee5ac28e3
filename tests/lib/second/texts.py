"""What commands print over drawn offices and drawn CSV files, with their status, their lines on
standard error and what they do to the tables, must be what the model says.

Each office has plans, drafts and a register, with names and texts that have markup, quotes, other
scripts and marks of direction; drafts break any rule. Some offices begin as version 1, and in some
a row is damaged at the end. Of each, all reports are compared, folders of pages and of CSV, and
some commands that change it or look at plans in files. Each bad field, and each reason and warning
that is seldom drawn, is tried once.

It is wrong too where the program has a text, an option or a fault that neither came in what was
compared nor stands in the tables of printed.py with the test that has it.
"""
import concurrent.futures
import contextlib
import os
import pathlib
import random
import re
import shlex
import shutil
import sqlite3
import subprocess
import sys
import tempfile

from model import asking, damage, program, requests, rows, tables
from model.office import LAST_REVISION, Office
from model.rules import violations
from model.wire import answer

from . import plans, printed

LONG_NAME = "Avenue of the <Boulevards> & Streets, at the corner of a long name"
ROOM = "/dev/shm" if os.access("/dev/shm", os.W_OK) else None  # files in memory, if there are any

ASKED = 60  # requests that draw an office
COMMANDS = 14  # commands that change an office, or look at files
OLD, DAMAGED, ALL_TEXTS = 0.1, 0.4, 400  # shares of offices; from how many on each text must come
unseen = {}  # the pieces of text that this process has not yet seen, once they are read


def draw_plan(dice):
    """A plan, of which two in three break some rule."""
    return rows.plan_of(plans.drawn(dice.getrandbits(32)))


def draw_plans(dice, it):
    """The plan and the draft of an intersection. A draft may break any rule, and a committed plan
    breaks none."""
    plan = draw_plan(dice)
    if dice.random() < 0.5 and not violations(plan):
        it.committed = plan
    if dice.random() < 0.3:
        it.revision = dice.choice((1, 7, LAST_REVISION - 1, LAST_REVISION))
    if it.draft is None and dice.random() < 0.3:
        it.enter(dice.choice(tables.STATES[1:]), "Ana", it.committed)
    if it.draft is not None and dice.random() < 0.5:
        it.draft = draw_plan(dice)


def draw_office(dice):
    """An office that answered requests, some of whose names, texts and plans are others then."""
    office = Office()
    themes = [theme(dice, office)
              for theme in (requests.transactions, requests.plans, requests.registers)]
    for _ in range(ASKED * (dice.random() < 0.98)):
        method, target, keys = next(dice.choice(themes))
        answer(office, method, target, (requests.body_of(keys) or "").encode())
    for it in office.intersections.values():
        draw_plans(dice, it)
        it.name = asking.told(dice, it.name, it.name * 3)
        it.owner = it.owner and asking.told(dice, it.owner)
    for records in (office.register.inspections, office.register.orders):
        for key, it in records.items():
            records[key] = it._replace(clerk=asking.told(dice, it.clerk),
                                       text=asking.told(dice, it.text, it.text * 9))
            if getattr(it, "closer", None):
                records[key] = records[key]._replace(closer=asking.told(dice, it.closer))
    return office


def lengthen(office):
    """Gives each intersection a name that is too long for the columns of a picture."""
    for it in office.intersections.values():
        it.name = LONG_NAME


def spelled(data):
    """A text, in which a byte that is not UTF-8 stands as no text of the model does."""
    return data.decode(errors="surrogateescape")


class Trial:
    """The program over the file of an office in a folder of its own, beside the second one."""

    def __init__(self, path, office, folder, is_old, is_first):
        self.path, self.folder, self.db = path, folder, folder / "office.db"
        self.is_first = is_first  # what is not drawn is tried once
        self.second = program.Program(office, {}, is_old)
        self.count, self.seen = 0, set()

    def put(self, empty):
        """Makes the file."""
        shutil.copyfile(empty, self.db)
        with contextlib.closing(sqlite3.connect(self.db)) as db, db:
            tables.put(db, self.second.office, 1 if self.second.is_old else tables.TODAY)

    def run(self, words, csvs):
        """What came of a command."""
        for name, text in csvs.items():
            if name != asking.INPUT:
                (self.folder / name).write_bytes(text.encode(errors="surrogateescape"))
        ran = subprocess.run([self.path, *words], cwd=self.folder, capture_output=True,
                             input=csvs.get(asking.INPUT, "").encode(errors="surrogateescape"))
        return program.Ran(ran.returncode, spelled(ran.stdout), spelled(ran.stderr))

    def note(self, words, told):
        """Notes what was compared."""
        name, options, _ = program.asked(words)
        lines = printed.marked(told.err)
        self.seen |= {name, *(f"{name} {it}" for it in options)}
        self.seen |= printed.forms_in(told.out, told.err)
        for line in re.findall(r"^fault: .*(?:\nheld by)?", lines, re.M):
            self.seen.add(line.replace("\n", "/"))
        self.note_pieces(told.out + told.err)

    def note_pieces(self, text):
        """Notes the pieces of text that are in what was compared."""
        for piece in [it for it in unseen if it in text]:
            self.seen.add(piece)
            del unseen[piece]

    def differs(self, words, csvs=None, told=None):
        """What is wrong with a command."""
        self.second.texts = csvs or {}
        told = told or self.second.run(words)
        came, self.count = self.run(words, csvs or {}), self.count + 1
        if came == told:
            return self.note(words, told)
        asked = "".join(f"\n{name}:\n{text}" for name, text in (csvs or {}).items())
        parted = "\n".join(f"  {name}: {parting(one, other)}" for name, one, other in zip(
            came._fields, told, came) if one != other)
        return f"{shlex.join(words)}:\n{parted}{asked}"

    def differs_in_folder(self, words):
        """What is wrong with a command that puts files into a folder."""
        made = self.folder / "folder"
        if wrong := self.differs([*self.over(words), made.name]):
            return wrong
        came = {it.name: spelled(it.read_bytes()) for it in made.glob("*")}
        shutil.rmtree(made, ignore_errors=True)
        for name, told in program.folder_of(self.second.office, words).items():
            self.count += 1
            self.note_pieces(told + name)
            text = came.pop(name, "")
            if text != told:
                return f"{shlex.join(words)}: {name}: {parting(told, text)}"
        return f"{shlex.join(words)}: more came: {sorted(came)}" if came else None

    def differs_in_tables(self, name="office.db"):
        """What is wrong with the tables of a file."""
        told = 1 if self.second.is_old else tables.TODAY
        office = self.second.copies.get(name, self.second.office)
        with contextlib.closing(sqlite3.connect(self.folder / name)) as db:
            try:
                came = tables.found(db)
            except sqlite3.Error as it:
                return f"the tables of {name}: {it}"
        is_same = came == (told, tables.rows(office, told))
        return None if is_same else f"the tables of {name} are others"

    def over(self, words):
        """A command over the file."""
        return [words[0], "--db", "office.db", *words[1:]]

    def change(self, statement):
        """Changes the tables of the file by another tool."""
        with contextlib.closing(sqlite3.connect(self.db)) as db, db:
            db.execute(*statement)

    def told_of(self, harm, words):
        """What is told of a command that reads the damaged row; none of another one."""
        is_read = harm.is_read_by(self.second.office, words)
        return program.Ran(1, "", "fault: damaged\n") if is_read else None

    def damaged(self, dice, harm):
        """What is wrong over a file of which a row is damaged, after each thing that is tried."""
        self.change(harm.sql())
        self.second.harm = harm
        for words in asking.reports(dice, self.second.office):
            yield self.differs(self.over(words), None, self.told_of(harm, words))
        for words in asking.folders(dice, self.second.office):
            if told := self.told_of(harm, words):
                yield self.differs([*self.over(words), "folder"], None, told)
                yield "a folder was made" if (self.folder / "folder").exists() else None
        for words, csvs in (*asking.new_plan(), *(
                asking.draw_edit(dice, self.second.office) for _ in range(3))):
            if words[0] == "add" or not harm.is_read_by(self.second.office, words):
                yield self.differs(words, csvs)
        self.change(harm.sql(is_mended=True))
        self.second.harm = None
        yield self.differs_in_tables()

    def changed(self, words, csvs):
        """What is wrong with a command that may change the tables."""
        if wrong := self.differs(words, csvs):
            return wrong
        told = self.differs_in_tables()
        return told and f"after {shlex.join(words)}: {told}"

    def missing(self, dice):
        """What is wrong with a command over a file that is not there, which add alone makes."""
        words, csvs = asking.draw_command(dice, self.second.office)
        words = ["none.db" if it == "office.db" else it for it in words]
        second = program.Program(Office(), csvs, is_missing=True)
        if wrong := self.differs(words, csvs, second.run(words)):
            return wrong
        is_made = (self.folder / "none.db").exists()
        return f"{shlex.join(words)}: a file was made" if is_made and words[0] != "add" else None

    def aged(self, dice):
        """What is wrong with commands over a file of version 1, which is migrated at the end."""
        for words in asking.some_reports(dice, self.second.office):
            yield self.differs(self.over(words))
            yield self.differs_in_tables()
        for _ in range(3):
            yield self.changed(*asking.draw_change(dice, self.second.office))
        yield self.changed(["migrate", "--db", "office.db"], {})

    def wrongs(self, dice):
        """What is wrong, after each thing that is tried; none where nothing is."""
        if self.second.is_old:
            yield from self.aged(dice)
        yield self.missing(dice)
        for _ in range(COMMANDS):
            yield self.changed(*asking.draw_command(dice, self.second.office))
        for name in self.second.copies:
            yield self.differs_in_tables(name)
        for words in asking.reports(dice, self.second.office):
            yield self.differs(self.over(words))
        for words in asking.folders(dice, self.second.office):
            yield self.differs_in_folder(words)
        yield self.differs_in_tables()
        for words, csvs in (*asking.bad_files(), *asking.rare_files()) if self.is_first else ():
            yield self.differs(words, csvs)
        for words, csvs in asking.noted_edits() if self.is_first else ():
            yield self.changed(words, csvs)
        harm = damage.draw(dice, self.second.office) if dice.random() < DAMAGED else None
        for wrong in self.damaged(dice, harm) if harm else ():
            yield wrong and f"while {harm} is damaged: {wrong}"


def tried(asked):
    """How many texts of a drawn office were compared, what was seen, and the first that differs."""
    path, empty, seed = asked
    dice = random.Random(f"texts {seed}")
    office, is_old = draw_office(dice), dice.random() < OLD
    if seed.endswith("7"):
        lengthen(office)
    if is_old:
        tables.age(office)
    if not unseen:
        unseen.update(printed.pieces())
    with tempfile.TemporaryDirectory(dir=ROOM) as folder:
        is_first = seed.endswith(" 0")
        trial = Trial(path, office, pathlib.Path(folder), is_old, is_first)
        trial.put(empty)
        wrong = next((it for it in trial.wrongs(dice) if it), None)
    return trial.count, trial.seen, wrong


def parting(told, came):
    """Where two texts part."""
    if isinstance(told, int):
        return f"told {told}, came {came}"
    at = len(os.path.commonprefix([told, came]))
    return f"told {told[max(at - 40, 0):at + 120]!r}, came {came[max(at - 40, 0):at + 120]!r}"


def compare(path, seed, count):
    """Compares drawn offices, some at a time."""
    compared, seen = 0, set()
    with tempfile.TemporaryDirectory(dir=ROOM) as folder:
        empty = str(pathlib.Path(folder) / "empty.db")
        subprocess.run([path, "batch", "--db", empty], input=b"", stdout=subprocess.DEVNULL)
        asked = [(path, empty, f"{seed} {number}") for number in range(count)]
        with concurrent.futures.ProcessPoolExecutor(len(os.sched_getaffinity(0))) as pool:
            for (*_, name), (some, of, wrong) in zip(asked, pool.map(tried, asked)):
                if wrong:
                    pool.shutdown(cancel_futures=True)
                    sys.exit(f"texts: seed {name}: {wrong}")
                compared, seen = compared + some, seen | of
    untold = [*printed.untold(path, seen)]
    if untold and count >= ALL_TEXTS:
        sys.exit("\n".join(["texts: not compared:", *untold]))
    print(f"{compared} texts of {count} drawn offices: the program writes what the model does")
