"""Commands over an office's file, how long each waits, and what that is held against: a yardstick,
which is a process that runs commands of every kind one after the other over a file of its own. What
keeps the machine busy slows it as it slows those who wait."""
import contextlib
import multiprocessing
import os
import pathlib
import random
import subprocess
import sys
import tempfile
import threading
import time

from program import TOP
from serving import Off, delivery, spelled

PLAN = TOP / "bench" / "plan.csv"
STREETS = 120  # intersections of an office
LONGEST = 3  # seconds that a call or a command may wait
MOST = 60  # commands that the yardstick may run meanwhile, where it is longer
PATIENCE = 60  # seconds after which a command gives up, and a client too
FORKED = multiprocessing.get_context("fork")
RAN = FORKED.Value("Q", 0)  # commands that the yardstick ran
OVER = FORKED.Event()  # nobody waits any more


def requests(count):
    """An office of so many intersections, each with a committed plan."""
    rows = [line.split(",") for line in PLAN.read_text().splitlines()]
    for number in range(1, count + 1):
        yield spelled("/intersections", {"id": number, "interval": 365, "name": f"{number} St"})
        steps = ({"clerk": "Ana"}, {"clerk": "Ana", "rows": rows}, *[{"clerk": "Ana"}] * 3)
        for name, keys in zip(("begin", "edit", "verify", "check", "commit"), steps):
            yield spelled(f"/intersections/{number}/{name}", keys)


def new_office(program, folder):
    """The path of the file of a new office in a folder."""
    db = pathlib.Path(folder) / "city.db"
    subprocess.run([program, "batch", "--db", db], input=b"".join(requests(STREETS)),
                   stdout=subprocess.DEVNULL, check=True)
    return db


class Waited:
    """How long something is waited for, from now on: in seconds, and in commands that the yardstick
    runs meanwhile."""

    def __init__(self):
        self.begun, self.took = (time.monotonic(), RAN.value), (0, 0)

    def so_far(self):
        return time.monotonic() - self.begun[0], RAN.value - self.begun[1]

    def end(self):
        self.took = self.so_far()

    def expect_short(self, what):
        """It was not waited for too long."""
        seconds, runs = self.took
        if seconds > LONGEST and runs > MOST:
            raise Off(f"{what} waited {seconds:.2f} s, and may wait {LONGEST} s; meanwhile another "
                      f"process ran {runs} commands one after the other, and may run {MOST}")

    def may_go_on(self, seconds, runs):
        """Whether it took so long neither by the clock nor by the yardstick."""
        took, ran = self.so_far()
        return took < seconds or ran < runs and took < PATIENCE


@contextlib.contextmanager
def soon(what):
    """Something that may be waited for so long."""
    waited = Waited()
    yield waited
    waited.end()
    waited.expect_short(what)


def longest(waits):
    """What the longest of these took, as it is told."""
    seconds, runs = max((it.took for it in waits), default=(0, 0))
    return f"{seconds:.2f} s and {runs} commands"


class Command:
    """A command over a file, which has begun."""

    def __init__(self, program, db, *words, sent=b""):
        self.words, self.out, self.err = words, *(tempfile.TemporaryFile() for _ in range(2))
        with tempfile.TemporaryFile() as given:
            given.write(sent)
            given.seek(0)
            words = [program, words[0], "--db", db, "--wait", str(PATIENCE), *map(str, words[1:])]
            self.waited = Waited()
            self.run = subprocess.Popen(words, stdin=given, stdout=self.out, stderr=self.err)
        self.watcher = threading.Thread(target=self.watch)
        self.watcher.start()

    def watch(self):
        """Waits for its end, and notes how long it took."""
        os.waitid(os.P_PID, self.run.pid, os.WEXITED | os.WNOWAIT)
        self.waited.end()

    def came(self):
        """Its status, what it printed, and its standard error. It is killed where it does not
        end."""
        self.watcher.join(2 * PATIENCE)
        if self.watcher.is_alive():
            self.run.kill()
            self.watcher.join()
        self.run.wait()
        for it in (self.out, self.err):
            it.seek(0)
        with self.out, self.err:
            came = self.run.returncode, self.out.read().decode(), self.err.read().decode()
        self.waited.expect_short(f"{self.words}, {came},")
        return came


def is_done(command, wanted=""):
    """What a command printed that must be done: it begins so, and beside it are only notes."""
    status, out, err = command.came()
    is_quiet = all(line.startswith("note: ") for line in err.splitlines())
    if (status, is_quiet) != (0, True) or not out.startswith(wanted):
        raise Off(f"{command.words}: {status}, {out[-200:]!r}, {err!r}")
    return out


class Worker:
    """Runs commands of every kind, and counts what they did."""

    def __init__(self, program, db, number):
        self.program, self.db, self.number = program, db, number
        self.dice = random.Random(f"worker {number}")
        self.added, self.delivered, self.sent, self.commits, self.waits = [], 0, 0, 0, []
        self.own = number + 1  # an intersection that nobody else edits

    def run(self, *words, sent="", wanted=""):
        command = Command(self.program, self.db, *words, sent=sent.encode())
        self.waits.append(command.waited)
        return is_done(command, wanted)

    def look(self):
        for words in (("list",), ("sheet", 7), ("page", 8), ("export", 9), ("diagram", 7, 1),
                      ("stock",), ("orders",), ("used", "--csv"), ("cabinet", 9),
                      ("overdue", "2027-01-01"), ("export", "--cabinet", self.own)):
            self.run(*words)

    def add(self):
        self.added.append(1_000 * self.own + len(self.added))
        self.run("add", self.added[-1], 365, "New St", wanted="added\n")

    def take(self):
        numbers = range(self.delivered + 1, self.delivered + 4)
        lines = "".join(f"delivery,C{self.number},{it},2026-05-01,1\n" for it in numbers)
        self.run("import", "-", sent=lines, wanted="added 3, same 0\n")
        self.delivered += 3

    def send(self):
        self.sent += 1
        request = spelled("/deliveries", delivery(f"B{self.number}", self.sent)).decode()
        out = self.run("batch", sent=request)
        if '{"result":"added"}' not in out:
            raise Off(f"batch answered {out!r}")

    def edit(self):
        """Commits a plan that differs in a longest green, and begins a draft that it drops."""
        plans = [f"phase,2,1,8,20,{it + 41},40,15,6,7,12,490,60,0,0\n" for it in range(3)]
        words = "edit", "--clerk", "Ana", "--commit", self.own, "-"
        self.commits += 1
        self.run(*words, sent=plans[self.commits % 2], wanted="no violations\ncommitted")
        self.run("edit", "--clerk", "Bo", self.own, "-", sent=plans[2])
        self.run("abandon", "--clerk", "Ana", self.own, wanted="abandoned")

    def keep(self):
        folder = self.db.parent
        copy = folder / f"copy{self.number}.db"
        self.run("backup", "--force", copy, wanted="copied\n")
        self.run("migrate", wanted="migrated 0 rows\n")
        self.run("pages", folder / f"pages{self.number}")

    def run_all(self):
        """Runs commands of every kind, in an order of its own."""
        turns = (self.look, self.add, self.take, self.send, self.edit, self.keep)
        for turn in self.dice.sample(turns, len(turns)):
            turn()


class Yardstick(Worker):
    """Counts its commands for those who wait, until nobody does."""

    def run(self, *words, **how):
        if OVER.is_set() or not multiprocessing.parent_process().is_alive():
            sys.exit()
        out = super().run(*words, **how)
        RAN.value += 1
        return out


def keep_pace(program):
    """A process: the yardstick."""
    with tempfile.TemporaryDirectory() as folder:
        yardstick = Yardstick(program, new_office(program, folder), 0)
        while True:
            yardstick.run_all()


def begin(work, *words):
    """A process that does some work, and ends with status 1 where that gives nothing true; and with
    this one."""
    process = FORKED.Process(target=lambda: sys.exit(not work(*words)), daemon=True)
    process.start()
    return process


def end_yardstick(yardstick):
    """Ends the yardstick, and tells whether it ran until then."""
    was_there = yardstick.is_alive()
    OVER.set()
    yardstick.join()
    return was_there
