"""A row, played: in memory or over a file, with its streams whole or cut into single bytes."""
import contextlib
import os
import pathlib
import socket
import sqlite3
import tempfile
import time

from .reading import Alter, File, Folder, Holds, Lacks, Opening, Sql, Talk, Told
from .running import Off, Runner

OFFICE = "office.db"
NO_OFFICE = f"note: {OFFICE} is a database in which no office can be opened\n"
SHOWN = 600  # bytes of what was wanted, and of what came
HELD = 20  # seconds for which a port is waited for


def shown(text):
    """The beginning of some bytes."""
    more = f" .. and {len(text) - SHOWN} bytes more" if len(text) > SHOWN else ""
    return f"{text[:SHOWN]!r}{more}"


def differ(line, wanted, came):
    raise Off(f"line {line}: wanted {wanted}, came {came}")


def compare(line, told, came):
    """Compares what came with what is told, from this line on."""
    if told.is_any:
        return came or differ(line, "some text", "none")
    for at, wanted in told.pieces:
        if not came.startswith(wanted):
            differ(at, shown(wanted), shown(came))
        came = came[len(wanted):]
    if came:
        differ(line, "nothing more", shown(came))


def compare_status(line, told, came):
    if told != came:
        differ(line, f"status {told}", f"status {came}")


def compare_stream(line, out, fault, came, note=""):
    """Compares what came of a run over a stream, which tells a fault, after a note where there is
    one, or ends in order."""
    told = [(line, f"{note}fault: {fault}\n".encode())] if fault else []
    compare(line, Told(told), came.err)
    compare(line, out, came.out)
    compare_status(line, 1 if fault else 0, came.status)


def alter(path, line, sql):
    """Changes the database in a file by another tool."""
    try:
        with contextlib.closing(sqlite3.connect(path, isolation_level=None)) as base:
            base.executescript(sql)
    except sqlite3.Error as it:
        differ(line, sql, it)


def listener(port):
    """Listens on a port, once no other does; none where another does so for long."""
    until = time.monotonic() + HELD
    while time.monotonic() < until:
        with contextlib.suppress(OSError):
            return socket.create_server(("127.0.0.1", port))
        time.sleep(0.1)
    return None


@contextlib.contextmanager
def listening(port):
    """Another program listens on a port, if one is named."""
    other = None if port is None else listener(port)
    try:
        yield
    finally:
        if other:
            other.close()


class ByProgram:
    """Plays a row that runs the program."""

    def __init__(self, runner):
        self.runner, self.folder = runner, pathlib.Path(runner.folder)

    def talk(self, talk):
        with listening(talk.taken):
            came = self.runner.run(talk.words, talk.sent, talk.breaks, talk.room)
        compare(talk.line, talk.err, came.err)
        compare(talk.line, talk.out, came.out)
        compare_status(talk.line, talk.status, came.status)

    def file(self, step):
        (self.folder / step.name).write_bytes(step.text.encode())

    def make(self, step):
        (self.folder / step.name).mkdir()

    def alter(self, step):
        alter(self.folder / step.name, step.line, step.sql)

    def lacks(self, step):
        if os.path.lexists(self.folder / step.name):
            differ(step.line, "no such file", step.name)

    def holds(self, step):
        try:
            held = (self.folder / step.name).read_bytes()
        except OSError as it:
            return differ(step.line, f"a file {step.name}", it)
        if held != step.text.encode():
            differ(step.line, shown(step.text.encode()), shown(held))

    DOES = {Talk: talk, File: file, Folder: make, Alter: alter, Lacks: lacks, Holds: holds}

    def play(self, row):
        for step in row.steps:
            self.DOES[type(step)](self, step)


class OverFile:
    """Plays a row of streams, each by a run over a file, which another tool changes in between."""

    def __init__(self, runner):
        self.runner = runner

    def ran(self, sent=b"", breaks=False, room=None):
        return self.runner.run(["batch", "--db", OFFICE], sent, breaks, room)

    def talk(self, talk):
        came = self.ran(talk.sent, talk.breaks, talk.room)
        compare_stream(talk.line, talk.out, talk.failed, came)

    def opening(self, step):
        note = NO_OFFICE if step.fault == "store" else ""
        compare_stream(step.line, Told(), step.fault, self.ran(), note)

    def sql(self, step):
        alter(os.path.join(self.runner.folder, OFFICE), step.line, step.sql)

    DOES = {Talk: talk, Opening: opening, Sql: sql}

    def play(self, row):
        if not row.is_bare:
            self.opening(Opening(1))
        for step in row.steps:
            self.DOES[type(step)](self, step)


class InMemory:
    """Plays a row of streams over tables in memory, which last as long as a run: one stream by
    `batch`, and several by `serve`, each over a connection of its own."""

    def __init__(self, runner):
        self.runner = runner

    def play(self, row):
        talks = row.talks()
        if len(talks) == 1:
            return self.play_one(talks[0])
        came = self.runner.serve([(it.sent, it.breaks, it.room) for it in talks])
        for talk, answers in zip(talks, came, strict=True):
            compare(talk.line, talk.out, answers)

    def play_one(self, talk):
        came = self.runner.run(["batch"], talk.sent, talk.breaks, talk.room)
        compare_stream(talk.line, talk.out, talk.failed, came)


def ways(row):
    """The ways in which a row is played, and by what. One that runs the program is played by its
    own words, since what it does lies in files. Tables in memory are open to no other tool."""
    if row.runs_program():
        kinds = {"by its own words": ByProgram}
    elif row.needs_file():
        kinds = {"over a file": OverFile}
    else:
        kinds = {"in memory": InMemory, "over a file": OverFile}
    return [(f"{kind}, {cut}", player, cut != "whole")
            for kind, player in kinds.items() for cut in ("whole", "in single bytes")]


def play(row, program, library):
    """What came otherwise than a row tells, in each of its ways."""
    wrong = []
    for way, player, is_cut in ways(row):
        with tempfile.TemporaryDirectory() as folder:
            try:
                player(Runner(program, library, folder, is_cut)).play(row)
            except Off as it:
                wrong.append(f"{way}, {it}")
    return wrong
