#!/usr/bin/env python3
"""Runs the program over a file that another run has open, and over names that are no office's.

    tests/program/in_use.py [PROGRAM]       by default the program that ./office built

- Sixteen commands that are started at once over one file are each done.
- Beside a running `batch` a command ends with `fault: store` and status 1, after as long as
  `--wait` says, with a note before it.
- A command, `batch` and `serve` that find the file locked are done when the lock goes, two seconds
  later; `serve` does not listen before.
- A folder, a file that is no database, one without permission and other names that are no office's
  are refused at once, with a note that says what the name is; so is a file beside a log that can't
  be opened or a rollback journal, and an empty one that can't grow.

The locks of other runs are set as SQLite sets them. Prints a line a case, and ok; ends with status
1 where anything else happened. Takes half a minute.
"""
import contextlib
import fcntl
import os
import pathlib
import resource
import select
import shutil
import signal
import socket
import sqlite3
import subprocess
import sys
import tempfile
import time

sys.path.insert(0, str(pathlib.Path(__file__).resolve().parents[1] / "lib"))
from program import found

PROGRAM = found(sys.argv[1:2])
LOCKED = 1 << 30, 512  # the first byte that SQLite locks, and how many
PATIENCE = 60  # seconds until a run is ended
HOLD = 2  # seconds for which the file is locked
AT_ONCE = 5  # seconds within which a run ends that does not wait; one that does takes ten
FAULT = "fault: store\n"
WAITING = "note: another run has {} open; waiting\n"
OPEN = "note: another run has {} open\n"
STATE = b"GET /intersections/12 HTTP/1.1\r\n\r\n"
OTHER_USER = {"user": 65534, "group": 65534, "extra_groups": []}
failed = []


def case(name, came, wanted):
    """Prints whether a case is as it must be."""
    if came == wanted:
        print(f"{name}: as it must be")
    else:
        print(f"{name}: found {came}, wanted {wanted}")
        failed.append(name)


def begun(words, **how):
    """A run that has begun."""
    how.setdefault("stdin", subprocess.DEVNULL)
    words = [how.pop("program", PROGRAM), *map(str, words)]
    return subprocess.Popen(words, stdout=subprocess.PIPE, stderr=subprocess.PIPE, text=True, **how)


def ended(run, sent=None):
    """The status of a run, what it printed, and its standard error. One that does not end is
    killed."""
    try:
        out, err = run.communicate(sent, timeout=PATIENCE)
    except subprocess.TimeoutExpired:
        run.kill()
        out, err = run.communicate()
        err += "it did not end"
    return run.returncode, out, err


def timed(words, **how):
    """What came of a run, and the seconds that it took."""
    start = time.monotonic()
    came = ended(begun(words, **how))
    return came, time.monotonic() - start


def office(folder, name):
    """A file that holds one intersection."""
    path = folder / name
    case(f"{name} is made", timed(["add", "--db", path, 12, 365, "Main St"])[0], (0, "added\n", ""))
    return path


@contextlib.contextmanager
def held(path):
    """The file, which another run has open meanwhile."""
    with open(path, "r+b") as file:
        first, count = LOCKED
        fcntl.lockf(file, fcntl.LOCK_EX | fcntl.LOCK_NB, count, first)
        yield
    # Closing it lets the lock go.


def sixteen_at_once(folder):
    path = folder / "many.db"
    ids = range(1, 17)
    runs = [begun(["add", "--db", path, id, 365, f"Street {id}"]) for id in ids]
    for id, run in zip(ids, runs):
        status, out, err = ended(run)
        is_quiet = err in ("", WAITING.format(path))
        case(f"{id} of sixteen at once", (status, out, is_quiet), (0, "added\n", True))
    listed = ended(begun(["list", "--db", path, "--csv"]))[1]
    found_ids = [line.split(",")[0] for line in listed.splitlines()]
    case("what the sixteen added", found_ids, [str(id) for id in ids])


def free_port():
    with socket.create_server(("127.0.0.1", 0)) as free:
        return free.getsockname()[1]


def beside_a_batch(folder):
    path = office(folder, "batch.db")
    batch = begun(["batch", "--db", path], stdin=subprocess.PIPE)
    try:
        batch.stdin.write(STATE.decode())
        batch.stdin.flush()
        batch.stdout.readline()
        for wait, note in ((0, OPEN), (1, WAITING), (3, WAITING)):
            words = ["list", "--db", path, "--wait", wait]
            came, took = timed(words)
            case(f"{wait} seconds beside a batch", came, (1, "", note.format(path) + FAULT))
            case(f"{wait} seconds by the clock", wait <= took < wait + AT_ONCE, True)
    finally:
        batch.kill()
        batch.communicate()


def until_free(name, path, words, sent=subprocess.DEVNULL):
    """A run that finds the file locked, and goes on when the lock goes: meanwhile it neither prints
    nor reads what it is sent."""
    with held(path):
        run = begun(words, stdin=sent)
        time.sleep(HOLD)
        is_quiet = not select.select([run.stdout], [], [], 0)[0]
        is_unread = sent == subprocess.DEVNULL or os.lseek(sent.fileno(), 0, os.SEEK_CUR) == 0
        case(f"{name} waits", (run.poll(), is_quiet, is_unread), (None, True, True))
    return run


def waits(folder):
    path = office(folder, "locked.db")
    note = WAITING.format(path)
    status, out, err = ended(until_free("list", path, ["list", "--db", path, "--csv"]))
    case("list, when the lock goes", (status, out[:3], err), (0, "12,", note))
    with tempfile.TemporaryFile() as sent:
        sent.write(STATE)
        sent.seek(0)
        status, out, err = ended(until_free("batch", path, ["batch", "--db", path], sent))
        case("batch, when the lock goes", (status, out[:15], err), (0, "HTTP/1.1 200 OK", note))
    late = ["list", "--db", path, "--wait", "1"]
    case("list, when its time is over", ended(until_late(path, late)), (1, "", note + FAULT))


def until_late(path, words):
    """What came of a run whose time is over while the file is locked."""
    with held(path):
        run = begun(words)
        run.wait(PATIENCE)
    return run


def serves(folder):
    """A server that finds the file locked listens when the lock goes."""
    path = office(folder, "late.db")
    words = ["serve", "--port", free_port(), "--count", 1, "--db", path]
    run = until_free("serve", path, words)
    line = run.stdout.readline()
    if not line:
        return case("serve, when the lock goes", ended(run), "that it listens")
    port = int(line.rsplit(":", 1)[1])
    with socket.create_connection(("127.0.0.1", port), timeout=PATIENCE) as wire:
        wire.sendall(STATE)
        wire.shutdown(socket.SHUT_WR)
        came = b"".join(iter(lambda: wire.recv(65_536), b""))
    case("serve, when the lock goes", came[:15], b"HTTP/1.1 200 OK")
    case("serve, at its end", ended(run), (0, "", WAITING.format(path)))


def refused(path, note, words=("list",), **how):
    """A run over a name that is no office's ends at once, with this note before its fault."""
    came, took = timed([*words[:1], "--db", path, *words[1:]], **how)
    case(f"{words[0]} over {path}", came, (1, "", f"note: {note}\n{FAULT}"))
    case(f"{words[0]} over {path}, at once", took < AT_ONCE, True)


def other_names(folder):
    add = ("add", 12, 365, "Main St")
    for words in (("list",), add, ("batch",), ("migrate",)):
        refused(folder, f"{folder} is a folder", words)
    text, pipe, linked, tables = (folder / it for it in ("text.db", "pipe", "one.db", "tables.db"))
    text.write_text("phase,2,1,8,20,40,40,15\n")
    os.mkfifo(pipe)
    linked.write_bytes(text.read_bytes())
    os.link(linked, folder / "two.db")
    with contextlib.closing(sqlite3.connect(tables)) as db:
        db.execute("CREATE TABLE note (text TEXT)")
    refused(text, f"{text} is no database")
    refused(pipe, f"{pipe} is no file")
    refused(linked, f"{linked} has more than one name, by hard links")
    refused(tables, f"{tables} is a database in which no office can be opened")
    away = folder / "none" / "office.db"
    refused(away, f"the system refuses {away}: No such file or directory (os error 2)", add)
    refused("file:x.db", "file:x.db names no file for SQLite; write ./file:x.db", add)
    refused(":memory:", ":memory: names no file for SQLite; write ./:memory:", add)


def what_stands_beside(folder):
    """A log that is a folder or has two names, and the journal of a change that SQLite did not end."""
    add = ("add", 12, 365, "Main St")
    for name in ("beside.db", "linked.db"):
        path = office(folder, name)
        log = folder / f"{name}-wal"
        log.unlink(missing_ok=True)
        if name == "beside.db":
            log.mkdir()
        else:
            log.write_bytes(b"log")
            os.link(log, folder / "another.db-wal")
        refused(path, f"{path} can't be opened beside its log")
    with contextlib.closing(sqlite3.connect(folder / "begun.db", isolation_level=None)) as db:
        db.execute("PRAGMA journal_mode = DELETE")
        db.execute("CREATE TABLE note (text TEXT)")
        db.execute("PRAGMA cache_size = 1")
        db.execute("BEGIN")
        db.executemany("INSERT INTO note VALUES (?)", [("x" * 100,)] * 10_000)
        for end in ("", "-journal"):
            shutil.copy(folder / f"begun.db{end}", folder / f"stopped.db{end}")
    path = folder / "stopped.db"
    refused(path, f"{path} has a rollback journal; open it by sqlite3 first", add)


def without_room(folder):
    """An empty file that may not grow. The signal that comes with this limit is ignored, as a
    shell's trap '' XFSZ does."""
    def limit():
        signal.signal(signal.SIGXFSZ, signal.SIG_IGN)
        resource.setrlimit(resource.RLIMIT_FSIZE, (0, 0))

    path = folder / "empty.db"
    for words in (("add", 12, 365, "Main St"), ("batch",)):
        path.write_bytes(b"")
        note = f"the system refuses {path}-wal: File too large (os error 27)"
        refused(path, note, words, preexec_fn=limit)


def without_permission(folder):
    """Another user runs the program, by a copy of it, where this one is root."""
    path = office(folder, "kept.db")
    folder.chmod(0o755)
    path.chmod(0o444)
    how = {}
    if os.getuid() == 0:
        how = {"program": shutil.copy(PROGRAM, folder), **OTHER_USER}
    refused(path, f"the system refuses {path}: Permission denied (os error 13)", **how)


def main():
    with tempfile.TemporaryDirectory() as name:
        folder = pathlib.Path(name)
        sixteen_at_once(folder)
        beside_a_batch(folder)
        waits(folder)
        serves(folder)
        other_names(folder)
        what_stands_beside(folder)
        without_room(folder)
        without_permission(folder)
    if failed:
        print(f"in_use.py: {len(failed)} cases are not as they must be", file=sys.stderr)
        sys.exit(1)
    print("ok")


if __name__ == "__main__":
    main()
