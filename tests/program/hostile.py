#!/usr/bin/env python3
"""Runs the program on what must not break it, with real files: files that are not its own, that
another process has open, that can't be written; a full disk, an output without a reader, random
bytes. Also holds copies of an office against its file, and the numbers of logs against each other.
Each run must end by itself within two minutes with its status and its line on standard error, never
by a signal. What it refused must stay byte for byte.

    tests/program/hostile.py [PROGRAM]      by default the program that ./office built

As root it also tries a file without write permission and a full disk. What does not rest on each
other is tried side by side. Prints a line a case, and ok.
"""
import concurrent.futures
import os
import pathlib
import random
import resource
import shutil
import signal
import sqlite3
import subprocess
import sys
import tempfile

sys.path.insert(0, str(pathlib.Path(__file__).resolve().parents[1] / "lib"))
from program import TOP, found

PROGRAM = found(sys.argv[1:2])
ADD = (
    b"POST /intersections HTTP/1.1\r\nContent-Length: 41\r\n\r\n"
    b'{"id":12,"interval":365,"name":"Main St"}'
)
STATE = b"GET /intersections/12 HTTP/1.1\r\n\r\n"
PLAN = os.path.join(TOP, "bench", "plan.csv")
ON_FILES = (
    ["batch"],
    ["sheet", "12"],
    ["overdue", "2027-03-02"],
    ["migrate"],
    ["import", os.devnull],
    ["export", "12"],
    ["edit", "--clerk", "Ana", "12", PLAN],
    ["compare", "12"],
    ["diagram", "12", "1"],
    ["add", "12", "365", "Main St"],
    ["abandon", "--clerk", "Ana", "12"],
    ["list"],
    ["stock"],
    ["stock", "RELAY"],
    ["orders"],
    ["used"],
    ["work", "--from", "2026-05-01", "--to", "2026-05-31"],
    ["cabinet", "12"],
    ["page", "12"],
)
MAKERS = ("batch", "add")  # they make the file where there is none
STORE = b"fault: store\n"
PATIENCE = 120  # seconds in which a run has to end, also on a busy machine
failed = []


def run(words, stdin=b"", copies=None, **how):
    """The status, what was printed, and what was told on standard error. Instead of some files,
    perhaps the program among them, it may use copies."""
    how.setdefault("stdout", subprocess.PIPE)
    words = [(copies or {}).get(it, it) for it in (PROGRAM, *words)]
    ran = subprocess.run(words, input=stdin, stderr=subprocess.PIPE, timeout=PATIENCE, **how)
    return ran.returncode, ran.stdout or b"", ran.stderr


def case(name, found, wanted):
    if found == wanted:
        print(f"{name}: as it must be", flush=True)
    else:
        print(f"{name}: found {found}, wanted {wanted}", flush=True)
        failed.append(name)


def without_notes(err):
    """What was said on standard error, without notes."""
    return b"".join(it for it in err.splitlines(True) if not it.startswith(b"note: "))


def held(path):
    if not os.path.isfile(path):
        return None
    with open(path, "rb") as file:
        return file.read()


def refused(name, path, line=STORE, note="", migrate=None, making=None, other="", **how):
    """The commands on a file, which do not wait for it, refuse it with the same line, `migrate` and
    those that make a file perhaps with another, and leave it as it was. Where the store refuses it
    there is a note before, and perhaps another one before another fault."""
    before = held(path)
    for words in ON_FILES:
        came = run([words[0], "--db", path, "--wait", "0", *words[1:]], ADD, **how)
        told = {"migrate": migrate, **dict.fromkeys(MAKERS, making)}.get(words[0]) or line
        why = note if told == STORE else other
        wanted = f"note: {why}\n".encode() + told if why else told
        case(f"{name}, {words[0]}", came, (1, b"", wanted))
    case(f"{name}, the file", held(path), before)


def makes_none(name, path, note):
    """The commands that make no file tell that there is none, and leave what is there."""
    before = held(path)
    for words in ON_FILES:
        if words[0] not in MAKERS:
            told = b"fault: version\n" if words == ["migrate"] else b"fault: file\n"
            told = f"note: {note}\n".encode() + told
            case(f"{name}, {words[0]}", run([words[0], "--db", path, *words[1:]]), (1, b"", told))
    case(f"{name}, the file", (held(path), os.path.exists(path + "-wal")), (before, False))


def office(folder, name):
    """A file that holds one intersection."""
    path = os.path.join(folder, name)
    status, _, err = run(["batch", "--db", path], ADD)
    case(f"{name} is made", (status, err), (0, b""))
    return path


OLD_ROW = "phase,2,1,8,20,40,40,15,,7,12,490,60,0"
OLD = (1, [(OLD_ROW,)])
TODAY = (2, [(OLD_ROW + ",0",)])


def old_office(folder, name, intersections):
    """A file of version 1, in which each intersection has one phase with a pedestrian part."""
    path = office(folder, name)
    with sqlite3.connect(path) as db:
        db.execute("UPDATE office_version SET version = 1")
        for number in range(12, 12 + intersections):
            text = "INSERT OR IGNORE INTO intersection VALUES (?, 'Main St', 365, 1, 0, NULL)"
            db.execute(text, (number,))
            db.execute("INSERT INTO timing VALUES (?, 1, 2, 0, ?)", (number, OLD_ROW))
    db.close()
    return path


def stored(path):
    """The version of a file, and the different texts of its committed rows."""
    db = sqlite3.connect(path)
    found = (
        db.execute("SELECT version FROM office_version").fetchone()[0],
        db.execute("SELECT DISTINCT body FROM timing").fetchall(),
    )
    db.close()
    return found


def other_files(folder):
    refused("a directory", folder, note=f"{folder} is a folder")
    away = os.path.join(folder, "none", "office.db")
    refused(
        "a file in a folder that is not there", away, b"fault: file\n",
        f"the system refuses {away}: No such file or directory (os error 2)",
        migrate=b"fault: version\n", making=STORE, other=f"there is no file {away}",
    )
    typo = os.path.join(folder, "typo.db")
    makes_none("a file that is not there", typo, f"there is no file {typo}")
    text = os.path.join(folder, "text.db")
    with open(text, "wb") as file:
        file.write(b"phase,2,1,8,20,40,40,15\n" * 400)
    refused("a text", text, note=f"{text} is no database")
    noise = os.path.join(folder, "noise.db")
    with open(noise, "wb") as file:
        file.write(random.Random(1).randbytes(8192))
    refused("random bytes as a file", noise, note=f"{noise} is no database")
    others = os.path.join(folder, "others.db")
    with sqlite3.connect(others) as db:
        db.execute("CREATE TABLE t (a)")
        db.execute("INSERT INTO t VALUES (1)")
    db.close()
    note = f"{others} is a database in which no office can be opened"
    refused("another's database", others, note=note, migrate=b"fault: version\n")
    empty = os.path.join(folder, "empty.db")
    open(empty, "wb").close()
    makes_none("an empty file", empty, f"{empty} is empty, and no log stands beside it")
    status, out, err = run(["batch", "--db", empty], ADD + STATE)
    case("an empty file", (status, out.count(b"200 OK"), err), (0, 2, b""))


def versions(folder):
    path = office(folder, "version.db")
    with sqlite3.connect(path) as db:
        db.execute("UPDATE office_version SET version = 9")
    db.close()
    refused("tables of version 9", path, b"fault: version\n")
    with sqlite3.connect(path) as db:
        db.execute("DELETE FROM office_version")
    db.close()
    refused("rows without a version", path, b"fault: damaged\n", migrate=b"fault: version\n")
    old = old_office(folder, "old.db", 1)
    status, out, err = run(["batch", "--db", old], ADD)
    case("tables of version 1, batch", (status, out, err), (1, b"", b"fault: version\n"))
    told = run(["migrate", "--db", old])
    case("tables of version 1, migrate", told, (0, b"migrated 1 rows\n", b""))
    case("tables of version 1, afterwards", stored(old), TODAY)


def another_process(folder):
    """While one run of the program holds the file, another is refused. The locks of SQLite's own
    tools are not seen."""
    path = office(folder, "locked.db")
    how = {"stdin": subprocess.PIPE, "stdout": subprocess.PIPE, "bufsize": 0}
    first = subprocess.Popen([PROGRAM, "batch", "--db", path], **how)
    first.stdin.write(STATE)
    first.stdout.read(1)
    refused("a file that another process holds", path, note=f"another run has {path} open")
    out, _ = first.communicate(STATE, timeout=PATIENCE)
    case("the process that holds it", (first.returncode, out.count(b'"id":12')), (0, 2))


def without_leave(folder):
    """Another user runs the program, by copies of it and of the plan, since that user may perhaps
    not enter the folder of this repository."""
    path = office(folder, "kept.db")
    copies = {it: shutil.copy(it, folder) for it in (PROGRAM, PLAN)}
    for it, mode in ((folder, 0o755), (path, 0o444), *((it, 0o755) for it in copies.values())):
        os.chmod(it, mode)
    other = {"user": 65534, "group": 65534, "extra_groups": []}
    note = f"the system refuses {path}: Permission denied (os error 13)"
    refused("a file without leave to write", path, note=note, copies=copies, **other)


def additions(count):
    """Requests that add so many intersections."""
    head = b"POST /intersections HTTP/1.1\r\nContent-Length: %d\r\n\r\n%s"
    body = b'{"id":%d,"interval":365,"name":"%s"}'
    bodies = (body % (number, b"x" * 100) for number in range(1, count + 1))
    return b"".join(head % (len(it), it) for it in bodies)


def statuses(out):
    """The status of each answer."""
    return [int(answer[:3]) for answer in out.split(b"HTTP/1.1 ")[1:]]


def refused_for_room(name, path, left, **how):
    """A stream of additions meets a refusal for want of room in its middle: all answers before it,
    then 503 and nothing else; and what is left of the file holds the office of the last answer that
    was no 503, or of the first that was."""
    status, out, err = run(["batch", "--db", path], additions(3999), **how)
    told = statuses(out)
    done = told.index(503) if 503 in told else len(told)
    case(f"{name}, the answers", told, [200] * done + [503] * (3999 - done))
    notes = [it for it in err.splitlines() if it.startswith(b"note: ")]
    is_named = notes and all(b"note: the system refuses " + path.encode() in it for it in notes)
    told = without_notes(err) in (b"", STORE)
    ended = (0 < done < 3999, status in (0, 1), told and bool(is_named))
    case(f"{name}, the end", ended, (True, True, True))
    asked = b"".join(b"GET /intersections/%d HTTP/1.1\r\n\r\n" % n for n in range(1, done + 3))
    status, out, err = run(["batch", "--db", left()], asked)
    found = statuses(out)
    is_either = found[done] in (200, 404)
    left_over = (status, found[:done], is_either, found[done + 1 :], err)
    case(f"{name}, what is left", left_over, (0, [200] * done, True, [404], b""))


def full_disk(folder):
    disk = os.path.join(folder, "disk")
    os.mkdir(disk)
    words = ["mount", "-t", "tmpfs", "-o", "size=400k", "none", disk]
    if subprocess.run(words, stderr=subprocess.DEVNULL).returncode:
        print("a full disk: not tried, since nothing can be mounted here")
        return

    def left():
        copy = os.path.join(folder, "copy")
        shutil.copytree(disk, copy)
        return os.path.join(copy, "office.db")

    try:
        refused_for_room("a full disk", os.path.join(disk, "office.db"), left)
    finally:
        subprocess.run(["umount", disk], check=True)


def largest_file(folder):
    """A file may grow to 256 KiB. The signal that comes with this limit is ignored, as a shell's
    trap '' XFSZ does."""
    def limit():
        signal.signal(signal.SIGXFSZ, signal.SIG_IGN)
        resource.setrlimit(resource.RLIMIT_FSIZE, (262144, 262144))

    path = os.path.join(folder, "limited.db")
    refused_for_room("a file at the limit of file sizes", path, lambda: path, preexec_fn=limit)


def outputs(_folder):
    """Outputs that are closed, full or take one byte at a time are tried by outputs.py."""
    how = {"stdin": subprocess.PIPE, "stdout": subprocess.DEVNULL}
    reader = subprocess.Popen(["head", "-c", "10"], **how)
    status, _, err = run(["batch"], STATE * 20000, stdout=reader.stdin)
    reader.stdin.close()
    reader.wait()
    case("a pipe whose reader is gone", (status, err), (1, b"fault: write\n"))


def inputs(folder):
    noise = random.Random(2).randbytes(1_000_000)
    status, out, err = run(["batch"], noise)
    case("a million random bytes", (status, out[:15], err), (0, b"HTTP/1.1 400 Ba", b""))
    path = os.path.join(folder, "noise.csv")
    with open(path, "wb") as file:
        file.write(noise)
    status, out, err = run(["verify-file", path])
    case("random bytes as a plan", (status, out, err[:15]), (1, b"", b"fault: record 1"))
    for path, why in ((folder, "Is a directory (os error 21)"),
                      (os.path.join(folder, "none.csv"), "No such file or directory (os error 2)")):
        told = f"note: the system refuses {path}: {why}\nfault: file\n".encode()
        case("a plan that can't be read", run(["verify-file", path]), (1, b"", told))


def copies(folder):
    """A copy may be read by those who may read its office. One that can't be put in its place is
    not told as copied, and leaves nothing."""
    path = office(folder, "copied.db")
    for mode in (0o600, 0o640):
        os.chmod(path, mode)
        to = os.path.join(folder, f"copy-{mode:o}.db")
        came = run(["backup", "--db", path, to])
        case(f"a copy of a file of mode {mode:o}", came, (0, b"copied\n", b""))
        case("its mode", os.stat(to).st_mode & 0o777, mode)
    place = os.path.join(folder, "place.db")
    os.mkdir(place)
    came = run(["backup", "--db", path, place, "--force"])
    told = f"note: {place} is a folder\nfault: exists\n".encode()
    case("a folder where a copy is to be put", came, (1, b"", told))
    case("what it leaves", (os.listdir(place), os.path.exists(place + ".part")), ([], False))


def log_numbers(folder):
    """Each log has numbers of its own, drawn at random: a file's salts, while it is open."""
    salts = set()
    for name in ("one.db", "two.db", "three.db"):
        path = os.path.join(folder, name)
        how = {"stdin": subprocess.PIPE, "stdout": subprocess.PIPE}
        with subprocess.Popen([PROGRAM, "batch", "--db", path], **how) as ran:
            ran.stdin.write(ADD)
            ran.stdin.flush()
            ran.stdout.readline()
            salts.add((held(path + "-wal") or b"")[16:24])
            ran.stdin.close()
            ran.stdout.read()
    case("the numbers of three logs", (len(salts), b"" in salts), (3, False))


def keep_to(limit):
    """Called in a child: it may take so many bytes of memory."""
    resource.setrlimit(resource.RLIMIT_AS, (limit, limit))


# Commands that are tried with little memory, over these files.
OFFICE, MANY_ROWS, LONG_PLAN = "memory.db", "plan.csv", "long.csv"
WITH_LITTLE_MEMORY = (
    ["batch"],
    ["batch", "--db", OFFICE],
    ["sheet", "--db", OFFICE, "12"],
    ["overdue", "--db", OFFICE, "2027-03-02"],
    ["verify-file", MANY_ROWS],
    ["import", "--db", OFFICE, os.devnull],
    ["export", "--db", OFFICE, "12"],
    ["compare", PLAN, MANY_ROWS],
    ["diagram", "--file", LONG_PLAN, "1"],
    ["add", "--db", OFFICE, "12", "365", "Main St"],
    ["list", "--db", OFFICE],
    ["stock", "--db", OFFICE],
    ["orders", "--db", OFFICE],
    ["used", "--db", OFFICE],
    ["cabinet", "--db", OFFICE, "12"],
    ["page", "--db", OFFICE, "12"],
    ["page", "--file", LONG_PLAN],
)


def little_memory(folder, words):
    """A command under a limit of memory that rises from where the program can't start: it ends
    done, or tells that memory was refused, or that the database refused, which does not always say
    why."""
    path = office(folder, OFFICE)
    for name, text in ((MANY_ROWS, b"phase,2,1,8,20,40,40,15,\n" * 1000),
                       (LONG_PLAN, held(PLAN) * 200)):
        with open(os.path.join(folder, name), "wb") as file:
            file.write(text)
    kept = held(path)
    told, done, other, refusals = 0, 0, [], (b"fault: memory\n", STORE)
    for limit in range(1 << 20, 40 << 20, 1 << 17):
        try:
            status, out, err = run(words, STATE, cwd=folder, preexec_fn=lambda: keep_to(limit))
        except OSError:
            continue
        said = without_notes(err)
        if status == 1 and said in refusals[: 1 + ("--db" in words)]:
            told += 1
        elif status in (0, 3, 4) and not said:
            done += 1
        elif told or done:
            other.append((limit, status, out[:40], err))
    found = (other, told > 0, done > 0)
    case(f"{words[0]} with little memory ({told} told, {done} done)", found, ([], True, True))
    case("the file after want of memory", held(path), kept)


def little_memory_to_migrate(folder):
    """A migration under a rising limit of memory: the file is as it was, or migrated where it is
    told to be."""
    old = old_office(folder, "old_memory.db", 500)
    path = os.path.join(folder, "copy_memory.db")
    told, done, other, refusals = 0, 0, [], (b"fault: memory\n", STORE)
    for limit in range(1 << 20, 40 << 20, 1 << 18):
        shutil.copyfile(old, path)
        try:
            words = ["migrate", "--db", path]
            status, out, err = run(words, preexec_fn=lambda: keep_to(limit))
        except OSError:
            continue
        if (status, out) == (0, b"migrated 500 rows\n") and stored(path) == TODAY:
            done += 1
        elif status == 1 and without_notes(err) in refusals and stored(path) in (OLD, TODAY):
            told += 1
        elif told or done:
            other.append((limit, status, out[:40], err))
        for left in (path, path + "-wal"):
            if os.path.exists(left):
                os.remove(left)
    found = (other, told > 0, done > 0)
    case(f"migrate with little memory ({told} told, {done} done)", found, ([], True, True))


# What is tried, each in a folder of its own. What takes longest stands first.
PARTS = (
    (largest_file,), (little_memory_to_migrate,),
    *((little_memory, words) for words in WITH_LITTLE_MEMORY),
    (other_files,), (versions,), (another_process,), (inputs,), (copies,), (log_numbers,),
    (outputs,),
)
BY_ROOT = ((full_disk,), (without_leave,))


def tried(part, *words):
    """Tries a part, in a process of its own, and gives the names of the cases that failed."""
    failed.clear()
    with tempfile.TemporaryDirectory() as folder:
        part(folder, *words)
    return failed


def main():
    parts = (*(BY_ROOT if os.geteuid() == 0 else ()), *PARTS)
    with concurrent.futures.ProcessPoolExecutor(len(os.sched_getaffinity(0))) as pool:
        runs = [pool.submit(tried, *part) for part in parts]
        wrong = [name for it in runs for name in it.result()]
    if wrong:
        sys.exit(f"hostile.py: {len(wrong)} cases failed: {', '.join(wrong)}")
    print("ok")


if __name__ == "__main__":
    main()
