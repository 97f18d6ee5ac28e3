"""Measures the program beside two that do the same work, in Python over `sqlite3` and in C over
libsqlite3, and prints one table.

    python3 bench/all.py [PROGRAM] [--only WORK] [--times N] [--instructions | --clock] [--write]

The program is the one at that path, or the one that `./office` built. A figure is the processor
seconds of the least of three runs, less those of a run without the work; memory is the most that
the program held. The answers of all programs are compared. The C program is built if there is a
compiler `cc` and SQLite's header (Debian's `libsqlite3-dev`), and does the streams of requests
alone; edits are done by the program alone. With --instructions, which needs valgrind, a twentieth
of each stream is done once, and instructions are counted: seconds swing by a third on many
machines, and these do not. With --clock the streams over a file are measured by the clock, in the
folder for temporary files. With --times each stream is so many times as long. With --write the
table is put into docs/MEASUREMENTS.md.
"""
import argparse
import dataclasses
import os
import pathlib
import re
import shutil
import socket
import subprocess
import sys
import tempfile
import time

import baseline
import work

HERE = pathlib.Path(__file__).resolve().parent
sys.path.insert(0, str(HERE.parent / "tests" / "lib"))
import measured
from program import found

RUNS = 3
PAUSE = 0.005  # seconds between two looks at what a program holds
DAY = "2027-03-02"
VALGRIND = ("valgrind", "--tool=callgrind", "--callgrind-out-file=/dev/null")
PYTHON = (sys.executable, str(HERE / "baseline.py"))
HEAD = ["work", "office", "C", "Python", "Python checks"]


@dataclasses.dataclass
class Work:
    """Some work: its name, the words of both programs, the requests before it and its own, and the
    words of a run without the work. A work of several runs takes these plans in turn in place of
    the word PLAN."""
    name: str
    words: tuple = ("batch",)
    theirs: tuple = ("serve",)
    before: bytes = b""
    requests: bytes = b""
    checked: bool = False
    file: str = ""
    made: str = ""
    runs: int = 1
    plans: tuple = ("",)
    idle: tuple = ()

    def arguments(self, words):
        return [self.made if it == "FILE" else it for it in words]


def streams(times):
    """The works that are streams of requests."""
    def stream(name, before, requests, checked=False):
        before = b"".join(before)
        return Work(name, before=before, requests=before + b"".join(requests), checked=checked)

    count, plans, several = round(200_000 * times), round(200 * times), max(1, round(5 * times))
    first, imports = work.many_intersections(), list(work.imports(several))
    yield stream(f"add and ask, {count:,} requests", [], work.adding_and_asking(count))
    for many, every, four in (("all", 1, 0), ("4", 0, 1)):
        title = f"plans, {many} of 60 rows changed, {plans:,} times"
        yield stream(title, work.committed(), work.transactions(plans, every, four), True)
    records = f"{several * work.IMPORTED:,} records"
    yield stream(f"new imports, {records}", first, imports, True)
    yield stream(f"imports sent again, {records}", [*first, *imports], imports, True)
    count = round(20_000 * times)
    yield stream(f"inspections of one cabinet, {count:,}", [work.opened(12)],
                 work.inspections(count))


def over_files(times, folder):
    """A tenth of the streams over a file, which is not there before: by both programs with a log,
    and a sync for each request that changes something."""
    for it in streams(times / 10):
        yield dataclasses.replace(
            it, name=f"file: {it.name}", words=("batch", "--db", "FILE"),
            theirs=("serve", "FILE"), made=os.path.join(folder, "stream.db"),
        )


def on_files(program, folder):
    """The works on files, which are made first."""
    for name, words, theirs, size, fill in (
        ("overdue, 9,999 intersections", ("overdue", "--db", "FILE", DAY),
         ("overdue", "FILE", DAY), 9_999, work.with_inspections),
        ("orders, 9,999 intersections", ("orders", "--db", "FILE", "--csv"),
         ("orders", "FILE"), 9_999, work.with_orders),
        ("opening, 120,000 rows", ("batch", "--db", "FILE"),
         ("open", "FILE"), 2_000, work.with_plans),
        ("migrating, 120,000 rows", ("migrate", "--db", "FILE"),
         ("migrate", "FILE"), 2_000, work.with_old_plans),
    ):
        path = os.path.join(folder, f"{words[0]}.db")
        work.filled(program, path, size, fill)
        yield Work(name, words, theirs, file=path, made=path + ".copy")


def edits(program, folder, many):
    """Edits of a plan, each a run of the program: every other one makes all rows others."""
    file, plans = os.path.join(folder, "edits.db"), []
    work.filled(program, file, 100, work.with_plans)
    for every in (1, 0):
        records = [f"{','.join(it)}\n" for it in work.plan(every, 0)]
        plans.append(os.path.join(folder, f"plan{every}.csv"))
        pathlib.Path(plans[-1]).write_text("".join(records))
    words = ("edit", "--db", "FILE", "--clerk", "Ana", "--commit", "12", "PLAN")
    for runs in (1, many):
        name = f"edit --commit, 60 rows, 100 intersections, {runs} times"
        yield Work(name, words, (), file=file, made=file + ".copy", runs=runs, plans=tuple(plans),
                   idle=("batch", "--db", "FILE"))


def held_by(process):
    """The most MiB that a process held until now; 0 once it has ended."""
    try:
        told = pathlib.Path("/proc", str(process), "status").read_text()
    except OSError:
        return 0
    found = re.search(r"^VmHWM:\s*(\d+) kB", told, re.MULTILINE)
    return int(found[1]) / 1024 if found else 0


def awaited(child):
    """The processor seconds of a child and the most MiB that it held, once it has ended. The system
    counts what its parent held in the figure that it gives itself."""
    held, ended = 0, 0
    while not ended:
        held = max(held, held_by(child.pid))
        time.sleep(PAUSE)
        ended, status, usage = os.wait4(child.pid, os.WNOHANG)
    child.returncode = os.waitstatus_to_exitcode(status)
    return usage.ru_utime + usage.ru_stime, held


by_clock = False  # whether `ran` tells the seconds of the clock


def ran(words, requests, folder):
    """The processor seconds of a run, the MiB that it held, what it told, and its answers."""
    names = [os.path.join(folder, it) for it in ("requests", "answers", "told")]
    pathlib.Path(names[0]).write_bytes(requests)
    with open(names[0], "rb") as source, open(names[1], "wb") as sink, open(names[2], "wb") as told:
        begun = time.monotonic()
        child = subprocess.Popen(words, stdin=source, stdout=sink, stderr=told)
        seconds, held = awaited(child)
        seconds = time.monotonic() - begun if by_clock else seconds
    answers, said = (pathlib.Path(it).read_bytes() for it in names[1:])
    if child.returncode:
        sys.exit(f"{' '.join(words)} ended with {child.returncode}: {said.decode()[-400:]}")
    return seconds, held, said.decode(), answers


def once(words, it, requests, folder):
    for end in ("", "-wal", "-shm") if it.made else ():
        pathlib.Path(it.made + end).unlink(missing_ok=True)
    if it.file:
        shutil.copyfile(it.file, it.made)
    runs = [ran([it.plans[at % len(it.plans)] if word == "PLAN" else word for word in words],
                requests, folder) for at in range(it.runs)]
    seconds, held, told, answers = zip(*runs)
    return sum(seconds), max(held), "".join(told), b"".join(answers)


def cost(words, it, folder, counts):
    """What the work costs a program, in seconds or instructions, the MiB, and its answers."""
    def least(words, requests):
        if counts:
            _, _, told, answers = once([*VALGRIND, *words], it, requests, folder)
            return sum(map(int, re.findall(r"Collected : (\d+)", told))), 0, answers
        runs = [once(words, it, requests, folder) for _ in range(RUNS)]
        return min(run[0] for run in runs), max(run[1] for run in runs), runs[0][3]

    value, held, answers = least(words, it.requests)
    if it.requests:
        value -= least(words, it.before)[0]
    if it.idle:
        value -= least([words[0], *it.arguments(it.idle)], b"")[0]
    return value, held, answers


def talk(server, port, requests, at_once):
    """Sends requests to a server over one connection, so many on the way at a time, and tells the
    most MiB that it held."""
    with socket.create_connection(("127.0.0.1", port)) as wire:
        wire.setsockopt(socket.IPPROTO_TCP, socket.TCP_NODELAY, 1)
        for first in range(0, len(requests), at_once):
            several, data = requests[first : first + at_once], b""
            wire.sendall(b"".join(several))
            while data.count(b"HTTP/1.1 200 OK") < len(several) or not data.endswith(b"}"):
                data += wire.recv(1 << 16) or sys.exit("the server closed the connection")
        return held_by(server)


def served(program, at_once):
    """The processor seconds of a server for 10,000 requests over one connection, and its MiB."""
    requests = list(work.adding_and_asking(10_000))
    with socket.create_server(("127.0.0.1", 0)) as free:
        port = free.getsockname()[1]
    words = [program, "serve", "--port", str(port), "--count", "1"]
    server = subprocess.Popen(words, stdin=subprocess.DEVNULL, stdout=subprocess.PIPE)
    server.stdout.readline()
    held = talk(server.pid, port, requests, at_once)
    return awaited(server)[0], held


def built(folder):
    """The words of the C program; none where it can't be built."""
    path, source = os.path.join(folder, "baseline"), str(HERE / "baseline.c")
    words = ["cc", "-O2", "-o", path, source, "-lsqlite3"]
    if not shutil.which("cc") or subprocess.run(words, stderr=subprocess.DEVNULL).returncode:
        print("all.py: bench/baseline.c was not built: no cc or no libsqlite3", file=sys.stderr)
        return ()
    return path, baseline.PRAGMAS + baseline.SCHEMA


def peers(it, c):
    """The programs that do the work too, each as its words, or none."""
    own = it.arguments(it.theirs)
    if not own:
        return
    yield [*c, *own[1:]] if c and own[0] == "serve" else []
    yield [*PYTHON, *own]
    yield [*PYTHON, *own, "--checking"] if it.checked else []


def shown(value, counts):
    return f"{value / 1e6:,.1f}" if counts else f"{value:.2f}"


def row(program, it, folder, counts, c):
    ours, held, answers = cost([program, *it.arguments(it.words)], it, folder, counts)
    cells = [it.name, shown(ours, counts)]
    for words in [*peers(it, c)] or [[]] * 3:
        if not words:
            cells.append("")
            continue
        theirs, _, wanted = cost(words, it, folder, counts)
        if answers != wanted:
            sys.exit(f"{it.name}: {words[0]} answers differently")
        cells.append(shown(theirs, counts))
    return cells if counts else [*cells, f"{held:.0f}"]


def rows(program, only, times, counts):
    with tempfile.TemporaryDirectory() as folder:
        long = times / 20 if counts else times
        works = [*over_files(long, folder)]
        if not by_clock:
            works = [*streams(long), *works, *on_files(program, folder),
                     *edits(program, folder, max(2, round(300 * long)))]
        c = built(folder)
        for it in works:
            if only in it.name:
                yield row(program, it, folder, counts, c)
    for at_once in () if counts or by_clock else (1, 100):
        name = f"one connection, 10,000 requests, {at_once} at once"
        if only in name:
            ours, held = min(served(program, at_once) for _ in range(RUNS))
            yield [name, shown(ours, counts), *[""] * 3, f"{held:.0f}"]


def main():
    parser = argparse.ArgumentParser(usage=__doc__.split("\n\n")[1].strip())
    parser.add_argument("program", nargs="?")
    parser.add_argument("--only", default="")
    parser.add_argument("--times", type=float, default=1)
    parser.add_argument("--instructions", action="store_true")
    parser.add_argument("--clock", action="store_true")
    parser.add_argument("--write", action="store_true")
    asked = parser.parse_args()
    if asked.write and (asked.only or asked.times != 1):
        parser.error("--write wants the whole table, with streams of their own length")
    global by_clock
    program, counts = found([asked.program] if asked.program else []), asked.instructions
    by_clock = asked.clock
    told = []
    for it in rows(program, asked.only, asked.times, counts):
        told.append(it)
        print(" | ".join(it), file=sys.stderr, flush=True)
    text = measured.block(HEAD if counts else [*HEAD, "office, MiB"], told)
    print(text, end="")
    if not asked.write:
        return
    heading = measured.paragraph(f"{measured.state()}; {measured.machine()}:")
    part = "instructions" if counts else "clock" if by_clock else "speed"
    measured.written(part, f"{heading}\n{text}")


if __name__ == "__main__":
    main()
