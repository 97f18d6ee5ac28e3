#!/usr/bin/env python3
"""Writes folders with `export --all` and `pages`, whole ones and such as fail, and holds them against
what the other commands print.

    tests/program/folder.py [PROGRAM]       by default the program that ./office built

- Each file is, byte for byte, what `list --csv`, `stock --csv`, `export ID` or `export --cabinet
  ID` prints, and there is no other; a file of another name stays.
- A second run writes no file whose text is as it stands, and each whose text is another, also one
  of equal length.
- A folder that is a file, may not be written, or is on a full disk ends with status 1 and
  `fault: write`; the files that are there are whole. (A full disk needs root, for a small tmpfs.)
- A run that is killed at any of its calls that make, write, sync or rename a file or a folder, or
  at a random moment, leaves each file as it was before, or as it is to be.
- 9,999 intersections are written within two minutes by each.
- Each page is what `page ID` prints with one link more, to the index; the index has a link to each
  page, marks those that `overdue --csv` prints, and shows a name as it is.

Prints a line for each, and ends with status 1 if anything else happened. Needs a C compiler, `cc`.
"""
import contextlib
import os
import pathlib
import random
import re
import sqlite3
import subprocess
import sys
import tempfile
import time

sys.path.insert(0, str(pathlib.Path(__file__).resolve().parents[1] / "lib"))
from preloaded import built
from program import TOP, found

PLAN = TOP / "bench" / "plan.csv"
RECORDS = """\
delivery,RELAY,1,2026-05-01,10
inspection,12,1,2026-03-01,Ana,Fan cleaned
order,12,1,2026-05-02,Ana,"Relay, north"
use,12,1,1,RELAY,2
"""
MOST_SECONDS = 120
KILLS = 10
BACK = b"<li><a href='index.html'>All intersections</a></li>\n"
DAY = "2027-03-02"  # the day after the one on which the inspection of 12 falls due
KINDS = ("export", "pages")  # the commands that fill a folder
# Ends the program at one of its calls of files: half of what is to be written is then written.
STOP = r"""
#define _GNU_SOURCE
#include <fcntl.h>
#include <signal.h>
#include <stdarg.h>
#include <stdlib.h>
#include <sys/stat.h>
#include <sys/syscall.h>
#include <unistd.h>

static long last;

__attribute__((constructor)) static void begin(void) {
  const char *told = getenv("STOP");
  last = told ? atol(told) : 0;
}

static int is_last(void) { return last > 0 && --last == 0; }

static void count(void) {
  if (is_last()) kill(getpid(), SIGKILL);
}

ssize_t write(int fd, const void *bytes, size_t length) {
  if (fd > 2 && is_last()) {
    syscall(SYS_write, fd, bytes, length / 2);
    kill(getpid(), SIGKILL);
  }
  return syscall(SYS_write, fd, bytes, length);
}

static int opened(int folder, const char *path, int flags, mode_t mode) {
  if (flags & O_CREAT) count();
  return syscall(SYS_openat, folder, path, flags, mode);
}

#define OPENED(folder)                                        \
  va_list more;                                               \
  va_start(more, flags);                                      \
  mode_t mode = flags & O_CREAT ? va_arg(more, mode_t) : 0;   \
  va_end(more);                                               \
  return opened(folder, path, flags, mode)

int open(const char *path, int flags, ...) { OPENED(AT_FDCWD); }
int openat(int folder, const char *path, int flags, ...) { OPENED(folder); }
int open64(const char *, int, ...) __attribute__((alias("open")));
int openat64(int, const char *, int, ...) __attribute__((alias("openat")));
int fsync(int fd) { return count(), syscall(SYS_fsync, fd); }
int fdatasync(int fd) { return count(), syscall(SYS_fdatasync, fd); }
int rename(const char *old, const char *new) { return count(), syscall(SYS_rename, old, new); }
int renameat(int one, const char *old, int two, const char *new) {
  return count(), syscall(SYS_renameat, one, old, two, new);
}
int mkdir(const char *path, mode_t mode) { return count(), syscall(SYS_mkdir, path, mode); }
"""


class Office:
    """A file of an office in a folder of its own, and the program over it."""

    def __init__(self, program, folder):
        self.program, self.folder = program, pathlib.Path(folder)
        self.db = str(self.folder / "office.db")

    def run(self, *words):
        ran = subprocess.run([self.program, *words], capture_output=True, cwd=self.folder)
        return ran.returncode, ran.stdout, ran.stderr

    def printed(self, *words):
        status, out, err = self.run(*words)
        told = [it for it in err.splitlines() if not it.startswith(b"note: ")]
        assert (status, told) == (0, []), (words, status, err)
        return out

    def lines(self, command, *words):
        return self.printed(command, "--db", self.db, "--csv", *words).decode().splitlines()

    def words(self, kind, name):
        """The words of the command that fills a folder."""
        return [kind, "--db", self.db, *["--all"] * (kind == "export"), name]

    def fill(self, kind, name):
        return self.run(*self.words(kind, name))

    def export(self, name):
        return self.fill("export", name)

    def filled(self, kind):
        """The files of a folder that a command filled anew."""
        with tempfile.TemporaryDirectory(dir=self.folder) as name:
            assert self.fill(kind, name) == (0, b"", b"")
            return self.held(name)

    def begin(self, numbers):
        """Adds intersections, a plan to the first, and the records of a cabinet."""
        for number in numbers:
            self.printed("add", "--db", self.db, str(number), "365", f"Street {number}")
        self.commit(12, PLAN)
        (self.folder / "records.csv").write_text(RECORDS)
        self.printed("import", "--db", self.db, "records.csv")

    def commit(self, number, plan):
        self.printed("edit", "--db", self.db, "--clerk", "Ana", "--commit", str(number), str(plan))

    def wanted(self):
        """The files of the folder, as the other commands print them."""
        lines = self.printed("list", "--db", self.db, "--csv")
        stock = self.printed("stock", "--db", self.db, "--csv")
        files = {"intersections.csv": lines, "stock.csv": stock}
        for line in lines.decode().splitlines():
            number = line.split(",")[0]
            files[f"{number}-plan.csv"] = self.printed("export", "--db", self.db, number)
            files[f"{number}-cabinet.csv"] = self.printed(
                "export", "--db", self.db, "--cabinet", number)
        return files

    def held(self, name):
        assert (self.folder / name).is_dir(), f"there is no folder {name}"
        return {it.name: it.read_bytes() for it in (self.folder / name).iterdir()}


def moments(office, name):
    return {it.name: (it.stat().st_mtime_ns, it.stat().st_ino)
            for it in (office.folder / name).iterdir()}


def writes_whole(office):
    assert office.export("city") == (0, b"", b"")
    assert office.held("city") == office.wanted(), "a file is not what the commands print"
    (office.folder / "city" / "notes.txt").write_text("kept\n")
    before = moments(office, "city")
    assert office.export("city") == (0, b"", b"")
    assert moments(office, "city") == before, "a file was written again"
    stock = office.folder / "city" / "stock.csv"
    stock.write_bytes(bytes(it ^ 1 for it in stock.read_bytes()))
    assert office.export("city") == (0, b"", b"")
    assert stock.read_bytes() == office.wanted()["stock.csv"], "a file of equal length was kept"
    before = moments(office, "city")
    office.printed("add", "--db", office.db, "9999", "30", "Last")
    assert office.export("city") == (0, b"", b"")
    after = moments(office, "city")
    changed = {name for name in after if after[name] != before.get(name)}
    assert changed == {"intersections.csv", "9999-plan.csv", "9999-cabinet.csv"}, changed
    assert office.held("city") == {**office.wanted(), "notes.txt": b"kept\n"}


def assert_refused(came, name, why):
    told = f"note: the system refuses {name}: {why}\nfault: write\n".encode()
    assert came == (1, b"", told), came


def refuses_a_file(office):
    (office.folder / "plain").write_text("a file\n")
    for kind in KINDS:
        assert_refused(office.fill(kind, "plain"), "plain", "File exists (os error 17)")
        assert (office.folder / "plain").read_text() == "a file\n"
        assert_refused(office.fill(kind, "none/city"), "none/city",
                       "No such file or directory (os error 2)")
        assert not (office.folder / "none").exists()


def refuses_a_closed_folder(office):
    if os.geteuid() == 0:
        return "not tried: root may write it"
    (office.folder / "closed").mkdir(mode=0o500)
    for kind in KINDS:
        came = office.fill(kind, "closed")
        assert came[0] == 1 and came[2].endswith(b"Permission denied (os error 13)\nfault: write\n")
        assert not office.held("closed")


def stops_before_a_row_that_is_none(office):
    with contextlib.closing(sqlite3.connect(office.db)) as tables, tables:
        tables.execute("UPDATE inspection SET day = 84006")
    for kind in KINDS:
        assert office.fill(kind, "damaged") == (1, b"", b"fault: damaged\n")
        assert not (office.folder / "damaged").exists()
    with contextlib.closing(sqlite3.connect(office.db)) as tables, tables:
        tables.execute("UPDATE inspection SET day = 20513")


def leaves_whole_files_on_a_full_disk(office):
    for kind, size in zip(KINDS, ("8k", "40k")):
        full = office.folder / f"full-{kind}"
        full.mkdir()
        mounted = ["mount", "-t", "tmpfs", "-o", f"size={size}", "none", str(full)]
        if os.geteuid() != 0 or subprocess.run(mounted, stderr=subprocess.DEVNULL).returncode:
            return "not tried: it needs root and mount"
        try:
            wanted = office.filled(kind)
            came = office.fill(kind, full.name)
            named = b"note: the system refuses full-%s/" % kind.encode()
            told = b": No space left on device (os error 28)\nfault: write\n"
            assert came[0] == 1 and came[2].startswith(named) and came[2].endswith(told), came
            held = office.held(full.name)
            assert held and all(wanted.get(name) == text for name, text in held.items()), held
        finally:
            subprocess.run(["umount", str(full)], check=True)


def stopped(office, kind, name, wait, env):
    """The status of a run that fills a folder and is killed after a while, or by itself."""
    run = subprocess.Popen([office.program, *office.words(kind, name)], cwd=office.folder,
                           stderr=subprocess.DEVNULL, env={**os.environ, **env})
    if wait is not None:
        time.sleep(wait)
        run.kill()
    return run.wait()


def assert_whole(held, *states):
    """Each file is as one of these has it; one that was being written has a name of its own."""
    for name, text in held.items():
        if not (name.startswith(".") or name.endswith(".part")):
            assert text in [it.get(name) for it in states], name


def leaves_whole_files_where_it_is_killed(office):
    plan = office.folder / "other.csv"
    plan.write_text(PLAN.read_text().replace("8,20,40,", "9,20,40,", 1))
    dice, turns = random.Random(1), 0
    for kind in KINDS:
        name, begun, old = f"killed-{kind}", time.monotonic(), office.filled(kind)
        whole = time.monotonic() - begun
        assert office.fill(kind, name) == (0, b"", b"")
        for _ in range(KILLS):
            turns += 1
            office.commit(12, (PLAN, plan)[turns % 2])
            new = office.filled(kind)
            assert new != old
            stopped(office, kind, name, dice.uniform(0, 1.2 * whole), {})
            assert_whole(office.held(name), old, new)
            assert office.fill(kind, name) == (0, b"", b"")
            left = {it: text for it, text in office.held(name).items() if not it.endswith(".part")}
            assert left == new
            old = new


def leaves_whole_files_where_it_is_stopped_at_a_call(office):
    library, counts = built(office.folder, "stop", STOP), []
    for kind in KINDS:
        new, call, status = office.filled(kind), 0, -9
        while status == -9:
            call += 1
            name = f"stopped-{kind}-{call}"
            env = {"LD_PRELOAD": str(library), "STOP": str(call)}
            status = stopped(office, kind, name, None, env)
            if (office.folder / name).exists():
                assert_whole(office.held(name), new)
        assert status == 0 and office.held(name) == new, status
        assert call > 2 * len(new), call
        counts.append(str(call - 1))
    return f"as told, at each of {' and '.join(counts)} calls"


def writes_pages(office):
    office.printed("add", "--db", office.db, "300", "30", "<b>A & 'B'</b>")
    assert office.run("pages", "--db", office.db, "--day", DAY, "pages") == (0, b"", b"")
    held = office.held("pages")
    numbers = [it.split(",")[0] for it in office.lines("list")]
    assert set(held) == {"index.html", *(f"{it}.html" for it in numbers)}
    index = held["index.html"].decode()
    listed, _, ordered = index.partition("<caption>Open orders")
    links = re.findall(r"<a href='([^']*)'>", listed)
    assert sorted(links) == sorted(f"{it}.html" for it in numbers)
    orders = [it.split(",")[0] for it in office.lines("orders")]
    assert re.findall(r"<a href='([^']*)'>", ordered) == [f"{it}.html" for it in orders]
    marked = re.findall(r"<a href='([0-9]+)\.html'>[^\n]*class='late'", index)
    late = [it.split(",")[0] for it in office.lines("overdue", DAY)]
    assert marked == late == [it[:-5] for it in links[:len(late)]], (marked, late)
    assert "<b>" not in index and "&lt;b&gt;A &amp; &#39;B&#39;&lt;/b&gt;" in index
    for number in numbers:
        page = held[f"{number}.html"]
        assert page.count(BACK) == 1
        assert page.replace(BACK, b"") == office.printed("page", "--db", office.db, number)
    assert office.run("pages", "--db", office.db, "pages") == (0, b"", b"")
    assert "class='late'" not in office.held("pages")["index.html"].decode()


def writes_9999_in_time(office):
    with contextlib.closing(sqlite3.connect(office.db)) as tables, tables:
        columns = [it[1] for it in tables.execute("PRAGMA table_info(intersection)")]
        row = list(tables.execute("SELECT * FROM intersection WHERE id = 7").fetchone())
        marks = ",".join("?" * len(columns))
        tables.executemany(f"INSERT OR IGNORE INTO intersection VALUES ({marks})",
                           ([it if name != "id" else number for name, it in zip(columns, row)]
                            for number in range(1, 10_000)))
    told = []
    for kind, count in zip(KINDS, (2 + 2 * 9_999, 1 + 9_999)):
        begun = time.monotonic()
        assert office.fill(kind, f"large-{kind}") == (0, b"", b"")
        taken = time.monotonic() - begun
        assert len(office.held(f"large-{kind}")) == count
        assert taken < MOST_SECONDS, f"{taken:.0f} seconds"
        told.append(f"{taken:.1f}")
    return f"{' and '.join(told)} seconds"


TRIALS = (writes_whole, refuses_a_file, refuses_a_closed_folder, stops_before_a_row_that_is_none,
          leaves_whole_files_on_a_full_disk, leaves_whole_files_where_it_is_killed,
          leaves_whole_files_where_it_is_stopped_at_a_call, writes_pages, writes_9999_in_time)


def main():
    program, failed = found(sys.argv[1:2]), 0
    with tempfile.TemporaryDirectory() as folder:
        office = Office(program, folder)
        office.begin([7, 12, *range(100, 120)])
        for trial in TRIALS:
            told = trial.__name__.replace("_", " ")
            try:
                note = trial(office)
                print(f"{told}: {note or 'as told'}", flush=True)
            except AssertionError as wrong:
                failed += 1
                print(f"{told}: WRONG: {str(wrong)[:500]}", flush=True)
    sys.exit(1 if failed else 0)


if __name__ == "__main__":
    main()
