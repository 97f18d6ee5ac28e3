#!/usr/bin/env python3
"""Has the system refuse what the program asks of it, and gives it what it must not take; and holds
what it says against what docs/OPERATING.md tells of each fault.

    tests/program/refusals.py [PROGRAM]     by default the program that ./office built

- Each call of files while an office is opened and closed fails once, with an input or output error
  and with a full disk: the run says what the system said, and the office stays as it was. So it is
  over a disk that is full, on which the office is as it was once there is room.
- `backup` replaces nothing but a plain file that is no part of an office and that no run has open.
- A CSV file that is too long is named and not read as records, and its parts are taken by their
  lines. Of each kind of note a hundred are told. The longest files of records that are taken, and
  those that are refused, need less than 300 MB.
- A port that the user may not have is named.
- A server says once on standard error why it answers 503, and goes on once the disk has room.

What does not rest on each other is tried side by side. Prints a line for each, and ends with status
1 if anything else happened. Needs a C compiler, `cc`; as root it also tries a device, full disks
and a low port, in folders of its own. Takes some ten seconds.
"""
import concurrent.futures
import contextlib
import os
import pathlib
import re
import shutil
import signal
import socket
import sqlite3
import stat
import subprocess
import sys
import tempfile

sys.path.insert(0, str(pathlib.Path(__file__).resolve().parents[1] / "lib"))
from disk import DISK, Trouble
from preloaded import built
from program import TOP, found
from serving import exchange

# Fails one call of files, and tells which that was.
FAILING = r"""
#define _GNU_SOURCE
#include <errno.h>
#include <fcntl.h>
#include <stdarg.h>
#include <stdio.h>
#include <stdlib.h>
#include <string.h>
#include <sys/stat.h>
#include <sys/syscall.h>
#include <sys/types.h>
#include <unistd.h>

/* The call that fails, and with which error. */
static long at;
static int why;

__attribute__((constructor)) static void begin(void) {
  const char *told = getenv("FAILING");
  if (told && sscanf(told, "%ld %d", &at, &why) != 2) _exit(9);
}

static int fails(const char *call) {
  if (at <= 0 || --at > 0) return 0;
  syscall(SYS_write, 2, "failed ", 7);
  syscall(SYS_write, 2, call, strlen(call));
  syscall(SYS_write, 2, "\n", 1);
  errno = why;
  return 1;
}

#define CALL(name, given, number, ...) \
  name given { return fails(#number) ? -1 : syscall(number, __VA_ARGS__); }

ssize_t CALL(pread, (int fd, void *to, size_t n, off_t o), SYS_pread64, fd, to, n, o)
ssize_t CALL(pwrite, (int fd, const void *of, size_t n, off_t o), SYS_pwrite64, fd, of, n, o)
int CALL(ftruncate, (int fd, off_t n), SYS_ftruncate, fd, n)
int CALL(fsync, (int fd), SYS_fsync, fd)
int CALL(fdatasync, (int fd), SYS_fdatasync, fd)
int CALL(fchmod, (int fd, mode_t mode), SYS_fchmod, fd, mode)
int CALL(fchown, (int fd, uid_t user, gid_t group), SYS_fchown, fd, user, group)
int CALL(statx, (int fd, const char *path, int flags, unsigned mask, struct statx *to), SYS_statx,
         fd, path, flags, mask, to)
ssize_t pread64(int, void *, size_t, off_t) __attribute__((alias("pread")));
ssize_t pwrite64(int, const void *, size_t, off_t) __attribute__((alias("pwrite")));
int ftruncate64(int, off_t) __attribute__((alias("ftruncate")));

int posix_fadvise(int fd, off_t from, off_t n, int advice) {
  return fails("fadvise") ? why : syscall(SYS_fadvise64, fd, from, n, advice);
}
int posix_fadvise64(int, off_t, off_t, int) __attribute__((alias("posix_fadvise")));

ssize_t read(int fd, void *to, size_t n) {
  return fd > 2 && fails("read") ? -1 : syscall(SYS_read, fd, to, n);
}

#define OPENED(folder)                                                        \
  va_list more;                                                               \
  va_start(more, flags);                                                      \
  mode_t mode = flags & (O_CREAT | __O_TMPFILE) ? va_arg(more, mode_t) : 0;   \
  va_end(more);                                                               \
  return fails("open") ? -1 : syscall(SYS_openat, folder, path, flags, mode)

int open(const char *path, int flags, ...) { OPENED(AT_FDCWD); }
int openat(int folder, const char *path, int flags, ...) { OPENED(folder); }
int open64(const char *, int, ...) __attribute__((alias("open")));
int openat64(int, const char *, int, ...) __attribute__((alias("openat")));
"""
ERRORS = {5: "Input/output error", 28: "No space left on device"}
PLAN = TOP / "bench" / "plan.csv"
ADD = ["add", "--db", "office.db", "13", "30", "Oak"]
LIST = ["list", "--db", "office.db", "--csv"]
LISTED = "12,0,normal,,0,Main St,365\n"
STATE = b"GET /intersections/12 HTTP/1.1\r\n\r\n"
EXISTS, FILE, STORE = "fault: exists\n", "fault: file\n", "fault: store\n"
MOST_BYTES, MOST_RECORDS, MOST_RECORD = 64 << 20, 100_000, 1 << 20
MOST_MEMORY = 300_000_000
STARTER = """
import os, sys
words = sys.argv[2:]
_, status, used = os.wait4(os.posix_spawn(words[0], words, os.environ), 0)
os.write(int(sys.argv[1]), str(used.ru_maxrss).encode())
sys.exit(os.waitstatus_to_exitcode(status))
"""  # tells the memory of a run in kB
PATIENCE = 300  # seconds of a run
NOTES = 100
APART = "REFUSALS_APART"  # in the environment of a run that has mounts of its own


class Off(Exception):
    """What came is not what must come."""


def expect(what, came, wanted):
    if came != wanted:
        raise Off(f"{what}: came {came}, wanted {wanted}")


class Folder:
    """A folder of its own, in which the program runs."""

    def __init__(self, program, path):
        self.program, self.path = program, path

    def run(self, *words, sent=b"", env=None):
        """The status, what was printed, and what was told."""
        env = {**os.environ, **(env or {})}
        ran = subprocess.run([self.program, *map(str, words)], cwd=self.path, input=sent,
                             capture_output=True, env=env, timeout=PATIENCE)
        return ran.returncode, ran.stdout.decode(), ran.stderr.decode(errors="replace")

    def make(self, name="office.db"):
        """An office with one intersection."""
        came = self.run("add", "--db", name, "12", "365", "Main St")
        expect(f"{name} is made", came, (0, "added\n", ""))
        return self.path / name


@contextlib.contextmanager
def folder(program):
    with tempfile.TemporaryDirectory() as name:
        yield Folder(program, pathlib.Path(name))


@contextlib.contextmanager
def small_disk(program, room, size):
    """A disk of its own, of this size, or None where nothing can be mounted."""
    disk = pathlib.Path(tempfile.mkdtemp(dir=room))
    words = ["mount", "-t", "tmpfs", "-o", f"size={size}", "none", disk]
    if os.geteuid() or subprocess.run(words, stderr=subprocess.DEVNULL).returncode:
        yield None
        return
    try:
        yield Folder(program, disk)
    finally:
        subprocess.run(["umount", disk], check=True)


def processors():
    return concurrent.futures.ThreadPoolExecutor(len(os.sched_getaffinity(0)))


# ---- calls that fail

def with_log(it):
    """An office whose log has what the file lacks: its run was killed."""
    it.make()
    words = [it.program, "batch", "--db", "office.db"]
    came = b""
    with subprocess.Popen(words, cwd=it.path, stdin=subprocess.PIPE,
                          stdout=subprocess.PIPE) as run:
        run.stdin.write(b"POST /intersections/12/begin HTTP/1.1\r\nContent-Length: 15\r\n\r\n"
                        b'{"clerk":"Ana"}POST /intersections/12/abandon HTTP/1.1\r\n'
                        b'Content-Length: 15\r\n\r\n{"clerk":"Ana"}' + STATE)
        run.stdin.flush()
        while b'"id":12' not in came:
            came += os.read(run.stdout.fileno(), 65_536)
        run.kill()


def without_log(it):
    it.make()
    (it.path / "office.db-wal").unlink()


def with_empty_log(it):
    without_log(it)
    (it.path / "office.db-wal").touch()


def without_office(it):
    """There is no file, or an empty one."""


def with_empty_file(it):
    (it.path / "office.db").touch()


# How an office begins, the command that opens it, and what may be listed of it then.
BEGUN = (
    (with_log, LIST, {LISTED}), (without_log, LIST, {LISTED}), (with_empty_log, LIST, {LISTED}),
    (with_empty_log, ADD, {LISTED, f"{LISTED}13,0,normal,,0,Oak,30\n"}),
    (without_office, ADD, {"", "13,0,normal,,0,Oak,30\n"}),
    (with_empty_file, ADD, {"", "13,0,normal,,0,Oak,30\n"}),
)


def left(it):
    """What is listed of an office, whose file may be missing or empty."""
    status, out, err = it.run(*LIST)
    is_none = status == 1 and err.endswith(FILE)
    expect("what is left", (status, err) if not is_none else (0, ""), (0, ""))
    return out


def says(err, error):
    """Whether this, and nothing else, is said of a call that fails and ends a run."""
    file = r"(office\.db(-wal)?|a random number)"
    note = rf"note: the system refuses {file}: {ERRORS[error]} \(os error {error}\)\n"
    return re.fullmatch(rf"({note})+{STORE}", err)


def fails_at(it, library, call, error, words, lists, what):
    """Whether a call failed, and whether that ended the run. The first call is 1."""
    env = {"LD_PRELOAD": str(library), "FAILING": f"{call} {error}"}
    status, out, err = it.run(*words, env=env)
    which = re.search(r"^failed (\w+)\n", err, re.M)
    if not which:
        return False, False
    err = err.replace(which[0], "", 1)
    what = f"{what}, call {call}, {which[1]}, error {error}"
    if status:
        expect(f"{what}: {err!r}", (status, out, bool(says(err, error))), (1, "", True))
    if (listed := left(it)) not in lists:
        raise Off(f"{what}: left {listed!r}")
    return True, status != 0


def each_fails(program, library, begin, words, lists, error):
    """How many calls failed in turn, and how many of them ended the run. Each time the office is a
    copy of one that began so."""
    ended, what = [], f"{begin.__name__}, {words[0]}"
    with folder(program) as first:
        begin(first)
        while True:
            with folder(program) as it:
                shutil.copytree(first.path, it.path, dirs_exist_ok=True)
                call = len(ended) + 1
                failed, is_end = fails_at(it, library, call, error, words, lists, what)
            if not failed:
                return len(ended), sum(ended)
            ended.append(is_end)


def calls_that_fail(program, room):
    library = built(room, "failing", FAILING)
    with processors() as pool:
        runs = [pool.submit(each_fails, program, library, *begun, error)
                for error in ERRORS for begun in BEGUN]
        counts = [it.result() for it in runs]
    total, ended = map(sum, zip(*counts))
    expect("enough calls", total > 200, True)
    return f"{total} calls failed, of which {ended} ended the run"


def fill(disk):
    """Fills a disk, and gives the file that does so."""
    path = disk / "full"
    with contextlib.suppress(OSError), open(path, "wb", buffering=0) as file:
        while file.write(b"0" * 4096):
            pass
    return path


def full_disks(program, room):
    """An office on a full disk, with a log or without one: it is told as that, and comes back."""
    count, refused, full_disk = 0, 0, 28
    for begin, words, lists in BEGUN:
        with small_disk(program, room, "256k") as it:
            if not it:
                return "not tried: it needs root, and to mount"
            begin(it)
            full = fill(it.path)
            status, out, err = it.run(*words)
            what = f"{begin.__name__}, {words[0]}: {err!r}"
            is_told = bool(says(err, full_disk)) if status else True
            expect(what, (is_told, status in (0, 1)), (True, True))
            full.unlink()
            if (listed := left(it)) not in lists:
                raise Off(f"{what}: left {listed!r}")
            count, refused = count + 1, refused + status
    expect("enough are refused", refused > 2, True)
    return f"{refused} of {count} offices were refused, and all come back"


def links_that_lead_nowhere(program, room):
    with folder(program) as it:
        (it.path / "link.db").symlink_to("none.db")
        note = "note: link.db is a link that leads nowhere\n"
        expect("list", it.run("list", "--db", "link.db"), (1, "", note + FILE))
        expect("add", it.run("add", "--db", "link.db", "1", "30", "Elm"), (1, "", note + STORE))
        made = {path.name for path in it.path.iterdir()} - {"link.db-turn"}
        expect("what was made", made, {"link.db"})
    return "told as that"


# ---- copies

def places(it):
    """What may stand where a copy is to be put, and what is said of it."""
    (it.path / "a folder").mkdir()
    os.mkfifo(it.path / "pipe")
    (it.path / "link.db").symlink_to("plain.db")
    (it.path / "plain.db").write_text("text")
    with socket.socket(socket.AF_UNIX) as wire:
        wire.bind(str(it.path / "socket"))
    yield from {"a folder": "is a folder", "pipe": "is no file", "socket": "is no file",
                "link.db": "is a link"}.items()
    if os.geteuid() == 0:
        os.mknod(it.path / "device", stat.S_IFCHR | 0o600, os.makedev(1, 3))
        yield "device", "is no file"
    for end in ("", "-wal", "-turn", ".part", "-journal", "-shm"):
        name = f"./office.db{end}"
        yield name, "belongs to ./office.db" if end else "is the office itself"
        if end:
            yield f"other.db{end}", "belongs to other.db"


def state_of(path):
    """What may not change of what stands somewhere."""
    if not os.path.lexists(path):
        return None
    found_there = path.lstat()
    held = path.read_bytes() if stat.S_ISREG(found_there.st_mode) else None
    return found_there.st_mode, found_there.st_ino, held


def copies_over(program, room):
    count = 0
    with folder(program) as it:
        it.make()
        it.make("other.db")
        for name, why in places(it):
            before, count = state_of(it.path / name), count + 1
            came = it.run("backup", "--db", "office.db", "--force", name)
            expect(name, came, (1, "", f"note: {name} {why}\n{EXISTS}"))
            if name != "./office.db-wal":
                expect(f"what stands at {name}", state_of(it.path / name), before)
        expect("the office", left(it), LISTED)
        expect("the linked file", (it.path / "plain.db").read_text(), "text")
        came = it.run("backup", "--db", "office.db", "plain.db")
        told = f"note: plain.db is there; --force replaces it\n{EXISTS}"
        expect("a plain file", came, (1, "", told))
        came = it.run("backup", "--db", "office.db", "--force", "plain.db")
        expect("a plain file, by force", came, (0, "copied\n", ""))
        busy(it)
    return f"{count} that are no place for a copy"


def busy(it):
    """An office that another run has open is not replaced, also where its log is empty."""
    (it.path / "other.db-wal").write_bytes(b"")
    words = [it.program, "batch", "--db", "other.db"]
    with subprocess.Popen(words, cwd=it.path, stdin=subprocess.PIPE,
                          stdout=subprocess.PIPE) as run:
        run.stdin.write(b"GET /stock HTTP/1.1\r\n\r\n")
        run.stdin.flush()
        run.stdout.readline()
        status, out, err = it.run("backup", "--db", "office.db", "--force", "other.db")
        notes = ("note: another run has other.db open\n",
                 "note: other.db-wal is there, the log of another office\n")
        expect(f"one in use, {err}", (status, out, err in [f"{it}{EXISTS}" for it in notes]),
               (1, "", True))
        run.stdin.close()
        run.stdout.read()
    came = it.run("list", "--db", "other.db", "--csv")
    expect("the one in use", came, (0, LISTED, ""))


def copies_without_room(program, room):
    """The place of a copy that the system refuses is named."""
    with folder(program) as it:
        it.make()
        (it.path / "plain").touch()
        told = "note: the system refuses plain/to.db.part: Not a directory (os error 20)\n"
        came = it.run("backup", "--db", "office.db", "plain/to.db")
        expect("a folder that is none", came, (1, "", f"{told}fault: write\n"))
        limit = 'ulimit -f 8; trap "" XFSZ; exec "$0" backup --db office.db to.db'
        ran = subprocess.run(["bash", "-c", limit, program], cwd=it.path, capture_output=True)
        told = b"note: the system refuses to.db.part: File too large (os error 27)\nfault: write\n"
        expect("a file that may not grow", (ran.returncode, ran.stderr), (1, told))
        expect("what is left", sorted(path.name for path in it.path.glob("to*")), [])
    return "named"


# ---- CSV files

def too_long(it):
    """Files that are too long, and what is said of them."""
    (it.path / "large.csv").write_bytes(b"#" * (MOST_BYTES + 1))
    yield "large.csv", " has more than 64 MiB"
    quote = b"phase,2,1,8,20,40,40,15,\n\n\r\nseq,1,1,\"" + b"2" * MOST_RECORD + b'"\n'
    (it.path / "quote.csv").write_bytes(quote)
    told = ": record 2, line 4, has more than 1 MiB; look for a quote that nothing ends"
    yield "quote.csv", told
    (it.path / "many.csv").write_bytes(b"a\n" * (MOST_RECORDS + 1))
    yield "many.csv", " has more than 100000 records; split it, as by split --lines=50000"


def long_files(program, room):
    with folder(program) as it:
        it.make()
        for name, told in too_long(it):
            sent = (it.path / name).read_bytes()
            for words in (["verify-file"], ["import", "--db", "office.db"],
                          ["edit", "--db", "office.db", "--clerk", "Ana", "12"]):
                came = it.run(*words, name)
                expect(f"{words[0]} {name}", came, (1, "", f"note: {name}{told}\n{FILE}"))
            came = it.run("verify-file", "-", sent=sent)
            expect(f"{name} as input", came, (1, "", f"note: standard input{told}\n{FILE}"))
        expect("the office", left(it), LISTED)
    return "each is named"


def longest_files(program, room):
    """What is as long as it may be is read. The end of its line is a part of a record."""
    with folder(program) as it:
        record = b"#" * (MOST_RECORD - 1)
        (it.path / "large.csv").write_bytes(record + b"\n" * (MOST_BYTES - len(record)))
        came = it.run("verify-file", "large.csv")
        expect("the longest file", came, (1, "", "fault: record 1: Kind\n"))
        (it.path / "more.csv").write_bytes(b"#" * (MOST_RECORD + 1))
        told = "note: more.csv: record 1, line 1, has more than 1 MiB; look for a quote that "
        err = it.run("verify-file", "more.csv")[2]
        expect("a longer record", err, f"{told}nothing ends\n{FILE}")
    return "read"


def measured(it, *words):
    """What came of a run as by `run`, and how many bytes of memory it had at most. A small process
    starts it, since a process has at least the memory of the one that it came from."""
    told, tell = os.pipe()
    ran = subprocess.run([sys.executable, "-c", STARTER, str(tell), it.program, *words],
                         cwd=it.path, capture_output=True, pass_fds=[tell])
    os.close(tell)
    with open(told) as pipe:
        memory = 1024 * int(pipe.read())
    return (ran.returncode, ran.stdout.decode(), ran.stderr.decode()), memory


def deliveries(count):
    return "".join(f"delivery,PART-{at % 9_000:04},{at // 9_000 + 1},2026-05-01,100\n"
                   for at in range(count))


def inspections(count):
    """The longest records."""
    return "".join(f"inspection,12,{at + 1},2026-05-01,{'c' * 40},{'t' * 200}\n"
                   for at in range(count))


def long_imports(program, room):
    """The memory of the longest imports, and of files that are refused."""
    told_most = []
    with folder(program) as it:
        it.make()
        for record in (deliveries, inspections):
            (it.path / "most.csv").write_text(record(MOST_RECORDS))
            (status, out, err), memory = measured(it, "import", "--db", "office.db", "most.csv")
            told = 0, f"added {MOST_RECORDS}, same 0\n"
            expect(f"{record.__name__}, {err[:200]}", (status, out), told)
            expect(f"{memory:,} bytes are few", memory < MOST_MEMORY, True)
            told_most.append(f"{record.__name__} {memory / 1e6:.0f} MB")
        split = "split it, as by split --lines=50000"
        for count, told in ((1_000_000, f"has more than 100000 records; {split}"),
                            (2_500_000, "has more than 64 MiB")):
            (it.path / "million.csv").write_text(deliveries(count))
            came, memory = measured(it, "import", "--db", "office.db", "million.csv")
            expect(f"{count} deliveries", came, (1, "", f"note: million.csv {told}\n{FILE}"))
            expect(f"{memory:,} bytes are few", memory < MOST_MEMORY, True)
            told_most.append(f"{count} refused {memory / 1e6:.0f} MB")
    return ", ".join(told_most)


def parts_of_a_file(program, room):
    """A file that is too long is imported in parts, by the command that the note shows; of a part
    with a bad record nothing is taken."""
    with folder(program) as it:
        it.make()
        (it.path / "records.csv").write_text(deliveries(MOST_RECORDS + 1))
        subprocess.run(["split", "--lines=50000", "records.csv", "part-"], cwd=it.path, check=True)
        parts = sorted(path.name for path in it.path.glob("part-*"))
        counts = [it.run("import", "--db", "office.db", part)[1] for part in parts]
        expect("the parts", counts, [f"added {n}, same 0\n" for n in (50_000, 50_000, 1)])
        came = it.run("import", "--db", "office.db", parts[-1])
        told = "note: record 1 is there already\n"
        expect("a part again", came, (0, "added 0, same 1\n", told))
        (it.path / "bad.csv").write_text("delivery,NEW,1,2026-05-01,9\ndelivery,NEW,2,today,9\n")
        status, out, err = it.run("import", "--db", "office.db", "bad.csv")
        expect("a bad part", (status, out, err.splitlines()[-1]), (1, "", "fault: record 2: Day 4"))
        came = it.run("stock", "--db", "office.db", "NEW")[1]
        expect("what is taken of it", "NEW,1" in came, False)
    return f"{len(parts)} parts"


def noted(it, words, last, out=None):
    """A run that notes a hundred records, and then how many more there are."""
    status, came, err = it.run(*words)
    notes = [line for line in err.splitlines() if not line.startswith("fault: ")]
    expect(f"notes of {words[0]}", (len(notes), notes[-1:]), (NOTES + 1, [last]))
    if out is not None:
        expect(f"what {words[0]} prints", (status, came), (0, out))


def many_notes(program, room):
    """Of each kind of note on records."""
    with folder(program) as it:
        it.make()
        row = PLAN.read_text().splitlines()[-1] + "\n"
        (it.path / "again.csv").write_text(PLAN.read_text() + row * 1_000)
        again = "more records put or remove a key again"
        noted(it, ["verify-file", "again.csv"], f"note: 900 {again}", "no violations\n")
        other = "note: 900 more other records put or remove a key again"
        noted(it, ["compare", PLAN, "again.csv"], other, "no differences\n")
        edit = ["edit", "--db", "office.db", "--clerk", "Ana", "12", "again.csv"]
        noted(it, edit, f"note: 900 {again}")
        (it.path / "records.csv").write_text(deliveries(1_000))
        told = "note: 900 more records are of a new part or there already"
        take = ["import", "--db", "office.db", "records.csv"]
        noted(it, [*take, "--check"], told)
        noted(it, take, told, "added 1000, same 0\n")
        noted(it, take, told, "added 0, same 1000\n")
        (it.path / "bad.csv").write_text("phase,300\n" * 1_000)
        for words in (["verify-file"], ["import", "--db", "office.db"]):
            noted(it, [*words, "--explain", "bad.csv"], "900 more bad records")
    return f"{NOTES} and one"


# ---- ports and servers

def low_ports(program, room):
    """A port that only root may have, for another user."""
    low = pathlib.Path("/proc/sys/net/ipv4/ip_unprivileged_port_start").read_text()
    if os.geteuid() or int(low) < 2:
        return "not tried: it needs root, and ports that another user may not have"
    with folder(program) as it:
        it.path.chmod(0o755)
        copy = shutil.copy(program, it.path)
        ran = subprocess.run([copy, "serve", "--port", "1"], cwd=it.path, capture_output=True,
                             user=65534, group=65534, extra_groups=[], timeout=PATIENCE)
        told = b"note: the system refuses port 1 of 127.0.0.1: Permission denied (os error 13)\n"
        came = ran.returncode, ran.stdout, ran.stderr
        expect("port 1", came, (1, b"", told + b"fault: bind\n"))
    return "named"


def additions(first, count):
    """Requests that add intersections."""
    bodies = [b'{"id":%d,"interval":30,"name":"%s"}' % (first + at, b"x" * 100)
              for at in range(count)]
    return b"".join(b"POST /intersections HTTP/1.1\r\nContent-Length: %d\r\n\r\n%s"
                    % (len(body), body) for body in bodies)


@contextlib.contextmanager
def served(it, count, **how):
    """A server of so many connections over the office, and its port."""
    with socket.create_server(("127.0.0.1", 0)) as free:
        port = free.getsockname()[1]
    words = [it.program, "serve", "--port", str(port), "--count", str(count), "--db", "office.db"]
    with subprocess.Popen(words, cwd=it.path, stdout=subprocess.PIPE, stderr=subprocess.PIPE,
                          **how) as server:
        try:
            expect("a server", server.stdout.readline(), b"listening on 127.0.0.1:%d\n" % port)
            yield server, port
        finally:
            server.kill()


def causes(err):
    """The notes of a server."""
    return [line for line in err.splitlines() if line.startswith("note: ")]


CAUSE = "note: the system refuses office.db-wal: No space left on device (os error 28)"


def a_server_without_room(program, room):
    """It answers 503 to each change, and says once why."""
    library = built(room, "disk", DISK)
    with folder(program) as it:
        it.make()
        env = {**os.environ, **Trouble(room=40_000).env(library)}
        with served(it, 1, env=env) as (server, port):
            came = exchange(port, additions(100, 800), 60)
            err = server.communicate(timeout=PATIENCE)[1].decode()
        refused = came.count(b"HTTP/1.1 503 ")
        expect("answers 503", refused > 10, True)
        expect("notes", causes(err), [CAUSE])
    return f"once for {refused} answers"


def without_room(it, port):
    """How many changes are refused on a full disk, where a query is answered, and that one is done
    once there is room."""
    full = fill(it.path)
    came = exchange(port, additions(100, 60), PATIENCE)
    refused = came.count(b"HTTP/1.1 503 ")
    expect("answers 503", (refused > 10, came.endswith(b'"number":90}')), (True, True))
    expect("a query", b"HTTP/1.1 200 " in exchange(port, STATE, PATIENCE), True)
    full.unlink()
    came = exchange(port, additions(2_000, 1), PATIENCE)
    expect("a change once there is room", b'{"result":' in came, True)
    came = exchange(port, b"GET /intersections/2000 HTTP/1.1\r\n\r\n", PATIENCE)
    expect("what was added", b'"id":2000' in came, True)
    return refused


def a_server_that_gets_room(program, room):
    """On a full disk it reads, answers 503 to changes and says why, and goes on when there is room;
    also when that comes again."""
    with small_disk(program, room, "512k") as it:
        if not it:
            return "not tried: it needs root, and to mount"
        it.make()
        with served(it, 8) as (server, port):
            counts = without_room(it, port), without_room(it, port)
            err = server.communicate(timeout=PATIENCE)[1].decode()
        expect("notes", causes(err), [CAUSE])
        expect("its end", server.returncode, 0)
    return f"after {counts[0]} and {counts[1]} answers 503"


# ---- other faults, and what mends them

def a_rollback_journal(program, room):
    """The journal of a change that SQLite did not end: sqlite3 ends it, and the office is open."""
    with folder(program) as it:
        path = it.make()
        with contextlib.closing(sqlite3.connect(path, isolation_level=None)) as db:
            db.execute("PRAGMA journal_mode = DELETE")
            db.execute("PRAGMA cache_size = 1")
            db.execute("BEGIN")
            db.execute("CREATE TABLE other (text TEXT)")
            db.executemany("INSERT INTO other VALUES (?)", [("x" * 100,)] * 10_000)
            for end in ("", "-journal"):
                shutil.copy(f"{path}{end}", f"{it.path}/stopped.db{end}")
        words = ["list", "--db", "stopped.db", "--csv"]
        told = "note: stopped.db has a rollback journal; open it by sqlite3 first\n"
        expect("a journal", it.run(*words), (1, "", told + STORE))
        with contextlib.closing(sqlite3.connect(it.path / "stopped.db")) as db:
            db.execute("SELECT * FROM intersection").fetchall()
        expect("without it", it.run(*words), (0, LISTED, ""))
    return "ended by sqlite3"


def a_limit_of_file_sizes(program, room):
    """A run that a signal ends for want of room under a limit: what it answered is there."""
    with folder(program) as it:
        it.make()
        (it.path / "sent").write_bytes(additions(100, 800))
        limit = 'ulimit -f 64; exec "$0" batch --db office.db < sent'
        ran = subprocess.run(["bash", "-c", limit, program], cwd=it.path, capture_output=True)
        expect("how it ends", ran.returncode, -signal.SIGXFSZ)
        answered = ran.stdout.count(b'{"result":"added"}')
        rows = left(it).count("\n") - 1
        expect("what it answered", (0 < answered <= rows < 800), True)
    return f"{answered} answers"


def faults_with_their_objects(program, room):
    """Faults of which a row or another script has not each object."""
    with folder(program) as it:
        it.make()
        office, ana = ["--db", "office.db"], ["--clerk", "Ana"]
        it.run("edit", *office, *ana, "12", PLAN)
        for words, told in (
            (["edit", *office, "--clerk", "Bo", "12", PLAN],
             "Bo does not have the draft of intersection 12; list says who has it"),
            (["abandon", *office, *ana, "9"], "there is no intersection 9 in office.db"),
            (["page", *office, "9"], "there is no intersection 9 in office.db"),
            (["diagram", *office, "12", "3"],
             "there is no pattern 3 in the plan of intersection 12"),
            (["diagram", "--file", PLAN, "3"], f"there is no pattern 3 in the plan of {PLAN}"),
            (["compare", "-", "-"],
             "- is standard input, which is read once; name another file"),
            (["verify-file", "none.csv"],
             "the system refuses none.csv: No such file or directory (os error 2)"),
            (["stock", "--db", "none.db"], "there is no file none.db"),
            (["export", *office, "--all", "office.db"],
             "the system refuses office.db: File exists (os error 17)"),
            (["pages", *office, "none/pages"],
             "the system refuses none/pages: No such file or directory (os error 2)"),
        ):
            status, out, err = it.run(*words)
            lines = err.splitlines()
            is_fault = len(lines) == 2 and lines[1].startswith("fault: ")
            expect(f"{words[0]}: {err!r}", (status, out, lines[:1], is_fault),
                   (1, "", [f"note: {told}"], True))
    return "named"


# What takes longest stands first.
TRIALS = (calls_that_fail, long_imports, long_files, parts_of_a_file, full_disks,
          a_server_without_room, a_server_that_gets_room, links_that_lead_nowhere, copies_over,
          copies_without_room, longest_files, many_notes, low_ports, a_rollback_journal,
          a_limit_of_file_sizes, faults_with_their_objects)


def tried(trial, program):
    """What a trial tells, in a folder of its own, and whether it went as it must."""
    with tempfile.TemporaryDirectory() as room:
        try:
            return trial(program, pathlib.Path(room)), True
        except (Off, subprocess.TimeoutExpired) as wrong:
            return f"WRONG: {str(wrong)[:2000]}", False


def go_apart():
    """Goes on with mounts of its own, as root: no disk stays mounted, however this ends."""
    if os.geteuid() == 0 and shutil.which("unshare") and APART not in os.environ:
        os.environ[APART] = "yes"
        alone = ["unshare", "--mount", "--propagation", "private"]
        os.execvp(alone[0], [*alone, sys.executable, *sys.argv])


def main():
    go_apart()
    program, names, failed = found(sys.argv[1:2]), sys.argv[2:], 0
    trials = [it for it in TRIALS if not names or it.__name__ in names]
    with processors() as pool:
        runs = [pool.submit(tried, it, program) for it in trials]
        for trial, run in zip(trials, runs):
            told, is_right = run.result()
            failed += not is_right
            print(f"{trial.__name__.replace('_', ' ')}: {told}", flush=True)
    if failed:
        sys.exit(f"refusals.py: {failed} trials failed")
    print("ok")


if __name__ == "__main__":
    main()
