"""Runs of the program over a disk that fails, or that are killed: a library between the program and
the system counts its calls of files, and at one of them ends the program, has no more room, or
fails."""
import dataclasses
import os
import socket
import subprocess
import threading
import time

from serving import exchange

DISK = r"""
#define _GNU_SOURCE
#include <errno.h>
#include <fcntl.h>
#include <signal.h>
#include <stdarg.h>
#include <stdio.h>
#include <stdlib.h>
#include <sys/stat.h>
#include <sys/syscall.h>
#include <sys/types.h>
#include <unistd.h>

enum { WRITES = 1, SYNCS = 2, RESIZES = 4 };

/* The call at which the program ends, and how much of it is done before, in thousandths. */
static long last, part;
/* The call that fails, how many do from there on, and of which kinds. */
static long failed, failures, kinds;
/* The bytes by which files may still grow, where that is bounded. */
static long room = -1;

__attribute__((constructor)) static void begin(void) {
  const char *told = getenv("DISK");
  const char *form = "%ld %ld %ld %ld %ld %ld";
  if (told && sscanf(told, form, &last, &part, &failed, &failures, &kinds, &room) != 6) _exit(9);
}

/* Tells what the disk refused first. */
static void tell(const char *line, size_t length) {
  static int is_told;
  if (!is_told && write(2, line, length) < 0) _exit(9);
  is_told = 1;
}

static int is_last(void) { return last > 0 && --last == 0; }

static void end(void) { kill(getpid(), SIGKILL); }

static int fails(int kind) {
  if (!(kinds & kind) || failures == 0 || --failed > 0) return 0;
  failures--;
  if (kind == SYNCS) tell("unsynced\n", 9);
  tell("failed\n", 7);
  errno = EIO;
  return 1;
}

/* How many bytes of a write there is room for. */
static size_t fitting(int fd, size_t count, off_t at) {
  struct stat file;
  if (room < 0 || fstat(fd, &file) != 0) return count;
  long more = at + (off_t)count - (file.st_size > at ? file.st_size : at);
  if (more <= room) {
    room -= more > 0 ? more : 0;
    return count;
  }
  count -= more - room;
  room = 0;
  tell("full\n", 5);
  return count;
}

ssize_t pwrite(int fd, const void *bytes, size_t count, off_t at) {
  if (is_last()) {
    syscall(SYS_pwrite64, fd, bytes, count * part / 1000, at);
    end();
  }
  if (fails(WRITES)) return -1;
  size_t fit = fitting(fd, count, at);
  if (fit == 0 && count != 0) {
    errno = ENOSPC;
    return -1;
  }
  return syscall(SYS_pwrite64, fd, bytes, fit, at);
}

static int resized(int fd, off_t size) {
  struct stat file;
  if (room >= 0 && fstat(fd, &file) == 0 && file.st_size > size) room += file.st_size - size;
  return syscall(SYS_ftruncate, fd, size);
}

int ftruncate(int fd, off_t size) {
  if (is_last()) {
    if (part >= 500) resized(fd, size);
    end();
  }
  return fails(RESIZES) ? -1 : resized(fd, size);
}

static int synced(int call, int fd) {
  if (is_last()) {
    if (part >= 500) syscall(call, fd);
    end();
  }
  return fails(SYNCS) ? -1 : syscall(call, fd);
}

int fsync(int fd) { return synced(SYS_fsync, fd); }

int fdatasync(int fd) { return synced(SYS_fdatasync, fd); }

static int opened(int folder, const char *path, int flags, mode_t mode) {
  int is_end = is_last();
  int fd = is_end && part < 500 ? -1 : syscall(SYS_openat, folder, path, flags, mode);
  if (is_end) end();
  return fd;
}

#define OPENED(folder)                                                        \
  va_list more;                                                               \
  va_start(more, flags);                                                      \
  mode_t mode = flags & (O_CREAT | __O_TMPFILE) ? va_arg(more, mode_t) : 0;   \
  va_end(more);                                                               \
  return opened(folder, path, flags, mode)

int open(const char *path, int flags, ...) { OPENED(AT_FDCWD); }

int openat(int folder, const char *path, int flags, ...) { OPENED(folder); }

/* The same under the names of calls with wide offsets. */
ssize_t pwrite64(int, const void *, size_t, off_t) __attribute__((alias("pwrite")));
int ftruncate64(int, off_t) __attribute__((alias("ftruncate")));
int open64(const char *, int, ...) __attribute__((alias("open")));
int openat64(int, const char *, int, ...) __attribute__((alias("openat")));
"""
KINDS = {"writes": 1, "syncs": 2, "resizes": 4, "all": 7}
REFUSALS = FULL, FAILED, UNSYNCED = "full", "failed", "unsynced"
PATIENCE = 60  # seconds after which a run that has not ended is killed


class Off(Exception):
    """What came is not what may come."""


@dataclasses.dataclass(frozen=True)
class Trouble:
    """What befalls a run: at which of its calls of files it is killed, with how many thousandths of
    the call done; from which call of some kinds on how many fail, -1 for all; how many bytes there
    is room for, -1 for all; and after which part of its usual time it is killed, 0 for none."""

    last: int = 0
    part: int = 0
    failed: int = 0
    failures: int = 0
    kinds: int = 0
    room: int = -1
    time: float = 0

    def env(self, library):
        """The environment of such a run."""
        numbers = self.last, self.part, self.failed, self.failures, self.kinds, self.room
        return {"LD_PRELOAD": str(library), "DISK": " ".join(map(str, numbers))}


def draw_skewed(dice, most):
    """A number from 1, each twice as large as another as seldom."""
    return round(most ** dice.random())


def draw_trouble(dice):
    """What befalls a run: nothing, or the disk refuses, or the program is killed, or both."""
    disk = dice.choice(("", "", "", "full", "full", "failed"))
    stop = dice.choice(("", "", "time", "call", "call") if not disk else ("", "", "", "call"))
    drawn, most = {}, dice.choice((150, 150, 3_000))
    if disk == "full":
        drawn["room"] = draw_skewed(dice, dice.choice((20_000, 200_000, 4_000_000))) - 1
    elif disk == "failed":
        failures = dice.choice((1, 1, 2, -1))
        kinds = KINDS[dice.choice(("all", "all", *KINDS))]
        drawn |= {"failed": draw_skewed(dice, most), "failures": failures, "kinds": kinds}
    if stop == "time":
        drawn["time"] = 1.2 * dice.random()
    elif stop == "call":
        part = dice.choice((0, dice.randrange(1000), 1000))
        drawn |= {"last": draw_skewed(dice, most), "part": part}
    return Trouble(**drawn)


@dataclasses.dataclass
class Came:
    """What came of a run: its status, what it printed, the line that it told, or none, what the
    disk refused, and for a server what came over its connections."""

    status: int
    out: bytes
    told: str
    refused: str

    @property
    def is_killed(self):
        """Whether it was stopped in the middle."""
        return self.status == -9


class Run:
    """A run of the program that has begun, and is killed after a while where it lasts so long."""

    def __init__(self, words, trouble, env, usual, stdin):
        self.process = subprocess.Popen(words, stdin=stdin, stdout=subprocess.PIPE,
                                        stderr=subprocess.PIPE, env=env)
        self.timer = threading.Timer(trouble.time * usual or PATIENCE, self.process.kill)
        self.timer.start()
        self.begun = time.monotonic()

    def came(self, sent=None):
        """What came of it, once it has ended, and how long it took."""
        out, err = self.process.communicate(sent)
        self.timer.cancel()
        took = time.monotonic() - self.begun
        if took > PATIENCE / 2:
            raise Off("it did not end")
        lines = err.decode(errors="replace").splitlines()
        refused = [it for it in lines if it in REFUSALS]
        told = "\n".join(it for it in lines if it not in refused)
        return Came(self.process.returncode, out, told, "".join(refused)), took


class Program:
    """The program, with the library that stands between it and the system."""

    def __init__(self, path, library):
        self.path, self.library, self.usual = path, library, 0.1

    def begun(self, words, trouble, stdin):
        """A run that has begun."""
        words, env = [self.path, *words], trouble.env(self.library)
        return Run(words, trouble, env, self.usual, stdin)

    def run(self, words, trouble, sent=b""):
        """What came of a run that was sent these bytes."""
        came, took = self.begun(words, trouble, subprocess.PIPE).came(sent)
        if trouble == Trouble():
            self.usual = 0.8 * self.usual + 0.2 * took
        return came

    def serve(self, words, trouble, streams):
        """What came of a server that was sent these streams, each over a connection of its own: it
        prints what it answered. Where its port was taken meanwhile, it is tried again."""
        with socket.create_server(("127.0.0.1", 0)) as free:
            port = free.getsockname()[1]
        ports = ["--port", str(port), "--count", str(len(streams))]
        run = self.begun([*words, *ports], trouble, subprocess.DEVNULL)
        line, answers = run.process.stdout.readline(), b""
        if line:
            answers = b"".join(exchange(port, sent, PATIENCE / 2) for sent in streams)
        came, _ = run.came()
        if came.told.endswith("fault: bind"):
            return self.serve(words, trouble, streams)
        if came.out or line not in (b"", b"listening on 127.0.0.1:%d\n" % port):
            raise Off(f"it printed {line!r} and {came.out!r}")
        return dataclasses.replace(came, out=answers)
