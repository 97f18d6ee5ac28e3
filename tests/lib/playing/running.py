"""Runs of the program. A library between it and the system cuts what it reads and writes into
single bytes, or has its input or output fail."""
import contextlib
import dataclasses
import os
import socket
import subprocess
import threading

from serving import exchange

ENDS = r"""
#define _GNU_SOURCE
#include <errno.h>
#include <stdio.h>
#include <stdlib.h>
#include <sys/socket.h>
#include <sys/syscall.h>
#include <sys/types.h>
#include <sys/uio.h>
#include <unistd.h>

/* Whether each read of a stream gives one byte, and each write to standard output takes one. */
static int is_cut;
/* Whether the input of the stream fails after its last byte, and how many bytes its output takes
   before it fails; any number, where that is negative. At first these are standard input and
   output, then each connection. */
static int breaks;
static long room = -1;
/* The same of the connections to come. */
static const char *more = "";

/* The next stream begins. */
static void go_on(void) {
  int length = 0;
  breaks = 0;
  room = -1;
  if (sscanf(more, "%d %ld%n", &breaks, &room, &length) == 2) more += length;
}

__attribute__((constructor)) static void begin(void) {
  int length = 0;
  more = getenv("ENDS");
  if (!more || sscanf(more, "%d%n", &is_cut, &length) != 1) _exit(9);
  more += length;
  go_on();
}

static ssize_t given(int fd, void *bytes, size_t count, int flags, int call) {
  int is_in = fd == 0 || call == SYS_recvfrom;
  if (is_cut && count > 1 && is_in) count = 1;
  ssize_t got = call == SYS_read ? syscall(SYS_read, fd, bytes, count)
                                 : syscall(SYS_recvfrom, fd, bytes, count, flags, NULL, NULL);
  if (got != 0 || count == 0 || !is_in || !breaks) return got;
  errno = EIO;
  return -1;
}

ssize_t read(int fd, void *bytes, size_t count) { return given(fd, bytes, count, 0, SYS_read); }

ssize_t recv(int fd, void *bytes, size_t count, int flags) {
  return given(fd, bytes, count, flags, SYS_recvfrom);
}

/* Where single bytes are taken, an output without room takes none; else it fails. A connection takes
   what it is sent whole: the server gives up one that takes a part. */
static ssize_t taken(int fd, const void *bytes, size_t count, int flags, int call) {
  int is_out = fd == 1 || call == SYS_sendto;
  if (is_cut && count > 1 && (fd == 1 || fd == 2)) count = 1;
  if (is_out && room >= 0 && count > 0) {
    if (room == 0) {
      errno = ENOSPC;
      return is_cut ? 0 : -1;
    }
    if (count > (size_t)room) count = room;
  }
  ssize_t put = call == SYS_write ? syscall(SYS_write, fd, bytes, count)
                                  : syscall(SYS_sendto, fd, bytes, count, flags, NULL, 0);
  if (is_out && room > 0 && put > 0) room -= put;
  return put;
}

ssize_t write(int fd, const void *bytes, size_t count) {
  return taken(fd, bytes, count, 0, SYS_write);
}

ssize_t send(int fd, const void *bytes, size_t count, int flags) {
  return taken(fd, bytes, count, flags, SYS_sendto);
}

/* Of several pieces the first that is not empty is written, as any write may end early. */
static const struct iovec *first(const struct iovec *pieces, size_t count) {
  while (count > 1 && pieces->iov_len == 0) {
    pieces++;
    count--;
  }
  return pieces;
}

ssize_t writev(int fd, const struct iovec *pieces, int count) {
  const struct iovec *piece = first(pieces, count);
  return taken(fd, piece->iov_base, piece->iov_len, 0, SYS_write);
}

ssize_t sendmsg(int fd, const struct msghdr *message, int flags) {
  const struct iovec *piece = first(message->msg_iov, message->msg_iovlen);
  return taken(fd, piece->iov_base, piece->iov_len, flags, SYS_sendto);
}

static int accepted(int fd) {
  if (fd >= 0) go_on();
  return fd;
}

int accept(int fd, struct sockaddr *address, socklen_t *length) {
  return accepted(syscall(SYS_accept, fd, address, length));
}

int accept4(int fd, struct sockaddr *address, socklen_t *length, int flags) {
  return accepted(syscall(SYS_accept4, fd, address, length, flags));
}
"""
NAME = "signal_office"
PATIENCE = 120  # seconds after which a run that has not ended is killed
TRIES = 5  # for a port that another program takes meanwhile


class Off(Exception):
    """What came is not what must come."""


@dataclasses.dataclass(frozen=True)
class Came:
    """What came of a run."""

    status: int
    out: bytes
    err: bytes


@contextlib.contextmanager
def ended(process):
    """Has a run end in time, and closes what leads to it."""
    timer = threading.Timer(PATIENCE, process.kill)
    timer.start()
    try:
        yield process
    finally:
        timer.cancel()
        if process.poll() is None:
            process.kill()
        for pipe in (process.stdin, process.stdout, process.stderr):
            if pipe and not pipe.closed:
                with contextlib.suppress(OSError):
                    pipe.close()
        process.wait()


@dataclasses.dataclass(frozen=True)
class Runner:
    """Runs the program in a folder, with its streams whole or cut into single bytes."""

    program: str
    library: str
    folder: str
    is_cut: bool

    def env(self, ends):
        """The environment of a run whose streams have these ends, each with whether its input
        breaks and how much room its output has."""
        if not self.is_cut and not any(breaks or room is not None for breaks, room in ends):
            return None
        told = " ".join(f"{breaks:d} {-1 if room is None else room}" for breaks, room in ends)
        return {**os.environ, "LD_PRELOAD": self.library, "ENDS": f"{self.is_cut:d} {told}"}

    def begun(self, words, ends, stdin=subprocess.PIPE, stdout=subprocess.PIPE):
        """A run that has begun."""
        return subprocess.Popen(
            [NAME, *words], executable=self.program, cwd=self.folder, env=self.env(ends),
            bufsize=0, stdin=stdin, stdout=stdout, stderr=subprocess.PIPE)

    def run(self, words, sent=b"", breaks=False, room=None):
        """What came of a run that was sent these bytes. An output without any room is a pipe that
        nobody reads, or one that takes no byte where single bytes are written."""
        if room == 0 and not self.is_cut:
            return self.run_unread(words, sent, breaks)
        with ended(self.begun(words, [(breaks, room)])) as process:
            out, err = process.communicate(sent)
        return checked(Came(process.returncode, out, err))

    def run_unread(self, words, sent, breaks):
        """What came of a run whose output is a pipe that nobody reads."""
        other, out = os.pipe()
        os.close(other)
        try:
            process = self.begun(words, [(breaks, None)], stdout=out)
        finally:
            os.close(out)
        with ended(process):
            _, err = process.communicate(sent)
        return checked(Came(process.returncode, b"", err))

    def serve(self, streams):
        """What came of a server over tables in memory, with the answers to each of these streams,
        which have their bytes, whether they break, and the room of their answers. Where its port
        was taken meanwhile, it is tried again."""
        ends = [(False, None), *((breaks, room) for _, breaks, room in streams)]
        for _ in range(TRIES):
            with socket.create_server(("127.0.0.1", 0)) as free:
                port = str(free.getsockname()[1])
            words = ["serve", "--port", port, "--count", str(len(streams))]
            with ended(self.begun(words, ends, stdin=subprocess.DEVNULL)) as process:
                line = process.stdout.readline()
                answers = [exchange(int(port), it[0], PATIENCE) for it in streams if line]
                out, err = process.communicate()
            came = checked(Came(process.returncode, line + out, err))
            if came.err != b"fault: bind\n":
                break
        if came != Came(0, b"listening on 127.0.0.1:%s\n" % port.encode(), b""):
            raise Off(f"a server that ends in order, came {came}")
        return answers


def checked(came):
    """What came of a run that ended by itself."""
    if came.status < 0:
        raise Off(f"an end by itself, came signal {-came.status}; a run may take {PATIENCE} s")
    return came
