#!/usr/bin/env python3
"""Runs each command over a standard output that is closed, full, or takes one byte at a time, and
with words that are not UTF-8. A library between the program and the system (it needs a C compiler,
`cc`) takes one byte of each write, and perhaps no more after the first.

    tests/program/outputs.py [PROGRAM]      by default the program that ./office built

- An output that takes one byte at a time gets the whole text, with the usual status.
- One that is closed, full, or has room for one byte gets what fits, and the command ends with
  status 1 and `fault: write`; what it did to the office stays done.
- A word that is not UTF-8 is refused with status 2 and one line, and nothing is done.

Prints a line for each command, and ends with status 1 if anything else happened.
"""
import hashlib
import os
import pathlib
import shutil
import sqlite3
import subprocess
import sys
import tempfile

sys.path.insert(0, str(pathlib.Path(__file__).resolve().parents[1] / "lib"))
from preloaded import built
from program import TOP, found

WRITE = r"""
#include <errno.h>
#include <stdlib.h>
#include <sys/syscall.h>
#include <sys/types.h>
#include <unistd.h>

/* How many bytes standard output takes, one at a time; any number, where that is negative. */
static long room = -1;

__attribute__((constructor)) static void begin(void) {
  const char *told = getenv("ROOM");
  if (told) room = atol(told);
}

ssize_t write(int fd, const void *bytes, size_t count) {
  if (fd != 1 || count == 0) return syscall(SYS_write, fd, bytes, count);
  if (room == 0) {
    errno = ENOSPC;
    return -1;
  }
  if (room > 0) room--;
  return syscall(SYS_write, fd, bytes, 1);
}
"""
PLAN = str(TOP / "bench" / "plan.csv")
RECORDS = """\
inspection,12,1,2026-03-01,Ana,Fan cleaned
delivery,RELAY,1,2026-05-01,10
order,12,1,2026-05-02,Ana,Relay
use,12,1,1,RELAY,2
"""
# A request of each kind, and the words of each command; a command begins with the files made here.
REQUESTS = b"GET /stock HTTP/1.1\r\n\r\nGET /intersections/12 HTTP/1.1\r\n\r\n"
COMMANDS = [it.split() for it in """\
batch
batch --db office.db
add --db office.db 13 365 Elm
list --db office.db
list --db office.db --csv
sheet --db office.db 12
page --db office.db 12
page --file changed.csv
verify-file changed.csv
verify-file --explain changed.csv
verify-file --explain --advise warned.csv
edit --db office.db --clerk Ana 12 changed.csv
edit --db office.db --clerk Ana --commit --explain 12 changed.csv
edit --db office.db --clerk Ana --commit 12 plan.csv
edit --db office.db --clerk Ana --commit --advise 12 warned.csv
abandon --db office.db --clerk Ana 12
compare plan.csv changed.csv
compare --csv plan.csv changed.csv
compare --db office.db 12
diagram --db office.db 12 1
diagram --file plan.csv 1
import --db office.db more.csv
import --db office.db --check more.csv
export --db office.db 12
export --db office.db --draft 12
export --db office.db --cabinet 12
stock --db office.db
stock --db office.db --csv
orders --db office.db
orders --db office.db 12
used --db office.db
used --db office.db --csv RELAY
cabinet --db office.db 12
overdue --db office.db 2027-03-02
migrate --db office.db
--help""".splitlines()]
NOT_UTF8 = (2, b"", b"the command line is not UTF-8\n")
FAILED = (1, b"fault: write\n")


class Trial:
    """Runs of the program in a folder of its own, which begins as the one that was made."""

    def __init__(self, program, made, library, words):
        self.program, self.made, self.library, self.words = program, made, library, words
        self.wrong = []

    def run(self, words, room=None, **how):
        """The status, what was printed and told, and what the office's tables hold afterwards."""
        with tempfile.TemporaryDirectory() as folder:
            shutil.copytree(self.made, folder, dirs_exist_ok=True)
            more = {} if room is None else {"LD_PRELOAD": str(self.library), "ROOM": str(room)}
            how.setdefault("stdout", subprocess.PIPE)
            ran = subprocess.run(
                [self.program, *words], input=REQUESTS, stderr=subprocess.PIPE, cwd=folder,
                timeout=30, env={**os.environ, **more}, **how)
            return ran.returncode, ran.stdout or b"", ran.stderr, held(folder)

    def wants(self, what, came, wanted):
        if came != wanted:
            self.wrong.append(f"{what}: came {came}, wanted {wanted}")

    def tried(self):
        """What came otherwise than it must."""
        status, text, told, after = self.run(self.words)
        self.wants("an output as ever", (bool(text), told), (True, b""))
        self.wants("one byte at a time", self.run(self.words, -1), (status, text, b"", after))
        # A stream of requests ends where its output fails: these requests change nothing.
        one = self.run(self.words, 1)
        self.wants("room for one byte", one, (FAILED[0], text[:1], FAILED[1], after))
        with open("/dev/full", "wb") as full:
            came = self.run(self.words, stdout=full)
        self.wants("a full output", came, (FAILED[0], b"", FAILED[1], after))
        came = self.run(self.words, preexec_fn=lambda: os.close(1))
        self.wants("a closed output", came[:1] + came[2:], (*FAILED, after))
        before = held(self.made)
        for at in range(len(self.words)):
            words = [*self.words]
            words[at] = b"\xff\xfe" + os.fsencode(words[at])
            self.wants(f"word {at + 1} not UTF-8", self.run(words), (*NOT_UTF8, before))
        return self.wrong


def held(folder):
    """A sum of what the tables of the office hold, read from a copy of its files."""
    with tempfile.TemporaryDirectory() as other:
        for name in ("office.db", "office.db-wal"):
            if os.path.exists(os.path.join(folder, name)):
                shutil.copy(os.path.join(folder, name), other)
        db = sqlite3.connect(os.path.join(other, "office.db"))
        text = "\n".join(db.iterdump())
        db.close()
        return hashlib.sha256(text.encode()).hexdigest()[:8]


def make(program, folder):
    """An office with a committed plan, a draft, and records; and CSV files."""
    plan = pathlib.Path(PLAN).read_text()
    texts = {"plan.csv": plan, "changed.csv": plan.replace("split,1,2,35", "split,1,2,34"),
             "warned.csv": plan.replace("phase,4,1,8", "phase,4,1,0"),
             "records.csv": RECORDS, "more.csv": "delivery,RELAY,2,2026-06-01,5\n"}
    for name, text in texts.items():
        pathlib.Path(folder, name).write_text(text)
    edit = ["edit", "--db", "office.db", "--clerk", "Ana"]
    for words in (["add", "--db", "office.db", "12", "365", "Main St"],
                  [*edit, "--commit", "12", "plan.csv"],
                  ["import", "--db", "office.db", "records.csv"], [*edit, "12", "changed.csv"]):
        subprocess.run([program, *words], cwd=folder, check=True, stdout=subprocess.DEVNULL)


def main():
    program, failed = found(sys.argv[1:2]), 0
    with tempfile.TemporaryDirectory() as folder, tempfile.TemporaryDirectory() as made:
        library = built(pathlib.Path(folder), "write", WRITE)
        make(program, made)
        for words in COMMANDS:
            wrong = Trial(program, made, library, words).tried()
            print("\n  ".join([f"{' '.join(words)}: {len(wrong) or 'none'} wrong", *wrong]))
            failed += bool(wrong)
    if failed:
        sys.exit(f"outputs.py: {failed} commands failed")
    print(f"{len(COMMANDS)} commands: ok")


if __name__ == "__main__":
    main()
