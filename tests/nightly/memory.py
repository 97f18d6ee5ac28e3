#!/usr/bin/env python3
"""Refuses each allocation in turn, by an allocator that is loaded before the system's, and checks
the outcome.

    tests/nightly/memory.py [PROGRAM]

- Streams of requests to `batch`, over tables in memory and in a file: each answer is that of the
  second office (tests/lib/model), in which a request answered Unavailable changes nothing; or the
  program reports memory or the database before the first. The file then holds the office after the
  last request that was not answered so, or after a later one.
- Commands of the program: each prints what it always prints, or reports memory or the database, and
  prints the same when it is run again. A commit may be told by
  `committed` alone, perhaps with `its warnings could not be read`, and `abandon` by `abandoned`.

Each ends with the run in which nothing was refused. Prints how often each outcome came, and ends
with status 1 if any other came. Needs a C compiler, `cc`. Takes some minutes.
"""
import collections
import concurrent.futures
import copy
import functools
import itertools
import os
import pathlib
import shutil
import subprocess
import sys
import tempfile

sys.path.insert(0, str(pathlib.Path(__file__).resolve().parents[1] / "lib"))
from model import rows
from model.commands import is_shorter
from model.office import Office
from model.wire import UNAVAILABLE, answer, answer_bytes
from preloaded import built
from program import TOP, found

ALLOCATOR = r"""
#include <errno.h>
#include <stdlib.h>
#include <unistd.h>

void *__libc_malloc(size_t size);
void *__libc_realloc(void *block, size_t size);

static long left;

__attribute__((constructor)) static void begin(void) {
  const char *number = getenv("REFUSED");
  left = number ? atol(number) : 0;
}

/* Whether it is the turn of the call that is refused, which is told. */
static int is_refused(void) {
  if (left == 0 || --left != 0) return 0;
  if (write(2, "refused\n", 8) != 8) _exit(9);
  errno = ENOMEM;
  return 1;
}

void *malloc(size_t size) { return is_refused() ? NULL : __libc_malloc(size); }

void *realloc(void *block, size_t size) {
  return is_refused() ? NULL : __libc_realloc(block, size);
}
"""
MOST = 100_000  # allocations of one run
FAULTS = ["fault: memory"], ["fault: store"]
STREAM = "one_long_list_of_commands.row"
QUERIES = [f"GET /intersections/12{it}" for it in ("", "/timing", "/draft", "/cabinet")]
PLAN = TOP / "bench" / "plan.csv"
# What commands may print when they are run again after they were done.
COMMANDS = (
    ("same", "add --db office.db 13 365 Elm"),
    ("", "list --db office.db"),
    ("", "stock --db office.db"),
    ("", "stock --db office.db RELAY"),
    ("", "orders --db office.db --by-age 2027-03-02"),
    ("", "work --db office.db --from 2026-01-01 --to 2027-03-02"),
    ("", "cabinet --db office.db 12"),
    ("fault: NotTransaction", "abandon --db office.db --clerk Ana 12"),
    ("", "page --db office.db 12"),
    ("", f"page --file {PLAN}"),
    ("", "sheet --db office.db 12"),
    ("", "overdue --db office.db 2027-03-02"),
    ("", "verify-file changed.csv"),
    ("", "migrate --db office.db"),
    ("added 0, same 1", "import --db office.db records.csv"),
    ("", "export --db office.db 12"),
    ("", "edit --db office.db --clerk Ana 12 changed.csv"),
    ("no changes", "edit --db office.db --clerk Ana --commit --advise 12 later.csv"),
    ("", f"compare {PLAN} changed.csv"),
    ("", "compare --db office.db 12"),
    ("", f"diagram --file {PLAN} 1"),
)


class Wrong(Exception):
    """What came is not what may come."""


def without_notes(lines):
    """What was said on standard error, without notes."""
    return [it for it in lines if not it.startswith("note: ")]


def parts(text):
    """The method, the target and the body of a request of a row."""
    method, _, rest = text.partition(" ")
    target, _, body = rest.partition(" ")
    return method, target, body.encode()


def request(text):
    """The bytes of a request of a row."""
    method, target, body = parts(text)
    return f"{method} {target} HTTP/1.1\r\nContent-Length: {len(body)}\r\n\r\n".encode() + body


def told(office, text):
    """What an office in Python answers to a request of a row, as bytes."""
    return answer_bytes(*answer(office, *parts(text)))


def offices_after(texts, came):
    """The offices in Python that may be there after requests that were answered so: the one after
    those that were answered otherwise than Unavailable, and with each later one that was."""
    office, others = Office(), []
    for text in texts:
        if came.startswith(UNAVAILABLE):
            others.append(copy.deepcopy(office))
            told(others[-1], text)
            came = came[len(UNAVAILABLE):]
            continue
        wanted, others = told(office, text), []
        if not came.startswith(wanted):
            raise Wrong(f"{text}: wanted {wanted!r}, came {came[:200]!r}")
        came = came[len(wanted):]
    if came:
        raise Wrong(f"more came: {came[:200]!r}")
    return [office, *others]


class Runs:
    """Runs of a program in a folder of its own, of which each may have one allocation refused."""

    def __init__(self, program, allocator, folder):
        self.program, self.allocator, self.folder = program, allocator, folder
        folder.mkdir()

    def run(self, words, refused=0, sent=b""):
        """The status of a run, what it printed, and the lines that it told."""
        env = {"REFUSED": str(refused), "LD_PRELOAD": str(self.allocator)}
        ran = subprocess.run([self.program, *words], input=sent, capture_output=True, env=env,
                             cwd=self.folder)
        return ran.returncode, ran.stdout, ran.stderr.decode().splitlines()


def each(name, once):
    """Has a call try the refusal of one allocation after the other, until it tells by None that
    none was refused. Gives what to print, and whether all was right."""
    came = collections.Counter()
    for number in range(1, MOST):
        try:
            word = once(number)
        except Wrong as it:
            return f"{name}, allocation {number}: {it}", False
        if word is None:
            words = ", ".join(f"{many} times {word}" for word, many in sorted(came.items()))
            return f"{name}: {number - 1} allocations refused: {words}", True
        came[word] += 1
    return f"{name}: no end", False


def stream(runs, texts, has_file):
    """Tries a stream of requests."""
    sent, asked = b"".join(map(request, texts)), b"".join(map(request, QUERIES))
    words, known = ["batch", *["--db", "new.db"] * has_file], {}

    def shown(came):
        """What the offices that may be there answer to the queries."""
        if came not in known:
            may_be = offices_after(texts, came) if came else [Office()]
            known[came] = {b"".join(told(it, text) for text in QUERIES) for it in may_be}
        return known[came]

    def once(number):
        for file in runs.folder.glob("new.db*"):
            file.unlink()
        status, came, lines = runs.run(words, number, sent)
        may_be = shown(came)
        if has_file and runs.run(words, 0, asked)[1] not in may_be:
            raise Wrong("the file holds another office")
        if not lines and not status and came:
            return None
        if lines == ["refused"] and not status and came:
            return "all as before" if UNAVAILABLE in came else "done all the same"
        if lines[:1] == ["refused"] and without_notes(lines[1:]) in FAULTS and status == 1:
            return "told at the end" if came else "no memory to begin"
        raise Wrong(f"status {status}, told {lines}")

    name = f"{len(texts)} requests, over {'a file' if has_file else 'memory'}"
    return each(name, once)


def command(runs, model, again, words):
    """Tries a command on a copy of the files of a folder; `again` is what it may print when it is
    run again after it was done."""

    def lay():
        shutil.rmtree(runs.folder)
        shutil.copytree(model, runs.folder)

    lay()
    wanted = runs.run(words)

    def once(number):
        lay()
        status, came, lines = runs.run(words, number)
        if not lines or lines[0] != "refused":
            return None
        told = status, without_notes(lines[1:])
        if told == (wanted[0], without_notes(wanted[2])):
            if came == wanted[1]:
                return "done all the same"
            if is_shorter(came, wanted[1]):
                return "told in a fixed line"
        if without_notes(lines[1:]) not in FAULTS or status != 1 or came:
            raise Wrong(f"status {status}, printed {came!r}, told {lines}")
        next_time = runs.run(words)
        if next_time != wanted and again not in (next_time[1].decode().strip(), *next_time[2]):
            raise Wrong(f"run again: {next_time}")
        return "told"

    return each(" ".join(words), once)


def model_files(runs):
    """The files on which commands are tried: an office with a committed plan and a draft, plans,
    and records."""
    plan = PLAN.read_text()
    (runs.folder / "changed.csv").write_text(plan.replace("split,1,2,35", "split,1,2,34"))
    (runs.folder / "later.csv").write_text(plan.replace("pattern,1,60,0", "pattern,1,60,5"))
    (runs.folder / "records.csv").write_text("inspection,12,1,2026-03-01,Ana,Fan cleaned\n")
    edit = ["edit", "--db", "office.db", "--clerk", "Ana"]
    for words in (["add", "--db", "office.db", "12", "365", "Main St"],
                  [*edit, "--commit", "12", PLAN], [*edit, "12", "changed.csv"]):
        status, _, lines = runs.run(words)
        if status:
            sys.exit(f"memory.py: {words}: {lines}")
    return runs.folder


def tries(program, folder):
    """What is tried: calls that give what to print, and whether all was right."""
    allocator = built(folder, "refuse", ALLOCATOR)
    runs = (Runs(program, allocator, folder / f"runs{at}") for at in itertools.count())
    texts = [text for text, _ in rows.plain((rows.DATA / STREAM).read_text())]
    for of, has_file in ((texts[:2], False), (texts[:2], True), (texts * 2, False), (texts, True)):
        yield functools.partial(stream, next(runs), of, has_file)
    model = model_files(next(runs))
    for again, words in COMMANDS:
        yield functools.partial(command, next(runs), model, again, words.split())


def main():
    program, is_right = found(sys.argv[1:2]), True
    with tempfile.TemporaryDirectory() as folder:
        with concurrent.futures.ThreadPoolExecutor(os.cpu_count()) as pool:
            calls = tries(program, pathlib.Path(folder))
            for tried in concurrent.futures.as_completed([pool.submit(it) for it in calls]):
                text, is_so = tried.result()
                print(text, flush=True)
                is_right &= is_so
    sys.exit(not is_right)


if __name__ == "__main__":
    main()
