"""Measures the first build, or simulates it.

    python3 bench/first_build.py [--write]
    python3 bench/first_build.py --simulate [SECONDS]

The first clones the repository, runs README's first three commands there by `./office --trial` and
then the first of them by `./office`. It says how long the trial took to answer all three, how many
crates were proved after how many minutes, and when the proved program answered. Beside that it says
what bench/baseline.c takes for 200,000 requests in memory, which is the same work on each machine.
With --write that goes into docs/MEASUREMENTS.md, in place of what was measured on so many
processors before. Nothing else should run meanwhile. It needs some gigabytes in the folder for
temporary files. `taskset` and a limit of memory, as of systemd-run, make a smaller machine.

The second proves nothing. It goes through the order of `./office` on 2, 4 and 8 processors, by the
seconds of each crate in the table of the gate, or as `./office` estimates them where the table does
not have it. Beside the minutes it prints those of the best order that it finds by chance in so many
seconds (20) for each number of processors, the work, shared out, and the longest chain of crates;
then when each crate ends on 4 processors.
"""
import contextlib
import math
import pathlib
import random
import re
import subprocess
import sys
import tempfile
import time

TOP = pathlib.Path(__file__).resolve().parent.parent
sys.dont_write_bytecode = True
sys.path[:0] = [str(TOP / "tests" / "lib"), str(TOP / "building")]
import all as everything
import measured
import order
import script
import work

MINUTES = (5, 10, 15, 20, 30, 40)
HEAD = ["State and machine", "C, s", "Trial", "Crates", *(f"{it} min" for it in MINUTES), "Proved"]
CHECK = ["verify-file", "bench/plan.csv"]
TRIED = (  # the first three commands of README
    CHECK,
    ["add", "--db", "demo/city.db", "12", "365", "Main St"],
    ["edit", "--db", "demo/city.db", "--clerk", "Ana", "--commit", "12", "bench/plan.csv"],
)
PROCESSORS, SHOWN = (2, 4, 8), 4
MEMORY = 4_000_000_000  # bytes for each processor
PATIENCE = 20  # seconds of a search
WARM = 20  # seconds by which an order may be worse at first, and still be gone on from


def seconds_of_c():
    """What the C program takes for 200,000 requests in memory: the least of three runs."""
    requests = b"".join(work.adding_and_asking(200_000))
    with tempfile.TemporaryDirectory() as folder:
        words = everything.built(folder)
        if not words:
            return ""
        runs = [everything.ran(words, requests, folder)[0] for _ in range(everything.RUNS)]
    return f"{min(runs):.2f}"


def ask(folder, *words, **more):
    return subprocess.Popen(["./office", *words], cwd=folder, stdin=subprocess.DEVNULL, text=True,
                            **more)


def try_out(folder):
    """The minutes until a trial has answered the first three commands."""
    begun = time.monotonic()
    (folder / "demo").mkdir()
    for words in TRIED:
        if ask(folder, "--trial", *words).wait():
            sys.exit("the trial did not end well")
    return (time.monotonic() - begun) / 60


def prove(folder):
    """How many crates there are, how many were proved in which minute, and the minutes until the
    proved program has answered."""
    begun = time.monotonic()
    build = ask(folder, *CHECK, stderr=subprocess.PIPE)
    crates, proved = 0, {}
    for line in build.stderr:
        print(line, end="", file=sys.stderr, flush=True)
        done = re.search(r"(\d+) of (\d+) crates proved after (\d+) min", line)
        if done:
            crates, proved[int(done[3])] = int(done[2]), int(done[1])
    if build.wait():
        sys.exit("the build did not end well")
    return crates, proved, (time.monotonic() - begun) / 60


def memory():
    """The memory that there is, or that the group of this process may have, if that is less."""
    kib = int(re.search(r"MemTotal:\s*(\d+)", pathlib.Path("/proc/meminfo").read_text())[1])
    limits = [kib * 1024]
    for line in pathlib.Path("/proc/self/cgroup").read_text().splitlines():
        _, kinds, path = line.split(":", 2)
        for root, name in (("memory", "memory.limit_in_bytes"), ("", "memory.max")):
            limit = pathlib.Path("/sys/fs/cgroup", root, path.lstrip("/"), name)
            with contextlib.suppress(OSError, ValueError):
                limits.append(int(limit.read_text()))
    return f"{min(limits) / 1e9:.0f} GB"


def measure(is_written):
    seconds, begun = seconds_of_c(), measured.ticks()
    with tempfile.TemporaryDirectory() as room:
        folder = pathlib.Path(room) / "clone"
        subprocess.run(["git", "clone", "--quiet", TOP, folder], check=True)
        trial = try_out(folder)
        crates, proved, minutes = prove(folder)
    after = lambda limit: max((many for at, many in proved.items() if at < limit), default=0)
    shown = [str(after(it)) if it <= minutes else "" for it in MINUTES]
    where = f"{measured.state()}, {measured.machine(begun)}, {memory()}"
    row = [where, seconds, f"{trial:.1f} min", str(crates), *shown, f"{minutes:.0f} min"]
    print(measured.table(HEAD, [row]), end="")
    if is_written:
        same = f", {measured.machine().split(' of ')[0]} of "
        others = [it for it in measured.rows_of("first build") if same not in it[0]]
        rows = sorted([row, *(it for it in others if len(it) == len(HEAD))])
        measured.written("first build", measured.table(HEAD, rows))


def seconds_of_gate():
    """What the proof of each crate took in the table of the gate."""
    rows = re.findall(r"^ {4}(\w+) +([\d,]+)(?: |$)", measured.parted("gate")[1], re.MULTILINE)
    return {name: int(took.replace(",", "")) for name, took in rows}


class Guess(order.Order):
    """An order by chance: the rank and the jobs of each crate, and how many jobs run at once."""

    def __init__(self, *words):
        super().__init__(*words)
        self.ranks, self.jobs = dict(self.behind), dict.fromkeys(self.below, 1)
        self.spare = dict.fromkeys(self.below, 0)

    def find_ready(self, done, running):
        found = super().find_ready(done, running)
        return sorted(found, key=lambda it: -self.ranks[it])

    def count_jobs(self, name, taken, others):
        return self.jobs[name]

    def change(self, chance):
        """Changes a crate or the slots; what it gives takes that back."""
        name, was = chance.choice([*self.below]), (dict(self.ranks), dict(self.jobs), self.slots)
        kind = chance.random()
        if kind < 0.5:
            self.jobs[name] = chance.choice((1, 1, *range(1, order.MOST + 1)))
        elif kind < 0.95:
            self.ranks[name] *= chance.uniform(0.5, 1.5)
        else:
            self.slots = self.processors + chance.randrange(3)
        return was

    def put_back(self, was):
        self.ranks, self.jobs, self.slots = was


def search(guess, patience):
    """The least seconds of the orders that were found: each is the one before it, changed, and gone
    on from where it is not much worse, less and less so."""
    chance, begun = random.Random(1), time.process_time()
    best = now = order.foresee(guess)[0]
    while patience and (gone := (time.process_time() - begun) / patience) < 1:
        was, before = guess.change(chance), now
        now = order.foresee(guess)[0]
        if now > before and chance.random() > math.exp((before - now) / (WARM * (1 - gone))):
            guess.put_back(was)
            now = before
        best = min(best, now)
    return best


def find_work():
    """The crates of the program with those below them, and the seconds that each takes. The program
    itself takes what `./office` estimates, since the gate builds it twice."""
    office = script.load()
    below, libraries = office.crates()
    held = {name: office.sources(TOP, name) for name in below}
    work, compiling = office.estimate_all(below, libraries, held)
    known = seconds_of_gate()
    work.update((name, known[name]) for name in work if name in known and name not in compiling)
    return below, work, compiling


def simulate(patience):
    below, work, compiling = find_work()
    minutes = lambda seconds: f"{seconds / 60:.1f}"
    rows, ends = [], []
    for many in PROCESSORS:
        words = below, work, compiling, many, many * MEMORY
        today = order.Order(*words)
        took, found = order.foresee(today)
        best = min(took, search(Guess(*words), patience))
        whole = (sum(work.values()) + sum(compiling.values())) / many
        chain = max(today.behind.values())
        rows.append([str(many), *map(minutes, (took, best, whole, chain))])
        ends = found if many == SHOWN else ends
    head = ["processors", "this order, min", "best found", "work, shared out", "longest chain"]
    print(measured.block(head, rows))
    last = [[name, minutes(at), str(jobs)] for at, name, jobs in ends]
    print(measured.block([f"crate, on {SHOWN} processors", "ends, min", "jobs"], last), end="")


def main():
    words = sys.argv[1:]
    if words[:1] == ["--simulate"] and all(it.isdecimal() for it in words[1:]) and len(words) < 3:
        simulate(int(words[1]) if words[1:] else PATIENCE)
    elif words in ([], ["--write"]):
        measure(bool(words))
    else:
        sys.exit("usage: python3 bench/first_build.py [--write | --simulate [SECONDS]]")


if __name__ == "__main__":
    main()
