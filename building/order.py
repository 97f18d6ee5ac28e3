"""In which order crates are proved, and by how many jobs each: what `./office` does, and what
`bench/first_build.py --simulate` tries in a minute, without proving anything.

All seconds are those of a crate that is proved alone on an idle machine of the table of the gate
(docs/MEASUREMENTS.md).
"""
import dataclasses

MEMORY_A_CHECK = 3_000_000_000  # bytes that a check with one job may take
MEMORY_A_JOB = 500_000_000  # bytes that each further job may take
A_JOB = 50  # seconds of work for each job of a check
MORE = 5 / 4  # jobs for each processor, since for a third of its time a check has work for one only
MOST = 4  # jobs of a crate
SOON = 150  # seconds that a crate may wait and still have more jobs than one
A_STEP = 100  # seconds that a crate may wait for each step by which it stands back
TAKES = (1, 0.72, 0.53, 0.41)  # what a proof takes with one to four jobs, of what it takes with one
USES = (1, 2, 2.7, 3.2)  # the processors that it then keeps busy
SHORT = 60  # seconds that a check may still take and not be begun anew
GAIN = 0.9  # of what a check would still take: what it has to take at most if begun anew
# About what a proof takes, as it was found by the table of the gate:
BY_PART = {"src": 2.2, "specs": 0, "proofs": 0.06}  # for each 1,000 bytes of its sources
A_LIBRARY = 4  # for each crate below it
A_DATABASE = 60  # where it names the database, whose types are large
A_PROGRAM = 160  # to compile the program, which keeps one processor busy


def estimate(sources, below, libraries):
    """About how long the proof of a crate takes, by its files, how many crates stand below it, and
    the libraries that it names."""
    own = sum(BY_PART[path.parts[0]] * len(text) for path, text in sources.items()) / 1000
    return own + A_LIBRARY * below + A_DATABASE * ("sqlite" in libraries)


def memory_of(jobs):
    return MEMORY_A_CHECK + (jobs - 1) * MEMORY_A_JOB


@dataclasses.dataclass
class Check:
    """A crate that is being proved."""

    jobs: int
    went: float = 0  # seconds of those that it takes with so many jobs


class Order:
    """Crates, what each takes, and the processors and the memory that there are.

    `below` has for each crate those below it, lowest first; `work` the seconds of its proof with
    one job; `compiling` further seconds in which only one processor has work for it."""

    def __init__(self, below, work, compiling, processors, memory):
        self.below, self.work, self.compiling = below, work, compiling
        self.processors, self.memory = processors, memory
        self.slots = max(1, int(MORE * processors))
        self.behind, before = dict.fromkeys(below, 0), {}
        for name in reversed(below):
            self.behind[name] += self.seconds(name, 1)
            for low in below[name]:
                self.behind[low] = max(self.behind[low], self.behind[name])
        for name in below:
            before[name] = max((before[it] + self.seconds(it, 1) for it in below[name]), default=0)
        longest = max(self.behind.values(), default=0)
        self.spare = {name: longest - before[name] - self.behind[name] for name in below}

    def seconds(self, name, jobs):
        """How long a crate takes with so many jobs, if no other is beside it."""
        return self.compiling.get(name, 0) + self.work[name] * TAKES[jobs - 1]

    def uses(self, name, jobs):
        """The processors that it keeps busy."""
        proof = self.work[name] * TAKES[jobs - 1] * USES[jobs - 1]
        return (self.compiling.get(name, 0) + proof) / self.seconds(name, jobs)

    def steps_back(self, name):
        """By how many steps a crate stands back behind those for which the program waits."""
        return max(0, min(19, int(self.spare[name] // A_STEP)))

    def find_ready(self, done, running):
        """The crates that wait for nothing, those with the longest chain behind them first."""
        left = (it for it in self.below if it not in done and it not in running)
        found = (it for it in left if self.below[it] <= done)
        return sorted(found, key=lambda it: -self.behind[it])

    def has_room(self, taken, jobs):
        """Whether a check with so many jobs has memory beside those with the jobs that are taken;
        one that is alone, with one job, has to do with what there is."""
        is_least = not taken and jobs == 1
        return is_least or sum(map(memory_of, [*taken, jobs])) <= self.memory

    def count_jobs(self, name, taken, others):
        """The jobs of a crate that is to start beside those with the jobs that are taken, where so
        many others are ready. One that is alone has all that it can use. One for which the program
        waits soon has those that no other wants; any other has one, since with more a crate takes
        a third more work."""
        if not taken and not others:
            wanted = min(MOST, self.processors)
        elif self.spare[name] < SOON:
            free = self.slots - sum(taken)
            wanted = min(MOST, free - others, int(self.work[name] // A_JOB))
        else:
            wanted = 1
        while wanted > 1 and not self.has_room(taken, wanted):
            wanted -= 1
        return max(1, wanted)

    def choose(self, done, running):
        """The crates that start now, each with its jobs: until each slot has a job, as far as the
        memory goes."""
        ready, chosen = self.find_ready(done, running), {}
        for at, name in enumerate(ready):
            taken = [*(it.jobs for it in running.values()), *chosen.values()]
            if self.slots <= sum(taken) or not self.has_room(taken, 1):
                break
            chosen[name] = self.count_jobs(name, taken, len(ready) - at - 1)
        return chosen

    def choose_anew(self, done, running):
        """A crate that ends sooner if it is begun anew with more jobs, and these: where processors
        idle since no crate is ready, the one of those with the longest chain behind it. Nothing of
        it is kept, so it must have enough before it."""
        free, found = self.processors - sum(it.jobs for it in running.values()), []
        if free <= 0 or self.find_ready(done, running):
            return None
        for name, it in running.items():
            jobs, left = min(MOST, it.jobs + free), self.seconds(name, it.jobs) - it.went
            others = [other.jobs for other in running.values() if other is not it]
            is_sooner = left > SHORT and self.seconds(name, jobs) < GAIN * left
            if jobs > it.jobs and is_sooner and self.has_room(others, jobs):
                found.append((self.behind[name], name, jobs))
        return max(found)[1:] if found else None

    def start(self, done, running):
        """Starts in `running` what starts now."""
        running.update((name, Check(jobs)) for name, jobs in self.choose(done, running).items())
        while again := self.choose_anew(done, running):
            running[again[0]] = Check(again[1])


def share_out(order, running):
    """The processors that each check gets: by its weight, which each step back lowers by a fifth,
    and none more than it can use."""
    wanted = {name: order.uses(name, it.jobs) for name, it in running.items()}
    weights = {name: 0.8 ** order.steps_back(name) * wanted[name] for name in running}
    left, given = order.processors, {}
    while open_ones := running.keys() - given.keys():
        whole = sum(weights[it] for it in open_ones)
        full = [it for it in open_ones if weights[it] / whole * left >= wanted[it]]
        given.update((it, wanted[it]) for it in full)
        if not full:
            given.update((it, weights[it] / whole * left) for it in open_ones)
        left = max(0, order.processors - sum(given.values()))
    return {name: given[name] / wanted[name] for name in running}


def foresee(order, done=(), running=()):
    """The seconds until all crates are done, from those that are done and those under way; with
    the second, the crate and the jobs of each end."""
    now, done, ends = 0.0, {*done}, []
    running = {name: dataclasses.replace(it) for name, it in dict(running).items()}
    while len(done) < len(order.below):
        order.start(done, running)
        pace = share_out(order, running)
        left = {it: (order.seconds(it, running[it].jobs) - running[it].went) / pace[it]
                for it in running}
        first = min(left, key=left.get)
        now += left[first]
        for name, it in running.items():
            it.went += left[first] * pace[name]
        ends.append((now, first, running.pop(first).jobs))
        done.add(first)
    return now, ends
