"""Keeps processors busy that the kernel leaves idle.

Where the host of a virtual machine takes time of its processors, the kernel may let several proofs
wait for one processor while others are idle: a gate then takes twice as long. `watch` looks at the
processes below one. Where several of their threads want to run and they get less than four fifths of the
processors that they could have, each is given one for the next minute.
"""
import os
import pathlib
import time

PAUSE = 5  # seconds between two looks
LASTS = 60  # seconds for which threads stay where they were put
ENOUGH = 0.8  # of the processors, that threads get where nothing is to be done
TICKS = os.sysconf("SC_CLK_TCK")


def fields_of(path):
    """The fields of a stat file of /proc behind the name, none if it is gone."""
    try:
        return path.read_text().rpartition(")")[2].split()
    except OSError:
        return []


def processes_below(root):
    """A process and all that it started, directly or not."""
    parents = {}
    for folder in filter(str.isdigit, os.listdir("/proc")):
        if fields := fields_of(pathlib.Path("/proc", folder, "stat")):
            parents[int(folder)] = int(fields[1])
    found = [root]
    for it in found:
        found += [child for child, parent in parents.items() if parent == it]
    return found


def threads_of(process):
    """The stat files of a process's threads, none if it is gone."""
    folder = pathlib.Path("/proc", str(process), "task")
    try:
        return [folder / thread / "stat" for thread in os.listdir(folder)]
    except OSError:
        return []


def threads_below(root):
    """Each thread of these processes: whether it wants to run, and the ticks that it took."""
    found = {}
    for process in processes_below(root):
        for path in threads_of(process):
            if fields := fields_of(path):
                found[int(path.parent.name)] = fields[0] == "R", int(fields[11]) + int(fields[12])
    return found


def place(thread, processors):
    """Lets a thread run on these processors alone."""
    try:
        os.sched_setaffinity(thread, processors)
    except OSError:
        pass  # it has ended


def share(wanting, processors, homes):
    """Gives each thread that wants to run a processor, that of before as far as no other has fewer."""
    loads = dict.fromkeys(sorted(processors), 0)
    for it in homes.keys() - wanting:
        del homes[it]
    for it in sorted(wanting, key=lambda thread: (thread not in homes, thread)):
        least = min(loads, key=loads.get)
        if loads[homes.setdefault(it, least)] > loads[least]:
            homes[it] = least
        loads[homes[it]] += 1
        place(it, {homes[it]})


def watch(root, is_over):
    """Looks at the processes below one until that is over. A thread that begins has the place of
    the one that began it, so those that wait are let go at each look."""
    processors, homes, until, before, at = os.sched_getaffinity(0), {}, 0, {}, time.monotonic()
    while not is_over():
        time.sleep(PAUSE)
        now, found = time.monotonic(), threads_below(root)
        took = sum(ticks - before.get(it, (False, ticks))[1] for it, (_, ticks) in found.items())
        wanting = {it for it, (wants, _) in found.items() if wants}
        can = min(len(wanting), len(processors))
        if can > 1 and took / TICKS / (now - at) < ENOUGH * can:
            until = now + LASTS
        share(wanting if now < until else set(), processors, homes)
        for it in found.keys() - homes.keys() if until else ():
            place(it, processors)
        before, at = found, now
