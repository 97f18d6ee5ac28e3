"""Runs all tests and says what they cost in processor seconds: the gate crate by crate, and the
scripts together.

    python3 bench/gate.py RECORD [--on] [--write]

If there is no file RECORD, it runs `./office-tests` (with --anew if the kit's gate has it, so that
nothing is taken from earlier runs), passes on what that prints, and writes RECORD: a line for each
crate with the seconds of its proofs, tests and programs, and of its must-fail edits, and one for
the scripts. With --on it runs the gate over what the run of RECORD proved before it was stopped,
and adds to it. With --write the table of RECORD goes into docs/MEASUREMENTS.md. Needs /proc, as
Linux has it.
"""
import collections
import os
import pathlib
import subprocess
import sys
import threading
import time

TOP = pathlib.Path(__file__).resolve().parent.parent
sys.path.insert(0, str(TOP / "tests" / "lib"))
import measured
import sources

TICKS = os.sysconf("SC_CLK_TCK")
PAUSE = 0.2  # seconds between two looks at the processes
HEAD = ["crate", "proof, s", "edits, s"]
REST = "linking, runs, all else"
SCRIPTS = "scripts, over the program"


def looked():
    """Each process: its parent, its start, and the ticks that it and its ended children took."""
    found = {}
    for folder in os.listdir("/proc"):
        if folder.isdigit():
            try:
                text = pathlib.Path("/proc", folder, "stat").read_text()
            except OSError:
                continue
            cells = text.rpartition(")")[2].split()
            found[int(folder)] = int(cells[1]), cells[19], sum(map(int, cells[11:15]))
    return found


def subject_of(process):
    """The crate that a process checks, and whether with an edit; that it is one of the scripts; None
    of any other process."""
    try:
        words = pathlib.Path("/proc", str(process), "cmdline").read_text().split("\0")
        folder = os.readlink(f"/proc/{process}/cwd")
    except OSError:
        return None
    if any(word.startswith(f"{TOP}/tests/") for word in words[:3]):
        return SCRIPTS, False
    if "--crate-name" not in words[:-1]:
        return None
    name = words[words.index("--crate-name") + 1]
    return name, not folder.endswith(f"/crates/{name}")


def check_above(process, top, found, known):
    """The highest check or script among a process and those above it, up to the command; None where
    it is none of these."""
    highest = None
    while process in found and process != top:
        parent, start, _ = found[process]
        place = process, start
        if place not in known and (subject := subject_of(process)):
            known[place] = subject
        highest = place if place in known else highest
        process = parent
    return highest if process == top else None


def watch(top, known, seconds, is_over):
    """Notes what the checks and scripts below a process took, until it is over: the most that was
    seen of each, with what those took that it forked."""
    while not is_over.wait(PAUSE):
        found, now = looked(), collections.Counter()
        for process, (_, _, ticks) in found.items():
            now[check_above(process, top, found, known)] += ticks / TICKS
        for place in now.keys() - {None}:
            seconds[place] = max(seconds[place], now[place])


def words(goes_on):
    """The command, by which the gate takes nothing from earlier runs unless it goes on."""
    told = subprocess.run(["rt", "help"], capture_output=True, text=True)
    is_anew = not goes_on and "--anew" in told.stdout + told.stderr
    return [TOP / "office-tests", *(["--anew"] if is_anew else [])]


def run(path, earlier):
    """Runs all tests and writes the record. What an earlier run took is that of each proof, and of
    each crate's edits, that this one takes from it."""
    known, seconds = {}, collections.Counter()
    is_over, begun, ticks = threading.Event(), time.monotonic(), measured.ticks()
    gate = subprocess.Popen(words(earlier), cwd=TOP, stdout=subprocess.PIPE, text=True)
    watcher = threading.Thread(target=watch, args=(gate.pid, known, seconds, is_over))
    watcher.start()
    last = ""
    for line in gate.stdout:
        print(line, end="", flush=True)
        last = line.strip() or last
    _, status, usage = os.wait4(gate.pid, 0)
    gate.returncode = os.waitstatus_to_exitcode(status)
    is_over.set()
    watcher.join()
    sums = collections.Counter()
    for place, took in seconds.items():
        sums[known[place]] += took
    whole, minutes = usage.ru_utime + usage.ru_stime, (time.monotonic() - begun) / 60
    sums[REST, False] = whole - sum(sums.values())
    if earlier:
        heading, rows = earlier
        minutes += int(heading[2].split()[0])
        for name, *took in rows:
            for is_edits in (False, True):
                sums[name, is_edits] = sums[name, is_edits] or took[is_edits]
    with open(path, "w") as record:
        machine = measured.machine(ticks)
        print(f"# {measured.state()}; {machine}; {minutes:.0f} min; {last}", file=record)
        for name in dict.fromkeys(name for name, _ in sums):
            row = f"{sums[name, False]:.0f} {sums[name, True]:.0f}"
            print(name.replace(" ", "_"), row, file=record)


def of_record(text):
    """The heading of a record, and its rows."""
    lines = text.splitlines()
    rows = [line.split() for line in lines if line and not line.startswith("#")]
    rows = [(name.replace("_", " ") if "," in name else name, int(proof), int(edits))
            for name, proof, edits in rows]
    return lines[0][2:].split("; "), rows


def longest_chain(seconds):
    """The chain of crates that takes longest by itself, lowest first, and its seconds."""
    chains = {}
    for name, lower in sources.crates()[0].items():
        under = max((chains[it] for it in lower if it in chains), default=(0, []))
        chains[name] = under[0] + seconds.get(name, 0), [*under[1], name]
    return max(chains.values())


def main():
    words = [it for it in sys.argv[1:] if it not in ("--on", "--write")]
    if len(words) != 1:
        sys.exit("usage: python3 bench/gate.py RECORD [--on] [--write]")
    is_there = os.path.exists(words[0])
    if "--on" in sys.argv or not is_there:
        run(words[0], of_record(pathlib.Path(words[0]).read_text()) if is_there else None)
    heading, rows = of_record(pathlib.Path(words[0]).read_text())
    state, machine, clock, last = heading
    order = [*sources.crates()[0]]
    rows.sort(key=lambda it: order.index(it[0]) if it[0] in order else len(order))
    of_gate = [row for row in rows if row[0] != SCRIPTS]
    proofs, edits = (sum(row[column] for row in of_gate) for column in (1, 2))
    rows = [*of_gate, ("together", proofs, edits), *(row for row in rows if row[0] == SCRIPTS)]
    cells = [[name, f"{proof:,}", f"{edit:,}" if edit else ""] for name, proof, edit in rows]
    text = measured.block(HEAD, cells)
    minutes = f"{(proofs + edits) / 60:.0f} processor minutes, {clock} by the clock"
    text = measured.paragraph(f"{state}; {machine}; {minutes}; {last}:") + "\n" + text
    took, chain = longest_chain({name: proof for name, proof, _ in of_gate})
    names = ", ".join(f"`{it}`" for it in chain)
    told = f"The longest chain of crates takes {took / 60:.0f} minutes by itself: {names}."
    text += "\n" + measured.paragraph(told)
    print(text, end="")
    if "--write" in sys.argv:
        measured.written("gate", text)


if __name__ == "__main__":
    main()
