"""Writes tables of docs/MEASUREMENTS.md, each between its marks, and names state and machine."""
import datetime
import os
import pathlib
import re
import subprocess
import textwrap

DOCUMENT = pathlib.Path(__file__).resolve().parents[2] / "docs" / "MEASUREMENTS.md"


def line(cells):
    return f"| {' | '.join(cells)} |\n"


def table(head, rows):
    """The text of a table; what is not in the first column stands right."""
    return line(head) + "|---|" + "---:|" * (len(head) - 1) + "\n" + "".join(map(line, rows))


def block(head, rows):
    """A table as it is read without a browser: in columns, names left and numbers right."""
    sides = ["<" if at == 0 or title == head[0] else ">" for at, title in enumerate(head)]
    widths = [max(len(row[at]) for row in [head, *rows]) for at in range(len(head))]
    shown = lambda row: "  ".join(f"{it:{side}{w}}" for it, side, w in zip(row, sides, widths))
    return "".join(f"    {shown(row)}".rstrip() + "\n" for row in [head, *rows])


def parted(name):
    """The document before the marks of that name, between them, and after them."""
    begin, end = f"<!-- {name}: begin -->\n", f"<!-- {name}: end -->\n"
    whole = DOCUMENT.read_text()
    if whole.count(begin) != 1 or whole.count(end) != 1:
        raise SystemExit(f"{DOCUMENT.name} has not the marks of {name!r} once each")
    before, rest = whole.split(begin)
    between, after = rest.split(end)
    return before + begin, between, end + after


def written(name, text):
    """Replaces the text between the marks of that name."""
    before, _, after = parted(name)
    DOCUMENT.write_text(before + text + after)


def paragraph(text):
    return textwrap.fill(text, 100, break_on_hyphens=False) + "\n"


def rows_of(name):
    """The rows of the table of that name."""
    lines = [it for it in parted(name)[1].splitlines() if it.startswith("| ")][1:]
    return [[cell.strip() for cell in re.split(r"(?<!\\)\|", it)[1:-1]] for it in lines]


def state():
    """The day, and the commit that the checkout stands on."""
    told = subprocess.run(
        ["git", "-C", DOCUMENT.parent, "rev-parse", "--short=7", "HEAD"],
        stdout=subprocess.PIPE, stderr=subprocess.DEVNULL, text=True,
    )
    return f"{datetime.date.today()}, {told.stdout.strip() or 'no commit'}"


def ticks():
    """The ticks of all processors since the system began, and those of them that the host of a
    virtual machine gave to others."""
    with open("/proc/stat") as told:
        cells = [int(it) for it in told.readline().split()[1:9]]
    return sum(cells), cells[7]


def machine(begun=None):
    """How many processors there are, and of which kind; with the ticks at which some work began,
    also how much of them the host took since, where that is a hundredth or more."""
    kind = "an unknown kind"
    with open("/proc/cpuinfo") as told:
        for found in re.finditer(r"^model name\s*:\s*(.*)$", told.read(), re.MULTILINE):
            kind = found[1]
    count = len(os.sched_getaffinity(0))
    text = f"{count} processor{'s' * (count != 1)} of {kind}"
    had, taken = (now - then for now, then in zip(ticks(), begun or ticks()))
    return f"{text}, of whose time the host took {taken / had:.0%}" if taken * 100 > had else text
