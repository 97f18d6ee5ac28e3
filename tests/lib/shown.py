"""The commands that a document shows, with what they print, and a folder in which they run.

A command is an indented line that begins with `$ `; a backslash at its end continues it on the next
line. What it prints stands below it, up to the next command or the end of the block. One that ends
in ` &` runs on, once its first line was seen, until its document is done.

A table of mistakes has the head `| Wrong | Right | What COMMAND prints |`. In each row the wrong
lines are put in the place of the right ones, in `bench/plan.csv` for `verify-file` and else alone,
and COMMAND must print of that file what stands in the row, apart from the fault of a record and the
counts of an import. With the right lines it must end with status 0.
"""
import os
import re
import select
import shlex
import signal
import subprocess
import textwrap

from program import TOP

LONGEST = 60  # seconds of one command
CURL = 'silent\nshow-error\nnoproxy = "*"\n'
PLAN = TOP / "bench" / "plan.csv"
MISTAKES = re.compile(r"\| Wrong \| Right \| What `(\./office .*)` prints \|")
WAITING = re.compile(r"^note: another run has .* open; waiting\n", re.MULTILINE)
LEFT_OUT = "^fault: record\\|^would add"  # what a table of mistakes does not show


def mistake(command, row):
    """The lines of a block that plays a row of a table of mistakes."""
    wrong, right, told = (re.findall("`([^`]*)`", cell) for cell in row.strip("|").split("|"))
    whole = PLAN.read_text().splitlines() if " verify-file " in command else right
    at = whole.index(right[0]) if right else 0
    files = ([*whole[:at], *wrong, *whole[at + len(right):]], whole)
    wrong_file, right_file = (shlex.join(["printf", r"%s\n", *lines]) for lines in files)
    yield f"    $ {wrong_file} > wrong.csv; {command} wrong.csv 2>&1 | grep -v '{LEFT_OUT}'"
    yield from (f"    {it}" for it in told)
    yield f"    $ {right_file} > right.csv; {command} right.csv > /dev/null 2>&1; echo status $?"
    yield "    status 0"


def with_mistakes(text):
    """The lines of a document, with its tables of mistakes as blocks of commands."""
    command = None
    for line in text.splitlines():
        head = MISTAKES.fullmatch(line)
        command = head[1] if head else command if line.startswith("|") else None
        is_row = command and not head and not line.startswith("|--")
        yield from mistake(command, line) if is_row else [line]


def blocks(text):
    """The indented blocks of a document, without their indents."""
    block = []
    for line in [*with_mistakes(text), "the end"]:
        if line.startswith("    ") or not line.strip():
            block.append(line)
        elif block:
            yield textwrap.dedent("\n".join(block)).splitlines()
            block = []


def commands(block):
    """Each command of a block, with the lines that it has to print."""
    shown, is_open = [], False
    for line in block:
        if is_open:
            shown[-1][0] += "\n" + line
        elif line.startswith("$ "):
            shown.append([line[2:], []])
        elif shown:
            shown[-1][1].append(line)
        is_open = bool(shown) and shown[-1][0].endswith("\\") and not shown[-1][1]
    for command, lines in shown:
        yield command, "\n".join(lines).rstrip("\n")


def printed(data):
    """What was printed as a reader sees it: without HTTP's ends of lines and spaces at the end, and
    without the note of a wait, which a busy machine makes long."""
    text = WAITING.sub("", data.decode(errors="replace").replace("\r", ""))
    return "\n".join(line.rstrip() for line in text.splitlines()).rstrip("\n")


def furnish(folder, program):
    """Makes a folder look like the repository without what git ignores, and with this program."""
    ignored = {it.rstrip("/") for it in (TOP / ".gitignore").read_text().splitlines()}
    for path in TOP.iterdir():
        if path.name not in ignored | {"office"} and not path.name.startswith("."):
            (folder / path.name).symlink_to(path)
    (folder / "office").symlink_to(program)
    (folder / ".curlrc").write_text(CURL)


class Tour:
    def __init__(self, folder):
        self.folder, self.running = folder, []
        self.how = {
            "cwd": folder, "stdin": subprocess.DEVNULL, "stderr": subprocess.STDOUT,
            "stdout": subprocess.PIPE, "env": {**os.environ, "CURL_HOME": str(folder)},
        }

    def run(self, command, wanted):
        """What a command printed: the first line of one that runs on."""
        if command.endswith(" &"):
            words = ["bash", "-c", command[:-2]]
            process = subprocess.Popen(words, start_new_session=True, **self.how)
            self.running.append(process)
            told = wanted and select.select([process.stdout], [], [], LONGEST)[0]
            return printed(process.stdout.readline()) if told else ""
        try:
            ran = subprocess.run(["bash", "-c", command], timeout=LONGEST, **self.how)
            return printed(ran.stdout)
        except subprocess.TimeoutExpired:
            return f"(had not ended after {LONGEST} seconds)"

    def end(self):
        for process in self.running:
            os.killpg(process.pid, signal.SIGKILL)
            process.wait()
