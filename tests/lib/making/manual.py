"""The manual page of the program, of its help."""
import version

from .help import PROGRAM


def roff(text):
    """A text as a manual page has it."""
    return text.replace("\\", "\\e").replace("-", "\\-").replace("'", "\\(aq")


def line(text):
    """A line of a page, which is no request."""
    return f"\\&{roff(text)}" if text.startswith((".", "'")) else roff(text)


def in_roff(it):
    """An argument as a synopsis of a page has it."""
    name = f"\\fB{roff(it.name)}\\fR" if it.is_option() else f"\\fI{roff(it.name)}\\fR"
    whole = f"{name} \\fI{it.value}\\fR" if it.value else name
    return whole if it.is_needed else f"[{whole}]"


def page_of(it):
    """The section of a command."""
    yield from (f".SS {roff(it.name)}", ".PP", f"\\fB{roff(it.name)}\\fR")
    yield from map(in_roff, it.words)
    yield from (".PP", line(f"{it.about}."))
    for one in it.words:
        yield from (".TP", in_roff(one._replace(is_needed=True)), line(f"{one.about}."))


def ends(commands):
    """What the help says at its end, each text once, with the commands that have it."""
    by_text = {}
    for it in commands:
        by_text.setdefault(it.end, []).append(it.name)
    for text, names in by_text.items():
        yield f".SS {roff(', '.join(names))}"
        yield from (".nf", *(line(it) for it in text.splitlines()), ".fi")


def manual(words):
    """The manual page."""
    number, (_, day) = version.number(), version.newest()
    return "\n".join([
        '.\\" Made by tests/house/words.py of what the program says by --help.',
        f'.TH SIGNAL_OFFICE 1 "{day}" "Cayunchis {number}" "User Commands"',
        ".SH NAME", f"{PROGRAM} \\- {roff(words.about[0].lower() + words.about[1:])}",
        ".SH SYNOPSIS", f"\\fB{PROGRAM}\\fR \\fICOMMAND\\fR [\\fIWORDS\\fR]",
        ".br", f"\\fB{PROGRAM}\\fR [\\fICOMMAND\\fR] \\fB\\-\\-help\\fR",
        ".br", f"\\fB{PROGRAM} \\-\\-version\\fR",
        ".SH DESCRIPTION",
        "Stores the timing plan of each signalized intersection of a city, and a record of the",
        "work done in its cabinet, in a file of SQLite. A plan is committed only if it breaks",
        "none of fourteen rules.",
        ".SH COMMANDS", *(text for it in words.commands for text in page_of(it)),
        ".SH RECORDS AND STATUSES", *ends(words.commands),
        ".SH FILES", ".TP", "\\fIFILE\\fR\\-wal",
        "The log of the office in \\fIFILE\\fR. It belongs to that file: move, copy and remove",
        "both or neither.",
        ".SH SEE ALSO",
        "COMMANDS.md, HTTP.md, PLANS.md, FILE-FORMAT.md and OPERATING.md in",
        "/usr/share/doc/cayunchis/docs", ""])
