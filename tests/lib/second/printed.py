"""What the program prints, and which test compares it; tools/texts.py lists it.

Read from the sources and from the program's own help, so that no text is forgotten:

- each piece of text in the code of the crates that print (PRINTING),
- each command with each of its options,
- each fault with which the program ends, each hint, each note on a plan's records, and each refusal
  of a record,
- each public function that gives a text.

texts.py compares what it can, and notes what it saw in a text that it compared. All
else stands in the tables below, with the test that has it: a row or a script that has the text.
"""
import itertools
import re
import subprocess

from model import hints, plan, refusal, register
from program import TOP

TESTS = TOP / "tests"
DRAWERS = ("", "program", "house", "nightly", "lib")  # of the tests that tables name
LAYERS = ("texts", "program")  # of crates.txt: those that print
PRINTING = {"signal_rules", "signal_plans"}  # reasons and warnings, beside the crates of LAYERS
WORDS = "signal_office_line"  # help and refused words
VIEWS = {"office_views", "signal_diagram", "office_files", "signal_page", "office_listings"}
TOKEN = re.compile(r"""//[^\n]*|b?"((?:[^"\\]|\\.)*)"|b?'(?:[^'\\\n]|\\[^\n]{1,9}?)'""", re.S)
HOLE = re.compile(r"\{[\w.:>#?]*\}")
ESCAPES = {"n": "\n", "t": "\t", "r": "\r", "0": "\0", '"': '"', "'": "'", "\\": "\\"}
WORD = re.compile(r"[A-Za-z]{2}")

DRAWN = "second/texts.py"

# Pieces of text that no drawn text has, each with the test that has it.
ELSEWHERE = {
    "a fault of the system, and the notes beside it": {
        "fault: bind": "rows/a_port_that_is_taken.row",
        "fault: memory": "hostile.py",
        "fault: read": "rows/sources_that_fail.row",
        "fault: store": "hostile.py",
        "fault: write": "outputs.py",
        "the command line is not UTF-8": "outputs.py",
        "its warnings could not be read": "memory.py",
        "another run has ": "in_use.py", " open; waiting": "in_use.py",
        " is a folder": "in_use.py", " is no file": "in_use.py", " is no database": "in_use.py",
        " has more than one name, by hard links": "in_use.py",
        " is a database in which no office can be opened": "in_use.py",
        " can't be opened beside its log": "in_use.py",
        " has a rollback journal; open it by sqlite3 first": "in_use.py",
        " names no file for SQLite; write ./": "in_use.py", "the system refuses ": "in_use.py",
        " can't be had again (": "turns.py", "); each request is answered 503": "turns.py",
        "a random number": "refusals.py", " is a link that leads nowhere": "refusals.py",
        " is empty, and no log stands beside it": "hostile.py",
        "port ": "rows/a_port_that_is_taken.row", " of 127.0.0.1": "rows/a_port_that_is_taken.row",
    },
    "what is said of a CSV file that is too long": {
        " has more than 64 MiB": "refusals.py", ": record ": "refusals.py",
        ", line ": "refusals.py",
        ", has more than 1 MiB; look for a quote that nothing ends": "refusals.py",
        " has more than 100000 records; split it, as by split --lines=50000": "refusals.py",
        "standard input": "refusals.py", " more ": "refusals.py", "other records": "refusals.py",
        "records": "refusals.py", " put or remove a key again": "refusals.py",
        " is standard input, which is read once; name another file":
            "rows/plans_are_compared.row",
    },
    "what is said of a place for a copy": {
        " is the office itself": "refusals.py", " belongs to ": "refusals.py",
        " is a link": "refusals.py", " is there, of a copy that was cut off":
            "rows/a_copy_of_an_office.row",
        " is there, the log of another office": "rows/a_copy_of_an_office.row",
    },
    "what a change did, where that could not be read": {
        "committed": "memory.py", "abandoned": "memory.py",
    },
    "over a hundred notes": {
        " more records are of a new part or there already": "rows/many_new_parts.row",
    },
    "what a server says": {"listening on 127.0.0.1:": "server.sh"},
    "the version": {" (tables of version ": "words.py"},
    "a reason that can't be given: a phase stands once in a list, and in another row that is told":
        {" stands twice": "second/plans.py"},
}
# Pieces of text that are no part of what is printed.
UNPRINTED = {
    "names of files beside an office or a copy": "-wal .part -turn -journal -shm",
    "kinds of records, as they are read": "delivery",
    "how a file of a database begins, and names that are no file's":
        "SQLite~format~3\0 :memory: file:",
}
# Commands and options that no drawn command has, each with the tests that have it.
STREAMS = "second/requests.py lives.py clients.py server.sh"
OPTIONS = {
    "batch": STREAMS, "serve": STREAMS, "serve --port": "server.sh", "serve --count": "server.sh",
    "--wait": "in_use.py", "--help": "rows/help_is_printed.row",
    "--version": "rows/help_is_printed.row",
}
# Faults: how each is told, and where no drawn command has it, the test that does.
FAULTS = {
    "Read": ("fault: read", "rows/sources_that_fail.row"),
    "Write": ("fault: write", "outputs.py"),
    "Memory": ("fault: memory", "hostile.py"),
    "Store": ("fault: store", "hostile.py"),
    "Version": ("fault: version", None),
    "Damaged": ("fault: damaged", None),
    "Bind": ("fault: bind", "rows/a_port_that_is_taken.row"),
    "File": ("fault: file", None),
    "Exists": ("fault: exists", None),
    "UnknownIntersection": ("fault: unknown intersection", None),
    "UnknownPattern": ("fault: unknown pattern", None),
    "OtherRevision": ("fault: revision: # is committed", None),
    "Day": ("fault: day", None),
    "Clerk": ("fault: clerk", None),
    "Name": ("fault: name", None),
    "Part": ("fault: part", None),
    "Refused": ("fault: IntersectionDiffers", None),
    "Record": ("fault: record #: NoStock", None),
    "Late": ("fault: record #: Late", None),
    "Csv": ("fault: record #: Number #", None),
    "HeldBy": ("fault: NotOwner/held by", None),
    "OtherCsv": ("fault: other record #: ", None),
    "Words": ("the command line is not UTF-8", "outputs.py"),
}
# Public functions that give a text of the crates in VIEWS, by the command that prints it.
FUNCTIONS = {
    "plan_page": "page --file", "intersection_page": "page", "index_page": "pages",
    "add_entry": "pages", "cabinet_text": "cabinet", "intersections_list": "list",
    "orders_list": "orders --csv", "orders_text": "orders", "overdue_csv": "overdue --csv",
    "orders_by_age": "orders --by-age", "stock_list": "stock", "part_text": "stock",
    "used_list": "used", "add_used": "used", "work_list": "work", "add_work": "work",
    "diagram": "diagram", "figure": "page", "reasons_text": "verify-file --explain",
    "violation_text": "verify-file",
    "timing_csv": "export", "records_csv": "export --cabinet", "changes_csv": "compare --csv",
    "overdue_text": "overdue", "timing_sheet": "sheet", "comparison_text": "compare",
    "warnings_text": "verify-file --advise", "csv_file": "list --csv",
}


def crates():
    """The crates whose code has texts that are printed."""
    layer = ""
    for line in (TOP / "crates.txt").read_text().splitlines():
        name, colon, _ = line.partition(":")
        if line.startswith("## "):
            layer = line[3:]
        elif colon and not line.startswith("#") and name != WORDS:
            if layer in LAYERS or name in PRINTING:
                yield name


def meant(text):
    """The text for which a literal stands."""
    text = re.sub(r"\\\n\s*", "", text)
    return re.sub(r"\\x([0-9a-fA-F]{2})|\\(.)", lambda it: (
        chr(int(it[1], 16)) if it[1] else ESCAPES.get(it[2], it[2])), text, flags=re.S)


def literals(code):
    """The texts of code, each as it stands there."""
    return [it[1] for it in TOKEN.finditer(code) if it[1] is not None]


def pieces_of(literal):
    """The pieces of a text between its holes that have a word."""
    parts = HOLE.split(literal.replace("{{", "{").replace("}}", "}"))
    return {it for it in map(meant, parts) if WORD.search(it)}


def pieces():
    """Each piece of text that is printed, with its crate."""
    unprinted = {it.replace("~", " ") for names in UNPRINTED.values() for it in names.split(" ")}
    return {piece: crate for crate in crates()
            for path in sorted((TOP / "crates" / crate / "src").rglob("*.rt"))
            for literal in literals(path.read_text()) for piece in pieces_of(literal)
            if piece not in unprinted}


def variants(code, name):
    """The variants of an enum."""
    found = re.search(rf"^pub enum {name} {{\n(.*?)^}}", code, re.S | re.M)
    return re.findall(r"^    (\w+)", found[1], re.M) if found else []


def functions():
    """The public functions of the crates that print for people which give a text."""
    for crate in sorted(VIEWS & {*crates()}):
        for path in sorted((TOP / "crates" / crate / "src").rglob("*.rt")):
            for name, result in re.findall(r"^pub fn (\w+).*?-> ([^\n{]*)", path.read_text(),
                                           re.S | re.M):
                if re.search(r"Vec<u8>|String|Markup", result) or name.startswith("add_"):
                    yield name


def options(program):
    """Each command of the program, and each with each of its options, from its help."""
    def helped(*words):
        ran = subprocess.run([program, *words, "--help"], stdout=subprocess.PIPE, text=True)
        return ran.stdout
    commands = re.findall(r"^  ([a-z][\w-]*) ", helped(), re.M)
    for command in (it for it in commands if it != "help"):
        yield command
        for option in re.findall(r"^ +(?:-\w, )?(--[\w-]+)", helped(command), re.M):
            yield f"{command} {option}"


def path_of(test):
    """The file of a test, in whichever drawer it is; none where it is in none."""
    paths = (TESTS / drawer / test for drawer in DRAWERS)
    return next((it for it in paths if it.is_file()), None)


def missing_tests():
    """The tests that a table names and that are not there, or have no such text."""
    told = [(piece, test) for group in ELSEWHERE.values() for piece, test in group.items()]
    told += [(text, test) for text, test in FAULTS.values() if test]
    told += [("", test) for tests in OPTIONS.values() for test in tests.split()]
    for text, test in told:
        path = path_of(test)
        if not path:
            yield f"there is no test {test}"
        elif text.removeprefix("fault: ").strip() not in path.read_text():
            yield f"{test} has no text {text!r}"


def missing_faults():
    """The faults that no table has, and those of a table that are gone."""
    code = (TOP / "crates/signal_office_faults/src/fault.rt").read_text()
    for name in {*variants(code, "Fault")} ^ {*FAULTS}:
        yield f"the fault {name} is in one of the sources and printed.py alone"


def marked(text):
    """A text with a mark for each number."""
    return re.sub(r"\d+", "#", text)


def formed(line):
    """A line with a mark for each number and nothing between quotes."""
    return marked(re.sub(r'"(?:[^"\\]|\\.)*"( \(\d+ bytes\))?', '""', line))


def field_forms():
    """What is told of each field of a bad record."""
    for kind in (*plan.KINDS, *register.FORMS):
        for word, form, unit in hints.forms([kind]):
            hint = formed(f'line 1, {word}: ""; {hints.values(form, unit)}')
            if isinstance(form, hints.Number):
                yield from (hint, f"{hint}, in digits without leading zeros")
            elif form is hints.DAY:
                yield from (hint, f"{hint}, from #-#-# to #-#-#")
            else:
                yield hint
    for word in ("walk", "day", "part", "count", "kind"):
        yield f'line #, {word}: ""; no spaces'
    for word in ("kind", "text", "phases"):
        yield f"line #, {word}: byte #xF# is not UTF-#; save as CSV UTF-#"


def hint_forms():
    """What is told of a bad record: of each field, of kinds and of numbers of fields."""
    yield from field_forms()
    for kinds in (hints.PLAN_KINDS, hints.KEY_KINDS, hints.RECORD_KINDS):
        yield f'line #, kind: ""; {kinds}'
    for what in ("nothing but commas; --padded passes over it",
                 "a comment; remove it, CSV has none", "semicolons between fields; write commas",
                 "tabs between fields; write commas", "a record of a cabinet; import takes it",
                 "a row of a plan; edit takes it", "a header row; remove it, CSV has none",
                 "# fields, not #", "# fields, not # or #", "# field, not #",
                 "# fields, not #; --padded drops the empty ones at its end",
                 "# fields, not # or #; --padded drops the empty ones at its end",
                 "# fields, not #; a comma in a text needs quotes",
                 "# fields, not #; phases stand in one field, with spaces",
                 "# fields, not # or #; mates stand in one field, with spaces",
                 "a workbook (xlsx), not CSV; save as CSV UTF-#",
                 "UTF-#, not UTF-#; save as CSV UTF-#"):
        yield f"line #: {what}"
    yield from ("other line #: # fields, not #", "# more bad records")


def note_forms():
    """The notes on keys that come again, and on edits that were made."""
    for one, more, of in (("phase", "phases", ""), ("row", "rows", " of sequence #"),
                          ("row", "rows", " of split #"), ("pattern", "patterns", "")):
        yield f"note: # {one}{of} stays; --replace would remove it"
        yield f"note: # {more}{of} stay; --replace would remove them"
    yield "note: # rows that are not in the file stay; --replace would remove them"
    yield from ("note: this is the plan of #", "note: # of # committed rows change")
    keys = "phase #", "sequence # ring #", "split # phase #", "pattern #"
    files = "record", "other record"
    for called, deed, key in itertools.product(files, ("puts", "removes"), keys):
        yield f"note: {called} # {deed} {key} again, after record #"


def refusal_forms():
    """A record that the office refuses, or would refuse."""
    for number in (10, *range(20, 30)):
        yield f"fault: record #: {refusal.NAMES[number]}"
        yield f"record #, line #: {refusal.NAMES[number]}"


def forms():
    """The lines that must come in what is compared, with a mark for each number."""
    return [*hint_forms(), *note_forms(), *refusal_forms()]


def forms_in(out, err):
    """The lines of what was printed and told that are of these forms."""
    told = [*re.findall(r"^record #, line #: \w+", marked(out), re.M),
            *map(formed, err.split("\n"))]
    return {it for it in told if it.startswith(("record", "fault", "note", "line", "other", "#"))}


def untold(program, seen):
    """What is wrong with the tables, and each text that no test compares: `seen` has the pieces, the
    commands with options, and the faults that were in what was compared."""
    yield from missing_tests()
    yield from missing_faults()
    elsewhere = {it for group in ELSEWHERE.values() for it in group}
    for piece, crate in pieces().items():
        if piece not in seen and not any(it.strip() in piece or piece in it for it in elsewhere):
            yield f"no test has the text {piece[:200]!r} of {crate}"
    for command in options(program):
        name, _, option = command.partition(" ")
        if not {command, name, option} & {*OPTIONS} | {command} & seen:
            yield f"no test has the command {command}"
    yield from (f"no drawn command told {it!r}" for it in forms() if it not in seen)
    for name, (text, test) in FAULTS.items():
        if not test and not any(it.startswith(text) for it in seen):
            yield f"no drawn command ended with the fault {name}, {text!r}"
    for name in functions():
        if FUNCTIONS.get(name) not in seen:
            yield f"no test has what the function {name} gives"


def listed(program):
    """Each text with its test, as the tables have it."""
    for command in options(program):
        name, _, option = command.partition(" ")
        tests = (OPTIONS.get(it) for it in (command, option, name))
        yield command, next(filter(None, tests), DRAWN)
    for name, (text, test) in FAULTS.items():
        yield f"fault {name}, {text!r}", test or DRAWN
    for form in forms():
        yield repr(form), DRAWN
    for name in functions():
        yield f"fn {name}, by {FUNCTIONS.get(name)}", DRAWN
    elsewhere = {piece: test for group in ELSEWHERE.values() for piece, test in group.items()}
    for piece, crate in sorted(pieces().items(), key=lambda it: it[1]):
        test = next((test for it, test in elsewhere.items() if it.strip() in piece), DRAWN)
        yield f"{crate} {piece!r}", test
