"""The program, written a second time from docs/COMMANDS.md: the words of a command in; its status,
what it prints, and what it tells on standard error out. Words that are refused, streams of requests
and what the system refuses are not in it.

A command is run over an office and over CSV texts by the names of their files."""
import typing

from . import checking, commands, comparing, fields, hints, listings, pages, pictures
from .padded import is_blank, unpadded
from .plan import apply, read_change
from .refusal import Refused
from .register import read_record
from .rows import noted
from .tables import widened
from .wire import read_each

VALUED = ("--db", "--wait", "--clerk", "--until", "--day", "--first", "--file", "--revision",
          "--from", "--to", "--by-age")
DIFFERS, HAS_REFUSED, INPUT = 4, 1, "-"


class Ran(typing.NamedTuple):
    """What came of a run."""

    status: int
    out: str
    err: str


class Fault(Exception):
    """A command ends with this fault, which may have a second line, perhaps after a text that it
    printed."""

    def __init__(self, line, out=""):
        super().__init__(line)
        self.out = out


class Csv:
    """The records of a CSV text, and the line on which each begins."""

    def __init__(self, text, is_padded, called="record"):
        self.called, self.records, self.lines = called, [], []
        for record, line in zip(fields.read_csv(text), hints.begins(text), strict=True):
            if not is_padded or not is_blank(record):
                self.records.append(unpadded(record) if is_padded else record)
                self.lines.append(line)

    def spelled(self, read):
        """What the records spell; the first that spells nothing is a fault."""
        try:
            return read_each(read, self.records)
        except Refused as it:
            told = commands.fault(it).removeprefix("fault: record")
            raise Fault(f"{self.called}{told}") from None

    def explained(self, is_plan):
        """A line for each bad record."""
        line = self.called.replace("record", "line")
        return hints.bad_records(self.records, self.lines, is_plan, line)

    def plan(self):
        """The plan that the records make of none."""
        return apply({}, self.spelled(read_change))


def asked(words):
    """A command's name, its options with their values, and its other words."""
    name, *rest = words
    options, others = {}, []
    while rest:
        word = rest.pop(0)
        if word.startswith("--"):
            options[word] = rest.pop(0) if word in VALUED else True
        else:
            others.append(word)
    return name, options, others


def judge_words(name, options, others):
    """Words that are no day, clerk, name or part are faults, before anything is read."""
    days = [options.get(it) for it in ("--until", "--day", "--by-age", "--from", "--to")]
    words = {"part": others * (name in ("used", "stock")),
             "day": [*days, *others * (name == "overdue")], "clerk": [options.get("--clerk")],
             "name": others[2:] * (name == "add")}
    for fault, form in (("part", fields.PART), ("day", fields.DAY), ("clerk", fields.CLERK),
                        ("name", fields.NAME)):
        if not all(form.has(it) for it in words[fault] if it is not None):
            raise Fault(fault)


class Program:
    """Runs commands over an office in a file, whose tables may be of version 1, or which may be
    missing; and over CSV texts."""

    def __init__(self, office, texts, is_old=False, is_missing=False):
        self.office, self.texts = office, texts
        self.is_old, self.is_missing, self.notes, self.copies = is_old, is_missing, [], {}
        self.harm = None  # a row that is damaged

    def run(self, words):
        """Runs a command."""
        name, options, others = asked(words)
        self.notes, self.db = [], options.get("--db")
        try:
            judge_words(name, options, others)
            status, out = COMMANDS[name](self, options, *others)
            told = ""
        except Fault as it:
            status, out, told = 1, it.out, f"fault: {it}\n"
        except Refused as it:
            self.note_refused(it, options, others)
            status, out, told = 1, "", f"{commands.fault(it)}\n"
        return Ran(status, out, "".join(f"{it}\n" for it in self.notes) + told)

    def note(self, text):
        """What is said before a fault."""
        self.notes.append(f"note: {text}")

    def note_refused(self, refused, options, others):
        """What is said of an intersection that is not there, and of another clerk's draft."""
        if refused.number == 10:
            self.note(f"there is no intersection {int(others[0])} in {self.db}")
        elif refused.number == 14:
            self.note(f"{options['--clerk']} does not have the draft of intersection "
                      f"{int(others[0])}; list says who has it")

    # ---- files

    def csv(self, name, options, is_plan, called="record"):
        """A CSV file that is read; where that is asked, each bad record is told."""
        if name not in self.texts:
            self.note(f"the system refuses {name}: No such file or directory (os error 2)")
            raise Fault("file")
        csv = Csv(self.texts[name], "--padded" in options, called)
        if "--explain" in options:
            self.notes += csv.explained(is_plan)
        return csv

    def plan_csv(self, name, options, called="record"):
        """A plan's file, with notes on keys that come again; none where it is no plan."""
        csv = self.csv(name, options, True, called)
        try:
            self.notes += noted(read_each(read_change, csv.records), called)
        except Refused:
            pass
        return csv

    def found(self, fault="file"):
        """Ends with a fault where the file of the office is not there."""
        if self.is_missing:
            self.note(f"there is no file {self.db}")
            raise Fault(fault)

    def opened(self, makes=False):
        """The office, unless its file can't be opened."""
        if not makes:
            self.found()
        if self.is_old:
            raise Fault("version")
        return self.office

    # ---- what is shown

    def listed(self, options, texts):
        """A list as a text, or as CSV, perhaps with headings."""
        return 0, texts[("--csv" in options) + ("--headings" in options)]

    def list(self, options):
        return self.listed(options, listings.intersections(self.opened()))

    def stock(self, options, part=None):
        if part:
            return 0, listings.part(self.opened(), part)
        return self.listed(options, listings.stock(self.opened()))

    def used(self, options, part=None):
        between = (options["--from"], options["--to"]) if "--from" in options else None
        return self.listed(options, listings.used(self.opened(), part, between))

    def work(self, options):
        return self.listed(options, listings.work(self.opened(), options["--from"],
                                                  options["--to"]))

    def orders(self, options, id=None):
        office = self.opened()
        if "--by-age" in options:
            return self.listed(options, listings.orders_by_age(
                office, options["--by-age"], id and int(id)))
        if id is None:
            return self.listed(options, listings.orders(office))
        return self.listed(options, listings.all_orders_of(office, int(id)))

    def overdue(self, options, day):
        most = int(options.get("--first", 9_999))
        return self.listed(options, listings.overdue(self.opened(), day, most))

    def sheet(self, options, id):
        return 0, listings.sheet(self.opened(), int(id))

    def cabinet(self, options, id):
        return 0, listings.cabinet(self.opened(), int(id))

    def export(self, options, id):
        if "--all" in options:
            return self.fill(options, id)
        views = {"--draft", "--cabinet"} & {*options}
        return 0, ran(commands.export(self.opened(), int(id), "".join(views)))[1]

    def page(self, options, id=None):
        if "--file" in options:
            plan = self.plan_csv(options["--file"], options).plan()
            return 0, pages.plan_page(plan, options["--file"])
        return 0, pages.page(self.opened(), int(id))

    def diagram(self, options, *numbers):
        if "--file" in options:
            of, whose = options["--file"], None
            plan = self.plan_csv(of, options).plan()
        else:
            of = f"intersection {int(numbers[0])}"
            it = self.opened().find(int(numbers[0]))
            plan, whose = it.committed, (numbers[0], it.name, it.revision)
        try:
            return 0, pictures.picture(plan, int(numbers[-1]), whose)
        except KeyError:
            self.note(f"there is no pattern {int(numbers[-1])} in the plan of {of}")
            raise Fault("unknown pattern") from None

    def verify(self, options, name):
        explains = "--explain" in options
        plan = self.plan_csv(name, options).plan()
        broken = commands.violation_lines(plan, explains)
        status = 0 if broken == "no violations\n" else commands.BREAKS_A_RULE
        return status, broken + (commands.warning_lines(plan) if "--advise" in options else "")

    def compare(self, options, *words):
        """Two plans in files; or a committed plan, and its draft or one in a file."""
        if "--db" not in options:
            one, other = (self.plan_csv(it, options, called)
                          for it, called in zip(words, ("record", "other record")))
            return compared(options, one.plan(), other.plan())
        csv = self.plan_csv(words[1], options) if words[1:] else None
        it = self.opened().find(int(words[0]))
        if csv is None and it.draft is None:
            raise Refused(13)
        return compared(options, it.committed, csv.plan() if csv else it.draft)

    # ---- what is changed

    def add(self, options, id, interval, name):
        return ran(commands.add(self.opened(makes=True), int(id), int(interval), name))

    def judge_days(self, csv, until, out=""):
        """A record of a later day is a fault, perhaps after a text that was printed."""
        for at, (_, values) in enumerate(csv.spelled(read_record) if until else (), 1):
            if values.get("day", "") > until:
                raise Fault(f"record {at}: Late", out)

    def take(self, options, name):
        csv, until = self.csv(name, options, False), options.get("--until")
        tries = "--check" in options
        if not tries:
            self.judge_days(csv, until)
        office, records = self.opened(), csv.spelled(read_record)
        self.notes += checking.record_notes(office, records)
        if tries:
            text, has_refused = checking.checked(office, records, csv.lines)
            self.judge_days(csv, until, text)
            return has_refused * HAS_REFUSED, text
        told = office.take(records)
        return 0, f"added {told['added']}, same {told['same']}\n"

    def edit(self, options, id, name=None):
        csv = self.plan_csv(name, options) if name else Csv("", False)
        office, (replaces, commits, explains, advises) = self.opened(), (
            it in options for it in ("--replace", "--commit", "--explain", "--advise"))
        csv.spelled(read_change)
        before = office.find(int(id))
        if options.get("--revision", str(before.revision)) != str(before.revision):
            raise Fault(f"revision: {before.revision} is committed")
        committed = before.committed
        try:
            came = ran(commands.edit(office, int(id), options["--clerk"], csv.records, commits,
                                     replaces, explains, advises))
            if came[1] != "no changes\n":
                self.notes += commands.edit_notes(office, int(id), committed, csv.records,
                                                  bool(name) and not replaces, self.harm)
            return came
        except Refused as it:
            if explains and it.number == 14:
                raise Fault(f"NotOwner\nheld by {office.find(int(id)).owner}") from None
            raise

    def abandon(self, options, id):
        return ran(commands.abandon(self.opened(), int(id), options["--clerk"]))

    def migrate(self, options):
        self.found("version")
        rewritten, self.is_old = widened(self.office) if self.is_old else 0, False
        return 0, f"migrated {rewritten} rows\n"

    def backup(self, options, to):
        self.found()
        if to in self.copies and "--force" not in options:
            self.note(f"{to} is there; --force replaces it")
            raise Fault("exists")
        self.copies[to] = self.opened().copy()
        return 0, "copied\n"

    def fill(self, options, folder):
        """Files are put into a folder, and nothing is printed."""
        self.opened()
        return 0, ""


def compared(options, before, after):
    """What two plans differ in."""
    text = (comparing.csv if "--csv" in options else comparing.text)(before, after)
    return DIFFERS * bool(comparing.differing(before, after)), text


def ran(steps):
    """A command, done to its end."""
    try:
        while True:
            next(steps)
    except StopIteration as end:
        return end.value


COMMANDS = {
    "list": Program.list, "stock": Program.stock, "used": Program.used, "orders": Program.orders,
    "work": Program.work,
    "overdue": Program.overdue, "sheet": Program.sheet, "cabinet": Program.cabinet,
    "export": Program.export, "page": Program.page, "diagram": Program.diagram,
    "verify-file": Program.verify, "compare": Program.compare, "add": Program.add,
    "import": Program.take, "edit": Program.edit, "abandon": Program.abandon,
    "migrate": Program.migrate, "backup": Program.backup, "pages": Program.fill,
}


def folder_of(office, words):
    """The files that `export --all` or `pages` puts into a folder, with their texts."""
    name, options, _ = asked(words)
    if name == "pages":
        told = {f"{id}.html": pages.page(office, id, linked=True) for id in office.intersections}
        return {**told, "index.html": pages.index(office, options.get("--day"))}
    told = {"intersections.csv": listings.intersections(office)[1],
            "stock.csv": listings.stock(office)[1]}
    for id in office.intersections:
        told[f"{id}-plan.csv"] = office.timing_csv(id)["csv"]
        told[f"{id}-cabinet.csv"] = office.cabinet_csv(id)["csv"]
    return told
