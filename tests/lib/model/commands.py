"""What commands of the program do to an office, and what they print of it (docs/COMMANDS.md).

A command is a function of an office and of its values. It yields after each change that it makes,
since a stop may leave those before it, and gives the status and the text that it prints."""
from . import comparing, fields, listings, reasons, rules, warnings
from .fields import write_csv
from .plan import ORDER, apply, read_change
from .refusal import NAMES, Refused
from .register import read_record
from .wire import read_each

BREAKS_A_RULE = 3
NOT_COMMITTED = "not committed: the draft stays open; go on with edit, or drop it with abandon\n"
COMMITTED = b"no violations\ncommitted\n"  # where the plan that runs could not be read
UNREAD = COMMITTED + b"its warnings could not be read\n"
MOST = 10  # changes that a commit tells
STAYS_OPEN = "stays open; commit it with edit --commit, or drop it with abandon\n"


def fault(refused):
    """The line that a refusal is told by."""
    if refused.number == 10:
        return "fault: unknown intersection"
    if refused.number == 30:
        return f"fault: record {refused.more['record']}: {NAMES[refused.more['cause']]}"
    if refused.number == 31:
        field = f" {refused.more['field']}" if refused.more["field"] else ""
        return f"fault: record {refused.more['record']}: {refused.more['fault']}{field}"
    return f"fault: {NAMES[refused.number]}"


def violation_lines(plan, explains=False):
    """What a plan breaks, a line each, with its reason where that is asked."""
    found = (reasons.explained(plan) if explains
             else [f"{it['subject']} {it['rule']}" for it in rules.violations(plan)])
    return "".join(f"{it}\n" for it in found) or "no violations\n"


def warning_lines(plan):
    """What an engineer is warned of in a plan, a line each."""
    return "".join(f"{it}\n" for it in warnings.warnings(plan))


def add(office, id, interval, name):
    """Adds an intersection."""
    told = office.add(id, interval, name)["result"]
    yield
    return 0, f"{told}\n"


def take(office, csv):
    """Imports records."""
    told = office.take(read_each(read_record, fields.read_csv(csv)))
    yield
    return 0, f"added {told['added']}, same {told['same']}\n"


def counts(before, after):
    """How many rows two plans differ in."""
    keys = comparing.differing(before, after)
    told = [(sum(key not in before for key in keys), "added"),
            (sum(key in before and key in after for key in keys), "changed"),
            (sum(key not in after for key in keys), "removed")]
    told = [f"{count} {what}" for count, what in told if count]
    if not told:
        return "no row changed"
    count, what = told[0].split(" ")
    return ", ".join([f"{count} row{'s' * (count != '1')} {what}", *told[1:]])


def committed_lines(id, it, before, explains):
    """What a commit did to what was committed before."""
    lines = [f"committed revision {it.revision} of {id} {it.name}: {counts(before, it.committed)}"]
    if explains:
        keys = comparing.differing(before, it.committed)
        lines += [comparing.line(key, before.get(key), it.committed.get(key))
                  for key in keys[:MOST]]
        lines += [f"and {len(keys) - MOST} more"] * (len(keys) > MOST)
    return "".join(f"{line}\n" for line in lines)


def group(key):
    """What a row is of, and how it is counted: one, and more."""
    kind, number = ORDER[key[0]], key[1]
    return {"phase": ("phase", "phases", ""), "pattern": ("pattern", "patterns", ""),
            "seq": ("row", "rows", f" of sequence {number}"),
            "split": ("row", "rows", f" of split {number}")}[kind]


def staying(keys):
    """The note on rows that stay."""
    groups, count = {group(key) for key in keys}, len(keys)
    if len(groups) > 1:
        what = f"{count} rows that are not in the file"
    else:
        one, more, of = groups.pop()
        what = f"{count} {one if count == 1 else more}{of}"
    end = "stays; --replace would remove it" if count == 1 else "stay; --replace would remove them"
    return f"note: {what} {end}"


def others_with(office, id, plan, harm):
    """The other intersections whose committed plan this is, as far as that can be read."""
    if not plan or harm and harm.table == "intersection":
        return []
    damaged = harm.row[0] if harm and harm.table == "timing" else None
    return [it for it, other in sorted(office.intersections.items())
            if it not in (id, damaged) and other.committed == plan]


def edit_notes(office, id, committed, records, keeps_rows, harm=None):
    """The notes on an edit that was made, of what was committed before and of a file's records."""
    changes, after = read_each(read_change, records), office.find(id).stands()
    for other in others_with(office, id, apply({}, changes), harm)[:1]:
        yield f"note: this is the plan of {other}"
    changed = sum(after.get(key) != row for key, row in committed.items())
    if 2 * changed > len(committed):
        yield f"note: {changed} of {len(committed)} committed rows change"
    rest = {*after} - {key for key, _ in changes}
    if keeps_rows and rest and all(row is not None for _, row in changes):
        yield staying(rest)


def edit(office, id, clerk, records, commits, replaces=False, explains=False, advises=False):
    """Makes the plan of an intersection what the records make of the draft, or of the committed
    plan where there is none; where that is asked, what they make of none. Commits it where that is
    asked and no rule is broken; else it is the clerk's draft, which stays open. Where that is
    asked, what it breaks has reasons, and the plan's warnings are told behind that."""
    changes = read_each(read_change, records)
    it = office.find(id)
    before = it.committed
    plan = apply({} if replaces else it.stands(), changes)
    if not office.revise(id, clerk, plan, commits):
        return 0, "no changes\n"
    yield
    broken, advice = violation_lines(plan, explains), warning_lines(plan) if advises else ""
    if not commits:
        return 0, f"{broken}{advice}the draft of {clerk} {STAYS_OPEN}"
    if rules.violations(plan):
        return BREAKS_A_RULE, broken + advice + NOT_COMMITTED
    return 0, broken + advice + committed_lines(id, it, before, explains)


def abandon(office, id, clerk):
    """Drops the draft; who does it is not looked at."""
    it = office.find(id)
    owner, told = it.owner, counts(it.committed, it.stands())
    office.abandon(id, clerk)
    yield
    return 0, f"abandoned the draft of {owner}: {told}\n"


def is_shorter(came, wanted):
    """Whether this is what is told where what a change did could not be read."""
    if came == b"abandoned\n":
        return wanted.startswith(b"abandoned the draft of ")
    return came in (COMMITTED, UNREAD) and b"\ncommitted revision " in wanted


def showing(text_of):
    """A command that prints a text and changes nothing."""
    def show(office, *values):
        yield
        return 0, text_of(office, *values)
    return show


@showing
def listed(office, as_csv):
    """All intersections by number."""
    return listings.intersections(office)[as_csv]


@showing
def stock(office, as_csv):
    """What is on hand of each part that was ever delivered."""
    return listings.stock(office)[as_csv]


@showing
def export(office, id, view):
    """The committed plan, the draft or the cabinet as CSV."""
    if view == "--draft":
        return write_csv(office.draft(id)["rows"])
    return (office.cabinet_csv if view == "--cabinet" else office.timing_csv)(id)["csv"]


@showing
def overdue(office, day):
    """Who is overdue on a day."""
    return listings.overdue(office, day)[0]


@showing
def migrate(office, rows):
    """A file is brought to today's version, in which so many rows were of another one."""
    return f"migrated {rows} rows\n"
