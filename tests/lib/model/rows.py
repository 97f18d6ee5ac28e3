"""Row files: requests with the answers that must come, as tests/program/rows.py plays them."""
import itertools
import pathlib
import shlex

from . import commands, fields, hints, pages, pictures, plan, reasons, rules, warnings
from .office import Office
from .refusal import Refused
from .wire import answer, read_each

DATA = pathlib.Path(__file__).resolve().parents[2] / "rows"
PLAIN = (">", "<", "#", "served", "opens", "")


def plain(text):
    """The requests of a row and their answers; none where it has lines of other kinds."""
    lines = [line.partition(" ")[::2] for line in text.split("\n")]
    if any(not word.startswith("#") and word not in PLAIN for word, _ in lines):
        return None
    asked = [rest for word, rest in lines if word == ">"]
    told = [rest for word, rest in lines if word == "<"]
    return list(zip(asked, told, strict=True)) or None


def played(office, asked):
    """What an office answers to the text of a request, as a row has it."""
    method, _, rest = asked.partition(" ")
    target, _, body = rest.partition(" ")
    return " ".join(answer(office, method, target, body.encode()))


MOST_NOTES = 100
NOTED = {"phase": "phase {}", "seq": "sequence {} ring {}", "split": "split {} phase {}",
         "pattern": "pattern {}"}


def checked(text):
    """Each file of a plan that a row has the program verify, the flags that ask for more, and the
    lines that it prints where there is room for them."""
    files, name, told, notes, flags = {}, None, None, [], []
    for line in [*text.split("\n"), "run"]:
        word, _, rest = line.partition(" ")
        if word in ("run", "file", "holds") and told is not None:
            yield files[name], {"--explain", "--advise"} & set(flags), told + notes
        if word == "file":
            name, files[rest], told = rest, "", None
        elif word == "holds":
            name, told = None, None
        elif word == "|" and name is not None:
            files[name] += rest + "\n"
        elif word == "run":
            command, *flags = rest.split(" ")
            name = flags.pop() if flags else None
            is_read = command == "verify-file" and name in files and "--padded" not in flags
            told, notes = [] if is_read else None, []
        elif word == "room":
            told = None
        elif word in ("out", "err") and told is not None:
            (notes if rest.startswith("note: ") else told).append(rest)


def verified(text, flags):
    """What is told of a plan in a file: what it breaks, with reasons where that is asked, and what
    an engineer is warned of where that is; or the first record that spells nothing, with its line
    too."""
    explain, advise = ("--explain" in flags), ("--advise" in flags)
    try:
        changes = read_each(plan.read_change, fields.read_csv(text))
    except Refused as it:
        number, name, field = (it.more[word] for word in ("record", "fault", "field"))
        fault = f"fault: record {number}: {name}{f' {field}' if field else ''}"
        records = fields.read_csv(text)
        return explain * hints.bad_records(records, [*hints.begins(text)], True) + [fault]
    made = plan.apply({}, changes)
    if explain:
        found = reasons.explained(made)
    else:
        found = [f"{it['subject']} {it['rule']}" for it in rules.violations(made)]
    advice = warnings.warnings(made) if advise else []
    return (found or ["no violations"]) + advice + noted(changes)


def noted(changes, called="record"):
    """The notes on the records, called so, that put or remove a key again, each after the latest
    before it: the first hundred, and then how many more there are."""
    last, notes = {}, []
    for number, (key, row) in enumerate(changes, 1):
        if key in last:
            deed, words = "removes" if row is None else "puts", NOTED[plan.ORDER[key[0]]]
            notes.append(f"note: {called} {number} {deed} {words.format(*key[1:])} again, "
                         f"after record {last[key]}")
        last[key] = number
    if more := len(notes[MOST_NOTES:]):
        notes[MOST_NOTES:] = [f"note: {more} more {called}s put or remove a key again"]
    return notes


def asked_of(words):
    """A command's name, the flags that have a value, and its other words."""
    name, *rest = words or [""]
    flags, others = {}, []
    while rest:
        word = rest.pop(0)
        if word in ("--db", "--file", "--clerk"):
            flags[word] = rest.pop(0) if rest else None
        else:
            others.append(word)
    return name, flags, others


def plan_of(csv):
    """The plan that a file's changes make of none."""
    return plan.apply({}, read_each(plan.read_change, fields.read_csv(csv)))


def ran(steps):
    """A command of the program, done to its end."""
    try:
        while True:
            next(steps)
    except StopIteration as end:
        return end.value[1]


def shown(offices, files, words):
    """What a command shows of a plan or an intersection, after what was done before it; nothing of
    a command that draws none, or is refused."""
    name, flags, rest = asked_of(words)
    office = offices.setdefault(flags.get("--db"), Office())
    csv = files.get(flags.get("--file", rest[-1] if rest else None), "")
    try:
        if name == "add":
            ran(commands.add(office, int(rest[0]), int(rest[1]), rest[2]))
        elif name == "edit":
            ran(commands.edit(office, int(rest[-2]), flags["--clerk"], fields.read_csv(csv),
                              "--commit" in rest))
        elif name == "import":
            ran(commands.take(office, csv))
        elif name == "page" and len(rest) == 1 and "--db" in flags:
            return pages.page(office, int(rest[0]))
        elif name == "page" and not rest and flags.get("--file") in files:
            return pages.plan_page(plan_of(csv), flags["--file"])
        elif name == "diagram" and "--db" in flags:
            it = office.find(int(rest[0]))
            return pictures.picture(it.committed, int(rest[1]), (rest[0], it.name, it.revision))
        elif name == "diagram" and flags.get("--file") in files:
            return pictures.picture(plan_of(csv), int(rest[0]))
    except (Refused, KeyError, IndexError, ValueError):
        pass  # refused, or words that ask for nothing
    return None


def drawn_at(text):
    """Each picture and page that a row prints: the number of the line that asks for it, and its
    lines as the model draws it."""
    offices, files, name, base = {}, {}, None, None
    for number, line in enumerate(text.split("\n")):
        word, _, rest = line.partition(" ")
        if word in ("file", "holds"):
            name = rest
            if word == "file":
                files[rest] = ""
        elif word == "|":
            files[name] = files.get(name, "") + rest + "\n"
        elif word == ">":
            played(offices.setdefault(base, Office()), rest)
        elif word == "run":
            words = shlex.split(rest)
            base = asked_of(words)[1].get("--db")
            picture = shown(offices, files, words)
            if picture is not None:
                yield number, picture.split("\n")[:-1]


def drawn(text):
    """Each picture and page of a row that tells its lines: the line that asks for it, what it
    tells, and what the model draws."""
    lines = text.split("\n")
    for number, came in drawn_at(text):
        told = [it.removeprefix("out ") for it in itertools.takewhile(
            lambda it: it.startswith("out "), lines[number + 1:])]
        if told and told != ["*"]:
            yield lines[number], told, came


def redrawn(text):
    """A row with the pictures and pages that it tells as the model draws them."""
    lines, found = text.split("\n"), dict(drawn_at(text))
    after, skipping = [], False
    for number, line in enumerate(lines):
        skipping = skipping and line.startswith("out ")
        if not skipping:
            after.append(line)
        if number in found and lines[number + 1] != "out *":
            after += [f"out {it}" for it in found[number]]
            skipping = True
    return "\n".join(after)


def written(method, target, body):
    """The text of a request, as a row has it."""
    return " ".join([method, target] if body is None else [method, target, body])
