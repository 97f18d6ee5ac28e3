"""Commands that are drawn, each with the CSV texts of its files: what an office is asked at a shell.
Names and texts have markup, quotes, marks of spreadsheets and other scripts in them."""
import csv
import io

from . import comparing
from .office import LAST_REVISION
from .plan import KINDS, rows
from .planning import BASE, CHANGES, draw_changes, draw_plan
from .register import FORMS
from .requests import CLERKS, add, draw_record, spoil_row

# Names and texts of others. Each has at most 40 bytes, as a clerk's.
WORDS = (
    "Main St", "<b>A & 'B'</b>", '"5th" > 4th', "&lt;&amp;", "\u00d1u\u00f1oa, 3", "<!--><script>",
    "\u202eO'Neil </bdi>", "\u05e9\u05dc\u05d5\u05dd 12", "=1+1", " ", "'", "\U0001f6a6" * 10,
    "a\u0301\u200b\ufeff", "x" * 40, "{0} %s \\n", "</style><svg onload=a>", "normal", "none", "\u2013",
)
DAYS = ("1970-01-01", "2026-05-02", "2026-06-01", "2027-03-02", "2031-01-01", "2199-12-31")
LAST_DAYS = ("2026-05-01", "2026-05-03", "2199-12-31")
PARTS = ("LAMP", "RELAY", "RELAY", "FUSE-9")
MISSING = "none.csv"  # a file that is not there
INPUT = "-"  # the name of standard input
PADDED_TO = 20  # fields


def told(dice, *common):
    """A name or a text."""
    return dice.choice((*common, *WORDS))


def spelled(dice, rows, is_padded):
    """A CSV text of rows, plain or as spreadsheets write it: padded, with a byte order mark, empty
    lines, other ends of lines and more quotes; now and then a text goes over two lines."""
    rows = [row + [""] * (PADDED_TO - len(row)) if dice.random() < 0.8 else row for row in rows
            ] if is_padded else rows
    text, luck = io.StringIO(newline=""), dice.random()
    end, quoting = "\n", csv.QUOTE_MINIMAL
    if luck < 0.2:
        end = dice.choice(("\r\n", "\r", "\n\n", "\r\n\n"))
        quoting = dice.choice((csv.QUOTE_ALL, csv.QUOTE_MINIMAL))
    csv.writer(text, lineterminator=end, quoting=quoting).writerows(rows)
    return dice.choice(("", "", "", "\ufeff", "\n")) * (luck < 0.3) + text.getvalue()


def spoiled(dice, rows):
    """Rows of which one spells nothing, perhaps, or has a line end in a field."""
    at = dice.randrange(len(rows))
    row = spoil_row(dice, rows[at]) if dice.random() < 0.9 else [*rows[at][:-1], "two\nlines"]
    return [*rows[:at], row, *rows[at + 1:]]


def plan_rows(dice):
    """Rows of a plan, or of a change of one."""
    luck = dice.random()
    if luck < 0.3:
        rows = draw_plan(dice)
        rows = rows + draw_changes(dice, rows) if dice.random() < 0.6 else rows
    elif luck < 0.5:
        rows = [*BASE, *(dice.choice(CHANGES) for _ in range(dice.choice((0, 1, 3))))]
    else:
        rows = [dice.choice(BASE + CHANGES) for _ in range(dice.choice((1, 1, 2, 4)))]
    return spoiled(dice, rows) if dice.random() < 0.2 else rows


def any_rows(dice):
    """A row of any kind with any fields."""
    kind = dice.choice((*KINDS, *FORMS, "remove", "phases", ""))
    return [[kind, *(dice.choice(("1", "2", "", "phase", "x")) for _ in range(dice.randrange(16)))]]


RECORDS = [row.split(",") for row in """\
inspection,12,1,2026-03-01,Ana,Fan cleaned
order,12,1,2026-05-02,Ana,Relay
use,12,1,1,RELAY,2
close,12,1,2026-05-02,Bo
delivery,RELAY,1,2026-05-01,10""".splitlines()]
# What is no row of a plan and no record, though it may be meant as one.
FOREIGN = (
    "phase;2;1;8", "kind;phase;ring", "inspection\t12\t1", "# a comment, 1", "// 2", "Phase,2,1",
    "kind,phase,ring", "kind,intersection,day", "header", " phase,2", "phase ,2", ",,,", '""',
    "remove", "remove,", "remove,foo,1", "remove, phase,1", "remove,inspection,1",
    "phase,2,1,8,20,40,40,15,6 5,4", "phase,2,1,8,20,40,40,15,5,6,7,12,490,60,0,0",
    "phase,2,1,8,20,40,40,15,6,7,12", "phase,2,1,8,20,40,40,15,6,,", "seq,1,1,2,4", "seq,1,1,2 4,,",
    "split,1, 2,35,2,1", "phase,2,1,8,20,40,40,15,6, 7,12,490,60,0,0", "split,1,2,35\t,2,1",
    "pattern,1,60,5.0,1,1", "pattern,1,,0,1,1",
    'seq,1,1,"2 4\n6"', 'seq,1,1,"a ""b"" \\"', "seq,1,1,2\u00a04", "seq,1,1,\x7f\x85\x01\u202e",
    "seq,1,1," + "1 " * 30, "seq,1,1," + "\u00f1" * 41, "seq,1,1,\udcf1", "\udcf1,1", "\udce9phase,2",
    "inspection,12,1,11/23/2026,Ana,Fan", "inspection,12,1, 2026-05-02,Ana,Fan",
    "inspection,12,1,2026-02-30,Ana,Fan", "inspection,12,1,2026-05-02,Ana,Fan, filter",
    "inspection,12,1,2026-05-02,Ana", "inspection,12,1,2026-05-02,Ana,F\udcf1n",
    "inspection,12,1,2026-05-02," + "A" * 41 + ",Fan", 'order,12,1,2026-05-02,Ana,"Fan\nuse,12"',
    "order,12,1,2026-05-02,Ana,", "order,12,1,2026-05-02,Ana,a\tb", "order,12,1,2026-05-02,Ana,x,,",
    "close,12,1,2026-05-02,Bo, Ana", "use,12,1,1, RELAY,2", "use,12,1,1,relay,2", "use,12,1,100,A,1",
    "delivery,RELAY,1,2026-05-01,10,,", "delivery,RELAY,1,2026-05-01, 10", "remove,phase,2,1,,",
    "use,12,1,1,RELAY,2,3", "delivery,A B ,1,2026-05-01,10",
)
FILES = ("PK\3\4\x14\0\x08", "p\0h\0a\0s\0e\0,\0", "\udcff\udcfep\0h\0a\0", "\udcfe\udcff\0p\0h\0a")


def foreign_files():
    """Commands that explain each of them, in a file of either kind, between what is good."""
    for text in (*(f"seq,1,1,2\n\n{it}\nseq,1,1,3\n" for it in FOREIGN), *FILES, "",
                 "\n".join(FOREIGN), "seq,1,1\n" * 101, "seq,1,1\n" * 120):
        for options in ((), ("--padded",)):
            yield ["verify-file", "--explain", *options, "a.csv"], {"a.csv": text}
    for text in (*(f"{','.join(RECORDS[0])}\n{it}\n" for it in FOREIGN), *FILES,
                 "use\n" * 102):
        for options in ((), ("--padded",), ("--check",)):
            yield (["import", "--db", "office.db", "--explain", *options, "a.csv"],
                   {"a.csv": text})


def bad_fields(rows):
    """Of each of these rows each field as no number and as one out of its range, and a kind and a
    count that are none."""
    for row in rows:
        for at in range(len(row)):
            for bad in ("x", "01", "10000", "2 2", "9999999999"):
                yield [*row[:at], bad, *row[at + 1:]]
        yield [*row, "1"]
        yield row[:-1]


def bad_rows():
    """Bad rows of each kind, and all of them as removals too."""
    rows = [["phase", "2", "1", "8", "20", "40", "40", "15", "6", "7", "12", "490", "60", "0", "0"],
            ["seq", "1", "1", "2 4"], ["split", "1", "2", "35", "2", "1"],
            ["pattern", "1", "60", "0", "1", "1"]]
    rows += [["remove", *row[:1 + KINDS[row[0]][2]]] for row in rows]
    return bad_fields(rows)


def bad_files():
    """Commands that explain each of them, behind a good row, and that compare two such files."""
    good = "seq,1,1,2\nseq,1,1,3\n\n"
    for row in bad_rows():
        text = good + ",".join(row) + "\n"
        yield ["verify-file", "--explain", "a.csv"], {"a.csv": text}
    for row in bad_fields(RECORDS):
        yield ["import", "--db", "office.db", "--explain", "a.csv"], {"a.csv": ",".join(row)}
    for keys in ("phase,2", "seq,1,1", "split,1,2", "pattern,1"):
        twice = f"remove,{keys}\n" * 2
        yield ["compare", "a.csv", "b.csv"], {"a.csv": twice, "b.csv": twice}
    yield ["compare", "a.csv", "b.csv"], {"a.csv": good, "b.csv": text}
    yield ["compare", "--explain", "a.csv", "b.csv"], {"a.csv": text, "b.csv": text}
    yield from foreign_files()


# Changes of a good plan: with each of them it has a reason or a warning that is seldom drawn.
RARE = """\
phase,4,1,50,20,40,40,15,8
phase,4,1,0,20,40,40,15,8
phase,4,1,8,20,40,40,15,
phase,4,1,8,20,40,40,15,6 8
phase,4,1,8,20,40,40,15,2
phase,4,1,8,20,40,40,15,31
phase,2,1,8,20,40,40,15,6,7,0,490,60,0,0
phase,2,1,8,20,40,40,15,6,7,12,0,60,0,0
phase,2,1,28,20,40,40,15,6,7,12,490,60,0,3
phase,2,1,8,20,40,40,15,6,7,12,490,60,0,8
phase,4,1,8,4,40,40,15,8
phase,4,1,8,20,40,40,4,8
phase,2,1,8,20,40,40,15,6,7,12,199,60,0,0
phase,2,1,8,20,40,40,15,6,255,255,2001,60,0,0
split,1,2,20,2,1
split,1,2,46,2,1;split,1,4,14,2,0;split,1,6,46,2,1;split,1,8,14,2,0
split,1,4,25,6,0
split,1,4,6,2,1
split,1,4,25,2,1
split,1,4,25,7,0
split,1,4,25,7,1
split,1,4,0,7,1
split,1,4,0,7,0
split,1,4,0,2,0
split,1,30,9,2,0
split,1,2,35,2,0;split,1,6,35,2,0
split,1,4,25,2,1;split,1,8,25,2,1
remove,pattern,1
remove,split,1,4
pattern,1,60,0,1,9
pattern,1,61,61,1,1
seq,1,1,2 4 6
seq,1,1,2 31
seq,1,1,4 2
phase,2,1,8,20,40,40,15,6 8;phase,4,1,8,20,40,40,15,6 8;phase,6,2,8,20,40,40,15,2 4;phase,8,2,8,20,\
40,40,15,2 4""".splitlines()


def rare_files():
    """Commands that explain and advise on a good plan with each of these changes, and its pages."""
    good = "".join(f"{','.join(row)}\n" for row in BASE)
    for changes in RARE:
        text = good + changes.replace(";", "\n") + "\n"
        yield ["verify-file", "--explain", "--advise", "a.csv"], {"a.csv": text}
        yield ["page", "--file", "a.csv"], {"a.csv": text}


def record_rows(dice, office):
    """Records of the register, whose clerks and texts are of others."""
    orders, rows = sorted(office.register.orders), []
    for _ in range(dice.choice((1, 2, 4, 9))):
        kind, *rest = draw_record(dice, orders, 9)
        if kind in ("inspection", "order") and dice.random() < 0.4:
            rest[-2:] = told(dice, "Ana"), told(dice, "Checked") * dice.choice((1, 1, 12))
        rows.append([kind, *rest])
    return spoiled(dice, rows) if dice.random() < 0.15 else rows


def flags(dice, *names):
    """Some of these options."""
    return [it for it in names if dice.random() < 0.4]


def file_of(dice, rows, options, name="a.csv"):
    """A file's name and its text; now and then standard input, or a file that is not there."""
    luck = dice.random()
    rows = any_rows(dice) if luck < 0.02 else rows
    text = spelled(dice, rows, dice.random() < (0.9 if "--padded" in options else 0.02))
    if luck > 0.98:
        return MISSING, {}
    name = INPUT if luck > 0.85 else name
    return name, {name: text}


def an_id(dice, office):
    """An intersection, mostly one that is there."""
    return str(dice.choice((*office.intersections, *office.intersections, 1, 2, 9_999)))


def edit_rows(dice, there, replaces):
    """Rows of a plan or of a change of one; now and then those that make what is committed."""
    if not there or dice.random() < 0.75:
        return plan_rows(dice)
    if replaces:
        return rows(there.committed)
    return comparing.changes(there.stands(), there.committed)


def draw_edit(dice, office):
    """A draft is changed, mostly by its owner, and perhaps committed as it is."""
    id = an_id(dice, office)
    there = office.intersections.get(int(id))
    clerk = there.owner if there and there.owner and dice.random() < 0.8 else told(dice, *CLERKS)
    options = flags(dice, "--replace", "--commit", "--explain", "--advise", "--padded")
    if dice.random() < 0.15:
        other = there.revision + dice.choice((0, 0, 1)) if there else 0
        options += ["--revision", str(min(other, LAST_REVISION))]
    words = ["edit", "--db", "office.db", "--clerk", clerk, *options, id]
    if {"--commit"} <= {*options} and not {"--replace", "--padded"} & {*options}:
        if dice.random() < 0.3:
            return words, {}
    name, texts = file_of(dice, edit_rows(dice, there, "--replace" in options), options)
    return [*words, name], texts


def noted_edits():
    """Edits with each note, of two intersections that are added."""
    base = {row[0] + row[1] + (row[2] if row[0] in ("seq", "split") else ""): row for row in BASE}
    other = [*BASE[:-1], ["pattern", "1", "60", "5", "1", "1"]]
    edit = ["edit", "--db", "office.db", "--clerk", "Ana"]

    def edited(id, rows, *options):
        text = "".join(f"{','.join(row)}\n" for row in rows)
        return [*edit, *options, id, "a.csv"], {"a.csv": text}

    for id in ("9995", "9996"):
        yield ["add", "--db", "office.db", id, "30", f"New {id}"], {}
    yield edited("9995", BASE, "--commit", "--explain", "--revision", "0")
    yield edited("9995", other, "--commit", "--explain", "--revision", "0")
    yield edited("9995", other, "--commit", "--explain", "--revision", "1")
    yield edited("9996", other, "--commit", "--advise")
    yield edited("9995", [["pattern", "2", "60", "30", "1", "1"]], "--commit")
    for gone in (("phase",), ("phase4",), ("seq",), ("seq12",), ("split",), ("split18",),
                 ("pattern",), ("phase", "seq")):
        rest = [row for key, row in base.items() if not key.startswith(gone)]
        changed = [[*row[:3], "9", *row[4:]] if row[0] == "phase" else row for row in rest]
        patterns = [["pattern", it, "60", "7", "1", "1"] for it in "12"]
        yield edited("9995", changed + patterns * (gone != ("pattern",)))
        yield ["abandon", "--db", "office.db", "--clerk", "Bo", "9995"], {}
    yield edited("9995", [*BASE, ["pattern", "2", "60", "31", "1", "1"]][:-2] + [
        ["pattern", "2", "60", "31", "1", "1"]])
    yield edited("9995", [["remove", "pattern", "2"]], "--replace")
    yield edited("9995", [["remove", "pattern", "2"]])
    yield [*edit, "--commit", "9995"], {}


def new_plan():
    """An intersection is added, and gets a plan."""
    plan = {"a.csv": "".join(f"{','.join(row)}\n" for row in BASE)}
    yield ["add", "--db", "office.db", "9997", "30", "New"], {}
    yield ["edit", "--db", "office.db", "--clerk", "Ana", "--commit", "9997", "a.csv"], plan
    yield ["export", "--db", "office.db", "9997"], {}


def draw_import(dice, office):
    """Records are taken, or tried."""
    options = flags(dice, "--check", "--explain", "--padded")
    if dice.random() < 0.3:
        options += ["--until", dice.choice(LAST_DAYS)]
    name, texts = file_of(dice, record_rows(dice, office), options)
    return ["import", "--db", "office.db", *options, name], texts


def draw_add(dice, office):
    """An intersection is added, which may be there."""
    id, name = an_id(dice, office), told(dice)
    there = office.intersections.get(int(id))
    if there and dice.random() < 0.5:
        return ["add", "--db", "office.db", id, str(there.interval), there.name], {}
    return ["add", "--db", "office.db", id, str(dice.choice((1, 365, 3_650))), name * 3], {}


def draw_verify(dice, office):
    """A plan in a file is checked."""
    options = flags(dice, "--explain", "--advise", "--padded")
    name, texts = file_of(dice, plan_rows(dice), options)
    return ["verify-file", *options, name], texts


def draw_comparison(dice, office):
    """Two plans are compared."""
    options, luck = flags(dice, "--csv", "--explain", "--padded"), dice.random()
    if luck < 0.3:
        return ["compare", "--db", "office.db", *flags(dice, "--csv"), an_id(dice, office)], {}
    name, texts = file_of(dice, plan_rows(dice), options)
    if luck < 0.6:
        return ["compare", "--db", "office.db", *options, an_id(dice, office), name], texts
    other, more = file_of(dice, plan_rows(dice), options, "b.csv")
    if name == other == INPUT:
        other, more = "b.csv", {"b.csv": more[INPUT]}
    return ["compare", *options, name, other], {**texts, **more}


def draw_picture(dice, office):
    """A plan in a file is drawn, or a page of it is made."""
    options = flags(dice, "--padded")
    rows = plan_rows(dice) if dice.random() < 0.3 else draw_plan(dice)
    name, texts = file_of(dice, rows, options)
    if dice.random() < 0.4:
        return ["page", "--file", name, *options], texts
    return ["diagram", "--file", name, *options, dice.choice(("1", "1", "2", "48"))], texts


def draw_abandon(dice, office):
    """A draft is dropped."""
    clerk = told(dice, "Ana")
    return ["abandon", "--db", "office.db", "--clerk", clerk, an_id(dice, office)], {}


def draw_backup(dice, office):
    """A copy of the office is made."""
    to = dice.choice(("1.db", "2.db"))
    return ["backup", "--db", "office.db", *flags(dice, "--force"), to], {}


def draw_migration(dice, office):
    """A file of today's version is migrated."""
    return ["migrate", "--db", "office.db"], {}


def draw_wrong_word(dice, office):
    """A command of which one word is no day, clerk, name or part."""
    day = dice.choice(("2026-02-29", "1969-12-31", "2200-01-01", "2026-1-1", "", "today"))
    text = dice.choice(("", "A\tB", "\x7f", "\u00e9" * 61, "x" * 121))
    part = dice.choice(("", "lamp", "LAMP 2", "A" * 21, "\u00c4"))
    return dice.choice((
        ["overdue", "--db", "office.db", day],
        ["pages", "--db", "office.db", "--day", day, "folder"],
        ["import", "--db", "office.db", "--until", day, MISSING],
        ["used", "--db", "office.db", part], ["stock", "--db", "office.db", part],
        ["orders", "--db", "office.db", "--by-age", day],
        ["work", "--db", "office.db", "--from", "2026-05-01", "--to", day],
        ["used", "--db", "office.db", "--from", day, "--to", day],
        ["abandon", "--db", "office.db", "--clerk", text, "1"],
        ["edit", "--db", "office.db", "--clerk", text, "1", MISSING],
        ["add", "--db", "office.db", "1", "365", text])), {}


CHANGING = (draw_edit, draw_edit, draw_edit, draw_edit, draw_import, draw_import, draw_import,
            draw_add, draw_abandon, draw_backup)
LOOKING = (draw_wrong_word, draw_migration, draw_verify, draw_verify, draw_comparison,
           draw_comparison, draw_picture, draw_picture)


def draw_change(dice, office):
    """A command that may change an office, with the CSV texts of its files."""
    return dice.choice(CHANGING)(dice, office)


def draw_command(dice, office):
    """The same, or one that changes nothing of an office of today's version or looks at files."""
    return dice.choice(CHANGING + LOOKING)(dice, office)


def reports(dice, office):
    """Every report of an office, and those of some of its intersections."""
    day, part = dice.choice(DAYS), dice.choice(PARTS)
    first, last = sorted((day, dice.choice(DAYS)))
    between = ["--from", first, "--to", last]
    for words in (["list"], ["stock"], ["orders"], ["used"], ["used", part], ["overdue", day],
                  ["overdue", "--first", str(dice.choice((1, 2, 9_999))), day],
                  ["orders", "--by-age", day], ["used", *between], ["work", *between]):
        yield words
        yield [*words[:1], "--csv", *words[1:]]
        yield [*words[:1], "--csv", "--headings", *words[1:]]
    yield ["stock", part]
    ids = sorted(office.intersections)
    yield ["used", "--from", day, "--to", day, part]
    for id in map(str, [*dice.sample(ids, min(2, len(ids))), *[9_998] * (dice.random() < 0.1)]):
        numbers = ["1", "2", "20", "48"]
        yield from (["sheet", id], ["cabinet", id], ["page", id], ["orders", id],
                    ["orders", "--csv", id], ["orders", "--by-age", day, id], ["export", id], ["export", "--draft", id],
                    ["export", "--cabinet", id], ["compare", id], ["compare", "--csv", id],
                    ["diagram", id, dice.choice(numbers)], ["diagram", id, "1"])


def some_reports(dice, office):
    """A few of the reports."""
    all_of = [*reports(dice, office)]
    return dice.sample(all_of, min(4, len(all_of)))


def folders(dice, office):
    """The commands that put files into a folder."""
    yield ["export", "--all"]
    yield ["pages", *dice.choice(((), ("--day", dice.choice(DAYS))))]
