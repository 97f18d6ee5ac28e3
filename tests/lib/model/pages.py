"""The page of an intersection, or of a plan alone: one HTML text, with the style in page.css."""
import pathlib
import re
import unicodedata

from . import reasons, rules, warnings
from .letters import quoted
from .pictures import picture
from .plan import Pattern, Phase, Sequence, Split
from .register import records_of

STYLE = (pathlib.Path(__file__).parent / "page.css").read_text()
TOP = """<!DOCTYPE html>
<html lang='en' style='--title: "{printed}"'>
<head>
<meta charset='utf-8'>
<meta name='viewport' content='width=device-width, initial-scale=1'>
<title>{title}</title>
<style>
{style}</style>
</head>
<body>
"""
HEAD = TOP + """<a class='skip' href='#main'>Skip to the plan</a>
<header>
<h1>{heading}</h1>
{facts}</header>
<main id='main'>
"""
INDEX_HEAD = TOP + """<header>
<h1>Intersections</h1>
{note}</header>
<main>
"""
END = "</main>\n</body>\n</html>\n"
HANDED_OVER = "verify", "done"  # states of a draft that has a verify status
VERDICTS = {"notDone": "not done", "doneWithError": "done, with errors",
            "doneWithNoError": "done, without errors"}
MODES = {2: "none", 3: "minimum vehicle recall", 4: "maximum vehicle recall",
         5: "pedestrian recall", 6: "maximum vehicle and pedestrian recall", 7: "phase omitted"}
# The tables of a plan in their order; a column of words has its heading in brackets.
TABLES = {
    "Patterns": (Pattern, ["Pattern", "Cycle (s)", "Offset (s)", "Split", "Sequence",
                           ["Coordinated phases"]]),
    "Sequences": (Sequence, ["Sequence", "Ring", ["Phases in turn"]]),
    "Splits": (Split, ["Split", "Phase", "Time (s)", "Need (s)", "Spare (s)",
                       "Need if the walk is called (s)", ["Governed by"], ["Mode"],
                       ["Coordinated"]]),
    "Phases": (Phase, ["Phase", "Ring", "Min green (s)", "Passage (s)", "Max green (s)",
                       "Yellow (s)", "Red (s)", "Walk (s)", "Pedestrian clearance (s)",
                       "Crossing (ft)", "Setback (ft)", ["Short walk"], "Lead (s)",
                       ["Concurrent phases"]]),
}
ORDERS = ["Order", ["Opened"], ["Clerk"], ["Work"], ["Lines: parts used (pieces)"]]
INSPECTIONS = ["Inspection", ["Day"], ["Clerk"], ["Findings"]]
INTERSECTIONS = ["No", ["Name"], ["Next inspection due"], "Open orders", "Warnings", ["State"],
                 ["Draft of"], "Revision", "Committed rows", ["Last inspection"]]
NAMED_ORDERS = ["No", "Order", ["Opened"], ["Work"], ["Name"], ["Clerk"]]
STOCK = [["Part"], "On hand (pieces)"]


def isolated(text):
    """The same in an element of its own, so that its direction stays within it."""
    return f"<bdi>{quoted(text)}</bdi>"


def titles(name):
    """The title of a page, and the same as a text of CSS, which stands on each printed page."""
    marks = {'"': "\\22 ", "\\": "\\5c "}
    printed = "".join(marks.get(it, " " if unicodedata.category(it) == "Cc" else it) for it in name)
    return {"title": quoted(name), "printed": quoted(printed)}


# ---- cells

def cell(content, kind=""):
    """A cell of numbers, or of words or days by its class."""
    return f"<td class='{kind}'>{content}</td>" if kind else f"<td>{content}</td>"


def word(content):
    """A cell of words."""
    return cell(content, "w")


def flag(is_set):
    """Yes or no."""
    return word("yes" if is_set else "no")


def tenths(number):
    """Tenths as a number with a point, below zero too."""
    sign = "-" if number < 0 else ""
    return f"{sign}{abs(number) // 10}.{abs(number) % 10}"


def phase_list(numbers):
    """Phases, each after a space, or a dash."""
    return word("".join(f" {it}" for it in numbers) or " -")


def first(number):
    """The cell that heads a row."""
    return f"<th scope='row'>{number}</th>"


def heading(name):
    """The heading of a column."""
    return (f"<th scope='col' class='w'>{name[0]}</th>" if isinstance(name, list)
            else f"<th scope='col'>{name}</th>")


# ---- rows of a plan

def pattern_cells(view, row):
    """A pattern names the phases that its split plan coordinates."""
    splits = {it: view.splits.get((row.split, it)) for it in view.phases}
    coordinated = [it for it, split in splits.items() if split and split.coord]
    return [first(row.number), *map(cell, (row.cycle, row.offset, row.split, row.sequence)),
            phase_list(coordinated)]


def split_cells(view, row):
    """A split has what its phase needs in its mode, and what it has to spare; then what it needs
    if its walk is called, and the part that governs that need, with what the split is short of."""
    phase, spare, called = view.phases.get(row.phase), ["", ""], [cell(""), cell("")]
    if phase is not None and row.mode != 7:
        need = rules.need(phase, row.mode)
        spare = [tenths(need), tenths(10 * row.time - need)]
        called = [cell("-"), word("-")] if phase.walk is None else if_called(phase, row)
    return [first(row.number), first(row.phase), *map(cell, (row.time, *spare)), *called,
            word(MODES[row.mode]), flag(row.coord)]


def if_called(phase, row):
    """What a split needs if the walk of its phase is called, and which part governs."""
    need = rules.need(phase, 5)
    walk_is_longer = phase.walk + phase.clear > phase.lead + phase.min_green
    short = tenths(need - 10 * row.time)
    mark = f" <strong class='short'>{short} s short</strong>" if need > 10 * row.time else ""
    return [cell(tenths(need)), word(f"{'walk' if walk_is_longer else 'green'}{mark}")]


def phase_cells(_, row):
    """A phase, with dashes where it has no crossing."""
    crossing = [*[cell("-")] * 4, word("-"), cell("-")]
    if row.walk is not None:
        crossing = [cell(row.walk), cell(row.clear), cell(tenths(row.width)),
                    cell(tenths(row.setback)), flag(row.short), cell(row.lead)]
    return [first(row.number), cell(row.ring), cell(row.min_green), cell(tenths(row.passage)),
            cell(row.max1), cell(tenths(row.yellow)), cell(tenths(row.red)), *crossing,
            phase_list(row.mates)]


def sequence_cells(_, row):
    """The phases of a ring in turn."""
    return [first(row.number), first(row.ring), phase_list(row.phases)]


CELLS = {Pattern: pattern_cells, Split: split_cells, Phase: phase_cells, Sequence: sequence_cells}
SUBJECTS = {Pattern: "pattern {0}", Split: "split {0} {1}", Phase: "phase {0}",
            Sequence: "sequence {0}"}


def table(name, headings, rows):
    """A table in a box that scrolls where the page is narrow. One that has no row says so."""
    rows = rows or [f"<tr><td class='none' colspan='{len(headings)}'>none</td></tr>\n"]
    return (f"<div class='scroll' role='group' tabindex='0' aria-label='{name}'>\n<table>\n"
            f"<caption>{name}</caption>\n<thead><tr>{''.join(map(heading, headings))}</tr></thead>"
            f"\n<tbody>{''.join(rows)}</tbody>\n</table>\n</div>\n")


def remarks(row, broken, advice):
    """The rules that a row breaks, each with its reason in a row below it, and then its warnings."""
    columns = next(len(names) for kind, names in TABLES.values() if isinstance(row, kind))
    subject = SUBJECTS[type(row)].format(*row)
    told = [("why", it[len(subject) + 1:]) for it in broken if it.startswith(f"{subject} V")]
    told += [("warned", f"Warning: {it}") for it in advice_on(subject, advice)]
    return "".join(f"<tr class='{kind}'><td colspan='{columns}'><p>{it}</p></td></tr>\n"
                   for kind, it in told)


def advice_on(subject, advice):
    """What the warnings of a subject say."""
    return [it.removeprefix(f"warning: {subject}: ") for it in advice
            if it.startswith(f"warning: {subject}: ")]


def plan_tables(plan, whose, broken):
    """The tables of a plan, named by what they are of."""
    view, rows = rules.View(plan), [plan[key] for key in sorted(plan)]
    advice = warnings.warnings(plan)
    for name, (kind, names) in TABLES.items():
        yield table(name + whose, names, [
            f"<tr>{''.join(CELLS[kind](view, it))}</tr>\n{remarks(it, broken, advice)}"
            for it in rows if isinstance(it, kind)])


# ---- pictures

def cuts(view, pattern):
    """The phases whose walk and clearance take longer than their split less yellow and red."""
    for number, phase in view.phases.items():
        split = view.splits.get((pattern.split, number))
        if split and split.time and phase.walk is not None:
            room = max(10 * split.time - phase.yellow - phase.red, 0)
            if 10 * (phase.walk + phase.clear) > room:
                yield (f"<p>Phase {number}: walk and pedestrian clearance take "
                       f"{phase.walk + phase.clear} s, and the split of {split.time} s has "
                       f"{tenths(room)} s before yellow. The picture ends them there, at the "
                       "wedge.</p>\n")


def figures(plan):
    """The pictures of a plan, each with what it cannot show."""
    view = rules.View(plan)
    for number, pattern in view.patterns.items():
        drawn = picture(plan, number, in_page=True)
        yield f"<figure tabindex='0'>\n{drawn}{''.join(cuts(view, pattern))}</figure>\n"


def plan_part(plan, whose="", broken=()):
    """A plan with its pictures and tables."""
    if not plan:
        return "<p class='none'>It has no rows.</p>\n"
    return "".join([*figures(plan), *plan_tables(plan, whose, broken)])


def count_broken(broken):
    """How many reasons there are why rules are broken."""
    if not broken:
        return "<p class='sound'>It breaks no rule.</p>\n"
    return (f"<p class='broken'>Reasons why rules are broken: {len(broken)}. Each stands below its "
            "row.</p>\n")


def count_warnings(plan):
    """How many warnings a plan has, and those of the plan as a whole."""
    advice = warnings.warnings(plan)
    told = [f"Warning: {it}" for it in advice_on("plan", advice)]
    if advice:
        told.insert(0, f"Warnings: {len(advice)}. They refuse nothing. Each stands below its row, or "
                       "here if it is of the whole plan.")
    return "".join(f"<p class='warned'>{it}</p>\n" for it in told)


def plan_page(plan, file):
    """The page of the plan of a file alone."""
    broken, name = reasons.explained(plan), "standard input" if file == "-" else file
    head = HEAD.format(**titles(f"Timing plan: {name}"), style=STYLE,
                       heading=f"Timing plan: {isolated(name)}", facts="")
    return "".join([head, count_broken(broken), count_warnings(plan),
                    plan_part(plan, broken=broken), END])


# ---- an intersection

def fact(name, value):
    """What is told, and its name."""
    return f"<div><dt>{name}</dt><dd>{value}</dd></div>\n"


def links(has_draft, linked):
    """Links to the index, where that is wanted, and to the parts of the page."""
    parts = [("plan", "The committed plan"), ("draft", "The draft"), ("cabinet", "The cabinet")]
    lines = [f"<li><a href='#{at}'>{name}</a></li>\n" for at, name in parts
             if has_draft or at != "draft"]
    if linked:
        lines.insert(0, "<li><a href='index.html'>All intersections</a></li>\n")
    return f"<nav aria-label='Parts of this page'>\n<ul>\n{''.join(lines)}</ul>\n</nav>\n"


def facts(office, id, linked):
    """How an intersection stands, with links."""
    it = office.find(id)
    inspected = [of.day for _, of in records_of(office.register.inspections, id)]
    told = {"Last inspection": max(inspected, default="none"),
            "Next inspection due": office.register.due(id, it.interval) or "never inspected",
            "Open orders": len(office.open_orders(id)["open"]),
            "State": it.state, "Draft of": isolated(it.owner) if it.owner else "nobody",
            **({"Verify status": VERDICTS[it.verdict()]} if it.state in HANDED_OVER else {}),
            "Revision": it.revision,
            "Committed rows": len(it.committed),
            "Warnings of the committed plan": len(warnings.warnings(it.committed)) or "none"}
    return (f"<dl>\n{''.join(fact(*pair) for pair in told.items())}</dl>\n"
            f"{links(it.draft is not None, linked)}")


def changes(before, after):
    """What a draft changes, in the tables of its kinds."""
    yield "<div class='changes'>\n<h3>What it changes</h3>\n"
    keys = [key for key in sorted({*before, *after}) if before.get(key) != after.get(key)]
    if not keys:
        yield "<p>It changes nothing of the committed plan.</p>\n"
    for name, (kind, names) in TABLES.items():
        rows = [row for key in keys if isinstance(before.get(key, after.get(key)), kind)
                for row in changed(key, before, after)]
        if rows:
            yield table(f"{name} that change", [["Change"], *names], rows)
    yield "</div>\n"


def cells_of(plan, key):
    """The cells of a row of a plan."""
    return CELLS[type(plan[key])](rules.View(plan), plan[key])


def standing_out(own, beside):
    """The cells of a row, each marked that reads otherwise in the row beside it."""
    return [one if one == other else re.sub("^(<td.*?>)(.*)(</td>)$", r"\1<mark>\2</mark>\3", one)
            for one, other in zip(own, beside)]


def changed(key, before, after):
    """The rows of a change: what is removed or added, or what stands beside what it becomes."""
    if key not in after:
        return [change("removed", "removed", cells_of(before, key))]
    if key not in before:
        return [change("added", "added", cells_of(after, key))]
    was, becomes = cells_of(before, key), cells_of(after, key)
    return [change("before", "changed from", standing_out(was, becomes)),
            change("after", "changed to", standing_out(becomes, was))]


def change(kind, words, cells):
    """A row of what is changed."""
    return f"<tr class='{kind}'>{word(words)}{''.join(cells)}</tr>\n"


def section(name, title, content):
    """A part of the page."""
    return (f"<section id='{name}' aria-labelledby='{name}-title'>\n"
            f"<h2 id='{name}-title'>{title}</h2>\n{content}</section>\n")


def draft_part(it):
    """A draft: what it breaks, its warnings, what it changes, and all of it."""
    broken = reasons.explained(it.draft)
    return "".join([count_broken(broken), count_warnings(it.draft),
                    *changes(it.committed, it.draft), "<h3>The whole draft</h3>\n",
                    plan_part(it.draft, " of the draft", broken)])


def order_cells(register, id, number, order):
    """An order with its lines, each with its number and the part that was used."""
    used = "".join(f"<div>{line}: {it.count} &times; {isolated(it.part)}</div>"
                   for line, it in register.used_for(id, number))
    return "".join([first(number), cell(order.opened, "d"), word(isolated(order.clerk)),
                    word(isolated(order.text)), word(used or "none")])


def next_number(records):
    """One more than the greatest number of some records, unless that is the last."""
    greatest = max((number for number, _ in records), default=0)
    return greatest + 1 if greatest < 999_999 else "none"


def cabinet_part(register, id, interval):
    """The cabinet: the due day, the next free numbers, open orders, closed orders, inspections, the
    last number first."""
    due, orders = register.due(id, interval), records_of(register.orders, id)
    said = (f"The next inspection is due on <strong>{due}</strong>." if due
            else "It was never inspected.")
    yield f"<p>{said} Days from one inspection to the next: {interval}.</p>\n"
    seen = next_number(records_of(register.inspections, id))
    yield f"<p>next free numbers: inspection {seen}, order {next_number(orders)}</p>\n"
    yield table("Open orders", ORDERS, [
        f"<tr>{order_cells(register, id, number, it)}</tr>\n"
        for number, it in reversed(orders) if not it.closed])
    yield table("Closed orders", [*ORDERS, ["Closed"], ["Closed by"]], [
        f"<tr>{order_cells(register, id, number, it)}{cell(it.closed, 'd')}"
        f"{word(isolated(it.closer))}</tr>\n" for number, it in reversed(orders) if it.closed])
    yield table("Inspections", INSPECTIONS, [
        f"<tr>{first(number)}{cell(it.day, 'd')}{word(isolated(it.clerk))}"
        f"{word(isolated(it.text))}</tr>\n"
        for number, it in reversed(records_of(register.inspections, id))])


def page(office, id, linked=False):
    """The page of an intersection, linked to the index or not, or refusal 10."""
    it = office.find(id)
    head = HEAD.format(
        **titles(f"Intersection {id}: {it.name}"), style=STYLE,
        heading=f"Intersection {id}: {isolated(it.name)}", facts=facts(office, id, linked))
    runs = count_warnings(it.committed) + plan_part(it.committed, " of the committed plan")
    parts = [section("plan", "The committed plan", runs)]
    if it.draft is not None:
        parts.append(section("draft", "The draft", draft_part(it)))
    cabinet = "".join(cabinet_part(office.register, id, it.interval))
    return "".join([head, *parts, section("cabinet", "The cabinet", cabinet), END])


# ---- the index

def link(id):
    """The cell that heads a row, a link to the page of an intersection."""
    return f"<th scope='row'><a href='{id}.html'>{id}</a></th>"


def entry(office, id, day):
    """The row of an intersection, which begins with the link to its page, and whether it is
    overdue on the day, if one is given."""
    it = office.find(id)
    last = max((of.day for _, of in records_of(office.register.inspections, id)), default=None)
    due = office.register.due(id, it.interval)
    late = day is not None and (due is None or due < day)
    mark = " <strong class='late'>overdue</strong>" if late else ""
    cells = [link(id), word(isolated(it.name)), cell(f"{due or 'never inspected'}{mark}", "d"),
             cell(len(office.open_orders(id)["open"])), cell(len(warnings.warnings(it.committed))),
             word(it.state), word(isolated(it.owner) if it.owner else "nobody"), cell(it.revision),
             cell(len(it.committed)), cell(last or "none", "d")]
    return late, f"<tr>{''.join(cells)}</tr>\n"


def named_order(it, id, number, order):
    """The row of an open order with its intersection."""
    cells = [link(id), cell(number), cell(order.opened, "d"), word(isolated(order.text)),
             word(isolated(it.name)), word(isolated(order.clerk))]
    return f"<tr>{''.join(cells)}</tr>\n"


def index(office, day=None):
    """The index of all intersections, those that are overdue on the day first."""
    entries = [entry(office, id, day) for id in sorted(office.intersections)]
    late = [row for is_late, row in entries if is_late]
    rows = late + [row for is_late, row in entries if not is_late]
    note = (f"<p>Inspections overdue on <strong>{day}</strong>: {len(late)} of {len(entries)}.</p>\n"
            if day else "")
    orders = [named_order(it, id, number, order)
              for id, it in sorted(office.intersections.items())
              for number, order in records_of(office.register.orders, id) if not order.closed]
    stock = [f"<tr>{word(isolated(it['part']))}{cell(it['count'])}</tr>\n"
             for it in office.register.stock()]
    head = INDEX_HEAD.format(**titles("Intersections"), style=STYLE, note=note)
    return "".join([head, table("Intersections", INTERSECTIONS, rows),
                    table("Open orders", NAMED_ORDERS, orders), table("Stock", STOCK, stock), END])
