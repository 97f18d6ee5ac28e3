"""What `--explain` says of the bad records of a CSV file: of each its line, what stands there, and
what may stand there."""
import csv
import io

from . import register
from .fields import CLERK, COUNT, DAY, ID, LINE, NOTE, PART, RECORD, Number
from .padded import unpadded
from .plan import FLAG, KINDS, PEDESTRIAN, read_change
from .refusal import RowFault
from .register import read_record

SECONDS, TENTHS, FEET = " seconds", " tenths of a second", " tenths of a foot"
# The fields of each kind behind its name, with their units.
FIELDS = {
    "phase": [("phase", ""), ("ring", ""), ("minimum green", SECONDS), ("passage", TENTHS),
              ("maximum 1", SECONDS), ("yellow", TENTHS), ("red", TENTHS), ("mates", ""),
              ("walk", SECONDS), ("pedestrian clearance", SECONDS), ("width", FEET),
              ("setback", FEET), ("short", ""), ("lead", SECONDS)],
    "seq": [("sequence", ""), ("ring", ""), ("phases", "")],
    "split": [("split", ""), ("phase", ""), ("time", SECONDS), ("mode", ""), ("coordinated", "")],
    "pattern": [("pattern", ""), ("cycle", SECONDS), ("offset", SECONDS), ("split", ""),
                ("sequence", "")],
}
PHASES = "phases 1 to 32, each once, one space between two"
RECORDS = {"id": "intersection"}  # fields of records that are called otherwise
TEXTS = {DAY: "YYYY-MM-DD", PART: "1 to 20 of A to Z, 0 to 9 and -",
         CLERK: "1 to 40 bytes without control characters",
         NOTE: "1 to 500 bytes without control characters"}
WITH_TEXT = ("inspection", "order", "close")
PLAN_KINDS = "phase, seq, split, pattern or remove"
KEY_KINDS = "phase, seq, split or pattern after remove"
RECORD_KINDS = "inspection, order, use, close or delivery"
MOST, SHOWN, SPACES = 100, 40, " \t\n\r\f"


def begins(text):
    """The line on which each record of a file begins."""
    reader, before = csv.reader(io.StringIO(text.removeprefix("\ufeff"), newline="")), 0
    for row in reader:
        if row:
            yield before + 1
        before = reader.line_num


def values(form, unit):
    """What a field may be."""
    if form in TEXTS:
        return TEXTS[form]
    if not isinstance(form, Number):
        return PHASES
    return "0 or 1" if form is FLAG else f"{form.least} to {form.most}{unit}"


def forms(fields):
    """Of each field behind a record's kind its name, its form and its unit."""
    removes = fields[0] == "remove"
    kind = fields[removes] if len(fields) > removes else ""
    if kind in KINDS:
        _, form, keys = KINDS[kind]
        form = (*form, *PEDESTRIAN) if kind == "phase" else form
        all_of = [(name, it, unit) for it, (name, unit) in zip(form, FIELDS[kind], strict=True)]
        return all_of[:keys] if removes else all_of
    if removes or kind not in register.FORMS:
        return []
    return [(RECORDS.get(name, name), it, "") for name, it in register.FORMS[kind][1]]


def escaped(c):
    """A character as it stands between quotes."""
    short = {"\n": "\\n", "\r": "\\r", "\t": "\\t", '"': '\\"', "\\": "\\\\"}
    if c in short:
        return short[c]
    return f"\\u{{{ord(c):x}}}" if c < " " or "\x7f" <= c <= "\x9f" else c


def quoted(field):
    """A field in quotes; of a long one its beginning, and how long it is."""
    shown = "".join(map(escaped, field[:SHOWN])) + ".." * (len(field) > SHOWN)
    long = len(field.encode())
    return f'"{shown}"' + f" ({long} bytes)" * (long > SHOWN)


def told(name, field, may_be):
    """What stands in a field, and what may."""
    raw = field.encode(errors="surrogateescape")
    try:
        raw.decode()
    except UnicodeDecodeError as it:
        return f", {name}: byte 0x{raw[it.start]:02X} is not UTF-8; save as CSV UTF-8"
    return f", {name}: {quoted(field)}; {may_be}"


def is_spaced(field):
    """It has a space at one of its ends."""
    return field.strip(SPACES) != field


def of_kind(fields, is_plan):
    """A record whose kind is none."""
    first, removes = fields[0], fields[0] == "remove"
    is_row = removes or first in KINDS
    for is_so, what in (
            (not any(fields), "nothing but commas; --padded passes over it"),
            (first.startswith(("#", "//")), "a comment; remove it, CSV has none"),
            (";" in first, "semicolons between fields; write commas"),
            ("\t" in first, "tabs between fields; write commas"),
            (is_plan and first in register.FORMS, "a record of a cabinet; import takes it"),
            (not is_plan and is_row, "a row of a plan; edit takes it"),
            (len(fields) > 1 and not removes and not any(it[:1] in [*"0123456789"] for it in fields),
             "a header row; remove it, CSV has none")):
        if is_so:
            return f": {what}"
    kind = (fields[1] if fields[1:] else "") if is_plan and removes else first
    kinds = (KEY_KINDS if removes else PLAN_KINDS) if is_plan else RECORD_KINDS
    return told("kind", kind, "no spaces" if is_spaced(kind) else kinds)


def of_count(fields, is_padded):
    """A record of another length than its kind has."""
    removes, kind, count = fields[0] == "remove", fields[0], len(fields)
    most = 1 + removes + len(forms(fields))
    may_be = "9 or 15" if kind == "phase" else most
    if is_padded:
        why = "; --padded drops the empty ones at its end"
    elif kind in WITH_TEXT and count > most:
        why = "; a comma in a text needs quotes"
    elif kind == "seq" and count > most:
        why = "; phases stand in one field, with spaces"
    elif kind == "phase" and count in (10, 16):
        why = "; mates stand in one field, with spaces"
    else:
        why = ""
    return f": {count} field{'s' * (count != 1)}, not {may_be}{why}"


def of_field(fields, name, field):
    """A field that is not what it may be."""
    removes = fields[0] == "remove"
    place = 5 if name == "Mode" else field
    word, form, unit = forms(fields)[place - 2 - removes]
    text, may_be = fields[place - 1], values(form, unit)
    if (name in ("Number", "Day") or form is PART) and is_spaced(text):
        return told(word, text, "no spaces")
    if name == "Number":
        may_be += ", in digits without leading zeros"
    if name == "Day" and len(text) == 10 and [*map(str.isdigit, text)] == [
            *map(str.isdigit, "2026-11-30")] and text.isascii() and text[4] == text[7] == "-":
        may_be += ", from 1970-01-01 to 2199-12-31"
    if name == "Text" and "\n" in text:
        may_be += "; is a quote left open?"
    return told(word, text, may_be)


def fault_of(fields, is_plan):
    """Why a record spells nothing; nothing of a good one."""
    try:
        (read_change if is_plan else read_record)(fields)
    except RowFault as it:
        return it
    return None


def hint(fields, is_plan, fault):
    """What is wrong with a record that has this fault."""
    if fault.name == "Kind":
        return of_kind(fields, is_plan)
    if fault.name == "Count":
        return of_count(fields, fault_of(unpadded(fields), is_plan) is None)
    return of_field(fields, fault.name, fault.field)


def file_of(records):
    """What a file is that is no CSV in UTF-8."""
    first = (records[0][0] if records else "").encode(errors="surrogateescape")
    if first.startswith(b"PK\3\4"):
        return "a workbook (xlsx), not CSV; save as CSV UTF-8"
    if first[:2] in (b"\xff\xfe", b"\xfe\xff") or len(first) > 1 and 0 in first[:2]:
        return "UTF-16, not UTF-8; save as CSV UTF-8"
    return None


def bad_records(records, lines, is_plan, line="line"):
    """A line for each bad record, and how many more there are than are told."""
    if what := file_of(records):
        return [f"{line} 1: {what}"]
    bad = [(at, it, fault) for at, it in zip(lines, records) if (fault := fault_of(it, is_plan))]
    told_of = [f"{line} {at}{hint(it, is_plan, fault)}" for at, it, fault in bad[:MOST]]
    return told_of + [f"{len(bad) - MOST} more bad records"] * (len(bad) > MOST)
