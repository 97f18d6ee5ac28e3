"""Values of fields: which numbers, days, words and codes there are, and how they are spelled."""
import csv
import dataclasses
import datetime
import io
import re
import typing

from .refusal import RowFault

csv.field_size_limit(1 << 20)


@dataclasses.dataclass(frozen=True)
class Number:
    """Whole numbers from the least to the most; another one is told by this fault."""

    least: int
    most: int
    fault: str = "Range"

    def read(self, text, at):
        """Digits without leading zeros; a number of any length is a number."""
        if not re.fullmatch("0|[1-9][0-9]*", text):
            raise RowFault("Number", at)
        if len(text) > 9 or not self.least <= int(text) <= self.most:
            raise RowFault(self.fault, at if self.fault == "Range" else 0)
        return int(text)

    def is_one(self, value):
        """Of JSON: a number of digits alone."""
        return type(value) is int and self.least <= value <= self.most


@dataclasses.dataclass(frozen=True)
class Text:
    """Texts with a property; another one is told by this fault."""

    has: typing.Callable
    fault: str = "Text"

    def read(self, text, at):
        """A text that has it is its own value."""
        if not self.has(text):
            raise RowFault(self.fault, at)
        return text

    def is_one(self, value):
        """Of JSON: a text that has it."""
        return isinstance(value, str) and self.has(value)


def words(most):
    """1 to so many bytes of UTF-8, with no character below U+0020 and no U+007F."""
    return Text(lambda text: not re.search("[\x00-\x1f\x7f\ud800-\udfff]", text)
                and 1 <= len(text.encode()) <= most)


def is_day(text):
    """YYYY-MM-DD, a real day from 1970-01-01 to 2199-12-31."""
    if not re.fullmatch("[0-9]{4}-[0-9]{2}-[0-9]{2}", text):
        return False
    try:
        return 1970 <= datetime.date.fromisoformat(text).year <= 2199
    except ValueError:
        return False


ID, INTERVAL, RECORD = Number(1, 9_999), Number(1, 3_650), Number(1, 999_999)
LINE, COUNT, DAY = Number(1, 99), Number(1, 999_999_999), Text(is_day, "Day")
CLERK, NAME, NOTE = words(40), words(120), words(500)
PART = Text(lambda text: bool(re.fullmatch("[A-Z0-9-]{1,20}", text)))


def read_fields(fields, form, first):
    """The values that fields spell, of which the first is counted so: the first fault is told."""
    return [kind.read(text, at) for at, (text, kind) in enumerate(zip(fields, form), first)]


def read_csv(text):
    """The records of a CSV text. Empty lines are none, a byte order mark at the start is off."""
    lines = io.StringIO(text.removeprefix("\ufeff"), newline="")
    return [record for record in csv.reader(lines) if record]


def write_csv(records):
    """Records with LF after each, and quotes only where a field needs them."""
    text = io.StringIO(newline="")
    csv.writer(text, lineterminator="\n").writerows(records)
    return text.getvalue()
