"""The rows of a timing plan (NTCIP 1202: phase, sequence, split and pattern objects): a plan is a
map from keys to rows, a key the place of the row's kind and its one or two numbers."""
import typing

from .fields import Number, read_fields
from .refusal import RowFault


class Phase(typing.NamedTuple):
    """A phase; from its walk on nothing where it has no pedestrian part."""

    number: int
    ring: int
    min_green: int
    passage: int
    max1: int
    yellow: int
    red: int
    mates: tuple
    walk: int | None = None
    clear: int | None = None
    width: int | None = None
    setback: int | None = None
    short: int | None = None
    lead: int | None = None


class Sequence(typing.NamedTuple):
    """The phases of a ring in the order in which they run."""

    number: int
    ring: int
    phases: tuple


class Split(typing.NamedTuple):
    """How long a phase times, and how it is called."""

    number: int
    phase: int
    time: int
    mode: int
    coord: int


class Pattern(typing.NamedTuple):
    """A cycle with its offset, its split and its sequence."""

    number: int
    cycle: int
    offset: int
    split: int
    sequence: int


class PhaseList:
    """Distinct phase numbers with one space between two, or nothing."""

    @staticmethod
    def read(text, at):
        """The numbers in their order."""
        try:
            phases = tuple(PHASE.read(it, at) for it in text.split(" ")) if text else ()
        except RowFault:
            raise RowFault("List", at) from None
        if len(set(phases)) < len(phases):
            raise RowFault("List", at)
        return phases


BYTE, FLAG, TWENTY = Number(0, 255), Number(0, 1), Number(1, 20)
PHASE, RING, MODE = Number(1, 32), Number(1, 8), Number(2, 7, "Mode")
PEDESTRIAN = (BYTE, BYTE, Number(0, 9_999), Number(0, 999), FLAG, Number(0, 10))
# Of each kind its record, its fields, and how many of them are its key.
KINDS = {
    "phase": (Phase, (PHASE, RING, *[BYTE] * 5, PhaseList), 1),
    "seq": (Sequence, (TWENTY, RING, PhaseList), 2),
    "split": (Split, (TWENTY, PHASE, BYTE, MODE, FLAG), 2),
    "pattern": (Pattern, (Number(1, 48), Number(1, 255), BYTE, TWENTY, TWENTY), 1),
}
ORDER = list(KINDS)


def read_change(fields):
    """A row that is put under its key, or a removal: the key with nothing. First the kind is
    tested, then the count, then field by field from the left."""
    removes = fields[:1] == ["remove"]
    kind, *rest = fields[removes:] or [""]
    if kind not in KINDS:
        raise RowFault("Kind")
    record, form, keys = KINDS[kind]
    if removes:
        form = form[:keys]
    elif record is Phase and len(rest) > len(form):
        form += PEDESTRIAN
    if len(rest) != len(form):
        raise RowFault("Count")
    values = read_fields(rest, form, 2 + removes)
    return (ORDER.index(kind), *values[:keys]), None if removes else record(*values)


def apply(plan, changes):
    """The plan after the changes in their order; to remove what is not there does nothing."""
    after = dict(plan)
    for key, row in changes:
        after.pop(key, None)
        if row is not None:
            after[key] = row
    return after


def spelled(key, row):
    """The one spelling of a row, as the list of its fields."""
    texts = [" ".join(map(str, it)) if isinstance(it, tuple) else str(it)
             for it in row if it is not None]
    return [ORDER[key[0]], *texts]


def rows(plan):
    """All rows in the order of their keys: kinds as they are listed, then ascending numbers."""
    return [spelled(key, plan[key]) for key in sorted(plan)]
