"""What a run of the program may leave in its file: the offices (tests/lib/model) of which the next
run must find one. A run is requests to `batch` or `serve`, or another command."""
import dataclasses
import functools
import json
import typing

from disk import FULL, UNSYNCED, Off
from model import commands, tables
from model.office import Office
from model.refusal import Refused
from model.wire import UNAVAILABLE

NOTHING, OLD, TODAY = "no tables", "tables of version 1", "tables"
MAKERS = ("batch", "serve", "add")  # they make the file where there is none
STORE = "fault: store"
NO_TABLES = (*range(1, 10), 31)  # refusals for which no table is looked at


@dataclasses.dataclass
class Held:
    """What a file may hold: which tables, and the office for which they stand."""

    stage: str
    office: Office


class Ask(typing.NamedTuple):
    """A request, or the end of a stream: its bytes, what an office answers, and whether it may
    change one."""

    sent: bytes
    told: typing.Callable
    changes: bool


def without_repeats(items):
    """Each once."""
    found = []
    for it in items:
        if it not in found:
            found.append(it)
    return found


def looks_at_tables(answer):
    """Whether an answer is none that is given without a look at the tables."""
    tree = json.loads(answer.partition(b"\r\n\r\n")[2])
    return "error" not in tree or tree["number"] not in NO_TABLES


def may_be_unavailable(ask, came):
    """Whether a request may be answered so: where the disk refused something, and for one that only
    shows something where it refused more than room."""
    return came.refused and (ask.changes or came.refused != FULL)


def shuts(ask, came):
    """Whether a request that was answered Unavailable tells that the file is shut, so that each
    later one that looks at its tables is answered so: one that only shows something, or any one
    after a sync failed."""
    return not ask.changes or came.refused == UNSYNCED


def offices_after(office, asks, came):
    """The offices that may be there after a run over an office: the one after the last request that
    changed it and was answered otherwise than by Unavailable, and with each later one that was
    answered so. Of a run that was killed, the first request that was not answered may be done too.
    """
    out, others, is_shut = came.out, [], False
    for number, ask in enumerate(asks, 1):
        after = office.copy() if ask.changes else office
        wanted = ask.told(after)
        if out.startswith(UNAVAILABLE) and may_be_unavailable(ask, came):
            out, is_shut = out[len(UNAVAILABLE):], is_shut or shuts(ask, came)
            others.append(after)
        elif out.startswith(wanted) and not (is_shut and wanted and looks_at_tables(wanted)):
            out = out[len(wanted):]
            others = others if after == office else []
            office = after
        elif came.is_killed and (wanted.startswith(out) or UNAVAILABLE.startswith(out)):
            return without_repeats([office, *others, after])
        else:
            asked = f"request {number}: {ask.sent!r}"
            raise Off(f"{asked}\n  wanted {wanted!r}\n  came {out[:999]!r}")
    if out:
        raise Off(f"more came: {out[:999]!r}")
    return without_repeats([office, *others])


def offices_after_turns(office, asks, came):
    """The same after a run of `serve`, which opens its file anew after a request that was answered
    Unavailable: the next one may find that one done."""
    out, offices = came.out, [office]
    for number, ask in enumerate(asks, 1):
        afters = [it.copy() if ask.changes else it for it in offices]
        wanted = [ask.told(it) for it in afters]
        fitting = [it for it, text in zip(afters, wanted) if out.startswith(text)]
        if out.startswith(UNAVAILABLE) and came.refused:
            out, offices = out[len(UNAVAILABLE):], without_repeats([*offices, *afters])
        elif fitting:
            text = next(it for it in wanted if out.startswith(it))
            out, offices = out[len(text):], without_repeats(fitting)
        elif came.is_killed and any(it.startswith(out) for it in (*wanted, UNAVAILABLE)):
            return without_repeats([*offices, *afters])
        else:
            asked = f"request {number}: {ask.sent!r}"
            raise Off(f"{asked}\n  wanted one of {wanted!r}\n  came {out[:999]!r}")
    if out:
        raise Off(f"more came: {out[:999]!r}")
    return offices


def settled(came, wanted, steps):
    """What may be left of a command that should end so, after the steps that it makes: where it did
    not, since the disk refused or it was killed, what any of them left."""
    ended = came.status, came.out, came.told
    if ended == wanted:
        return steps[-1:]
    may_tell = ("", wanted[2], STORE if came.refused else "")
    if came.is_killed and wanted[1].startswith(came.out) and came.told in may_tell:
        return steps[-1:] if came.out and came.out == wanted[1] else steps
    if came.refused and ended == (1, b"", STORE):
        return steps
    is_shorter = commands.is_shorter(came.out, wanted[1])
    if came.refused and ended == (0, came.out, "") and is_shorter:
        return steps[-1:]
    raise Off(f"wanted {wanted}\n  came {ended}")


def without_notes(came):
    """What came of a run, without the notes that it said."""
    told = [it for it in came.told.split("\n") if not it.startswith("note: ")]
    return dataclasses.replace(came, told="\n".join(told))


def may_end_so(came):
    """Whether a run over requests may end so: in order, with a refusal of the disk, or killed."""
    told = ("", STORE) if came.refused else ("",)
    if came.is_killed:
        return came.told in told
    return came.status in (0, 1) and came.told in told[came.status:came.status + 1]


@dataclasses.dataclass
class Stream:
    """Requests to `batch`, or to `serve` over each of some connections."""

    connections: list
    is_served: bool = False

    def __str__(self):
        counts = ", ".join(str(len(it)) for it in self.connections)
        return f"{'serve' if self.is_served else 'batch'} of {counts} requests"

    def come(self, program, path, trouble):
        """What came of it. Notes on the file, which tests/program/in_use.py tries, are left out."""
        sent = [b"".join(ask.sent for ask in asks) for asks in self.connections]
        if self.is_served:
            return without_notes(program.serve(["serve", "--db", path], trouble, sent))
        return without_notes(program.run(["batch", "--db", path], trouble, b"".join(sent)))

    def after(self, held, came, is_missing):
        """What it may leave where it found this."""
        if held.stage == OLD:
            return settled(came, (1, b"", "fault: version"), [held])
        if came.refused and (came.status, came.out, came.told) == (1, b"", STORE):
            return [held, Held(TODAY, held.office)]
        if not may_end_so(came):
            raise Off(f"it ended with status {came.status} and told {came.told!r}")
        asks = [ask for asks in self.connections for ask in asks]
        after = offices_after_turns if self.is_served else offices_after
        left = [Held(TODAY, it) for it in after(held.office, asks, came)]
        return [held, *left] if came.is_killed and not came.out else left


@dataclasses.dataclass
class Command:
    """A command: its words behind the file, and what it does to an office and prints of it."""

    name: str
    words: list
    does: functools.partial

    def __str__(self):
        return " ".join([self.name, *self.words])

    def come(self, program, path, trouble):
        """What came of it. Notes, which second_office.py plans and in_use.py try, are left out."""
        return without_notes(program.run([self.name, "--db", path, *self.words], trouble))

    def steps(self, office):
        """What it should end with, and the offices after each of its steps."""
        office = office.copy()
        steps, does = [office.copy()], self.does(office)
        while True:
            try:
                next(does)
            except StopIteration as it:
                status, text = it.value
                return (status, text.encode(), ""), steps
            except Refused as it:
                return (1, b"", commands.fault(it)), steps
            steps.append(office.copy())

    def after(self, held, came, is_missing):
        """What it may leave where it found this."""
        is_migration = self.name == "migrate"
        if held.stage == (NOTHING if is_migration else OLD):
            return settled(came, (1, b"", "fault: version"), [held])
        if held.stage == NOTHING and self.name not in MAKERS and is_missing:
            return settled(came, (1, b"", "fault: file"), [held])
        wanted, offices = self.steps(held.office)
        if held.stage == OLD:
            wanted = 0, b"migrated %d rows\n" % tables.widened(held.office), ""
        return settled(came, wanted, [held, *(Held(TODAY, it) for it in offices)])
