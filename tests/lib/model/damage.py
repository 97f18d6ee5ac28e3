"""A row of the tables that is no record, and which commands read it (docs/COMMANDS.md, "Faults")."""
import dataclasses

from . import tables
from .program import asked

REGISTER = ("inspection", "work_order", "used_part")
# Of each table the columns of its key, and a column with a value of which no record has it.
HARMS = {
    "intersection": (("id",), "state", 4, 4),
    "timing": (("inter", "kind", "a", "b"), "body", 4, "seq,1"),
    "draft": (("inter", "kind", "a", "b"), "body", 4, "seq,1"),
    "inspection": (("inter", "number"), "day", 2, 84_006),
    "work_order": (("inter", "number"), "clerk", 3, ""),
    "used_part": (("inter", "ord", "line"), "amount", 4, 0),
    "part": (("code",), "hand", 1, 1_000_000_000),
}
EDITS = ("intersection", "timing", "draft")  # what an edit of an intersection reads


def reads(office, words):
    """The tables that a command reads, of all intersections, and those of one."""
    name, options, others = asked(words)
    there = office.intersections.get(int(others[0])) if others and others[0].isdigit() else None
    drafted = ("draft",) if there is not None and there.draft is not None else ()
    if name == "stock" and others:
        return ("intersection", *REGISTER, "part"), ()
    if name in ("sheet", "diagram") or name == "export" and not {*options} - {"--db"}:
        return (), ("intersection", "timing")
    if name == "compare" or "--draft" in options:
        return (), ("intersection", "timing", *drafted)
    if name == "page":
        return (), ("intersection", "timing", "draft", *REGISTER)
    if name == "edit":
        return (), EDITS
    if name == "cabinet" or "--cabinet" in options or name == "orders" and others:
        return (), ("intersection", *REGISTER)
    return {
        "list": ("intersection",), "stock": ("part",), "orders": ("intersection", "work_order"),
        "used": ("intersection", *REGISTER), "work": ("intersection", *REGISTER),
        "overdue": ("intersection", "inspection"),
        "pages": ("intersection", "timing", "draft", *REGISTER, "part"),
        "export": ("intersection", "timing", *REGISTER, "part"),
    }[name], ()


@dataclasses.dataclass
class Harm:
    """A row of a table that is damaged: its columns, and what one of them becomes and was."""

    table: str
    row: tuple

    def sql(self, is_mended=False):
        """The statement that damages the row, or mends it, and its values."""
        keys, column, place, bad = HARMS[self.table]
        where = " AND ".join(f"{it} = ?" for it in keys)
        value = self.row[place] if is_mended else bad
        return f"UPDATE {self.table} SET {column} = ? WHERE {where}", (value, *self.row[:len(keys)])

    def is_read_by(self, office, words):
        """Whether a command reads it."""
        of_all, of_one = reads(office, words)
        numbers = [it for it in asked(words)[2] if it.isdigit()]
        return self.table in of_all or (
            self.table in of_one and numbers[:1] == [str(self.row[0])])


def is_judged(office, table, id):
    """Whether a row is of a plan whose draft was checked: its state is told by what it breaks."""
    return table in ("timing", "draft") and office.intersections[id].state == "done"


def draw(dice, office):
    """A row that is there, damaged; none where the table that is drawn has none."""
    table = dice.choice([*HARMS])
    found = [row for row in tables.rows(office)[table] if not is_judged(office, table, row[0])]
    return Harm(table, dice.choice(found)) if found else None
