"""The office: intersections with a committed plan and perhaps a draft, and the register. A command
answers what it made or shows, or is refused and leaves all as it was."""
import dataclasses

from . import plan
from .fields import write_csv
from .refusal import Refused
from .register import Register, records_of
from .rules import violations

LAST_REVISION = 999_999
# Of each step that only the owner takes: the state that it needs, the refusal in another one, and
# the next state (NTCIP 1201, the database transaction).
STEPS = {
    "edit": ("transaction", 13, "transaction"),
    "verify": ("transaction", 13, "verify"),
    "check": ("verify", 15, "done"),
    "commit": ("done", 16, "normal"),
    "reopen": ("done", 16, "transaction"),
}


@dataclasses.dataclass
class Intersection:
    """Its name and interval, its committed plan, and in a transaction the draft, a whole plan, and
    the clerk who holds it."""

    name: str
    interval: int
    revision: int = 0
    committed: dict = dataclasses.field(default_factory=dict)
    state: str = "normal"
    owner: str | None = None
    draft: dict | None = None

    def verdict(self):
        """What the check found, read from the draft."""
        if self.state != "done":
            return "notDone"
        return "doneWithError" if violations(self.draft) else "doneWithNoError"

    def moved(self):
        """Where the transaction is."""
        return {"revision": self.revision, "state": self.state, "verify": self.verdict()}

    def stands(self):
        """The plan that an edit goes on with: the draft, or without one what is committed."""
        return self.committed if self.draft is None else self.draft

    def enter(self, state, owner, draft):
        """Another state, with who holds which draft."""
        self.state, self.owner, self.draft = state, owner, draft

    def after(self, name, clerk):
        """The state after a step: the state before it is tested first, then the owner."""
        state, number, after = STEPS[name]
        if self.state != state:
            raise Refused(number)
        if self.owner != clerk:
            raise Refused(14)
        return after


def result(is_new):
    """Something was added, or was there."""
    return {"result": "added" if is_new else "same"}


@dataclasses.dataclass
class Office:
    """All intersections and the register."""

    intersections: dict = dataclasses.field(default_factory=dict)
    register: Register = dataclasses.field(default_factory=Register)

    def copy(self):
        """Another one like it. A plan is never changed, but replaced by another."""
        intersections = {id: dataclasses.replace(it) for id, it in self.intersections.items()}
        return Office(intersections, self.register.copy())

    def find(self, id):
        """An intersection, or refusal 10, which comes before any other one of a command."""
        if id not in self.intersections:
            raise Refused(10)
        return self.intersections[id]

    def add(self, id, interval, name):
        """An equal one is the same; another name or interval: 11."""
        there = self.intersections.get(id)
        if there and (there.name, there.interval) != (name, interval):
            raise Refused(11)
        self.intersections.setdefault(id, Intersection(name, interval))
        return result(there is None)

    def state(self, id):
        """The intersection without its rows."""
        it = self.find(id)
        return {"id": id, "interval": it.interval, "name": it.name, "owner": it.owner,
                "rows": len(it.committed), **it.moved()}

    def timing(self, id):
        """The committed plan."""
        it = self.find(id)
        return {"revision": it.revision, "rows": plan.rows(it.committed)}

    def timing_csv(self, id):
        """The same as CSV."""
        return {"csv": write_csv(plan.rows(self.find(id).committed))}

    def draft(self, id):
        """The whole draft with what it breaks; 13 where there is none."""
        it = self.find(id)
        if it.state == "normal":
            raise Refused(13)
        return {"owner": it.owner, "rows": plan.rows(it.draft), "violations": violations(it.draft)}

    def begin(self, id, clerk):
        """The clerk becomes owner, and the draft is the committed plan."""
        it = self.find(id)
        if it.state != "normal":
            raise Refused(12)
        it.enter("transaction", clerk, it.committed)
        return it.moved()

    def edit(self, id, clerk, changes):
        """The draft changes."""
        it = self.find(id)
        it.state = it.after("edit", clerk)
        it.draft = plan.apply(it.draft, changes)
        return it.moved()

    def step(self, name, id, clerk):
        """Verify, check or reopen: nothing changes but the state."""
        it = self.find(id)
        it.state = it.after(name, clerk)
        return it.moved()

    def commit(self, id, clerk):
        """17 where the draft breaks rules, then 18; else it becomes the committed plan."""
        it = self.find(id)
        after = it.after("commit", clerk)
        broken = len(violations(it.draft))
        if broken:
            raise Refused(17, count=broken)
        if it.revision == LAST_REVISION:
            raise Refused(18)
        it.committed, it.revision = it.draft, it.revision + 1
        it.enter(after, None, None)
        return it.moved()

    def revise(self, id, clerk, plan, commits):
        """A clerk makes this the plan, in one step: it is committed where that is asked and it
        breaks no rule, else it is the clerk's draft. Another clerk's draft is refused with 14, and
        a commit of the last revision with 18. Tells whether anything was to be done: nothing, where
        it is what is committed and there is no draft."""
        it = self.find(id)
        if it.owner not in (None, clerk):
            raise Refused(14)
        if it.draft is None and plan == it.committed:
            return False
        if not commits or violations(plan):
            it.enter("transaction", clerk, plan)
            return True
        if it.revision == LAST_REVISION:
            raise Refused(18)
        it.committed, it.revision = plan, it.revision + 1
        it.enter("normal", None, None)
        return True

    def abandon(self, id, clerk):
        """Any clerk drops the draft, in each state that has one."""
        it = self.find(id)
        if it.state == "normal":
            raise Refused(13)
        it.enter("normal", None, None)
        return it.moved()

    def record(self, name, values):
        """A command of the register; tells whether something was added."""
        if "id" in values:
            self.find(values["id"])
        return getattr(self.register, name)(**values)

    def take(self, records):
        """Records in turn, each after those before it: all, or none."""
        before, added = self.register.copy(), 0
        for at, (name, values) in enumerate(records, 1):
            try:
                added += self.record(name, values)
            except Refused as cause:
                self.register = before
                raise Refused(30, cause=cause.number, record=at) from None
        return {"added": added, "same": len(records) - added}

    def cabinet(self, id):
        """All that the register holds of an intersection, by number."""
        self.find(id)
        inspections = [{"number": number, **it._asdict()}
                       for number, it in records_of(self.register.inspections, id)]
        return {"inspections": inspections, "orders": [
            {"number": number, **it._asdict(), "used": [
                {"line": line, **of._asdict()} for line, of in self.register.used_for(id, number)]}
            for number, it in records_of(self.register.orders, id)]}

    def cabinet_csv(self, id):
        """The records that made the cabinet so: inspections, then each order with its lines and
        its closing."""
        self.find(id)
        records = [["inspection", id, number, *it]
                   for number, it in records_of(self.register.inspections, id)]
        for number, it in records_of(self.register.orders, id):
            records.append(["order", id, number, *it[:3]])
            records += [["use", id, number, line, *used]
                        for line, used in self.register.used_for(id, number)]
            if it.closed:
                records.append(["close", id, number, it.closed, it.closer])
        return {"csv": write_csv(records)}

    def open_orders(self, id):
        """The numbers of the orders that are not closed."""
        self.find(id)
        orders = records_of(self.register.orders, id)
        return {"open": [number for number, it in orders if not it.closed]}

    def stock(self):
        """What is on hand."""
        return {"hand": self.register.stock()}

    def overdue(self, day):
        """Intersections that were never inspected, or were due before the day."""
        dues = [(id, it.name, self.register.due(id, it.interval))
                for id, it in sorted(self.intersections.items())]
        return {"overdue": [{"due": due, "id": id, "name": name} for id, name, due in dues
                            if due is None or due < day]}
